"""The release: the proved program that comes with the sources, and how we know that it belongs to them.

release/RELEASE names it:

    release N
    sources sha256 SUM
    program sha256 SUM
    kit NAME logic LOGIC

The sum of the sources is that of a text: the lines of crates.txt for the program's crates, lowest first; what `sha256sum` prints for
HANDLES and each file of their `src`, `specs` and `proofs`, in the order of their bytes; and the kit's line. The stamp, which contains
that sum, is left out.
"""
from __future__ import annotations

import hashlib
import lzma
import os
import platform
import re
import sys
import tempfile
from contextlib import suppress
from dataclasses import dataclass
from typing import Iterator, Optional

from .costs import files_of
from .crates import TOP, below

NAME = "pfl_lab"
FOLDER = "release"
PACKED = f"{FOLDER}/{NAME}.xz"
RECORD = f"{FOLDER}/RELEASE"
# What `pfl_lab --version` prints after the program's name.
STAMP = "crates/pfl_run/src/version.rt"
# The oldest glibc that has all that the program asks of it.
GLIBC = (2, 34)
STAMP_TEXT = """//! What this program was made from, as `./lab release` writes it. The sum of the sources leaves this file out.

/// The release, the sum of its sources, and the logic that proves them.
pub(crate) const VERSION: &str =
    "{}";
"""
FORM = re.compile(
    r"release (?P<number>[1-9]\d*)\n"
    r"sources sha256 (?P<sources>[0-9a-f]{64})\n"
    r"program sha256 (?P<program>[0-9a-f]{64})\n"
    r"kit (?P<kit>\S+ logic [0-9a-f]+)\n"
)
RENEWED_BY = f"./lab release; git add {FOLDER} {STAMP}"


class NoRelease(Exception):
    """There is no release that can be used, with the reason."""


def sum_of(content: bytes) -> str:
    return hashlib.sha256(content).hexdigest()


def content_of(path: str) -> bytes:
    """The content of a file of the repository."""
    with open(f"{TOP}/{path}", "rb") as it:
        return it.read()


def stamped() -> str:
    """The stamp of the tree; empty if it has none."""
    return content_of(STAMP).decode("utf-8", "replace") if os.path.exists(f"{TOP}/{STAMP}") else ""


def sources() -> Iterator[str]:
    """The files that the program is made from, except the stamp and its lines of crates.txt."""
    yield "HANDLES"
    for crate in below(NAME).values():
        files = (it[len(TOP) + 1 :] for it in files_of(crate.folder) if os.path.isfile(it))
        yield from (file for file in files if file != STAMP)


def sources_sum(kit: str) -> str:
    """The sum of the tree's sources, as this kit proves them."""
    lines = [crate.line for crate in below(NAME).values()]
    files = [f"{sum_of(content_of(source))}  {source}" for source in sorted(sources())]
    return sum_of("".join(f"{it}\n" for it in (*lines, *files, kit)).encode())


@dataclass(frozen=True)
class Release:
    """What release/RELEASE names."""

    number: int
    sources: str
    program: str
    kit: str

    @staticmethod
    def read() -> "Release":
        """The current release."""
        try:
            text = content_of(RECORD).decode("ascii", "replace")
        except OSError:
            raise NoRelease(f"there is no {RECORD}") from None
        fields = FORM.fullmatch(text)
        if not fields:
            raise NoRelease(f"{RECORD} is damaged: it does not have the four lines of a release")
        return Release(int(fields["number"]), fields["sources"], fields["program"], fields["kit"])

    def text(self) -> str:
        return (
            f"release {self.number}\nsources sha256 {self.sources}\nprogram sha256 {self.program}\nkit {self.kit}\n"
        )

    def version(self) -> str:
        """What its program prints for --version, after the program's name."""
        return f"release {self.number}, sources {self.sources}, {self.kit.partition(' ')[2]}"

    def is_of_tree(self) -> bool:
        """Whether it was made from the tree's sources."""
        return self.sources == sources_sum(self.kit) and stamped() == STAMP_TEXT.format(self.version())

    def content(self) -> bytes:
        """The program, unpacked."""
        try:
            content = lzma.decompress(content_of(PACKED))
        except (OSError, lzma.LZMAError, EOFError) as fault:
            raise NoRelease(f"{PACKED} cannot be unpacked: {fault}") from None
        if sum_of(content) != self.program:
            raise NoRelease(f"{PACKED} is not the program that {RECORD} names: its sum is {sum_of(content)}")
        return content

    def unpacked(self) -> str:
        """The path of the program, unpacked; it is kept for the next time."""
        if (platform.system(), platform.machine()) != ("Linux", "x86_64"):
            raise NoRelease(f"the release is for Linux on x86-64, and this is {platform.system()} on {platform.machine()}")
        why = fault_of_glibc(*platform.libc_ver())
        if why:
            raise NoRelease(why)
        path = f"{room()}/{self.program[:16]}/{NAME}"
        if not is_file_with(path, self.program):
            write_whole(path, self.content())
        return path


def fault_of_glibc(library: str, version: str) -> str:
    """Why the program cannot start with this C library; empty if it can."""
    here = f"{library} {version}" if library == "glibc" else "another C library"
    numbers = re.fullmatch(r"(\d+)\.(\d+).*", version)
    if library == "glibc" and numbers and (int(numbers[1]), int(numbers[2])) >= GLIBC:
        return ""
    return f"the release needs glibc {'.'.join(map(str, GLIBC))} or later, as in Debian 12 and Ubuntu 22.04, and this system has {here}"


def room() -> str:
    """The folder for unpacked programs: one in the tree, or one of the user's if the tree cannot be written to."""
    if os.access(f"{TOP}/out" if os.path.isdir(f"{TOP}/out") else TOP, os.W_OK):
        return f"{TOP}/out/release"
    return f"{os.environ.get('XDG_CACHE_HOME') or os.path.expanduser('~/.cache')}/{NAME}"


def is_file_with(path: str, wanted: str) -> bool:
    """Whether there is a program at the path with this sum."""
    if not os.access(path, os.X_OK):
        return False
    with open(path, "rb") as it:
        return sum_of(it.read()) == wanted


def write_whole(path: str, content: bytes) -> None:
    """Writes a program so that nobody sees a part of it."""
    os.makedirs(os.path.dirname(path), exist_ok=True)
    number, new = tempfile.mkstemp(dir=os.path.dirname(path))
    try:
        with os.fdopen(number, "wb") as it:
            it.write(content)
        os.chmod(new, 0o755)
        os.replace(new, path)
    except BaseException:
        with suppress(OSError):
            os.unlink(new)
        raise


def stamp(kit: str) -> Release:
    """Writes the stamp of the tree's sources; returns their release, whose program is not known yet."""
    its_sum = sources_sum(kit)
    former: Optional[Release] = None
    with suppress(NoRelease):
        former = Release.read()
    number = 1 if former is None else former.number + (former.sources != its_sum)
    new = Release(number, its_sum, former.program if former else "", kit)
    text = STAMP_TEXT.format(new.version())
    if stamped() != text:
        with open(f"{TOP}/{STAMP}", "w", encoding="utf-8") as it:
            it.write(text)
    return new


def pack(release: Release, program: str) -> None:
    """Makes the release from a program that was built from the stamped tree."""
    with open(program, "rb") as it:
        content = it.read()
    os.makedirs(f"{TOP}/{FOLDER}", exist_ok=True)
    with open(f"{TOP}/{PACKED}", "wb") as it:
        it.write(lzma.compress(content, preset=9 | lzma.PRESET_EXTREME))
    named = Release(release.number, release.sources, sum_of(content), release.kit)
    with open(f"{TOP}/{RECORD}", "w", encoding="utf-8") as it:
        it.write(named.text())


def fault(program: Optional[str] = None) -> str:
    """What is wrong with the release as that of the tree, or of the tree's program if that is given; empty if nothing is."""
    try:
        release = Release.read()
        if not release.is_of_tree():
            return f"the release is not of this tree; renew it: {RENEWED_BY}"
        content = release.content()
    except NoRelease as why:
        return f"{why}; renew it: {RENEWED_BY}"
    if program is not None:
        with open(program, "rb") as file:
            if file.read() != content:
                return f"the program of the release is not the one that was built; renew it: {RENEWED_BY}"
    return ""


def main() -> int:
    """Checks the release before anything is proved; returns the status."""
    why = fault(*sys.argv[1:2])
    if why:
        print(f"release: {why}", file=sys.stderr)
    return int(bool(why))


if __name__ == "__main__":
    sys.exit(main())
