"""The list of what was installed: each file with its checksum, and the folders that were made for them."""
from __future__ import annotations

import hashlib
import os
import re
import stat
from dataclasses import dataclass, field
from typing import Dict, List, Set

NAME = "share/pfl_lab/installed"
SIGN = "# Installed by `./lab install`"
HEAD = f"{SIGN}: each file with its SHA-256 checksum, and the folders that were made.\n"
FILE = re.compile(r"(?P<digest>[0-9a-f]{64})  (?P<name>[^/\n][^\n]*)\n?")
FOLDER = "# folder "


class NotInstalled(Exception):
    """Why nothing was installed or removed."""


@dataclass
class Installed:
    """What was installed in a folder: the checksums that each file may have, and the folders that were made."""

    digests: Dict[str, Set[str]] = field(default_factory=dict)
    folders: List[str] = field(default_factory=list)

    def add(self, name: str, digest: str) -> None:
        self.digests.setdefault(name, set()).add(digest)

    def has(self, prefix: str, name: str) -> bool:
        """Whether the file of this name is there, as it was installed."""
        return digest_of(os.path.join(prefix, name)) in self.digests.get(name, set())

    def both(self, other: "Installed") -> "Installed":
        """What this list or another one has."""
        found = Installed({name: {*its} for name, its in self.digests.items()}, [*self.folders])
        for name, its in other.digests.items():
            for digest in its:
                found.add(name, digest)
        found.folders += [folder for folder in other.folders if folder not in found.folders]
        return found

    def text(self) -> str:
        """The list as in its file; `sha256sum -c` reads it, too."""
        folders = "".join(f"{FOLDER}{folder}\n" for folder in self.folders)
        return HEAD + folders + "".join(f"{digest}  {name}\n" for name, its in self.digests.items() for digest in sorted(its))


def digest(content: bytes) -> str:
    return hashlib.sha256(content).hexdigest()


def digest_of(path: str) -> str:
    """The checksum of a file; none if there is no file, or something else."""
    try:
        if not stat.S_ISREG(os.lstat(path).st_mode):
            return ""
    except (FileNotFoundError, NotADirectoryError):
        return ""
    with open(path, "rb") as it:
        return digest(it.read())


def is_installed(prefix: str) -> bool:
    """Whether a folder has a list of what was installed in it."""
    return os.path.lexists(os.path.join(prefix, NAME))


def read(prefix: str) -> Installed:
    """What was installed in a folder, according to its list; nothing if it has none."""
    path, found = os.path.join(prefix, NAME), Installed()
    if not is_installed(prefix):
        return found
    with open(path, encoding="utf-8", errors="surrogateescape", newline="\n") as it:
        lines = it.readlines()
    if os.path.islink(path) or not lines or not lines[0].startswith(SIGN):
        raise NotInstalled(f"{path} is not a list that ./lab install wrote")
    for number, line in enumerate(lines[1:], 2):
        its = FILE.fullmatch(line)
        if line.startswith(FOLDER):
            found.folders.append(line[len(FOLDER) :].rstrip("\n"))
        elif its and ".." not in its["name"].split("/"):
            found.add(its["name"], its["digest"])
        else:
            raise NotInstalled(f"{path}: line {number} is not one that ./lab install wrote")
    return found
