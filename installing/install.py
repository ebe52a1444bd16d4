"""Installs into a folder, and removes from it what was installed.

All files are first written next to their places, so that lack of room or a fault leaves what was there. Then each takes its place
whole. In between, the list names both the former files and the new ones, so that at every moment it names what is there.
"""
from __future__ import annotations

import errno
import os
import shlex
import signal
import tempfile
from contextlib import ExitStack, contextmanager, suppress
from typing import Iterator, List, Sequence, Tuple

from . import lists
from .files import COMMANDS, DISSECTOR, EXAMPLES, READABLE, File, files
from .lists import Installed, NotInstalled, digest

DEFAULT_PREFIX = "~/.local"
FOLDER_MODE = 0o755
# Where Wireshark looks for the dissectors of its user.
PLUGINS = "~/.local/lib/wireshark/plugins"
ENDING = (signal.SIGINT, signal.SIGTERM, signal.SIGHUP)

# A file that was written, and the place that it is to take.
Staged = Tuple[str, str]


def place(prefix: str) -> str:
    """The full path of the folder that is meant."""
    path = os.path.expanduser(prefix)
    if path.startswith("~"):
        raise NotInstalled(f"there is no home folder for {prefix}: name another one")
    if "\n" in path:
        raise NotInstalled("the name of the folder has a line feed in it: name another one")
    return os.path.abspath(path)


def install(program: str, prefix: str) -> List[str]:
    """Installs this program and what goes with it; returns lines that say where everything is."""
    prefix = place(prefix)
    old, wanted = lists.read(prefix), files(program)
    refuse_foreign(prefix, wanted, old)
    new = Installed({it.name: {digest(it.content)} for it in wanted})
    gone = [name for name in old.digests if name not in new.digests]
    with ExitStack() as undoing:
        made = make_folders(prefix, wanted, undoing)
        new.folders = [*old.folders, *(it for it in made if it not in old.folders)]
        for name in gone:
            if not old.has(prefix, name) and os.path.lexists(os.path.join(prefix, name)):
                new.digests[name] = old.digests[name]
        staged = [stage(prefix, it, undoing) for it in wanted]
        meanwhile, last = (stage(prefix, list_file(it), undoing) for it in (old.both(new), new))
        with uninterrupted():
            put(prefix, [meanwhile, *staged], [it for it in gone if old.has(prefix, it)], last)
        # (a file that took its place is no longer where it was written, and a folder with something in it stays)
    return report(prefix, wanted)


def put(prefix: str, staged: Sequence[Staged], gone: Sequence[str], last: Staged) -> None:
    """Moves files into their places, removes those that are no longer installed, and then writes the list."""
    for path, target in staged:
        os.replace(path, target)
    for name in gone:
        os.unlink(os.path.join(prefix, name))
    os.replace(*last)


def list_file(its: Installed) -> File:
    return File(lists.NAME, READABLE, its.text().encode("utf-8", "surrogateescape"))


def refuse_foreign(prefix: str, wanted: Sequence[File], old: Installed) -> None:
    """Refuses to overwrite a file that was not installed, or that was changed since."""
    found = []
    for file in wanted:
        path = os.path.join(prefix, file.name)
        if os.path.lexists(path) and not old.has(prefix, file.name):
            found.append(f"  {path} was {'changed since it was installed' if file.name in old.digests else 'not installed by ./lab'}")
    if found:
        raise NotInstalled("\n".join(("nothing is installed, since it would overwrite this; move it away first:", *found)))


def make_folders(prefix: str, wanted: Sequence[File], undoing: ExitStack) -> List[str]:
    """Makes the missing folders that files need; returns those that were made, as the list names them."""
    made: List[str] = []
    for it in (*wanted, list_file(Installed())):
        make_folder(os.path.dirname(os.path.join(prefix, it.name)), made, undoing)
    return [it if os.path.relpath(it, prefix).startswith("..") else os.path.relpath(it, prefix) for it in made]


def make_folder(path: str, made: List[str], undoing: ExitStack) -> None:
    """Makes a folder and the missing ones above it."""
    if os.path.isdir(path):
        return
    if os.path.lexists(path):
        raise OSError(errno.ENOTDIR, os.strerror(errno.ENOTDIR), path)
    make_folder(os.path.dirname(path), made, undoing)
    with uninterrupted():
        os.mkdir(path)
        undoing.callback(remove_folder, path)
    os.chmod(path, FOLDER_MODE)
    made.append(path)


def stage(prefix: str, file: File, undoing: ExitStack) -> Staged:
    """Writes a file next to its place."""
    target = os.path.join(prefix, file.name)
    folder, name = os.path.split(target)
    try:
        with uninterrupted():
            number, path = tempfile.mkstemp(prefix=f".{name}-", dir=folder)
            undoing.callback(remove, path)
        with open(number, "wb") as out:
            out.write(file.content)
            out.flush()
            os.fsync(number)
        os.chmod(path, file.mode)
    except OSError as error:
        raise OSError(error.errno, error.strerror, target) from error
    return path, target


def remove(path: str) -> None:
    with suppress(OSError):
        os.unlink(path)


def remove_folder(path: str) -> None:
    """Removes a folder if it is empty."""
    with suppress(OSError):
        os.rmdir(path)


@contextmanager
def uninterrupted() -> Iterator[None]:
    """Makes signals that end the installer wait: between making something and noting it, and until files have taken their places."""
    before = signal.pthread_sigmask(signal.SIG_BLOCK, ENDING)
    try:
        yield
    finally:
        signal.pthread_sigmask(signal.SIG_SETMASK, before)


def uninstall(prefix: str) -> Iterator[str]:
    """Removes what was installed and is unchanged, and the folders that are then empty; yields a line for each file as it goes on."""
    prefix = place(prefix)
    if not lists.is_installed(prefix):
        raise NotInstalled(f"nothing is installed in {prefix}: there is no {os.path.join(prefix, lists.NAME)}")
    old = lists.read(prefix)
    for name in old.digests:
        path = os.path.join(prefix, name)
        if old.has(prefix, name):
            os.unlink(path)
            yield f"removed {path}"
        elif os.path.lexists(path):
            yield f"left as it is, since it was changed after it was installed: {path}"
    os.unlink(os.path.join(prefix, lists.NAME))
    yield f"removed {os.path.join(prefix, lists.NAME)}"
    for path in sorted((os.path.normpath(os.path.join(prefix, folder)) for folder in old.folders), key=len, reverse=True):
        remove_folder(path)


def report(prefix: str, wanted: Sequence[File]) -> List[str]:
    """What is where, and how the commands are found."""
    folder = os.path.join(prefix, "bin")
    scripts = sum(it.name.endswith(".pfl") for it in wanted)
    lines = [
        f"installed in {prefix}:",
        "  bin/pfl_lab               the program, which is proved",
        "  bin/pfl_shell             the shell, with verify, annotate, chart, page, frames, whatif, depends, compare, capture and import",
        f"  share/man/man1            {' and '.join(f'{it}(1)' for it in COMMANDS)}",
        f"  {EXAMPLES}    {scripts} scripts, and a page about them",
        "  share/bash-completion, share/zsh/site-functions",
        "                            words that a shell completes",
        f"  {os.path.dirname(DISSECTOR)}   {os.path.basename(DISSECTOR)} for Wireshark, which looks for it in {PLUGINS}: copy it there",
        f"  {lists.NAME}   the list from which `./lab uninstall` removes all of it",
    ]
    if folder in os.environ.get("PATH", "").split(os.pathsep):
        return lines
    if os.pathsep in folder:
        return [*lines, f"{folder} cannot be on PATH, since it has a colon in its name"]
    return [*lines, f"{folder} is not on PATH; this line puts it there:", f"  export PATH={shlex.quote(folder)}:\"$PATH\""]
