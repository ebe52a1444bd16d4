"""The program of this tree: the one that was built here, or else the release that comes with the tree."""
from __future__ import annotations

import os

from .build import made_of
from .crates import TOP, below
from .releases import NAME, NoRelease, Release

PROGRAM = f"{TOP}/crates/{NAME}/out/{NAME}"


class OtherTree(NoRelease):
    """There is no program of this tree, but a release of another one."""


def is_built() -> bool:
    """Whether the program is there, and none of its sources is newer."""
    return os.access(PROGRAM, os.X_OK) and made_of(below(NAME)[NAME], f"out/{NAME}")


def program_of_tree(takes_older: bool = False) -> str:
    """The program to run: the one that was built here, if it is of this tree, else the release, if that is, or if any is accepted.
    Raises why there is none."""
    if is_built() and not takes_older:
        return PROGRAM
    try:
        release = Release.read()
        if not (takes_older or release.is_of_tree()):
            raise OtherTree(f"no program is built from this tree, and release {release.number} does not match it")
        return release.unpacked()
    except OSError as error:
        raise NoRelease(f"the release could not be unpacked: {error.filename}: {error.strerror}") from error
