"""The program that the environment names instead of the one that is there."""
from __future__ import annotations

import errno
import os
import shutil


class NoProgram(Exception):
    """The program that the environment names cannot be run, with the reason."""


def chosen() -> str:
    """The path of the program that PFL_LAB names, by a path or as a command; empty if it names none."""
    named = os.environ.get("PFL_LAB", "")
    path = shutil.which(named) if named else ""
    if path is None:
        raise NoProgram(f"PFL_LAB names no program that can be run: {named}: {os.strerror(_fault(named))}")
    return path


def _fault(path: str) -> int:
    """The error number for a path without a program."""
    if not os.path.exists(path):
        return errno.ENOENT
    return errno.EISDIR if os.path.isdir(path) else errno.EACCES
