"""Makes a Python package into one file that python3 runs, with the same bytes whenever and wherever it is made."""
from __future__ import annotations

import io
import zipfile
from pathlib import Path
from typing import Dict

FIRST_LINE = b"#!/usr/bin/env python3\n"
# The first day that an archive can name.
TIME = (1980, 1, 1, 0, 0, 0)
MODE = 0o100644
UNIX = 3


def archive(package: Path, data: Path, start: str) -> bytes:
    """A package without its tests, a package of data, and a module to run at the start, as a file in the form of Python's `zipapp`."""
    out = io.BytesIO()
    out.write(FIRST_LINE)
    with zipfile.ZipFile(out, "w", zipfile.ZIP_STORED) as its:
        for name, content in sorted({"__main__.py": start.encode(), **modules(package), **contents(data)}.items()):
            entry = zipfile.ZipInfo(name, TIME)
            entry.create_system, entry.external_attr = UNIX, MODE << 16
            its.writestr(entry, content)
    return out.getvalue()


def modules(package: Path) -> Dict[str, bytes]:
    """The modules of a package by their names in an archive, without its tests."""
    found = (it for it in package.rglob("*.py") if "tests" not in it.relative_to(package).parts)
    return {f"{package.name}/{it.relative_to(package).as_posix()}": it.read_bytes() for it in found}


def contents(package: Path) -> Dict[str, bytes]:
    """The files of a package of data by their names in an archive."""
    found = (it for it in package.iterdir() if it.is_file())
    return {f"{package.name}/{it.name}": it.read_bytes() for it in found}
