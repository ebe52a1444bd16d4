"""Keeps the compiled modules of this tree in the user's cache folder: the tree stays clean, and the next start is quick."""
from __future__ import annotations

import os
import sys
from importlib.machinery import SOURCE_SUFFIXES, FileFinder, SourceFileLoader
from types import CodeType
from typing import TYPE_CHECKING, Optional

if TYPE_CHECKING:
    from importlib.abc import PathEntryFinder

TOP = os.path.dirname(os.path.dirname(os.path.realpath(__file__)))
FOLDER = f"{os.environ.get('XDG_CACHE_HOME') or os.path.expanduser('~/.cache')}/pfl_lab/python"


class Loader(SourceFileLoader):
    """Loads a module of this tree. The prefix is set for it alone: Python keeps the compiled modules of its own library beside them."""

    def get_code(self, fullname: str) -> Optional[CodeType]:
        sys.pycache_prefix = FOLDER
        try:
            return super().get_code(fullname)
        finally:
            sys.pycache_prefix = None


_finder = FileFinder.path_hook((Loader, SOURCE_SUFFIXES))


def hook(path: str) -> PathEntryFinder:
    """The finder of modules in a folder of this tree."""
    if path != TOP and not path.startswith(f"{TOP}/"):
        raise ImportError
    return _finder(path)


def keep_compiled() -> None:
    """Keeps them from now on, as far as the user has Python keep any; unless it is to keep all of them elsewhere."""
    if sys.pycache_prefix is None:
        sys.path_hooks.insert(0, hook)
        for it in [it for it in sys.path_importer_cache if it.startswith(TOP)]:
            del sys.path_importer_cache[it]
    sys.dont_write_bytecode = bool(sys.flags.dont_write_bytecode)
