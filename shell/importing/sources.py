"""The statements of a pf.conf(5) and of the files that it includes, in order; and the files of tables."""
from __future__ import annotations

import os
from typing import Dict, Iterator, List, Optional

from ..console.characters import legible
from ..scripts.kinds import ENOUGH, PF_CONF, refuse_other
from .grammar import Content, Faulty, Host, Include, Line, Load, Macro, Source
from .parser import host_of, parse
from .tokens import Lexer

MOST_INCLUDED = 16
MOST_FILES = 256


def read(path: str) -> str:
    """The text of a file, whatever bytes it has."""
    try:
        with open(path, encoding="utf-8", errors="surrogateescape", newline="") as it:
            return it.read()
    except ValueError as error:
        raise OSError(0, str(error), path) from error
    except OSError as error:
        raise OSError(error.errno, error.strerror, path) from error


def place(path: str, number: int) -> str:
    """A line's file without its folder, as one word, and the line's number."""
    return f"{legible(os.path.basename(path)).replace(' ', '_')}:{number}"


class Sources:
    """Reads a file with the files that it includes, and those of anchors."""

    def __init__(self, files: int = 0, is_of_anchor: bool = False) -> None:
        self._macros: Dict[str, str] = {}
        self._files = files
        self._is_of_anchor = is_of_anchor

    def lines(self, path: str, depth: int = 0) -> Iterator[Line]:
        """The statements of a file. Those of an included file follow the statement that includes it. The first file of all is refused if
        it looks like one of another kind."""
        text = read(path)
        if not self._files:
            refuse_other(path, text[:ENOUGH].encode("utf-8", "surrogateescape"), PF_CONF)
        self._files += 1
        lexer, source = Lexer(text, self._macros), Source(path, text.split("\n"))
        for statement in iter(lexer.statement, None):
            content = self._checked(path, parse(statement, source), depth)
            yield source.line(statement.first, statement.last, content)
            if isinstance(content, Macro):
                self._macros[content.name] = content.value
            elif isinstance(content, Include):
                yield from self.lines(_relative(path, content.path), depth + 1)

    def _checked(self, path: str, content: Content, depth: int) -> Content:
        """A statement; an include that cannot be followed becomes a faulty one."""
        if isinstance(content, Load):
            return self._loaded(path, content)
        if not isinstance(content, Include):
            return content
        if depth >= MOST_INCLUDED or self._files >= MOST_FILES:
            return Faulty("include", f"includes are nested more than {MOST_INCLUDED} deep, or there are more than {MOST_FILES} of them")
        try:
            read(_relative(path, content.path))
            return content
        except OSError as error:
            return Faulty("include", f"{error.filename}: {error.strerror}")


    def _loaded(self, path: str, load: Load) -> Content:
        """The statements of the file of an anchor, which is read after the whole pf.conf, without its macros."""
        if self._is_of_anchor or self._files >= MOST_FILES:
            return Faulty("load", f"`load anchor` is not followed from the file of an anchor, nor into more than {MOST_FILES} files")
        its = Sources(self._files, is_of_anchor=True)
        try:
            load.lines = list(its.lines(_relative(path, load.path)))
        except OSError as error:
            load.why = f"{error.filename}: {error.strerror}"
        self._files = its._files
        return load


def _relative(path: str, named: str) -> str:
    """A file that another file names, relative to the folder of that other file."""
    return os.path.join(os.path.dirname(path), named)


def hosts_in(path: str, named: str) -> Optional[List[Host]]:
    """The entries of a table's file; None if no such file can be read."""
    try:
        text = read(_relative(path, named))
    except OSError:
        return None
    words = (word for line in text.split("\n") for word in line.partition("#")[0].split())
    return [it for it in map(host_of, words) if it is not None]

