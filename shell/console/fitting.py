"""Fits lines to a terminal: those that are too long are broken at spaces, never within a word."""
from __future__ import annotations

import re
import shutil
from typing import IO, Iterable, Iterator, List, Optional

from .colours import CODE, END

# A short word, two or more spaces, and then a text: the text continues below its own beginning.
_TERM = re.compile(r" *\S+ {2,}")
# How much deeper than its beginning any other line continues.
_FURTHER = 4
# A word longer than any word of the language is cut to its first characters; a path has short words between its slashes.
_LONG = re.compile(r"([^\s`/;,]{40})[^\s`/;,]{21,}")


def columns_of(stream: IO[str]) -> Optional[int]:
    """The columns of the terminal that a stream goes to; None if it goes to none."""
    return shutil.get_terminal_size().columns if stream.isatty() else None


def fitted(lines: Iterable[str], columns: Optional[int]) -> List[str]:
    """The lines in rows of at most this many columns; a longer word has a row to itself. Without a terminal they stay as they are."""
    if columns is None:
        return list(lines)
    return [row for line in lines for part in line.split("\n") for row in _rows(part, columns)]


def shortened(text: str) -> str:
    """The text with very long words, as someone typed them, cut to their first 40 characters."""
    return _LONG.sub(r"\1..", text)


def length_of(text: str) -> int:
    """How many columns a text takes; it may have colours."""
    return len(CODE.sub("", text))


def _rows(line: str, columns: int) -> Iterator[str]:
    """The rows of a line. A colour ends with its row and begins again in the next."""
    if length_of(line) <= columns:
        yield line
        return
    row, used, colour = "", 0, ""
    indent = _indent(CODE.sub("", line), columns)
    for gap, word in re.findall("( *)([^ ]+)", line):
        if used and used + len(gap) + length_of(word) > columns:
            yield row + END * bool(colour)
            row, used, gap = " " * indent + colour, indent, ""
        row, used = row + gap + word, used + len(gap) + length_of(word)
        for code in CODE.findall(word):
            colour = "" if code == END else code
    yield row


def _indent(plain: str, columns: int) -> int:
    """How deep a line without colours continues, which leaves room for half a row."""
    term = _TERM.match(plain)
    wanted = term.end() if term else len(plain) - len(plain.lstrip()) + _FURTHER
    return min(wanted, columns // 2)
