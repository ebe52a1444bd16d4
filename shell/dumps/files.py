"""Files captured on a terminal or over ssh: their lines, and the lines that were not understood."""
from __future__ import annotations

from codecs import BOM_UTF16_BE, BOM_UTF16_LE
from functools import partial
from io import TextIOWrapper
from typing import Callable, Iterator, Set

from ..scripts.kinds import DUMP, refuse_other

# How many characters are read at once. A longer line is taken in pieces, so no file needs more memory than that for its lines.
BLOCK = 1 << 18
# How many lines that are not understood are reported with their text, and how much of each text.
MOST_REPORTED = 20
MOST_SHOWN = 100

Say = Callable[[object], None]


def _encoding(begin: bytes) -> str:
    """The encoding of a file that begins with these bytes; some Windows shells write UTF-16."""
    return "utf-16" if begin.startswith((BOM_UTF16_LE, BOM_UTF16_BE)) else "utf-8-sig"


def blocks(path: str) -> Iterator[str]:
    """A file in blocks of whole lines; bytes that are not text as `\\xff`. A file that looks like one of another kind is refused."""
    rest = ""
    with open(path, "rb") as raw, TextIOWrapper(raw, _encoding(raw.peek(2)), "backslashreplace", "\n") as file:
        refuse_other(path, raw.peek(2), DUMP)
        for piece in iter(partial(file.read, BLOCK), ""):
            text = rest + piece
            end = text.rfind("\n") + 1 or len(text)
            yield text[:end]
            rest = text[end:]
    if rest:
        yield rest


def shown(text: str) -> str:
    """The text of a line for a terminal: without control characters, and not too long."""
    cut = text[:MOST_SHOWN]
    plain = "".join(it if it.isprintable() else it.encode("unicode_escape").decode() for it in cut)
    return plain + (".." if len(text) > MOST_SHOWN else "")


class Faults:
    """The lines of a file that were not understood. Each text is reported once, and only the first few."""

    def __init__(self, path: str, say: Say):
        self.path, self._say = path, say
        self.count = 0
        self._texts: Set[str] = set()

    def add(self, number: int, text: str, why: str = "not understood") -> None:
        """Counts a line that is passed over, and reports it if its text is new."""
        self.count += 1
        if len(self._texts) < MOST_REPORTED and text not in self._texts:
            self._texts.add(text)
            self._say(f"{self.path}:{number}: {why}: {shown(text)}")

    def end(self) -> None:
        """Reports how many lines there were."""
        if self.count:
            lines = "1 line was" if self.count == 1 else f"{self.count} lines were"
            more = "; each text is reported once, the first {MOST_REPORTED} of them" if self.count > len(self._texts) else ""
            self._say(f"{self.path}: {lines} not understood and skipped{more.format(MOST_REPORTED=MOST_REPORTED)}")
