"""Reads words from the left, up to the first fault."""
from __future__ import annotations

from typing import Collection, Optional, Sequence

from .forms import Form, nearest, one_of, quoted
from .pf_conf import hint


class LineFault(Exception):
    """The first fault of a line: its name, the place of its word, from 0 on (after the last if one is missing), and why."""

    def __init__(self, name: str, place: Optional[int], why: str):
        super().__init__(why)
        self.name, self.place, self.why = name, place, why


class Reader:
    """Words to be read from the left, all of them or those before an end."""

    def __init__(self, words: Sequence[str], at: int = 0, end: Optional[int] = None):
        self.words, self.at = words, at
        self.end = len(words) if end is None else end

    @property
    def next(self) -> Optional[str]:
        return self.words[self.at] if self.at < self.end else None

    def take(self, wanted: Form) -> str:
        word = self._one(wanted.missing)
        fault = wanted.fault(word, hint(word, wanted.name))
        if fault is not None:
            raise LineFault("Number", self.at - 1, fault)
        return word

    def known(self, what: str, words: Collection[str], meant: str = "") -> str:
        """A word from a list, which decides how the rest is read; for any other word, what was meant is given, or found in the list."""
        word = self._one(f"the {what} is missing: {one_of(words)}")
        if word not in words:
            meant = meant or nearest(word, words) or f": expected {quoted(words)}"
            raise LineFault("Unknown", self.at - 1, f"`{word}` is no {what}{meant}")
        return word

    def _one(self, missing: str) -> str:
        if self.next is None:
            raise LineFault("Missing", self.end, missing)
        self.at += 1
        return self.words[self.at - 1]

    def finish(self, what: str = "line") -> None:
        if self.next is not None:
            raise LineFault("Extra", self.at, f"the {what} was complete before `{self.next}`")
