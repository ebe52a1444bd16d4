"""The program's replies to a line `search` (docs/FORMATS.md)."""
from __future__ import annotations

from dataclasses import dataclass
from typing import Optional, Sequence, Tuple, Union

from ..language.searches import ANY_LENGTH, FOUND, GAVE_UP, NONE


@dataclass(frozen=True)
class Found:
    """A shortest run: the branch that it goes on from, its events, and how many runs were tried."""

    branch: str
    events: Tuple[str, ...]
    runs: int


@dataclass(frozen=True)
class NoRun:
    """There is no run of at most `depth` events, or of any length if there is no depth; how many runs were tried, and how many of them
    end where the question is asked."""

    depth: Optional[int]
    runs: int
    asked: int


@dataclass(frozen=True)
class GaveUp:
    """There were more runs to try than allowed."""

    runs: int


Answer = Union[Found, NoRun, GaveUp]


def is_same(one: Answer, two: Answer) -> bool:
    """Whether two answers are the same, but for how many runs they took."""
    if isinstance(one, NoRun) and isinstance(two, NoRun):
        return one.depth == two.depth and bool(one.asked) == bool(two.asked)
    return isinstance(one, Found) and isinstance(two, Found) and one.events == two.events


def read_answer(reply: Sequence[str]) -> Optional[Answer]:
    """What a reply answers; nothing if it is a refusal, a fault, or an answer of an older program."""
    words = reply[0].split()
    if words[0] == FOUND:
        return Found(words[1], tuple(line.split(" ", 4)[4] for line in reply[1:-1]), int(words[5]))
    if words[0] == NONE and len(words) == 4:
        return NoRun(None if words[1] == ANY_LENGTH else int(words[1]), int(words[2]), int(words[3]))
    return GaveUp(int(words[2])) if words[0] == GAVE_UP else None
