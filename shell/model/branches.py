"""A branch as `log` shows it: the lines of its events, and how many of them stand; and one of its events with what came of it."""
from __future__ import annotations

from dataclasses import dataclass, field
from typing import List, NamedTuple, Sequence, Tuple

from ..language.events import EVENTS, Event


@dataclass(frozen=True)
class Branch:
    """The events of a branch, including those that were undone, as the lines after `step BRANCH`, and how many of them stand."""

    name: str
    events: List[str] = field(default_factory=list)
    cursor: int = 0


def read_log(lines: Sequence[str]) -> Branch:
    """The branch that a reply to `log` shows."""
    head = lines[0].split()
    return Branch(head[1], [line.split(" ", 4)[4] for line in lines[1:-1]], int(head[5]))


def common(one: Sequence[str], two: Sequence[str]) -> int:
    """How many events two branches have in common before they part."""
    return next((at for at, (its, other) in enumerate(zip(one, two)) if its != other), min(len(one), len(two)))


class Mark(NamedTuple):
    """A named place in a branch: the branch, and the events that stood there."""

    branch: str
    stood: Tuple[str, ...]

    def __str__(self) -> str:
        return f"{self.branch}, after {len(self.stood)} event{'s' * (len(self.stood) != 1)}"


class Happened(NamedTuple):
    """An event: its place, counted from 1, its line, and what came of it: its outcome, or `refused K NAME`."""

    number: int
    line: str
    came: str

    @classmethod
    def read(cls, event: str, came: str) -> "Happened":
        """An event that a reply gives in two lines."""
        _, number, _, _, line = event.split(" ", 4)
        return cls(int(number), line, came if came.startswith("refused ") else came.partition(" ")[2])

    @property
    def words(self) -> List[str]:
        return self.line.split()

    @property
    def outcome(self) -> List[str]:
        return self.came.split()

    @property
    def kind(self) -> Event:
        return EVENTS[self.words[0]]

    @property
    def is_refused(self) -> bool:
        return self.outcome[0] == "refused"

    def __str__(self) -> str:
        return f"event {self.number}, `{self.line}` ({self.came})"
