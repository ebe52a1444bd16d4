"""The program's answer to `frame BRANCH TICKET`: a frame that an event sent, and what became of it."""
from __future__ import annotations

from dataclasses import dataclass, field, replace
from functools import lru_cache
from typing import List, Optional, Sequence

from ..language.events import CUT, DELIVER, LOSE, REPEAT, TAKEN
from .branches import Happened
from .frames import Frame, Record
from .pair import other

# How many lines of records are kept as read: runs that are compared have most of their frames in common.
_KEPT_LINES = 1 << 13


@dataclass
class Flight:
    """A frame as it was sent, the event that sent it, and the later events about it, in order."""

    frame: Frame
    sent: Happened
    later: List[Happened] = field(default_factory=list)

    @property
    def ticket(self) -> int:
        return self.frame.ticket

    @property
    def to(self) -> str:
        return self.frame.to

    @property
    def source(self) -> str:
        return other(self.to)

    @property
    def origin(self) -> Optional[int]:
        """The frame that it is a copy of."""
        return int(self.sent.words[1]) if self.sent.kind is REPEAT else None

    @property
    def cuts(self) -> List[Happened]:
        return [it for it in self.later if it.kind is CUT]

    @property
    def now(self) -> Frame:
        """The frame as its cuts have left it."""
        return replace(self.frame, data=self.frame.data[: min(int(cut.outcome[1]) for cut in self.cuts)]) if self.cuts else self.frame

    @property
    def ended(self) -> Optional[Happened]:
        return next((it for it in self.later if it.kind in (DELIVER, LOSE)), None)

    @property
    def is_lost(self) -> bool:
        return self.ended is not None and self.ended.kind is LOSE

    @property
    def is_delivered(self) -> bool:
        return self.ended is not None and self.ended.kind is DELIVER

    @property
    def is_taken(self) -> bool:
        """Whether its receiver could read it."""
        return self.ended is not None and self.ended.outcome[0] == TAKEN.word


@lru_cache(maxsize=_KEPT_LINES)
def _record_of(line: str) -> Record:
    """The record of a line."""
    return Record.read(line.split()[1:])


def read_flight(reply: Sequence[str]) -> Flight:
    """The frame that a reply shows."""
    _, event, came, frame, *lines, _ = reply
    records = tuple(_record_of(line) for line in lines if line.startswith("record "))
    steps = [line for line in lines if line.startswith(("event ", "outcome "))]
    later = [Happened.read(*two) for two in zip(steps[::2], steps[1::2])]
    return Flight(replace(Frame.read(frame.split()[1:]), records=records), Happened.read(event, came), later)
