"""Runs of a live page that people undid and stepped over, or took an event out of: the newest are kept, if they are short."""
from __future__ import annotations

from itertools import count
from typing import Any, Dict, Iterator, List, NamedTuple, Sequence

from ..model.branches import Branch
from ..model.setups import Setup
from .record import Record
from .runs import MOST_FORMER

# A run with more events takes too long to play again: some milliseconds each.
MOST_EVENTS = 300

Data = Dict[str, Any]


class Lost(NamedTuple):
    """A branch as it was before it lost events, and who stepped each."""

    branch: Branch
    names: Sequence[str]


class FormerRun(NamedTuple):
    """A run that is kept, and as pages have it."""

    events: List[str]
    data: Data


class FormerRuns:
    """The runs that are kept, newest last."""

    def __init__(self, program: str, setup: Setup, records: Sequence[Record]) -> None:
        self._program, self._setup = program, setup
        self._kept = [FormerRun([one.event for one in record.moments], record.as_data()) for record in records]
        self._numbers = count(len(records) + 1)

    @property
    def data(self) -> List[Data]:
        return [it.data for it in self._kept]

    def leave(self, branches: Sequence[Branch]) -> None:
        """Drops what is the beginning of a branch again."""
        self._kept = [it for it in self._kept if not any(one.events[: len(it.events)] == it.events for one in branches)]

    def take(self, lost: Sequence[Lost]) -> Iterator[Data]:
        """Keeps what was lost, if it is short; yields the new runs, as pages have them."""
        for run in lost:
            if len(run.branch.events) <= MOST_EVENTS:
                self._kept = [*self._kept, FormerRun(run.branch.events, self._played(run))][-MOST_FORMER:]
                yield self._kept[-1].data

    def _played(self, lost: Lost) -> Data:
        """A run, played again for its page."""
        name, events = lost.branch.name, lost.branch.events
        record = Record(self._program, self._setup, f"{name}~{next(self._numbers)}", True)
        try:
            record.sync(Branch(name, events, len(events)))
            for moment, who in zip(record.moments, lost.names):
                moment.who = who
            return record.as_data()
        finally:
            record.close()
