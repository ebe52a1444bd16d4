"""The first events of a branch. The program is asked what came of one, for a pair or for a frame, only when it is needed, and only
once."""
from __future__ import annotations

from dataclasses import replace
from functools import lru_cache, partial
from typing import Callable, Iterator, Sequence

from ..language.commands import STEP, WHY
from ..model.explanations import Explanation, read_explanation
from ..model.flights import Flight
from ..model.pair import Pair
from .laboratory import Laboratory


class History:
    """The first events of a branch, as lines."""

    def __init__(self, lab: Laboratory, branch: str, lines: Sequence[str]):
        self.lab, self.lines = lab, lines
        # What came of an event and why, and the pair after it, by the event's place.
        self.explained: Callable[[int], Explanation] = lru_cache(maxsize=None)(partial(lab.explanation, branch))
        self.pair: Callable[[int], Pair] = lru_cache(maxsize=None)(partial(lab.past, branch))
        self.sent: Callable[[int], Flight] = lru_cache(maxsize=None)(partial(lab.flight, branch))
        # What would come of an event right after these, and why; the setup has to be known.
        self.would_come: Callable[[str], Explanation] = lru_cache(maxsize=None)(self._tried)

    def flight(self, ticket: int) -> Flight:
        """A frame that an event of the branch sent, and what these events did to it."""
        flight = self.sent(ticket)
        return replace(flight, later=[one for one in flight.later if one.number <= len(self.lines)])

    def _tried(self, event: str) -> Explanation:
        """The answer of a run of its own, since the branch may stand elsewhere."""
        stepped = [f"{STEP.word} main {line}" for line in self.lines]
        return read_explanation(self.lab.run([*stepped, f"{WHY.word} main {event}"])[-1])

    def newest_flights(self) -> Iterator[Flight]:
        """The frames that these events sent, newest first: tickets are counted from 1."""
        return map(self.flight, range(self.pair(len(self.lines)).next_ticket - 1, 0, -1))
