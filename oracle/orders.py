"""The runs that a search tries, one after another as `crates/pfl_search/specs/Visits.antt` has them, and so what it has to answer. Of two
events that commute one order is tried (`Orders.antt`)."""
from __future__ import annotations

from dataclasses import dataclass
from typing import Iterator, List, NamedTuple, Optional, Sequence, Tuple

from shell.language.events import CUT, DELIVER, FLUSH, OF_FRAME, REPEAT, RESTART
from shell.language.names import NODES
from shell.model.pair import Pair

from .branches import Room, compare
from .searches import Search, instances, pair_of

# Events at nodes come after those of frames alone, whose ranks are their tickets.
NODE_RANK = 1 << 32


class Last(NamedTuple):
    """What is kept of an event: its rank, its word, and the next ticket when it came."""

    rank: int
    word: str
    next_ticket: int

    @classmethod
    def of(cls, pair: Pair, line: str) -> "Last":
        """Of an event that comes in this pair."""
        word, place = line.split()[:2]
        if word == DELIVER.word:
            frame = pair.frames.get(int(place))
            return cls(NODE_RANK + NODES.index(frame.to) if frame else 0, word, pair.next_ticket)
        return cls(int(place) if word in OF_FRAME else NODE_RANK + NODES.index(place), word, pair.next_ticket)

    def follows(self, line: str, pair: Pair) -> bool:
        """Whether an event that comes next may as well come before this one, where it is tried."""
        word, place = line.split()[:2]
        stood = word not in OF_FRAME or int(place) < self.next_ticket
        return Last.of(pair, line).rank < self.rank and _may_pass(self.word, word) and stood


def _may_pass(last: str, word: str) -> bool:
    """Whether an event commutes with one of another node or frame before it: a copy and a cut keep their places, two flushes take tickets,
    a delivery makes room for a flush, and two restarts take boot numbers."""
    if {last, word} & {REPEAT.word, CUT.word}:
        return False
    return not (word == FLUSH.word and last in (FLUSH.word, DELIVER.word) or word == last == RESTART.word)


@dataclass
class Run:
    """A run that is tried: the pair that it leads to, the uses that are left, its phase, and what is kept of its last event."""

    events: Tuple[str, ...]
    pair: Pair
    is_asked: bool
    is_met: bool
    uses: Tuple[int, ...]
    phase: int
    last: Optional[Last]
    # Those with one event more, once they are known.
    longer: Optional[List["Run"]] = None


class Tries:
    """What a search tries from where the branch of a room stands."""

    def __init__(self, room: Room, search: Search):
        self.room, self.search = room, search
        self.stand: Tuple[str, ...] = ()
        self.tried = self.asked = 0
        self.first = self.run_here(tuple(choice.uses for choice in search.choices), 0, None)

    def answer(self) -> List[str]:
        """The reply that the search must get; the branch is as it was."""
        reply = self._answer()
        self.go(())
        return reply

    def _answer(self) -> List[str]:
        search = self.search
        for depth in range(search.depth + 1):
            longest = 0
            for run in self.runs(self.first, depth):
                if self.tried == search.runs:
                    return [f"gave up {search.runs}"]
                self.tried += 1
                self.asked += run.is_asked
                if run.is_met:
                    lines = (f"event {at} step {search.branch} {it}" for at, it in enumerate(run.events, 1))
                    return [f"found {search.branch} events {len(run.events)} runs {self.tried}", *lines, "end"]
                longest = max(longest, len(run.events))
            if longest < depth:
                return [f"none any {self.tried} {self.asked}"]
        return [f"none {search.depth} {self.tried} {self.asked}"]

    def runs(self, run: Run, more: int) -> Iterator[Run]:
        """A run, and then those that go on from it by at most this many events."""
        yield run
        for longer in self.longer(run) if more else ():
            yield from self.runs(longer, more - 1)

    def longer(self, run: Run) -> List[Run]:
        """The runs with one event more."""
        if run.longer is None:
            places = (at for at, it in enumerate(self.search.choices) if run.phase <= it.phase and run.uses[at])
            turns = ((at, line) for at in places for line in instances(self.search.choices[at].what, run.pair))
            run.longer = [it for at, line in turns for it in self.after(run, at, line)]
        return run.longer

    def after(self, run: Run, at: int, line: str) -> Iterator[Run]:
        """A run with one event more, that of the choice at a place; nothing if it is refused, or comes earlier."""
        phase = self.search.choices[at].phase
        if run.last and phase == run.phase and run.last.follows(line, run.pair):
            return
        self.go(run.events)
        lab, name = self.room
        if lab.ask(f"step {name} {line}").startswith("step "):
            self.stand = (*run.events, line)
            uses = tuple(uses - (place == at) for place, uses in enumerate(run.uses))
            yield self.run_here(uses, phase, Last.of(run.pair, line))

    def run_here(self, uses: Tuple[int, ...], phase: int, last: Optional[Last]) -> Run:
        """The run that leads to where the branch stands."""
        pair = pair_of(self.room)
        return Run(self.stand, pair, self.search.is_asked(pair), self.search.is_met(self.room, pair), uses, phase, last)

    def go(self, events: Tuple[str, ...]) -> None:
        """The branch goes to where these events lead, each of which is accepted."""
        lab, name = self.room
        same = next((at for at, two in enumerate(zip(self.stand, events)) if two[0] != two[1]), min(len(self.stand), len(events)))
        lab.ask(f"back {name} {len(self.stand) - same}")
        for line in events[same:]:
            lab.ask(f"step {name} {line}")
        self.stand = events


def compare_tries(room: Room, search: Search, reply: Sequence[str]) -> None:
    """A reply must be what all runs say that the search tries from where the room's branch stands."""
    compare("a search of all runs", Tries(room, search).answer(), reply, "came")
