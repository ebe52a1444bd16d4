"""Parts of a branch to be drawn: from one event to another, and what is about one state."""
from __future__ import annotations

import re
from typing import FrozenSet, NamedTuple, Optional, Sequence, Set, Tuple

from ..language.events import CLEAR, HELD_BACK, KILL, PACKET, PURGE, RELEASE, RESTART
from ..language.forms import NAME
from ..language.names import ALL_STATES, Name
from ..language.records import BULK_STATUS, CLEAR as CLEAR_RECORD
from ..link.laboratory import Unknown
from ..model.explanations import Explanation, Judged, Purge
from ..model.flights import Flight
from ..model.frames import Record
from .marks import ends_of, state_of

# How many states are named if one is not found.
MOST_NAMES = 6


class Window(NamedTuple):
    """The events from the first to the last, which is the newest if none is given; and the one state that is meant, if any."""

    first: int = 1
    last: Optional[int] = None
    flow: Optional[Name] = None

    def within(self, branch: str, events: int) -> "Window":
        """The same for a branch with this many events that stand; raises what is wrong with it."""
        last = events if self.last is None else self.last
        for number in (self.first, last) if self.last is not None or self.first > 1 else ():
            if not 1 <= number <= events:
                stand = f"those that stand are counted from 1 to {events}" if events else "none of its events stands"
                raise Unknown(f"{branch} has no event {number} to draw: {stand}")
        if self.first > last > 0:
            raise Unknown(f"there is nothing to draw from event {self.first} to event {last}, which comes before it")
        return self._replace(last=last)


WHOLE = Window()
# The words before the parts of a window, in a dialogue.
FROM, TO, FLOW = "from", "to", "flow"
WINDOW_WORDS = (FROM, TO, FLOW)


class Asked(NamedTuple):
    """The branch to draw, or nothing for the one in use, which part of it, and the file of its picture, if any."""

    branch: str
    window: Window
    file: str


def read_asked(words: Sequence[str]) -> Optional[Asked]:
    """What `[BRANCH] [from K] [to L] [flow NAME] [FILE.svg]` asks for; nothing if words have another form."""
    rest = list(words)
    file = rest.pop() if rest and rest[-1].endswith(".svg") else ""
    branch = rest.pop(0) if len(rest) % 2 else ""
    parts = dict(zip(rest[::2], rest[1::2]))
    if [*parts] != [word for word in WINDOW_WORDS if word in parts] or 2 * len(parts) != len(rest):
        return None
    first = read_place(parts[FROM]) if FROM in parts else 1
    last = read_place(parts[TO]) if TO in parts else None
    return Asked(branch, Window(first, last, read_flow(parts[FLOW]) if FLOW in parts else None), file)


def read_place(word: str) -> int:
    """The place of an event in its branch."""
    if not re.fullmatch("[0-9]{1,10}", word) or int(word) == 0:
        raise Unknown(f"{word}: the events of a branch are counted from 1 on")
    return int(word)


def read_flow(word: str) -> Name:
    """The name of a state."""
    if NAME.wrong(word):
        raise Unknown(f"{word}: a flow is named by {NAME.what}, such as 1.3")
    return Name.read(word)


class Concern:
    """What in a branch is about one state: the packets that made or met it, and packets of its ends that met none; the frames with a
    record about it; and what removes states from a node."""

    def __init__(self, branch: str, flow: Name, events: Sequence[Explanation]):
        self.flow = flow
        packets = [event for event in events if event.event.kind is PACKET]
        self._ends: Set[Tuple[str, FrozenSet[str]]] = {_key(packet) for packet in packets if state_of(packet) == flow}
        if not self._ends:
            raise Unknown(f"no packet of {branch} that stands made a state {flow}{_made(packets)}")
        # The frames about it, by ticket; and the nodes that hold a packet of it.
        self._tickets: Set[int] = set()
        self._holding: Set[str] = set()

    def has(self, explained: Explanation, flight: Optional[Flight]) -> bool:
        """Whether the next event is about it."""
        event = explained.event
        if flight:
            return self._has_frame(flight)
        if event.kind is PACKET:
            return self._has_packet(explained)
        if event.kind is KILL:
            return event.words[2] == str(self.flow)
        if event.kind is PURGE:
            return isinstance(explained.reason, Purge) and any(due.name == self.flow for due in explained.reason.due)
        if event.kind is RELEASE:
            return event.words[1] in self._holding
        return event.kind in (CLEAR, RESTART) or (event.words[1].isdecimal() and int(event.words[1]) in self._tickets)

    def _has_packet(self, explained: Explanation) -> bool:
        name = state_of(explained)
        if name == self.flow and explained.event.outcome[0] == HELD_BACK.word:
            self._holding.add(explained.event.words[1])
        met_none = isinstance(explained.reason, Judged)
        return name == self.flow or (met_none and _key(explained) in self._ends)

    def _has_frame(self, flight: Flight) -> bool:
        """Whether a frame that is sent is about it; a copy is if the first one is."""
        if flight.origin in self._tickets or any(map(self._has_record, flight.frame.records)):
            self._tickets.add(flight.ticket)
        return flight.ticket in self._tickets

    def _has_record(self, record: Record) -> bool:
        if record.kind is CLEAR_RECORD:
            return self.flow.creator == int(record.about[0]) and self.flow.id <= int(record.about[1])
        return record.kind is not BULK_STATUS and record.name in (self.flow, ALL_STATES)


def _key(explained: Explanation) -> Tuple[str, FrozenSet[str]]:
    return explained.event.words[3], ends_of(explained.event)


def _made(packets: Sequence[Explanation]) -> str:
    """The states that packets made."""
    names = [*dict.fromkeys(str(name) for name in map(state_of, packets) if name)]
    more = [f"{len(names) - MOST_NAMES} more"] if len(names) > MOST_NAMES else []
    return f"; those made are {', '.join(names[:MOST_NAMES] + more)}" if names else ", nor any other"
