"""What a chart has at a lane: the words for what happens at a node, and for what came of it."""
from __future__ import annotations

import ipaddress
from dataclasses import dataclass
from typing import FrozenSet, Optional, Sequence, Set, Tuple

from ..language.events import BROKEN, DELIVER, HELD_BACK, PASS, RESTART, TICK
from ..language.faults import FRAME_FAULTS
from ..language.forms import DIRECTION
from ..language.names import Name
from ..model.branches import Happened
from ..model.explanations import Explanation, OfState
from ..model.flights import Flight
from ..shows.words import counted, seconds
from .contents import KEPT, besides


@dataclass(frozen=True)
class Mark:
    """What a row has at a lane: words that may have lines of their own, and what came of the event. The tone is good, bad, note or
    nothing."""

    node: str
    kind: str
    words: Tuple[str, ...]
    fate: str = ""
    tone: str = ""

    @property
    def is_packet(self) -> bool:
        return self.kind in DIRECTION.words


def end_words(end: str) -> str:
    """An end of a flow; an IPv6 address in the short form."""
    if not end.startswith("["):
        return end
    address, _, port = end[1:].partition("]")
    return f"[{ipaddress.IPv6Address(address).compressed}]{port}"


def duration(milliseconds: int) -> str:
    """A time on a clock, in seconds unless it is less than one."""
    return f"{milliseconds} ms" if 0 < milliseconds < 1000 else seconds(milliseconds)


def state_of(explained: Explanation) -> Optional[Name]:
    """The state that a packet made or met, if any, even the one that dropped it."""
    outcome = explained.event.outcome
    if outcome[0] in (PASS.word, HELD_BACK.word):
        return None if outcome[1] == "-" else Name.read(outcome[1])
    return explained.reason.name if isinstance(explained.reason, OfState) else None


def ends_of(event: Happened) -> FrozenSet[str]:
    """The two ends of a packet, regardless of which sent it."""
    return frozenset(event.words[4:6])


class PacketMarks:
    """The marks of packets, one after another. A TCP packet has the name of its state in place of its ends, once a packet with these
    ends has shown them."""

    def __init__(self) -> None:
        self._shown: Set[Tuple[Name, FrozenSet[str]]] = set()

    def mark(self, explained: Explanation) -> Mark:
        event, name = explained.event, state_of(explained)
        node, direction, protocol, source, target = event.words[1:6]
        tone = {PASS.word: "good", HELD_BACK.word: "note"}.get(event.outcome[0], "bad")
        fate = "pass, no state" if event.outcome[-1] == "-" else event.came
        ends = (f"{end_words(source)} ->", end_words(target))
        if protocol != "tcp":
            return Mark(node, direction, (protocol, *ends), fate, tone)
        head, segment = f"tcp [{event.words[6]}]", _segment(event.words[6:11])
        if name is None or (name, ends_of(event)) not in self._shown:
            self._shown |= {(name, ends_of(event))} if name else set()
            return Mark(node, direction, (head, *ends, segment), fate, tone)
        fate = event.outcome[0] if event.outcome[-1] == str(name) else fate
        return Mark(node, direction, (head, f"{name} {direction},", segment), fate, tone)


def _segment(words: Sequence[str]) -> str:
    """The numbers of a TCP packet from its flags on, as far as they say something."""
    flags, sequence, acknowledged, _, length = words
    numbers = (("seq", sequence, True), ("ack", acknowledged, "A" in flags), ("len", length, length != "0"))
    return " ".join(f"{name}{KEPT}{number}" for name, number, is_said in numbers if is_said)


def node_mark(event: Happened) -> Mark:
    """The mark of an event at one node that is not a packet."""
    number = int(event.outcome[1]) if len(event.outcome) > 1 else 0
    counts = {"states": counted(number, "state"), "packets": counted(number, "held packet"), "clock": duration(number)}
    fate = event.kind.outcome_of(event.outcome).drawn.format(n=number, **counts)
    what = event.kind.drawn.format(duration(int(event.words[2])) if event.kind is TICK else event.words[-1])
    return Mark(event.words[1], event.kind.word, (what,), fate, "note" if event.kind is RESTART else "")


def delivery_mark(explained: Explanation, flight: Flight) -> Mark:
    """The mark of a frame that comes to its receiver."""
    how, number = explained.event.outcome
    if how == BROKEN.word:
        return Mark(flight.to, DELIVER.word, (), f"broken: {FRAME_FAULTS[int(number) - 1]}", "bad")
    also = besides(explained.records)
    words = (f"taken {number}:", also) if also else (f"taken {number}",)
    return Mark(flight.to, DELIVER.word, words, "", "note" if also else "")
