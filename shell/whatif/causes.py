"""Packets that could not have come in a variant: each answers a packet that had gone out in the run by then, and there none had."""
from __future__ import annotations

from dataclasses import dataclass, field
from typing import Dict, Iterator, List, NamedTuple, Optional, Tuple

from ..language.events import PACKET, PASS, read_packet
from ..language.packets import PacketEvent
from .faults import Course
from .holding import DROPPED, RELEASED, Fate, is_held
from .plays import Played

_NEVER = 1 << 62
# Why a packet has not gone out in a variant.
_LEFT_OUT, _REFUSED, _BLOCKED = "which is left out", "which is refused", "whose packet was dropped"
_LOST, _WAITS, _HUNG = f"whose packet was {DROPPED}", "whose packet was still held then", "which could not have come either"


class Hung(NamedTuple):
    """Packets that could not have come, by their events: they answer the packet of an event; and why that has not gone out."""

    cause: int
    why: str
    numbers: Tuple[int, ...]


class _Packet(NamedTuple):
    """A packet of a flow: its event; whether it goes the way of the flow's first packet; and the event that it answers, or 0: the first
    one whose packet went the other way and had gone out before."""

    number: int
    is_onward: bool
    cause: int


@dataclass
class _Flow:
    """The packets of a flow in the run."""

    first: PacketEvent
    packets: List[_Packet] = field(default_factory=list)
    # The packets that went the way of the first one, and the other way: their events, and after how many events they had gone out.
    gone: Dict[bool, List[Tuple[int, int]]] = field(default_factory=lambda: {True: [], False: []})

    @property
    def begins(self) -> bool:
        """Whether its beginning is in the run. Of TCP that is a SYN; an answer to something later can have come before that."""
        return not self.first.is_tcp or self.first.is_request

    def add(self, number: int, packet: PacketEvent, place: int) -> None:
        """Adds a packet that had gone out after so many events. What goes the way of the first one is no answer if it acknowledges
        nothing."""
        is_onward = packet.direction == self.first.direction
        is_answer = not is_onward or packet.is_tcp and "A" in packet.flags
        causes = (one for one, gone in self.gone[not is_onward] if gone < number)
        self.packets.append(_Packet(number, is_onward, next(causes, 0) if is_answer else 0))
        self.gone[is_onward].append((number, place))


class Causes:
    """The flows of a run, and which of their packets answer others."""

    def __init__(self, course: Course, fates: Dict[int, Fate]):
        self.course = course
        flows: List[_Flow] = []
        # Flows by the ends of a packet either way, and by the state that it met.
        known: Dict[object, _Flow] = {}
        for event in course.events:
            if event.kind is PACKET:
                packet = read_packet(event.line)
                ends = packet.protocol, frozenset({packet.source, packet.destination})
                state = event.outcome[1] if event.outcome[0] == PASS.word or is_held(event.outcome) else "-"
                flow = known.get(state) or known.get(ends) or _Flow(packet)
                flows += [flow] * (not flow.packets)
                known.setdefault(ends, flow)
                if state != "-":
                    known.setdefault(state, flow)
                flow.add(event.number, packet, _gone_at(event.outcome, event.number, fates.get(event.number)))
        self.flows = [it for it in flows if it.begins and any(one.cause for one in it.packets)]

    def hung(self, played: Played, fates: Dict[int, Fate]) -> Tuple[Hung, ...]:
        """The packets that could not have come in a variant."""
        return tuple(it for flow in self.flows for it in self._of_flow(flow, played, fates))

    def _of_flow(self, flow: _Flow, played: Played, fates: Dict[int, Fate]) -> Iterator[Hung]:
        gone: Dict[bool, List[int]] = {True: [], False: []}
        # By the places of packets that could not have come: what such a packet let go would not have gone either.
        impossible: Dict[int, _Packet] = {}
        for packet in flow.packets:
            outcome, place = self._came(packet.number, played)
            if outcome is None:
                continue
            if packet.cause and not any(at < place and at not in impossible for at in gone[not packet.is_onward]):
                impossible[place] = packet
            else:
                gone[packet.is_onward].append(_gone_at(outcome, place, fates.get(packet.number)))
        those = {it.number for it in impossible.values()}
        for cause in dict.fromkeys(it.cause for it in impossible.values()):
            why = _HUNG if cause in those else self._why(cause, played, fates.get(cause))
            yield Hung(cause, why, tuple(it.number for it in impossible.values() if it.cause == cause))

    def _came(self, number: int, played: Played) -> Tuple[Optional[List[str]], int]:
        """What came of a packet in a variant, and its place there; nothing if it is left out."""
        if number <= played.place:
            return self.course.events[number - 1].outcome, number
        came = played.came.get(number)
        return (came.split(), played.places[number]) if came else (None, 0)

    def _why(self, cause: int, played: Played, fate: Optional[Fate]) -> str:
        outcome, _ = self._came(cause, played)
        if outcome is None:
            return _LEFT_OUT
        if is_held(outcome):
            return _LOST if fate and fate.verdict == DROPPED else _WAITS
        return _REFUSED if outcome[0] == "refused" else _BLOCKED


def _gone_at(outcome: List[str], place: int, fate: Optional[Fate]) -> int:
    """After how many events a packet had gone out that came at this place."""
    if is_held(outcome):
        return fate.place if fate and fate.verdict == RELEASED else _NEVER
    return place if outcome[0] == PASS.word else _NEVER
