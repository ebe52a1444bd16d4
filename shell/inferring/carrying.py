"""Packets that a node's interface carried, as events: whose they are, which way they went, and the ends that the laboratory takes them
with."""
from __future__ import annotations

from typing import Counter, Dict, Iterator, List, NamedTuple, Optional, Set, Tuple

from ..captures.carried import Carried, IpPacket
from ..captures.decoding import Ends
from ..language.names import NODES
from ..language.packets import Key, PacketEvent
from ..model.rulings import deciding
from .night import Night, place_of
from .setting import Setting, passing_rule
from .ways import keyed

# A packet on the wire: its protocol, source and destination.
_Wire = Tuple[str, str, str]
UNPLACED = "packet of an interface whose flow is in no message, and of which it is not known whether it came in or went out"
BOTH_WAYS = "packet of an interface that one state has on its way in and another one on its way out, where no rules say which this is"


class _Way(NamedTuple):
    """The way that packets between two ends go, and the ends that the laboratory takes them with."""

    direction: str
    source: str
    destination: str


class _Told(NamedTuple):
    """A way of packets of a flow, and when a message last told of the flow."""

    last: int
    way: _Way
    flow: Ends


class Carrying:
    """Finds the events of carried packets."""

    def __init__(self, night: Night, setting: Setting):
        self.night, self.setting = night, setting
        # The ways of packets of flows that messages tell of; and those at each node of other flows, None for those that are passed over.
        self._told: Dict[_Wire, List[_Told]] = {}
        self._untold: Dict[Tuple[str, _Wire], Optional[_Way]] = {}
        # The flows by their far ends; the addresses at both ends of flows, and those to which flows are translated.
        self._by_far: Dict[Tuple[str, str], List[Ends]] = {}
        self._near: Set[str] = set()
        self._far: Set[str] = set()
        self._public: Set[str] = set()
        for name, flow in night.flows.items():
            its = night.told.get(name)
            self._learn(flow, its[-1].sent.time if its else 0)
        for ways in self._told.values():
            ways.sort(key=lambda it: it.last)
        # Which way packets go that one state has as those of its way in, and another one as those of its way out.
        self._directions: Dict[Tuple[str, _Wire], str] = {}
        # How many packets are passed over; the events of the others; and those that happen before their time, as what makes a state.
        self.passed_over: Counter[str] = Counter()
        self.used: Set[int] = set()
        self._at: Dict[str, Dict[Tuple[str, Key], List[int]]] = {node: {} for node in NODES}
        self.events = [self._event(number, node, it) for number, (node, it) in enumerate(night.carried)]

    def _learn(self, flow: Ends, last: int) -> None:
        """Learns what packets of a flow look like on the wire. On its way out one has the wire's near end as its source."""
        wire, stack = keyed(flow.protocol, flow.wire), keyed(flow.protocol, flow.stack)
        out, back = _Way("out", stack.near, stack.far), _Way("in", wire.far, wire.near)
        self._told.setdefault((flow.protocol, wire.near, wire.far), []).append(_Told(last, out, flow))
        self._told.setdefault((flow.protocol, wire.far, wire.near), []).append(_Told(last, back, flow))
        self._by_far.setdefault((flow.protocol, wire.far), []).append(flow)
        self._near.add(_address(wire.near))
        self._far.add(_address(wire.far))
        if wire.near != stack.near:
            self._public.add(_address(wire.near))

    def _event(self, number: int, node: str, carried: Carried) -> Optional[PacketEvent]:
        """The event of a packet; nothing if it is passed over."""
        packet = carried.packet
        wire = (packet.protocol, *packet.ends)
        if wire in self._told:
            way, why = self._told_way(node, wire, carried.time), BOTH_WAYS
        else:
            way, why = self._untold_way(node, packet), UNPLACED
        if not way:
            self.passed_over[why] += 1
            return None
        if wire in self._told:
            far, near = packet.ends if way.direction == "in" else packet.ends[::-1]
            self._at[node].setdefault((packet.protocol, Key(far, near)), []).append(number)
        return event(node, way.direction, packet, (way.source, way.destination))

    def _told_way(self, node: str, wire: _Wire, time: int) -> Optional[_Way]:
        """The way of a packet of told flows. Of several with the same ends on the wire it is the first that is told of later, else the
        last. If a forwarded packet has a state for its way in and one for its way out, the interface is that whose rules pass it."""
        ways = self._told[wire]
        directions = {way.way.direction for way in ways}
        if len(directions) > 1:
            if (node, wire) not in self._directions:
                passed = {way.way.direction for way in ways if passing_rule(self.setting.setup, node, way.flow)}
                self._directions[node, wire] = passed.pop() if len(passed) == 1 else ""
            ways = [way for way in ways if way.way.direction == self._directions[node, wire]]
        return next((way.way for way in ways if way.last >= time), ways[-1].way if ways else None)

    def has(self, node: str, flow: Ends) -> bool:
        """Whether a node's interface carried packets of a flow: these make its state what it is."""
        return place_of(flow) in self._at[node]

    def first_after(self, node: str, flow: Ends, time: int) -> Optional[PacketEvent]:
        """The first packet of a flow that a node let out after a time: the one that it held until then. It happens only once."""
        for number in self._at[node].get(place_of(flow), ()):
            found = self.events[number] if self.night.carried[number][1].time >= time and number not in self.used else None
            if found and found.direction == flow.direction:
                self.used.add(number)
                return found
        return None

    def _untold_way(self, node: str, packet: IpPacket) -> Optional[_Way]:
        """The way of a packet of a flow of which no message tells, where the rules or the addresses of other flows say which way it goes.
        The first packet of a flow decides for all."""
        wire = (packet.protocol, *packet.ends)
        if (node, wire) not in self._untold:
            back = (packet.protocol, packet.destination, packet.source)
            self._untold[node, wire], self._untold[node, back] = self._guessed(node, packet)
        return self._untold[node, wire]

    def _guessed(self, node: str, packet: IpPacket) -> Tuple[Optional[_Way], Optional[_Way]]:
        """The way of a packet and that of its answers; nothing where it is not known."""
        one, other = packet.ends
        for near, far in ((one, other), (other, one)):
            inner = {*self._translated(node, packet, near, far)}
            if len(inner) == 1:
                ways = _Way("out", inner.pop(), far), _Way("in", far, near)
                return ways if near == one else ways[::-1]
        sides = [self._side_of(it) for it in (one, other)]
        if sides in (["near", ""], ["", "far"], ["near", "far"]):
            # (behind an address of a translation there may be any host)
            is_hidden = _address(one) in self._public
            return (None, None) if is_hidden else (_Way("out", one, other), _Way("in", other, one))
        if sides in (["far", ""], ["", "near"], ["far", "near"]):
            return _Way("in", one, other), _Way("out", other, one)
        return None, None

    def _side_of(self, end: str) -> str:
        """The side on which an address is in all told flows that have it."""
        is_near, is_far = _address(end) in self._near, _address(end) in self._far
        return "" if is_near == is_far else "near" if is_near else "far"

    def _translated(self, node: str, packet: IpPacket, near: str, far: str) -> Iterator[str]:
        """The near ends of told flows to a far end that the node's rules may translate to a near end on the wire."""
        rules = self.setting.setup.rules[node]
        for flow in self._by_far.get((packet.protocol, far), ()):
            stack = keyed(flow.protocol, flow.stack)
            if flow.direction != "out" or stack.near == near:
                continue
            trial = event(node, "out", packet, (stack.near, stack.far))
            number = deciding(rules, trial)
            pool = rules[number].pool if number is not None and rules[number].action == "pass" else None
            # (of several ports the pair and the laboratory take others)
            if number is not None and pool and pool.ports.is_one and next(rules[number].keys(trial)).wire.near == near:
                yield stack.near


def _address(end: str) -> str:
    return end.rpartition(":")[0]


def event(node: str, direction: str, packet: IpPacket, ends: Tuple[str, str]) -> PacketEvent:
    """A packet as it comes to a node, between these ends."""
    numbers = packet.seq, packet.ack, packet.window
    return PacketEvent(node, direction, packet.protocol, *ends, packet.length, packet.flags, *numbers, packet.scale)
