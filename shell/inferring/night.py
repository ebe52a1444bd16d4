"""What is known of a night: the messages that the captures have, what they tell of each state, and what else was logged or carried."""
from __future__ import annotations

from bisect import bisect_right
from dataclasses import dataclass, field
from itertools import chain, takewhile
from typing import Counter, Dict, Iterable, Iterator, List, NamedTuple, Optional, Set, Tuple

from ..captures.asked import Selection
from ..captures.carried import Carried, IpPacket
from ..captures.decoding import Ends, Record, address
from ..captures.pairing import Sent
from ..captures.pflog import Logged
from ..captures.shown import shown
from ..captures.wording import Times
from ..language.names import NODES
from ..language.packets import Key
from ..language.records import BULK_STATUS, CLEAR, DELETE, INSERT, SHORT_DELETE
from .ways import keyed

DELETIONS = (DELETE, SHORT_DELETE)


class Part(NamedTuple):
    """Which part of the captures is taken: the flows with an address, in each form that it may have, and a port at an end; and the times
    from one to another; all if nothing is said."""

    addresses: Tuple[str, ...] = ()
    port: str = ""
    first: Optional[int] = None
    last: Optional[int] = None

    @classmethod
    def of(cls, selection: Selection) -> "Part":
        """The part that is looked at."""
        flow = selection.flow
        if flow is None:
            return cls((), "", selection.since, selection.until)
        v4 = [address(flow.address, 2)] if not any(flow.address[4:]) else []
        port = str(int.from_bytes(flow.port, "big")) if flow.port else ""
        return cls((*v4, address(flow.address, 28)), port, selection.since, selection.until)

    @property
    def flow_words(self) -> str:
        """The address and the port."""
        return self.addresses[0] + f":{self.port}" * bool(self.port)

    def has_flow(self, flow: Ends) -> bool:
        """Whether a flow is taken."""
        return not self.addresses or any(self._has_end(it) for key in (flow.wire, flow.stack) for it in (key.far, key.near))

    def has_ends(self, ends: Tuple[str, str]) -> bool:
        """Whether a packet between two ends is taken."""
        return not self.addresses or any(map(self._has_end, ends))

    def _has_end(self, end: str) -> bool:
        its, _, port = end.rpartition(":")
        return its in self.addresses and self.port in ("", port)

    def is_before(self, time: int) -> bool:
        """Whether a time comes before what is taken."""
        return self.first is not None and time < self.first

    def has_time(self, time: int) -> bool:
        """Whether what happens at a time is taken."""
        return not self.is_before(time) and (self.last is None or time <= self.last)


class Told(NamedTuple):
    """A record about a state: the place of its message among those that are taken, that message, and the record."""

    place: int
    sent: Sent
    record: Record


@dataclass
class Former:
    """A state that was there before: the node that told of it last, the last record with its ends, the last one that may have come to the
    peer, and whether the peer asks for it."""

    node: str
    last: Record
    came: Optional[Record]
    is_asked_for: bool = False


@dataclass
class Night:
    """What is taken of the captures."""

    sent: List[Sent] = field(default_factory=list)
    # The flow of each state that a whole record tells of, by the state's name.
    flows: Dict[str, Ends] = field(default_factory=dict)
    told: Dict[str, List[Told]] = field(default_factory=dict)
    # The insertions of each flow, by its protocol and its key on the wire.
    inserted: Dict[Tuple[str, Key], List[Told]] = field(default_factory=dict)
    formers: Dict[str, Former] = field(default_factory=dict)
    logged: List[Tuple[str, Logged]] = field(default_factory=list)
    carried: List[Tuple[str, Carried]] = field(default_factory=list)
    # The places of messages of which no capture, but a later message, says whether they came.
    shown: Set[int] = field(default_factory=set)
    # How often something is not taken, by what it is; and where a file could not be read on.
    left: Counter[str] = field(default_factory=Counter)
    faults: List[str] = field(default_factory=list)
    part: Part = Part()
    times: Times = Times(0, 0)
    # What each node tells of each state, with the places, and the times of all messages.
    _by_node: Dict[Tuple[str, str], List[Told]] = field(default_factory=dict)
    _places: Dict[Tuple[str, str], List[int]] = field(default_factory=dict)
    _sent_at: List[int] = field(default_factory=list)
    # The places of the messages in which each node asks for all states.
    _asked_for_all: Dict[str, List[int]] = field(default_factory=dict)
    # The flows that are told of, as packets on the wire.
    _wires: Set[Tuple[str, str, str]] = field(default_factory=set)

    def makers(self, name: str) -> Set[str]:
        """The nodes that make a state here: those that insert it, or else the one that first tells of it."""
        its = self.told.get(name, [])
        former = {self.formers[name].node} if name in self.formers else set()
        return former | {it.sent.node for it in its if it.record.kind is INSERT} or {it.sent.node for it in its[:1]}

    def index(self) -> None:
        """Looks up what is told of each state, once all messages are there."""
        self._sent_at = [it.time for it in self.sent]
        for place, sent in enumerate(self.sent):
            if any(it.asks_for_all for it in sent.message.records):
                self._asked_for_all.setdefault(sent.node, []).append(place)
            for record in sent.message.records:
                if not is_about_state(record):
                    continue
                told, key = Told(place, sent, record), (record.name, sent.node)
                self.told.setdefault(record.name, []).append(told)
                self._by_node.setdefault(key, []).append(told)
                self._places.setdefault(key, []).append(place)
                if record.kind is INSERT:
                    self.inserted.setdefault(place_of(self.flows[record.name]), []).append(told)

    def tells_of(self, packet: IpPacket) -> bool:
        """Whether a message tells of the flow of a packet on the wire."""
        if not self._wires:
            keys = ((flow.protocol, keyed(flow.protocol, flow.wire)) for flow in self.flows.values())
            self._wires = {(protocol, *ends) for protocol, key in keys for ends in ((key.far, key.near), (key.near, key.far))}
        return (packet.protocol, *packet.ends) in self._wires

    def told_after(self, name: str, node: str, place: int) -> Iterator[Told]:
        """What a node tells of a state after a message."""
        its = self._by_node.get((name, node), [])
        begin = bisect_right(self._places.get((name, node), []), place)
        return (its[number] for number in range(begin, len(its)))

    def told_until(self, name: str, node: str, time: int) -> Iterator[Told]:
        """What a node has told of a state by a time, the last first."""
        its = self._by_node.get((name, node), [])
        end = bisect_right(self._places.get((name, node), []), bisect_right(self._sent_at, time) - 1)
        return (its[number] for number in range(end - 1, -1, -1))

    def began_anew(self, node: str, place: int) -> Optional[Sent]:
        """The first message after another one in which a node asks for all states."""
        places = self._asked_for_all.get(node, [])
        at = bisect_right(places, place)
        return self.sent[places[at]] if at < len(places) else None

    def next_told(self, name: str, node: str, after: int) -> Optional[Told]:
        """The next record with ends that a node sends of a state after a message."""
        return next((it for it in self.told_after(name, node, after) if it.record.source is not None), None)

    def is_deleted_between(self, name: str, one: int, other: int) -> bool:
        """Whether a deletion of a state is told of after one message, and in another one or before it."""
        its = (takewhile(lambda it: it.place <= other, self.told_after(name, node, one)) for node in NODES)
        return any(it.record.kind in DELETIONS for it in chain.from_iterable(its))


def is_about_state(record: Record) -> bool:
    """Whether a record is about one state."""
    return record.kind not in (CLEAR, BULK_STATUS) and not record.asks_for_all


def place_of(flow: Ends) -> Tuple[str, Key]:
    """A flow as a packet of the wire has it, whoever began it."""
    return flow.protocol, keyed(flow.protocol, flow.wire)


def night_of(messages: Iterable[Sent], part: Part, times: Times) -> Night:
    """What is taken of messages, which come in the order of their times. Of some it is given, by their numbers, whether later ones show
    that they came."""
    night = Night(part=part, times=times)
    for sent in messages:
        if part.last is not None and sent.time > part.last:
            _learn(night, sent)
            continue
        kept = _kept(night, sent)
        if part.is_before(sent.time):
            _remember(night, sent, kept)
        elif kept:
            night.sent.append(sent._replace(message=sent.message._replace(records=kept)))
        elif not part.addresses:
            night.left["message of which no record was read"] += 1
    if part.addresses:
        _drop_unknown(night)
    for place, has_come in shown(night.sent).items():
        night.sent[place] = night.sent[place]._replace(arrived=has_come)
        night.shown.add(place)
    night.index()
    return night


def _learn(night: Night, sent: Sent) -> None:
    """Learns the flows of states."""
    for record in sent.message.records:
        if record.is_whole and record.name not in night.flows:
            night.flows[record.name] = record.flow


def _kept(night: Night, sent: Sent) -> List[Record]:
    """The records of a message that are about what is taken, and those about states of which no flow is known so far."""
    _learn(night, sent)
    if not night.part.addresses:
        return sent.message.records
    kept: List[Record] = []
    for record in sent.message.records:
        flow = night.flows.get(record.name) if is_about_state(record) else None
        # (how far a bulk update is goes with all of its states)
        if record.kind is not BULK_STATUS and (flow is None or night.part.has_flow(flow)):
            kept.append(record)
    return kept


def _drop_unknown(night: Night) -> None:
    """Drops the records of states whose flows turned out to be others, or are never told of."""
    sents, night.sent = night.sent, []
    for sent in sents:
        records = []
        for record in sent.message.records:
            flow = night.flows.get(record.name)
            if not is_about_state(record) or flow and night.part.has_flow(flow):
                records.append(record)
            elif not flow:
                night.left["record of a state whose keys are in no message"] += 1
        if records:
            night.sent.append(sent._replace(message=sent.message._replace(records=records)))
    flows = night.flows
    night.formers = {name: it for name, it in night.formers.items() if name in flows and night.part.has_flow(flows[name])}


def _remember(night: Night, sent: Sent, records: List[Record]) -> None:
    """Keeps what a message before the time that is taken tells of states."""
    for record in records:
        if record.kind is CLEAR:
            night.formers = {name: it for name, it in night.formers.items() if it.last.creator != record.creator}
        elif record.kind in DELETIONS:
            night.formers.pop(record.name, None)
        elif record.source is not None:
            former = night.formers.get(record.name)
            came = record if sent.arrived is not False else former.came if former else None
            night.formers[record.name] = Former(sent.node, record, came)
