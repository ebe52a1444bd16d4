"""What leads the pair of the laboratory to the states that messages tell of: packets, deletions, restarts and turns of bulk updates."""
from __future__ import annotations

from bisect import bisect_right
from dataclasses import replace
from itertools import takewhile
from typing import Dict, Iterator, List, Optional, Sequence, Set, Tuple

from ..captures.decoding import Ends, Peer, Record
from ..captures.files import NANOSECONDS
from ..captures.pairing import Sent
from ..captures.wording import timeout_class
from ..language.events import RETRY, TURN
from ..language.names import BULK_END, MULTIPLE, NODES, SINGLE, TIME_WAIT, Name
from ..language.packets import PacketEvent
from ..language.records import BULK_STATUS, CLEAR as CLEAR_RECORD, INSERT, SHORT_UPDATE, UPDATE, UPDATE_REQUEST
from ..language.setups import STATES
from ..model.frames import Changes
from ..model.kernels import Kernel
from ..model.merging import merged
from ..model.pair import other
from ..model.states import End, Flow, State
from ..model.tracking import has_levels, moved
from ..shows.words import end_fields
from .carrying import Carrying
from .levels import DESTINATION, SOURCE
from .night import DELETIONS, Former, Night, is_about_state, place_of
from .playing import Playing, passes
from .segments import Flow as FlowOfPackets, ahead
from .setting import TooMuch
from .ways import Wanted, keyed, way_to

_REFUSED = "refused"
# (`full`: the table of the node)
_FULL = ["drop", "full"]
# Ages are in whole seconds: two states that began within this many milliseconds may be one.
_ROUNDED = 2000


class Causes:
    """Brings the pair to what the messages of a night tell, and keeps which state of the laboratory is which of the captures."""

    def __init__(self, night: Night, playing: Playing, carrying: Carrying):
        self.night, self.playing, self.carrying = night, playing, carrying
        # The laboratory's names of the captured states, and the other way round.
        self.names: Dict[str, Name] = {}
        self.captured: Dict[Name, str] = {}
        # How many records there is nothing to explain by.
        self.unexplained = 0
        # The nodes that wait for a bulk update, and the places of requests for all whose node has begun anew already.
        self._asking: Set[str] = set()
        self._begun: Set[int] = set()
        # The places of the messages of each node.
        self._places = {node: [place for place, it in enumerate(night.sent) if it.node == node] for node in NODES}

    # ---- names

    def called(self, record: Record, name: Name) -> None:
        """Keeps the name that a captured state has here."""
        self.names[record.name] = name
        self.captured[name] = record.name

    def state_of(self, node: str, captured: str) -> Optional[State]:
        """The state that a node has here of a captured one."""
        return self.playing.followed.tables[node].get(self.names.get(captured))

    # ---- the states that were there

    def begin(self) -> None:
        """Makes the states that were there before: both nodes have them, as far as is known."""
        formers = [*self._told_later(), *self.night.formers.items()]
        for node in NODES:
            its = [it for _, it in formers if it.node == node]
            self._begin(node, [it.came for it in its if it.came], is_lost=False)
            self._begin(node, [it.last for it in its if it.came is not it.last], is_lost=True)
            self._ask(node, [name for name, it in formers if it.node == node and it.is_asked_for])

    def _told_later(self) -> Iterator[Tuple[str, Former]]:
        """The states that no message inserts, as the first record with ends tells of them. What a node first asks for it does not have."""
        for name, its in self.night.told.items():
            first = next((it for it in its if it.record.source is not None), None)
            if first is None or its[0].record.kind is INSERT or name in self.night.formers or name not in self.night.flows:
                continue
            is_asked_for = its[0].record.kind is UPDATE_REQUEST and its[0].sent.node != first.sent.node
            yield name, Former(first.sent.node, first.record, None if is_asked_for else first.record, is_asked_for)

    def _begin(self, node: str, records: Sequence[Record], is_lost: bool) -> None:
        """Makes states at a node, whose frames then come to the other one, or are lost."""
        if not records:
            return
        what = f"What {other(node)} had not heard of before" if is_lost else f"What was there before: states of {node}"
        self.playing.begin(what)
        for record in records:
            self.bring(node, record)
        for frame in iter(lambda: self.playing.flush(node), None):
            if is_lost:
                self.playing.lose(frame.ticket)
            else:
                self.playing.deliver(frame.ticket)

    def _ask(self, node: str, names: Sequence[str]) -> None:
        """Lets short updates of states come that the other node does not have, so that it asks for them."""
        for name in names:
            state = self.state_of(node, name)
            packet = self._still(node, state, state.timeout_class, False) if state else None
            if packet:
                self.playing.packet(packet)
        for frame in iter(lambda: self.playing.flush(node) if names else None, None):
            self.playing.deliver(frame.ticket)

    # ---- what comes before a frame is sent

    def cause(self, sent: Sent, place: int) -> None:
        """Lets happen what would have led to the records of a message."""
        records, node = sent.message.records, sent.node
        if any(it.asks_for_all for it in records) and place not in self._begun:
            self._restart(node)
        if any(it.kind is CLEAR_RECORD for it in records):
            self.playing.clear(node)
        for record in records:
            if record.kind in DELETIONS:
                self._delete(node, record)
        for record in records:
            if record.kind in (INSERT, SHORT_UPDATE, UPDATE):
                self._change(node, record)
        if any(it.kind is BULK_STATUS and it.status == BULK_END for it in records):
            self._end(node)
        self._forget_untold(node, place)

    def _restart(self, node: str) -> None:
        """A node that asks for all states has begun anew, or asks again."""
        if node in self._asking and self.playing.step(f"{RETRY.word} {node}")[0] != _REFUSED:
            return
        self.playing.restart(node)
        self._asking.add(node)

    def _delete(self, node: str, record: Record) -> None:
        name = self.names.get(record.name)
        if name and name in self.playing.followed.deleted[node]:
            # (a new connection began over it, or it was deleted before)
            return
        if not name or not self.playing.kill(node, name):
            self.playing.say(f"{record.name}: {node} deletes it, and does not have it here")

    def _change(self, node: str, record: Record) -> None:
        """A state was made or changed. A whole update was asked for, or is part of a bulk update."""
        followed = self.playing.followed
        name = self.names.get(record.name)
        if record.kind is UPDATE and (not name or name not in followed.asked_for[node]):
            self.playing.step(f"{TURN.word} {node}")
        state = followed.tables[node].get(name)
        if name and not state:
            self.playing.say(f"{record.name}: {node} changes it, and does not have it here")
            self.unexplained += 1
            return
        if state is None or record.kind is SHORT_UPDATE or not self._is_as(state, record):
            self.bring(node, record)

    def _is_as(self, state: State, record: Record) -> bool:
        """Whether the ends of a state are those that a record tells of."""
        goal = wanted(self.playing.followed.setup.kernel, self.night.flows[record.name], record)
        return goal is not None and (state.source, state.destination) == (goal.source, goal.destination)

    def _end(self, node: str) -> None:
        """A bulk update comes to its end."""
        while self.playing.step(f"{TURN.word} {node}")[0] != _REFUSED:
            pass

    def _forget_untold(self, node: str, place: int) -> None:
        """Deletes the states that carried packets made, and that the node would send now, but sends neither now nor later: they were
        gone."""
        followed = self.playing.followed
        for name in sorted(followed.pending[node]):
            state = followed.tables[node].get(name)
            if name in self.captured or state is None:
                continue
            its = self.night.inserted.get((state.protocol, state.wire), ())
            began = followed.began[name] + _ROUNDED
            if not any(it.sent.node == node and it.place > place and self._began(it.sent, it.record) <= began for it in its):
                self.playing.say(f"{name}, which the packets made, is in no message: it was gone before this frame")
                self.playing.kill(node, name)

    def _began(self, sent: Sent, record: Record) -> int:
        """When a state began that a message inserts, by the clock of the laboratory in milliseconds, as its age says."""
        assert self.playing.time is not None
        clock = self.playing.followed.tables[sent.node].node.clock
        return clock + (sent.time - self.playing.time) // NANOSECONDS * 1000 - record.age * 1000

    # ---- what comes before a frame is delivered

    def before_delivery(self, sent: Sent, place: int) -> None:
        """Lets happen at the receiver what it tells of later, and could not have come after the frame: a restart, a state of its own of a
        flow that the frame brings, a deletion, and packets that made a state go on where the frame is behind."""
        node = other(sent.node)
        if self._has_begun_anew(node, place):
            self._restart(node)
        for record in sent.message.records:
            if record.kind is INSERT:
                self._made_before(node, record, place)
            elif is_about_state(record) and self.state_of(node, record.name):
                deleted = self._deleted_before(node, record, place)
                if deleted:
                    self.playing.say(f"frame {deleted.number} shows that {node} had deleted {record.name} before this frame came")
                    self.playing.kill(node, self.names[record.name])
                elif record.source is not None:
                    self._moved_before(node, record, place)

    def _has_begun_anew(self, node: str, place: int) -> bool:
        """Whether a node that asks for all states in its next message had lost them when a message came: it asks there as well for a state
        that this one changes, and that it has here, or has later what this one brings; and it asks for each state that is changed by what
        comes after."""
        one, sent = self.night.sent[place], self.night.sent
        later = self._next_of(node, place, _arrival(one))
        if later is None or later in self._begun or not any(record.asks_for_all for record in sent[later].message.records):
            return False
        asked = {record.name for record in sent[later].message.records if record.kind is UPDATE_REQUEST}
        has_asked = any(it in asked and self.state_of(node, it) for it in _changed(one))
        if not has_asked and not any(self._is_kept(node, record, later) for record in one.message.records if record.kind is INSERT):
            return False
        others = (it for it in sent[:later] if it.node != node and it.arrived is not False)
        came = [it for it in others if _arrival(one) <= _arrival(it) < sent[later].time]
        brought = {record.name for it in came for record in it.message.records if record.is_whole}
        if any(not {*_changed(it)} <= asked | brought for it in came):
            return False
        self._begun.add(later)
        self.playing.say(f"frame {sent[later].number} shows that {node} had begun anew")
        return True

    def _is_kept(self, node: str, record: Record, place: int) -> bool:
        """Whether a node that has asked for all states in a message changes one later that came before it, and did not come again."""
        first = next(self.night.told_after(record.name, node, place), None)
        if first is None or first.record.kind is not SHORT_UPDATE:
            return False
        until = first.place
        its = takewhile(lambda it: it.place < until, self.night.told_after(record.name, other(node), place))
        return not any(it.record.is_whole for it in its)

    def _next_of(self, node: str, place: int, time: int) -> Optional[int]:
        """The place of the first message that a node sends after a message and after a time."""
        places = self._places[node]
        for number in range(bisect_right(places, place), len(places)):
            if self.night.sent[places[number]].time > time:
                return places[number]
        return None

    def _deleted_before(self, node: str, record: Record, place: int) -> Optional[Sent]:
        """The message by which a node shows that it had deleted a state before a record of it came: it deletes the state that the record
        deletes, or asks for the state that the record changes, and deletes it as well."""
        first = next(self.night.told_after(record.name, node, place), None)
        if first is None or record.kind in DELETIONS:
            return first.sent if first and first.record.kind in DELETIONS else None
        if record.kind is not SHORT_UPDATE:
            return None
        at = first.place
        its = takewhile(lambda it: it.place == at, self.night.told_after(record.name, node, at - 1))
        if not any(it.record.kind is UPDATE_REQUEST for it in its) or self._comes_again(record, place, first.sent.time):
            return None
        return next((it.sent for it in self.night.told_after(record.name, node, at - 1) if it.record.kind in DELETIONS), None)

    def _comes_again(self, record: Record, place: int, until: int) -> bool:
        """Whether another change of a state comes after that of a message, and before a time."""
        one = self.night.sent[place]
        for told in self.night.told_after(record.name, one.node, place):
            if told.sent.time >= until:
                break
            if told.record.kind is SHORT_UPDATE and told.sent.came is not None and _arrival(one) < told.sent.came < until:
                return True
        return False

    def _made_before(self, node: str, record: Record, place: int) -> None:
        flow = place_of(self.night.flows[record.name])
        if self.playing.followed.tables[node].on_wire(*flow):
            return
        for told in self.night.inserted.get(flow, ()):
            is_own = told.sent.node == node and told.place > place and told.record.name not in self.names
            if is_own and not self.night.is_deleted_between(record.name, place, told.place):
                self.playing.say(f"frame {told.sent.number} shows that {node} had a state of its own of this flow")
                self.bring(node, told.record)

    def _moved_before(self, node: str, record: Record, place: int) -> None:
        state, later = self.state_of(node, record.name), self.night.next_told(record.name, node, place)
        if not state or not later or state.protocol != "tcp" or self.carrying.has(node, self.night.flows[record.name]):
            return
        kernel, came = self.playing.followed.setup.kernel, changes_of(record)
        goal = wanted(kernel, self.night.flows[record.name], later.record)
        after = merged(kernel, state, came).state
        allows_less = goal and (_allows_less(goal.source, after.source) or _allows_less(goal.destination, after.destination))
        if not goal or not (allows_less or is_behind(goal, after)):
            return
        for ends in ((goal.source, goal.destination), (state.source, goal.destination), (goal.source, state.destination)):
            trial = goal._replace(source=ends[0], destination=ends[1])
            then = merged(kernel, replace(state, source=ends[0], destination=ends[1]), came).state
            packets = self._packets(node, state, trial) if not missed(then, goal) else []
            if packets:
                self.playing.say(f"frame {later.sent.number} shows that {node} had moved on before this frame came")
                for packet in packets:
                    self.playing.packet(packet)
                return

    def _packets(self, node: str, state: State, goal: Wanted) -> Sequence[PacketEvent]:
        """The packets that bring a state to a goal; none if they miss it."""
        way = self._way(node, state, goal)
        then: Optional[State] = state
        for packet in way:
            then = moved(self.playing.followed.setup.kernel, then, packet, state.last) if then else None
        return way if then and not missed(then, goal) else ()

    def _way(self, node: str, now: Optional[State], goal: Wanted, picks_up: bool = True) -> Sequence[PacketEvent]:
        """The packets that lead to a goal, or near to it; none if that is behind the state."""
        if now:
            if is_behind(goal, now):
                return ()
            goal = goal._replace(source=_with_window(goal.source, now.source), destination=_with_window(goal.destination, now.destination))
        return way_to(self.playing.followed.setup.kernel, node, now, goal, picks_up).packets

    # ---- packets that bring a state to a record

    def bring(self, node: str, record: Record) -> None:
        """Lets packets come that bring a node's state to what a record tells of it."""
        followed, flow = self.playing.followed, self.night.flows.get(record.name)
        if flow is None:
            self._missed(record, "its keys are in no message")
            return
        name = self.names.get(record.name)
        now = followed.tables[node].get(name)
        if now is None:
            now = self._under_other_name(node, record, flow)
        if now and self.carrying.has(node, flow):
            return
        goal = wanted(followed.setup.kernel, flow, record)
        if goal is None:
            self._missed(record, "an end of it is at a level that the laboratory does not have")
            return
        if now is None and self._begin_held(node, flow, record):
            return
        way = self._way(node, now, goal)
        if now is None and not way[0].is_request and not self._passes(node, way[0]):
            way = self._way(node, now, goal, picks_up=False)
        if now is None and not self._may_begin(node, way[0], record):
            return
        for packet in way:
            outcome = self.playing.packet(packet)
            self._refuse_full(outcome)
            if not passes(outcome):
                self._missed(record, f"a packet of it is dropped here ({' '.join(outcome)})")
                return
            if now is None and outcome[1] != "-":
                self.called(record, Name.read(outcome[1]))
        self._tell(node, record)
        self._say_missed(node, record, goal)

    def _begin_held(self, node: str, flow: Ends, record: Record) -> bool:
        """Begins a state by the packet that a node held until the state was acknowledged, and then let out."""
        if not record.is_whole or not record.asks_for_acknowledgement or not self.carrying.has(node, flow) or self.playing.time is None:
            return False
        packet = self.carrying.first_after(node, flow, self.playing.time)
        if packet is None or not self._may_begin(node, packet, record):
            return False
        outcome = self.playing.packet(packet)
        if passes(outcome) and outcome[1] != "-":
            self.called(record, Name.read(outcome[1]))
        return True

    def _under_other_name(self, node: str, record: Record, flow: Ends) -> Optional[State]:
        """A state that the node has of the flow, and that is no other captured one."""
        state = self.playing.followed.tables[node].on_wire(*place_of(flow))
        if state is None:
            return None
        if state.name not in self.captured:
            self.called(record, state.name)
            return state
        if record.kind is INSERT and self.carrying.has(node, flow):
            self.playing.say(f"{node} has {state.name} of this flow, and inserts another state: the former one was gone by then")
            self.playing.kill(node, state.name)
        return None

    def _may_begin(self, node: str, packet: PacketEvent, record: Record) -> bool:
        """Whether the rules let a packet begin a state; a comment says where they do not."""
        held = self.playing.followed.tables[node].found(packet)
        if held:
            self._missed(record, f"{node} has its flow here as {held.name}")
            return False
        if not self._passes(node, packet):
            rules, number = self.playing.followed.setup.rules[node], self.playing.followed.rule_of(packet)
            which = "no rule matches" if number is None else f"rule {number} of {node} ({rules[number].described}) blocks"
            self._missed(record, f"{which} its first packet, and on the pair it passed")
            return False
        return True

    def _passes(self, node: str, packet: PacketEvent) -> bool:
        """Whether the rules let a packet begin a state."""
        rules, number = self.playing.followed.setup.rules[node], self.playing.followed.rule_of(packet)
        return number is not None and rules[number].action == "pass"

    def _tell(self, node: str, record: Record) -> None:
        """Lets a packet come that moves nothing, where no change of the state is to be sent, or where it brings the state's class."""
        followed = self.playing.followed
        state = self.state_of(node, record.name)
        if state is None:
            return
        is_told = state.name in followed.pending[node]
        if is_told and state.timeout_class == timeout_class(record.timeout):
            return
        packet = self._still(node, state, timeout_class(record.timeout), is_told)
        if packet:
            self.playing.packet(packet)

    def _still(self, node: str, state: State, wanted_class: str, is_told: bool) -> Optional[PacketEvent]:
        """A packet that leaves both ends as they are, and the state in a class, if there is one; else one that leaves the ends."""
        kernel = self.playing.followed.setup.kernel
        others: Optional[PacketEvent] = None
        for packet in _still_packets(node, state):
            then = moved(kernel, state, packet, state.last)
            if then and (then.source, then.destination) == (state.source, state.destination):
                if then.timeout_class == wanted_class:
                    return packet
                others = packet if others is None else others
        return None if is_told else others

    def _refuse_full(self, outcome: Sequence[str]) -> None:
        if [*outcome] == _FULL and self.playing.followed.setup.limits[STATES] == STATES.most:
            raise TooMuch(f"a node would have more than {self.playing.followed.setup.limits[STATES]} states")

    def _missed(self, record: Record, why: str) -> None:
        self.playing.say(f"{record.name}: {why}, so nothing is stepped for it")
        self.unexplained += 1

    def _say_missed(self, node: str, record: Record, goal: Wanted) -> None:
        """Says in what the packets miss a record; without its levels it counts as not explained."""
        state = self.state_of(node, record.name)
        parts = missed(state, goal) if state else ["no state"]
        if parts:
            self.playing.say(f"{record.name}: packets lead to {', '.join(parts)}")
        if not state or (state.source.level, state.destination.level) != (goal.source.level, goal.destination.level):
            self.unexplained += 1


# ---- records as the laboratory has them


def wanted(kernel: Kernel, flow: Ends, record: Record) -> Optional[Wanted]:
    """What a record tells of a state; nothing if the laboratory does not have its levels."""
    assert record.source and record.destination
    ends = end_of(flow.protocol, record.source), end_of(flow.protocol, record.destination)
    if max(end.level for end in ends) > TIME_WAIT:
        return None
    keys = keyed(flow.protocol, flow.wire), keyed(flow.protocol, flow.stack)
    return Wanted(flow.protocol, flow.direction, *keys, *_levelled(kernel, flow, record, ends))


def _levelled(kernel: Kernel, flow: Ends, record: Record, ends: Tuple[End, End]) -> Tuple[End, End]:
    """The ends of a state; an echo has no levels in pf, be it of IPv6, and where it has some here it gets those of one packet, or of one
    and its answer."""
    if flow.protocol not in ("icmp", "58") or not has_levels(kernel, flow.protocol) or ends[0].level or ends[1].level:
        return ends
    levels = (SINGLE, 0) if timeout_class(record.timeout) == "icmp.first" else (MULTIPLE, SINGLE)
    return replace(ends[0], level=levels[0]), replace(ends[1], level=levels[1])


def end_of(protocol: str, peer: Peer) -> End:
    """An end as the laboratory has it; other protocols than TCP have only a level."""
    if protocol != "tcp":
        return End(peer.level, None, 0, 0, 0)
    return End(peer.level, peer.scale, peer.window, peer.lo, peer.hi)


def changes_of(record: Record) -> Changes:
    """What a record of TCP changes of a state."""
    assert record.source and record.destination
    return Changes(end_of("tcp", record.source), end_of("tcp", record.destination), timeout_class(record.timeout), record.remaining)


def _changed(sent: Sent) -> List[str]:
    """The states that a message changes by short updates."""
    return [record.name for record in sent.message.records if record.kind is SHORT_UPDATE]


def _arrival(sent: Sent) -> int:
    """When a message came; where that is not known, when it was sent."""
    return sent.time if sent.came is None else sent.came


def is_behind(goal: Wanted, state: Flow) -> bool:
    """Whether a goal is behind a state, at an end: no packets lead there."""
    for end, now in ((goal.source, state.source), (goal.destination, state.destination)):
        if end.level < now.level or goal.protocol == "tcp" and now.window and ahead(end.lo, now.lo) < 0:
            return True
    return False


def _allows_less(goal: End, now: End) -> bool:
    """Whether an end that is to be reached may send less far than it may already."""
    return now.window > 0 and ahead(goal.hi, now.hi) < 0


def missed(state: Flow, goal: Wanted) -> List[str]:
    """In what a state is not a goal: in levels, and of TCP in numbers."""
    parts = []
    for which, end, now in (("source", goal.source, state.source), ("destination", goal.destination, state.destination)):
        fields = ("level", "lo", "hi") if goal.protocol == "tcp" else ("level",)
        its, wanted_fields = end_fields(goal.protocol, now), end_fields(goal.protocol, end)
        parts += [f"{which} {field} {its[field]} and not {wanted_fields[field]}" for field in fields if its[field] != wanted_fields[field]]
    return parts


def _with_window(goal: End, now: End) -> End:
    """An end that is to be reached, with the greatest window that the state has seen where its own is below that."""
    return replace(goal, window=max(goal.window, now.window))


def _still_packets(node: str, state: State) -> Iterator[PacketEvent]:
    """Packets that may leave a state as it is."""
    flow = FlowOfPackets(node, state.protocol, state.direction, state.wire, state.stack)
    if state.protocol != "tcp":
        yield from (flow.packet(end) for end in (SOURCE, DESTINATION))
        return
    ends = state.source, state.destination
    for flags in ("A", "-"):
        for end in (SOURCE, DESTINATION):
            ack = ends[1 - end].lo if flags == "A" else 0
            yield replace(flow.packet(end), length=0, flags=flags, seq=ends[end].lo, ack=ack)
