"""Why a node has no state for a packet for which its peer has one: what became of the frames about it."""
from __future__ import annotations

from dataclasses import replace
from functools import lru_cache
from itertools import islice
from typing import Callable, Container, Iterable, Iterator, List, Optional, Sequence

from ..language.commands import KERNEL
from ..language.events import BROKEN, CLEAR, DELIVER, EVENTS, HELD_BACK, KILL, PACKET, PASS, PURGE, RESTART, read_packet
from ..language.forms import is_tcp
from ..language.names import Name
from ..language.packets import PacketEvent
from ..language.records import CLEAR as CLEAR_RECORD, INSERT, QUEUES, SHORT_DELETE, SHORT_UPDATE, UPDATE, RecordKind
from ..language.setups import CLEAR as CLEAR_RULE
from ..model.branches import Happened
from ..model.flights import Flight
from ..model.kernels import PROFILE
from ..model.pair import Node, other
from .came import Came, came_records
from .questions import Question, peer_of, state_words
from .taken import became

# What brings a state to a node that does not have it, and what else is about one.
WHOLE = (INSERT, UPDATE)
ABOUT_STATES = (*WHOLE, SHORT_UPDATE)
# Whether a node lost a state, by what it was before and after an event.
IsLoss = Callable[[Node, Node], bool]
# At most this many frames about a state are named.
MOST_FATES = 4


# (who asks for the reason of an event may ask for this part of it again)
@lru_cache(maxsize=1)
def explain_absence(question: Question) -> Sequence[str]:
    """Why no state matched when one could be expected; nothing if none could be."""
    packet = question.packet
    here, there = question.table(packet.node), peer_of(question, packet.node)
    if here.found(packet) is not None:
        return []
    lines = _turned(here, packet)
    state = there.found(packet)
    if state is None:
        return lines + _gone_by_flow(question)
    if state.name in here.states:
        return [*lines, f"node {there.id} matches it to state {state.name}, which {here.id} has with other keys"]
    why = _why_absent(question, state.name, packet.node)
    return [*lines, f"node {there.id} has {state_words(state)} for this flow; {here.id} does not: {why[0]}", *why[1:]]


def _gone_by_flow(question: Question) -> List[str]:
    """The last event that removed a state of this flow from the node, if neither node has one now."""
    packet = question.packet

    def is_loss(before: Node, after: Node) -> bool:
        state = before.found(packet)
        return state is not None and state.name not in after.states

    lost = _newest_loss(question, _names_of(question), is_loss)
    state = question.history.pair(lost.number - 1).nodes[packet.node].found(packet) if lost else None
    return [f"node {packet.node} had {state_words(state)} for this flow until {lost}; no node has one now"] if state else []


def _names_of(question: Question) -> List[Name]:
    """The states that a node can have had for the packet's flow: those of the packets of both nodes with the same ends, or the
    same far end if rules are known to translate the near one. A state that a frame brought was made by a packet, too."""
    packet = question.packet
    translate = any(rule.pool for rules in question.lab.setup.rules.values() for rule in rules)
    # (first a look at the text, at the rarer end before all: there can be many packets)
    far, rarer = packet.key.far, packet.key.far if translate else packet.key.near
    lines = ((number, line) for number, line in enumerate(question.history.lines, 1) if rarer in line and far in line)
    packets = ((number, read_packet(line)) for number, line in lines if line.startswith(f"{PACKET.word} "))
    made = (number for number, one in packets if _meets(one, packet) and (translate or one.key == packet.key))
    outcomes = (question.history.explained(it).event.outcome for it in made)
    return list({Name.read(outcome[1]): None for outcome in outcomes if outcome[0] in (PASS.word, HELD_BACK.word) and outcome[1] != "-"})


def _newest_loss(question: Question, names: Sequence[Name], is_loss: IsLoss) -> Optional[Happened]:
    """The last event that removed a state of one of these names from the packet's node, as the node before and after it shows."""
    node, history = question.packet.node, question.history
    for number in range(len(history.lines) if names else 0, 0, -1):
        if _may_take(question, number, names) and is_loss(*(history.pair(number - more).nodes[node] for more in (1, 0))):
            return history.explained(number).event
    return None


def _may_take(question: Question, number: int, names: Sequence[Name]) -> bool:
    """Whether an event can have removed one of the states of the packet's flow, if it did not do so at the other node."""
    packet, line = question.packet, question.history.lines[number - 1]
    words = line.split()
    event = EVENTS[words[0]]
    if event is DELIVER:
        kernel = question.lab.setup.kernel
        return any(record.takes(kernel, name) for record in question.history.explained(number).records for name in names)
    if words[1] != packet.node:
        return False
    if event is PACKET:
        # A new connection ends a closed one with the same ends.
        return is_tcp(words[3]) and read_packet(line).is_request and _meets(read_packet(line), packet)
    return event in (PURGE, CLEAR, RESTART) or event is KILL and Name.read(words[2]) in names


def _meets(one: PacketEvent, two: PacketEvent) -> bool:
    return one.protocol == two.protocol and one.key.far == two.key.far


def _turned(node: Node, packet: PacketEvent) -> List[str]:
    """States with the same two ends that do not match, because of this packet's direction or its untranslated end."""
    lines = []
    way = "in" if packet.direction == "out" else "out"
    as_turned = node.found(replace(packet, direction=way))
    if as_turned is not None:
        lines.append(f"{state_words(as_turned)} of {node.id} has these ends, but matches this packet only on its way {way}")
    for state in node.states.values():
        keys = {"wire": state.wire, "stack": state.stack}
        which, translated = ("wire", "stack") if packet.direction == "in" else ("stack", "wire")
        if state.protocol == packet.protocol and keys[translated] == packet.key:
            lines.append(
                f"{state_words(state)} of {node.id} is translated: on the way {packet.direction} its {which} key counts, "
                f"with {keys[which].near}, and the packet has {packet.key.near}"
            )
    return lines


def _why_absent(question: Question, name: Name, node: str) -> List[str]:
    """What kept the state from the node or removed it, newest first if several things did."""

    def is_loss(before: Node, after: Node) -> bool:
        return name in before.states and name not in after.states

    gone = _newest_loss(question, [name], is_loss)
    since = gone.number if gone else 0
    carriers = (carrier for carrier in _carriers(question, name, node, WHOLE) if carrier.ended is None or carrier.ended.number > since)
    fates = _fates(question, islice(carriers, MOST_FATES), name)
    if gone is None:
        return fates or [_unsent(question, peer_of(question, node), name)]
    there = f"it was there until {gone}"
    # A short update would not bring it.
    queued = yet_to_send(peer_of(question, node), name, (INSERT.queue, UPDATE.queue))
    parts = [*([queued] if queued else []), *fates]
    return [*parts[:-1], f"{parts[-1]}; before that {there}"] if parts else [there]


def _fates(question: Question, newest: Iterable[Flight], name: Name) -> List[str]:
    """What became of frames with the state, newest first."""
    return [f"{'before that, ' * bool(at)}{_fate(question, it, name)}" for at, it in enumerate(newest)]


def explain_lag(question: Question, name: Name, node: str) -> List[str]:
    """Why a node's copy of a state is not what the peer has: what the peer has yet to send, or what was lost."""
    peer = peer_of(question, node)
    queued = yet_to_send(peer, name)
    if queued:
        return [queued]
    newest = islice(_carriers(question, name, node, ABOUT_STATES), 1)
    return [f"the newest that {peer.id} sent about it: {fate}" for fate in _fates(question, newest, name)]


def _carriers(question: Question, name: Name, node: str, kinds: Sequence[RecordKind]) -> Iterator[Flight]:
    """The frames to the node with such records of the state, newest first."""
    return (flight for flight in question.history.newest_flights() if flight.to == node and _carried(flight, name, kinds))


def _carried(flight: Flight, name: Name, kinds: Sequence[RecordKind]) -> Optional[RecordKind]:
    """The kind of a frame's first such record of the state, if there is one."""
    return next((record.kind for record in flight.frame.records if record.kind in kinds and record.name == name), None)


def _fate(question: Question, flight: Flight, name: Name) -> str:
    """What became of a frame about the state."""
    frame, sent, ended = f"frame {flight.ticket}", f"(event {flight.sent.number})", flight.ended
    if ended is None:
        if flight.now.broken:
            return f"{frame}, which brought it {sent}, is in flight, but was cut short"
        return f"{frame}, which brings it {sent}, is still in flight"
    kind = _carried(flight, name, ABOUT_STATES)
    what = "insertion" if kind is INSERT else kind.name if kind else ""
    if flight.is_lost:
        return f"its {what} was lost in {frame} (event {ended.number})"
    if ended.outcome[0] == BROKEN.word:
        return f"{frame}, which brought it, could not be read (event {ended.number}: {ended.came})"
    came = came_records(question.history, ended.number, flight.ticket)
    at = next(place for place, it in enumerate(came) if it.record.name == name and it.record.kind is kind)
    return f"its {what} in {frame} was delivered (event {ended.number}): {became(came[at])}{_gone_again(came, at)}"


def _gone_again(came: Sequence[Came], at: int) -> str:
    """That a later record of the same frame took the state that a record made; empty if none did."""
    if came[at].taken.fate[0] != "imported":
        return ""
    for place, later in enumerate(came[at + 1 :], at + 2):
        if later.taken.takes(later.kernel, came[at].name):
            took = "cleared" if later.record.kind is CLEAR_RECORD else "deleted"
            by_kernel = "" if later.taken.takes(PROFILE, came[at].name) else f" (by {KERNEL.word} {CLEAR_RULE.word})"
            return f"; then record {place} of that frame, a {later.record.kind.name}, {took} it{by_kernel}"
    return ""


def yet_to_send(node: Node, name: Name, kinds: Container[str] = QUEUES) -> str:
    """A line that a node has yet to send something about a state, by these queues; empty if it has not. Of a state that came back before
    its deletion was sent that is the deletion alone."""
    for queued in node.queue:
        if queued.name == name and queued.kind in kinds:
            if queued.kind == SHORT_DELETE.queue:
                return f"{node.id} sends nothing of it but its own deletion, which is pending (`flush {node.id}` sends it)"
            return f"{node.id} has it on its {QUEUES[queued.kind]} queue, and has not sent it yet (`flush {node.id}`)"
    return ""


def _unsent(question: Question, peer: Node, name: Name) -> str:
    """Why no frame brought the state."""
    state = peer.states[name]
    if "n" in state.flags:
        return f"{question.rule_words(peer.id, state.rule)} made it with `no-sync`, so {peer.id} never sends it"
    return yet_to_send(peer, name) or f"no frame to {other(peer.id)} has carried it"
