"""The states of both nodes, followed from one reply of the program to the next, so that it need not be asked for them."""
from __future__ import annotations

from typing import Dict, Iterator, List, Optional, Sequence, Set, Tuple

from ..language.names import NODES, Name
from ..language.packets import Key, PacketEvent
from ..language.setups import DEFER, NO_SYNC
from ..model.explanations import TakenRecord
from ..model.frames import Frame
from ..model.pair import Node, Pair
from ..model.receiving import received
from ..model.rulings import deciding
from ..model.setups import Keys, Setup
from ..model.states import State, is_closed
from ..model.tracking import moved, started

_Place = Tuple[str, Key]


class Table:
    """The states of a node, found by their names and by both of their keys."""

    def __init__(self, node: Node):
        self.node = node
        self._wire: Dict[_Place, State] = {}
        self._stack: Dict[_Place, State] = {}
        for state in node.states.values():
            self.put(state)

    def get(self, name: Optional[Name]) -> Optional[State]:
        """The state of a name, if there is one."""
        return self.node.states.get(name) if name else None

    def on_wire(self, protocol: str, key: Key) -> Optional[State]:
        """The state with a key on the wire."""
        return self._wire.get((protocol, key))

    def found(self, packet: PacketEvent) -> Optional[State]:
        """The state of a packet, if it has one."""
        return (self._wire if packet.direction == "in" else self._stack).get((packet.protocol, packet.key))

    def is_free(self, protocol: str, keys: Keys) -> bool:
        """Whether no state has one of the two keys."""
        return (protocol, keys.wire) not in self._wire and (protocol, keys.stack) not in self._stack

    def put(self, state: State) -> None:
        """Adds a state, or puts it in the place of the one with its name."""
        self.node.states[state.name] = state
        self._wire[state.protocol, state.wire] = state
        self._stack[state.protocol, state.stack] = state

    def remove(self, name: Name) -> None:
        """Takes a state away."""
        state = self.node.states.pop(name)
        del self._wire[state.protocol, state.wire]
        del self._stack[state.protocol, state.stack]

    def empty(self) -> None:
        """Takes all states away."""
        self.node.states.clear()
        self._wire.clear()
        self._stack.clear()


class Followed:
    """Both nodes as the replies since the opening leave them: their clocks and states, and which states are to be sent."""

    def __init__(self, setup: Setup, pair: Pair):
        self.setup = setup
        self.tables = {node: Table(pair.nodes[node]) for node in NODES}
        # What the next frame of a node has of its states: those that changed, those that are asked for, those that were deleted.
        self.pending: Dict[str, Set[Name]] = {node: set() for node in NODES}
        self.asked_for: Dict[str, Set[Name]] = {node: set() for node in NODES}
        self.deleted: Dict[str, Set[Name]] = {node: set() for node in NODES}
        # When a packet made a state, by the clock of its node.
        self.began: Dict[Name, int] = {}
        # The packet that was last asked about, and its rule.
        self._ruled: Optional[Tuple[PacketEvent, Optional[int]]] = None

    def rule_of(self, packet: PacketEvent) -> Optional[int]:
        """The number of the rule that decides on a packet."""
        if self._ruled is None or self._ruled[0] != packet:
            self._ruled = packet, deciding(self.setup.rules[packet.node], packet)
        return self._ruled[1]

    def tick(self, milliseconds: int) -> None:
        """Takes that both clocks went on."""
        for it in self.tables.values():
            it.node.clock += milliseconds

    # ---- packets

    def after(self, packet: PacketEvent) -> Optional[State]:
        """What a packet would make of the state that it has; nothing if it has none, or would be dropped."""
        table = self.tables[packet.node]
        state = table.found(packet)
        return moved(self.setup.kernel, state, packet, table.node.clock) if state else None

    def packet(self, packet: PacketEvent, outcome: Sequence[str]) -> None:
        """Takes what came of a packet."""
        table, node = self.tables[packet.node], packet.node
        state = table.found(packet)
        name = Name.read(outcome[1]) if outcome[0] in ("pass", "held") and outcome[1] != "-" else None
        if state and packet.is_request and is_closed(state):
            # (a new connection begins over a closed one)
            self._delete(node, state.name)
        if name is None:
            return
        old = table.get(name)
        new = moved(self.setup.kernel, old, packet, table.node.clock) if old else self._made(packet, name, outcome[0] == "held")
        if new:
            self.began.setdefault(name, table.node.clock)
            table.put(new)
            if NO_SYNC_FLAG not in new.flags:
                self._queue(node, name)

    def _queue(self, node: str, name: Name) -> None:
        """Takes that a state of a node changed; of one that came back before its deletion was sent the peer gets that alone."""
        if name not in self.deleted[node]:
            self.pending[node].add(name)

    def _made(self, packet: PacketEvent, name: Name, is_held: bool) -> Optional[State]:
        """The state that a packet made."""
        table, rules = self.tables[packet.node], self.setup.rules[packet.node]
        number = self.rule_of(packet)
        if number is None:
            return None
        keys = next((key for key in rules[number].keys(packet) if table.is_free(packet.protocol, key)), None)
        if keys is None:
            return None
        source, destination, timeout_class = started(self.setup.kernel, packet)
        no_sync = rules[number].has(NO_SYNC)
        asks = bool(self.setup.limits[DEFER]) and packet.direction == "out" and not no_sync
        flags = NO_SYNC_FLAG if no_sync else "k" if asks and is_held else "-"
        ends = keys.wire, keys.stack, source, destination
        return State(name, packet.protocol, packet.direction, *ends, timeout_class, table.node.clock, number, flags, 0, None)

    # ---- frames

    def sent(self, node: str, frame: Frame) -> None:
        """Takes a frame that a node has sent."""
        for record in frame.records:
            for its in (self.pending, self.asked_for, self.deleted):
                its[node].discard(record.name)

    def came(self, frame: Frame, fates: Sequence[TakenRecord]) -> None:
        """Takes a frame that came to its receiver, and what became of its records."""
        table = self.tables[frame.to]
        made = [*received(self.setup, self.setup.kernel, table.node, frame, fates)]
        for record, fate, came in zip(frame.records, fates, made):
            if fate.fate[0] == "deleted":
                self._forget(frame.to, record.name)
            elif fate.fate[0] == "cleared":
                for name in [name for name in table.node.states if fate.takes(self.setup.kernel, name)]:
                    self._forget(frame.to, name)
            if came:
                table.put(came.state)
            if fate.stale:
                self._queue(frame.to, record.name)
            if fate.fate[0] == "queued":
                self.asked_for[frame.to].add(record.name)

    # ---- other events

    def killed(self, node: str, name: Name) -> None:
        """Takes that a node deleted a state."""
        self._delete(node, name)

    def cleared(self, node: str) -> None:
        """Takes that a node gave up all its states; deletions that it has yet to send stay."""
        self.tables[node].empty()
        for its in (self.pending, self.asked_for):
            its[node].clear()

    def restarted(self, node: str) -> None:
        """Takes that a node began anew."""
        self.cleared(node)
        self.deleted[node].clear()

    def _delete(self, node: str, name: Name) -> None:
        """Takes a state away whose deletion the peer is to get."""
        state = self.tables[node].get(name)
        self._forget(node, name)
        if state and NO_SYNC_FLAG not in state.flags:
            self.deleted[node].add(name)

    def _forget(self, node: str, name: Name) -> None:
        if self.tables[node].get(name):
            self.tables[node].remove(name)
        for its in (self.pending, self.asked_for):
            its[node].discard(name)

    def differing(self, shown: Pair) -> List[str]:
        """The states that are not as a shown pair has them."""
        return [it for node in NODES for it in _differing(node, self.tables[node].node.states, shown.nodes[node].states)]


# A state's flag that it is not for the peer.
NO_SYNC_FLAG = "n"


def _differing(node: str, followed: Dict[Name, State], shown: Dict[Name, State]) -> Iterator[str]:
    for name in sorted({*followed, *shown}):
        one, other = followed.get(name), shown.get(name)
        if (one and compared(one)) != (other and compared(other)):
            yield f"{name} of {node}"


def compared(state: State) -> Tuple[object, ...]:
    """All of a state that packets and frames make and change."""
    flow = state.protocol, state.direction, state.wire, state.stack
    return (*flow, state.source, state.destination, state.timeout_class, state.last, state.rule)
