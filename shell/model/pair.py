"""The pair as a shown branch has it: both nodes, and the link between them."""
from __future__ import annotations

from dataclasses import dataclass, field
from functools import lru_cache
from typing import Callable, Dict, List, Optional, Sequence, Tuple

from ..language.names import COUNTERS, Name
from ..language.packets import PacketEvent
from .frames import Frame
from .states import State

# How many lines of states are kept as read: pairs that are shown one after another have most of them in common.
_KEPT_LINES = 1 << 13


class NotShown(ValueError):
    """The text is not a shown branch."""


@dataclass(frozen=True)
class Queued:
    """A state whose name waits to be sent to the peer."""

    kind: str
    number: int
    name: Name


@dataclass(frozen=True)
class Held:
    """A packet that waits until the peer knows its state. The pair shows the state and since when; the packet itself comes from the
    log of the branch, and is empty until someone has looked there."""

    name: Name
    since: int
    packet: str = ""

    @classmethod
    def read(cls, words: Sequence[str]) -> "Held":
        name, since = words
        return cls(Name.read(name), int(since))


@dataclass(frozen=True)
class Cleared:
    """What this node gave up, and has to report to the peer: the states of a creator up to an id."""

    creator: int
    bound: int


@dataclass
class Node:
    """Everything about a node."""

    id: str
    clock: int
    boot: int
    next_id: int
    next_number: int
    push: bool
    serve: str
    sync: str
    counters: Dict[str, int] = field(default_factory=dict)
    states: Dict[Name, State] = field(default_factory=dict)
    queue: List[Queued] = field(default_factory=list)
    asks: List[Name] = field(default_factory=list)
    statuses: List[int] = field(default_factory=list)
    clears: List[Cleared] = field(default_factory=list)
    held: List[Held] = field(default_factory=list)

    @classmethod
    def read(cls, words: Sequence[str]) -> "Node":
        (node, _, clock, _, boot, _, next_id, _, number, _, push, _, serve, _, sync) = words
        return cls(node, int(clock), int(boot), int(next_id), int(number), push == "1", serve, sync)

    def found(self, packet: PacketEvent) -> Optional[State]:
        """The state with the packet's key: its wire key on the way in, its stack key on the way out."""
        is_in = packet.direction == "in"
        by_key = {(state.protocol, state.wire if is_in else state.stack): state for state in self.states.values()}
        return by_key.get((packet.protocol, packet.key))

    @property
    def pending(self) -> int:
        """How much waits to be sent to the peer."""
        return len(self.queue) + len(self.asks) + len(self.statuses) + len(self.clears)


@dataclass
class Pair:
    """A branch with its pair, as `show` shows it."""

    branch: str
    events: int
    cursor: int
    nodes: Dict[str, Node] = field(default_factory=dict)
    next_ticket: int = 1
    next_boot: int = 3
    frames: Dict[int, Frame] = field(default_factory=dict)

    @property
    def a(self) -> Node:
        return self.nodes["a"]

    @property
    def b(self) -> Node:
        return self.nodes["b"]

    def line(self, line: str) -> None:
        """Takes one line of what is shown."""
        kind, *rest = line.split()
        if kind == "state":
            node, state = _state_of(line)
            self.nodes[node].states[state.name] = state
        elif kind == "node":
            self.nodes[rest[0]] = Node.read(rest)
        elif kind == "link":
            self.next_ticket, self.next_boot = int(rest[1]), int(rest[3])
        elif kind == "frame":
            frame = Frame.read(rest)
            self.frames[frame.ticket] = frame
        else:
            _OF_NODE[kind](self.nodes[rest[0]], rest[1:])


def _take_counts(node: Node, words: List[str]) -> None:
    node.counters = dict(zip((counter.name for counter in COUNTERS), map(int, words)))


_OF_NODE: Dict[str, Callable[[Node, List[str]], None]] = {
    "count": _take_counts,
    "queue": lambda node, it: node.queue.append(Queued(it[0], int(it[1]), Name.read(it[2]))),
    "ask": lambda node, it: node.asks.append(Name.read(it[0])),
    "bus": lambda node, it: node.statuses.append(int(it[0])),
    "clr": lambda node, it: node.clears.append(Cleared(int(it[0]), int(it[1]))),
    "held": lambda node, it: node.held.append(Held.read(it)),
}


@lru_cache(maxsize=_KEPT_LINES)
def _state_of(line: str) -> Tuple[str, State]:
    """The node and the state of a line."""
    _, node, *words = line.split()
    return node, State.read(words)


def read_shown(lines: Sequence[str]) -> Pair:
    """The pair that the lines of a shown branch describe."""
    try:
        head = lines[0].split()
        if head[0] != "branch" or lines[-1] != "end":
            raise NotShown("\n".join(lines[:1]))
        pair = Pair(head[1], int(head[3]), int(head[5]))
        for line in lines[1:-1]:
            pair.line(line)
        return pair
    except (IndexError, KeyError, ValueError) as error:
        raise NotShown("\n".join(lines[:1])) from error


def other(node: str) -> str:
    """The other node of the pair."""
    return "b" if node == "a" else "a"
