"""Looks at one pair again and again, reading only the lines that changed since the last look."""
from __future__ import annotations

from dataclasses import dataclass, replace
from typing import Dict, List, NamedTuple, Sequence, Set, Tuple

from ..language.names import COUNTERS, NODES, Name
from ..model.pair import Node, Pair, Queued
from ..model.states import State


class Changed(NamedTuple):
    """The names of what changed at a node: states, and what is queued about them."""

    states: Set[Name]
    queued: Set[Name]


class Seen(NamedTuple):
    """A pair before and after, and what changed at each node among the things of which it may have many."""

    before: Pair
    after: Pair
    changed: Dict[str, Changed]

    @property
    def reduced(self) -> Tuple[Pair, Pair]:
        """Both pairs without the states and the queued names that have not changed."""
        return _reduced(self.before, self.changed), _reduced(self.after, self.changed)


@dataclass
class Eye:
    """What was last seen of a pair."""

    pair: Pair
    lines: Set[str]
    queued: Dict[str, Dict[Name, Queued]]

    @classmethod
    def new(cls) -> "Eye":
        """An eye that has seen nothing: nodes without states."""
        counters = {counter.name: 0 for counter in COUNTERS}
        nodes = {node: Node(node, 0, 0, 0, 0, False, "-", "-", counters) for node in NODES}
        return cls(Pair("main", 0, 0, nodes), set(), {node: {} for node in NODES})

    def see(self, shown: Sequence[str]) -> Seen:
        """Takes the lines of a shown pair."""
        many, few = _parted(shown[1:-1])
        head, before = shown[0].split(), self.pair
        self.pair = Pair(head[1], int(head[3]), int(head[5]))
        for line in few:
            self.pair.line(line)
        changed = self._changed(before, many)
        for node in self.pair.nodes.values():
            node.queue = list(self.queued[node.id].values())
        return Seen(before, self.pair, changed)

    def _changed(self, before: Pair, many: Set[str]) -> Dict[str, Changed]:
        """Gives the nodes their states, and notes what is queued."""
        for node in self.pair.nodes.values():
            node.states = dict(before.nodes[node.id].states)
        changed = {it: Changed(set(), set()) for it in NODES}
        for line in sorted(self.lines - many):
            self._forget(line.split(), changed)
        for line in sorted(many - self.lines):
            self._learn(line.split(), changed)
        self.lines = many
        return changed

    def _forget(self, words: List[str], changed: Dict[str, Changed]) -> None:
        node = words[1]
        if words[0] == "state":
            name = Name.read(words[2])
            del self.pair.nodes[node].states[name]
            changed[node].states.add(name)
        else:
            name = Name.read(words[4])
            del self.queued[node][name]
            changed[node].queued.add(name)

    def _learn(self, words: List[str], changed: Dict[str, Changed]) -> None:
        node = words[1]
        if words[0] == "state":
            state = State.read(words[2:])
            self.pair.nodes[node].states[state.name] = state
            changed[node].states.add(state.name)
        else:
            name = Name.read(words[4])
            self.queued[node][name] = Queued(words[2], int(words[3]), name)
            changed[node].queued.add(name)


def _parted(shown: Sequence[str]) -> Tuple[Set[str], List[str]]:
    """The lines of states and queues, which can be many, and the others."""
    many: List[str] = []
    few: List[str] = []
    for line in shown:
        (many if line.startswith(("state ", "queue ")) else few).append(line)
    return set(many), few


def _reduced(pair: Pair, changed: Dict[str, Changed]) -> Pair:
    nodes = {it: _of_node(node, changed[it]) for it, node in pair.nodes.items()}
    return replace(pair, nodes=nodes)


def _of_node(node: Node, changed: Changed) -> Node:
    states = {state: node.states[state] for state in sorted(changed.states) if state in node.states}
    return replace(node, states=states, queue=[it for it in node.queue if it.name in changed.queued])
