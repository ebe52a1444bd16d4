"""How a run ends: what each node has of each flow once nothing is pending or in flight; and how the end of a variant differs from it."""
from __future__ import annotations

from enum import Enum
from functools import lru_cache
from typing import Dict, FrozenSet, Iterator, List, NamedTuple, Optional, Sequence, Tuple

from ..language.names import NODES
from ..model.setups import Setup
from ..model.states import FLOW_WORDS, State
from ..shows.diffs import is_one_rule_set
from ..shows.words import flow

# Where the words of a state begin, after `state NODE`, and the words that say which flow it is, after its name.
_NAME = 2
_KEYS = slice(_NAME + 1, _NAME + 7)
# How many lines of states are kept as read: variants have most of them in common.
_KEPT_LINES = 1 << 14
# What is shown of a node that waits for no bulk update.
_IDLE = "-"

# The fields of a state that are not compared, as words.py calls them.
TIMES = ("last use", "update count", "last change by the peer")

# The words of a state that are the same in all of its lines: its protocol, its direction and its keys.
Keys = Tuple[str, ...]


class Where(Enum):
    """Which nodes have a flow, and whether they have the same of it."""

    NEITHER = "on neither node"
    ONLY_A = "only on a"
    ONLY_B = "only on b"
    # (under one name)
    ALIKE = "on both nodes"
    DIFFERENT = "different on a and b"
    TWO_NAMES = "under two names on a and b"


# What is said of a flow that both nodes have the same of, by where it was in the run.
_ALIKE_BEFORE = {
    Where.NEITHER: "new on both nodes",
    Where.ONLY_A: "on both nodes, not only on a",
    Where.ONLY_B: "on both nodes, not only on b",
    Where.DIFFERENT: "the same on a and b",
    Where.TWO_NAMES: "under one name on a and b",
}


class Kept(NamedTuple):
    """What counts of a state, in the program's words: not when it was last used, nor how often it changed since it was sent."""

    name: str
    source: Tuple[str, ...]
    destination: Tuple[str, ...]
    timeout_class: str
    rule: str
    flags: str

    def shared(self, is_one_rule_set: bool) -> Tuple[object, ...]:
        """What is the same at both nodes if they agree. A rule's number means the same at both only if their rules are the same."""
        return self[: 5 if is_one_rule_set else 4]

    def changed(self, other: "Kept") -> Iterator[str]:
        """What differs between two states, whatever they are called."""
        pairs = [(self.source, other.source), (self.destination, other.destination)]
        if any(one[0] != two[0] for one, two in pairs):
            yield "levels"
        if any(one[1:] != two[1:] for one, two in pairs):
            yield "numbers"
        for what, one, two in (
            ("class", self.timeout_class, other.timeout_class), ("rule", self.rule, other.rule), ("flags", self.flags, other.flags)
        ):
            if one != two:
                yield what


@lru_cache(maxsize=_KEPT_LINES)
def _read(line: str) -> Tuple[str, Keys, Kept]:
    """The node, the flow and the rest of a shown state."""
    words = line.split()
    source, destination = (tuple(words[_NAME + at : _NAME + at + 5]) for at in (7, 12))
    rule, flags = words[_NAME + FLOW_WORDS + 1 : _NAME + FLOW_WORDS + 3]
    return words[1], tuple(words[_KEYS]), Kept(words[_NAME], source, destination, words[_NAME + FLOW_WORDS - 1], rule, flags)


class Change(NamedTuple):
    """A flow of which there is something else at the end: where it was and is; and if that is the same, what is otherwise and on which
    nodes."""

    flow: str
    before: Where
    after: Where
    what: Tuple[str, ...] = ()
    nodes: Tuple[str, ...] = ()

    @property
    def is_gone(self) -> bool:
        return self.after is Where.NEITHER

    @property
    def is_apart(self) -> bool:
        """Whether a flow that is not gone is on other nodes than before, or the nodes differ in it, and did not, or the reverse."""
        return not self.is_gone and self.before is not self.after

    @property
    def text(self) -> str:
        if self.before is self.after:
            return f"at the end changed on {' and '.join(self.nodes)} ({', '.join(self.what)})"
        return f"at the end {_ALIKE_BEFORE[self.before] if self.after is Where.ALIKE else self.after.value}"


class End:
    """What the nodes have at the end of a run that came to rest."""

    def __init__(self, shown: Sequence[str], setup: Setup):
        self.is_one_rule_set = is_one_rule_set(setup)
        # By the flow: what each node has of it.
        self.flows: Dict[Keys, Dict[str, Kept]] = {}
        # The line of a state, by the flow and the node.
        self.lines: Dict[Tuple[Keys, str], str] = {}
        # The flows in words.
        self._texts: Dict[Keys, str] = {}
        # The nodes that wait for a bulk update.
        self.waiting: FrozenSet[str] = frozenset(
            words[1] for words in (it.split() for it in shown if it.startswith("node ")) if words[-1] != _IDLE
        )
        for line in shown:
            if line.startswith("state "):
                node, keys, kept = _read(line)
                self.flows.setdefault(keys, {})[node] = kept
                self.lines[keys, node] = line

    def where(self, keys: Keys) -> Where:
        its = self.flows.get(keys, {})
        if len(its) < len(NODES):
            return Where.ONLY_A if "a" in its else Where.ONLY_B if "b" in its else Where.NEITHER
        one, two = (its[node] for node in NODES)
        if one.name != two.name:
            return Where.TWO_NAMES
        return Where.ALIKE if one.shared(self.is_one_rule_set) == two.shared(self.is_one_rule_set) else Where.DIFFERENT

    def state(self, keys: Keys, node: str) -> Optional[State]:
        line = self.lines.get((keys, node))
        return State.read(line.split()[_NAME:]) if line else None

    def changed(self, other: "End") -> List[Keys]:
        """The flows of which another end has something else, by their words."""
        every = sorted(keys for keys in {*self.flows, *other.flows} if self.flows.get(keys) != other.flows.get(keys))
        return [it for it in every if self._counts(it) != other._counts(it)]

    def _counts(self, keys: Keys) -> Tuple[Where, Dict[str, Tuple[object, ...]]]:
        return self.where(keys), {node: it[1:] for node, it in self.flows.get(keys, {}).items()}

    def changes(self, other: "End") -> Tuple[Change, ...]:
        """What another end has otherwise."""
        return tuple(sorted((self._change(it, other) for it in self.changed(other)), key=lambda it: (it.text, it.flow)))

    def _change(self, keys: Keys, other: "End") -> Change:
        if keys not in self._texts:
            line = next(end.lines[keys, node] for end in (other, self) for node in NODES if (keys, node) in end.lines)
            self._texts[keys] = flow(State.read(line.split()[_NAME:]))
        text, before, after = self._texts[keys], self.where(keys), other.where(keys)
        if before is not after:
            return Change(text, before, after)
        ours, its = self.flows[keys], other.flows[keys]
        otherwise = {node: tuple(ours[node].changed(its[node])) for node in ours if ours[node][1:] != its[node][1:]}
        what = dict.fromkeys(part for parts in otherwise.values() for part in parts)
        return Change(text, before, after, tuple(what), tuple(otherwise))
