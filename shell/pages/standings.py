"""How each state stands between the nodes: the same at both, only at one, or differing field by field."""
from __future__ import annotations

from collections import Counter
from typing import Counter as Numbers, Dict, Iterator, List, NamedTuple, Optional, Sequence, Set, Tuple

from ..language.names import NODES, Name
from ..language.packets import Key
from ..model.pair import Pair, other
from ..model.states import State
from ..shows.diffs import RULE, Counts, unequal_fields

# A protocol, which of the two keys it is, and the key.
FlowKey = Tuple[str, str, Key]
# How a state stands, for JSON: with the fields that differ, or if only one node has it, the other's names for the flow.
Standing = Dict[str, object]


class Change(NamedTuple):
    """A state before and after an event, at a and at b."""

    name: Name
    before: Tuple[Optional[State], Optional[State]]
    after: Tuple[Optional[State], Optional[State]]


class Standings:
    """The states of both nodes compared, as a few change at a time."""

    def __init__(self, one_rule_set: bool) -> None:
        self.one_rule_set = one_rule_set
        # The states of each node by their keys, how each state stands, and how many stand that way.
        self._names: Dict[str, Dict[FlowKey, Set[Name]]] = {node: {} for node in NODES}
        self._kinds: Dict[Name, str] = {}
        self._numbers: Numbers[str] = Counter()

    def take(self, changes: Sequence[Change], pair: Pair) -> Iterator[Tuple[Name, Optional[Standing]]]:
        """Takes what changed, and the pair as it is now; yields how each state stands that may stand differently now; nothing if both
        nodes have the same, or neither has it."""
        concerned = {it.name for it in changes}
        for change in changes:
            concerned |= self._index(change)
        for name in sorted(concerned):
            kind, standing = self._standing(name, *(node.states.get(name) for node in (pair.a, pair.b)))
            self._numbers[self._kinds.pop(name, "")] -= 1
            self._numbers[kind] += 1
            self._kinds[name] = kind
            yield name, standing

    @property
    def counts(self) -> Counts:
        number = self._numbers
        return Counts(number["a"] + number["a twice"], number["b"] + number["b twice"], number["differ"], number["same"], number["a twice"])

    def _index(self, change: Change) -> Set[Name]:
        """Updates the keys for a state that changed; returns the states that have one of these keys."""
        concerned: Set[Name] = set()
        for names, was, now in zip(self._names.values(), change.before, change.after):
            for key in _keys(was):
                names[key].discard(change.name)
                if not names[key]:
                    del names[key]
            for key in _keys(now):
                names.setdefault(key, set()).add(change.name)
        for key in (key for it in (*change.before, *change.after) for key in _keys(it)):
            concerned = concerned.union(*(names.get(key, ()) for names in self._names.values()))
        return concerned

    def _standing(self, name: Name, one: Optional[State], two: Optional[State]) -> Tuple[str, Optional[Standing]]:
        """The kind by which a state is counted, and how it stands."""
        if one and two:
            parts = {it: both for it, both in unequal_fields(one, two).items() if self.one_rule_set or it not in RULE}
            differing: Standing = {"how": "differ", "parts": [[it, *both] for it, both in parts.items()]}
            return ("differ", differing) if parts else ("same", None)
        node, state = ("a", one) if one else ("b", two)
        if state is None:
            return "", None
        if state.flags == "n":
            return "no-sync", {"how": "no-sync", "parts": []}
        others = sorted({it for key in _keys(state) for it in self._names[other(node)].get(key, ())} - {name})
        return node + " twice" * bool(others), {"how": node, "parts": [], "others": [str(it) for it in others]}


def _keys(state: Optional[State]) -> List[FlowKey]:
    return [(state.protocol, "wire", state.wire), (state.protocol, "stack", state.stack)] if state else []
