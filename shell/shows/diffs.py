"""What differs: between node a and node b of a pair, and between two branches."""
from __future__ import annotations

from dataclasses import dataclass, field
from itertools import groupby, zip_longest
from typing import Dict, List, NamedTuple, Optional, Tuple

from ..console.colours import Paint
from ..language.names import NODES, Name
from ..link.laboratory import Laboratory
from ..model.branches import Branch
from ..model.checksums import rules_checksum
from ..model.pair import Node, Pair, other
from ..model.setups import Setup
from ..model.states import State
from .differences import Difference, differences
from .words import (
    UNKNOWN_SETUP,
    ago,
    bulk_client,
    bulk_server,
    counted,
    expiries,
    expiry,
    flow,
    milliseconds_left,
    scaling,
    seconds,
    state_fields,
    state_line,
)

# What may differ on nodes that agree: each uses a state at its own times, and keeps to itself what it has to send about it.
NOT_SHARED = ("last use", "flags", "update count", "last change by the peer")
# The field that means the same at both nodes only if their rules are the same.
RULE = ("rule",)


# ---- node a against node b


@dataclass
class Compared:
    """The states of both nodes, compared."""

    only: Dict[str, List[State]] = field(default_factory=lambda: {it: [] for it in NODES})
    # States of a rule with `no-sync`, which are never sent to the peer.
    unsynchronised: Dict[str, List[State]] = field(default_factory=lambda: {it: [] for it in NODES})
    agreeing: List[Name] = field(default_factory=list)
    # What should be the same in a state and is not; and what may differ, and does.
    differing: Dict[Name, List[str]] = field(default_factory=dict)
    apart: Dict[Name, List[str]] = field(default_factory=dict)


def between_nodes(pair: Pair, setup: Optional[Setup], paint: Paint) -> List[str]:
    """Whether both nodes have the same states, what is on its way between them, and every difference."""
    compared = compare(pair, setup)
    only, twice = compared.only, sum(bool(_names_of_flow(pair.b, it)) for it in compared.only["a"])
    counts = Counts(len(only["a"]), len(only["b"]), len(compared.differing), len(compared.agreeing), twice)
    lines = [counts.answer(paint), *circumstances(pair, setup, paint)]
    if setup is None:
        lines.append(paint.note(UNKNOWN_SETUP))
    for node, states in compared.only.items():
        lines += [paint.bad(f"only on {node}: ") + _alone(pair, node, state, setup, paint) for state in states]
    for name, parts in compared.differing.items():
        apart = compared.apart.get(name, [])
        lines.append(paint.bad("differ: ") + f"{name}  {flow(pair.a.states[name])}  {', '.join((*parts, *apart))}")
    for node, states in compared.unsynchronised.items():
        lines += [f"no-sync, only on {node}: " + _alone(pair, node, state, setup, paint) for state in states]
    return lines + _only_apart(compared)


def compare(pair: Pair, setup: Optional[Setup]) -> Compared:
    """The states of both nodes, compared by name."""
    compared = Compared()
    for node in (pair.a, pair.b):
        for name, state in sorted(node.states.items()):
            if name not in pair.nodes[other(node.id)].states:
                (compared.unsynchronised if state.flags == "n" else compared.only)[node.id].append(state)
    one_rule_set = is_one_rule_set(setup)
    for name in sorted(it for it in pair.a.states if it in pair.b.states):
        parts = unequal_fields(pair.a.states[name], pair.b.states[name])
        rule = {} if one_rule_set else {it: parts.pop(it) for it in RULE if it in parts}
        apart = [*_both(rule), *_times_apart(pair, name, setup)]
        differing = _both(parts)
        if apart:
            compared.apart[name] = apart
        if differing:
            compared.differing[name] = differing
        else:
            compared.agreeing.append(name)
    return compared


def is_one_rule_set(setup: Optional[Setup]) -> bool:
    """Whether both nodes are known to have the same rules: only then a rule's number means the same at both."""
    return setup is not None and rules_checksum(setup.rules["a"]) == rules_checksum(setup.rules["b"])


def unequal_fields(one: State, two: State) -> Dict[str, Tuple[str, str]]:
    """The fields that differ between two states, each with both texts, except for those that may differ."""
    first, second = state_fields(one), state_fields(two)
    return {it: (first[it], second[it]) for it in first if it not in NOT_SHARED and first[it] != second[it]}


def _both(parts: Dict[str, Tuple[str, str]]) -> List[str]:
    return [f"{it} {first} | {second}" for it, (first, second) in parts.items()]


def _times_apart(pair: Pair, name: Name, setup: Optional[Setup]) -> List[str]:
    """How long ago each node used a state, by its own clock, and when it expires at each, if these differ."""
    used_a, used_b = (node.clock - node.states[name].last for node in (pair.a, pair.b))
    left_a, left_b = (milliseconds_left(setup, node, node.states[name]) for node in (pair.a, pair.b))
    both = f"{seconds(used_a)} | {seconds(used_b)} ago" if min(used_a, used_b) >= 0 else f"{ago(used_a)} | {ago(used_b)}"
    said = [f"last used {both}"] if used_a != used_b else []
    return said + ([expiries(left_a, left_b)] if expiry(left_a) != expiry(left_b) else [])


def _only_apart(compared: Compared) -> List[str]:
    """The states that agree except for what may differ: one line for those that differ in the same way."""
    names: Dict[str, List[str]] = {}
    for name in compared.agreeing:
        if name in compared.apart:
            names.setdefault(", ".join(compared.apart[name]), []).append(str(name))
    return [f"agree, but apart: {', '.join(those)}  {apart}" for apart, those in names.items()]


class Counts(NamedTuple):
    """How many states are only on a, only on b, on both but differ, and on both and agree; and how many flows have two names."""

    only_a: int
    only_b: int
    differ: int
    agree: int
    twice: int

    @property
    def apart(self) -> int:
        return self.only_a + self.only_b + self.differ

    def answer(self, paint: Paint) -> str:
        """Whether the nodes agree, in a sentence."""
        if not self.apart:
            return paint.good("a and b agree") + f" in {counted(self.agree, 'state')}" * (self.agree > 0)
        answer = paint.bad(f"a and b differ in {counted(self.apart, 'state')}")
        answer += f": {self.only_a} only on a, {self.only_b} only on b, {self.differ} differ"
        return answer + (paint.note(f"; {counted(self.twice, 'flow has', 'flows have')} two names") if self.twice else "")


def circumstances(pair: Pair, setup: Optional[Setup], paint: Paint) -> List[str]:
    """What explains why the nodes differ, or may still make them agree."""
    lines: List[str] = []
    if pair.a.pending + pair.b.pending + len(pair.frames):
        pending = f"pending: {pair.a.pending} at a, {pair.b.pending} at b"
        lines.append(f"{pending}; {counted(len(pair.frames), 'frame')} in flight")
    if pair.a.clock != pair.b.clock:
        lines.append(f"clocks: {seconds(pair.a.clock)} at a, {seconds(pair.b.clock)} at b")
    lines += filter(None, (scaling(setup, node) for node in (pair.a, pair.b)))
    for node in (pair.a, pair.b):
        if node.serve != "-":
            lines.append(f"{node.id} serves a bulk update, {bulk_server(node.serve)}")
        if node.sync != "-":
            lines.append(f"{node.id} {bulk_client(node.sync)}")
    if setup and not is_one_rule_set(setup):
        lines.append("rules: those of a and b differ, so neither keeps the other's rule numbers")
    return [paint.note(line) for line in lines]


def _alone(pair: Pair, node: str, state: State, setup: Optional[Setup], paint: Paint) -> str:
    """A state that the other node does not have; it may have the flow under another name."""
    line = f"{state_line(state)}  {expiry(milliseconds_left(setup, pair.nodes[node], state))}"
    peer = pair.nodes[other(node)]
    names = ", ".join(map(str, _names_of_flow(peer, state)))
    return line + (paint.note(f"; {peer.id} has this flow as {names}") if names else "")


def _names_of_flow(node: Node, state: State) -> List[Name]:
    """The other names under which a node has a flow: its wire key or its stack key, with the same protocol."""
    same = (it for it in node.states.values() if it.protocol == state.protocol and it.name != state.name)
    return sorted(it.name for it in same if it.wire == state.wire or it.stack == state.stack)


# ---- a branch against another one


def between_branches(lab: Laboratory, one: Branch, two: Branch, paint: Paint) -> List[str]:
    """Whether two branches show the same pair, where their events part, and what differs between the pairs."""
    found = differences(lab.with_contents(lab.show(one.name), one), lab.with_contents(lab.show(two.name), two))
    answer = "show the same pair" if not found else f"show pairs that differ in {counted(len(found), 'place')}"
    colour = paint.bad if found else paint.good
    lines = [colour(f"{one.name} and {two.name} {answer}"), *_where_they_part(one, two)]
    return lines + _difference_lines(found, one.name, two.name)


def _where_they_part(one: Branch, two: Branch) -> List[str]:
    """The first event that stands and is not the same in both."""
    events = list(zip_longest(one.events[: one.cursor], two.events[: two.cursor]))
    for number, (first, second) in enumerate(events, 1):
        if first != second:
            none = "no more events"
            parting = f"their events diverge at number {number}:"
            return [parting, f"  {one.name}: {first or none}", f"  {two.name}: {second or none}"]
    return [f"their events are the same: {counted(len(events), 'event')}"]


def _difference_lines(found: List[Difference], one: str, two: str) -> List[str]:
    """The differences, one line for each subject."""
    lines: List[str] = []
    for (where, what, subject), group in groupby(found, lambda it: (it.where, it.what, it.subject)):
        of = " ".join(it for it in (what, subject) if it)
        lines += _of_subject(where, of, list(group), one, two)
    return lines


def _of_subject(where: str, of: str, group: List[Difference], one: str, two: str) -> List[str]:
    lines: List[str] = []
    parts: List[str] = []
    for difference in group:
        if difference.is_new or difference.is_gone:
            lines.append(f"{where}: {difference.of} only in {one if difference.is_gone else two}: {difference.before or difference.after}")
        else:
            parts.append(f"{difference.part} {difference.before} | {difference.after}".strip())
    return ([f"{where}: {of}: {', '.join(parts)}"] if parts else []) + lines
