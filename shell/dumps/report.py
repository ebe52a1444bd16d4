"""The comparison of two dumps in words: first the verdict, then what is serious, and last what packets between the dumps explain."""
from __future__ import annotations

from collections import Counter
from functools import partial
from itertools import chain
from typing import Callable, Dict, Hashable, Iterable, List, NamedTuple, Optional, Protocol, Sequence, Tuple, TypeVar

from ..console.colours import Paint
from ..language.commands import KERNEL
from ..language.names import NODES
from ..language.setups import RULE
from ..shows.words import counted
from .comparing import Compared, Kind, Tolerance, Two, fields
from .forms import clock
from .states import Dumped, ends

# How many groups of a kind, and states of a group, are listed if not all are asked for.
MOST_GROUPS = 10
MOST_STATES = 3

_WHY_ALONE = "an insertion or a deletion was lost, or is on its way: lessons lost-insertion.pfl, lost-bulk-frame.pfl"
_WHY_TWICE = "each node let a packet of the flow make a state of its own: lessons split-brain.pfl, lost-bulk-frame.pfl"
_WITHOUT_RULE = f"came by a bulk update or a request ({KERNEL.word} {RULE.word})"
_WHY_WITHOUT_RULE = "as far as we know FreeBSD gives these no rule, or the rule sets differed"
_WHY: Dict[Kind, str] = {
    Kind.LEVELS: "an update was lost, or is on its way: lesson asymmetric-routing.pfl",
    Kind.RULES: "a node keeps the number of the peer's rule only if both have the same rules: compare `pfctl -sr` of both",
    Kind.FLOWS: "one state with two sets of addresses: compare the translations, `pfctl -sn` of both",
    Kind.WINDOWS: "the node behind has not seen what the other one has: lesson failover-in-mid-stream.pfl",
    Kind.TIMES: "one node expects packets for longer than the other: lessons early-purge.pfl, adaptive-timeouts.pfl",
    Kind.REST: "the nodes have different interfaces, routes or options",
}


class _Sorted(Protocol):
    """What is sorted by what its loss does."""

    @property
    def harm(self) -> Tuple[bool, int]: ...


Item = TypeVar("Item", bound=_Sorted)
Key = TypeVar("Key", bound=Hashable)


class Shown(NamedTuple):
    """The form of a report: colours, the tolerance, and whether all states are listed."""

    paint: Paint
    tolerance: Tolerance
    lists_all: bool


def report(found: Compared, files: Dict[str, str], how: Shown) -> List[str]:
    """The whole report on two files."""
    parts = [
        [_verdict(found, how.paint)],
        _files(found, files, how),
        *(_alone(node, found, how) for node in NODES),
        _twice(found.twice, how),
        *(_differing(kind, those, how) for kind, those in found.differing.items()),
        _without_rule(found.without_rule, how),
        _unsynchronised(found),
        _moved(found),
    ]
    return [*chain.from_iterable(parts)]


def _verdict(found: Compared, paint: Paint) -> str:
    """Whether the nodes agree, and how many states of each part there are."""
    if found.is_same:
        return paint.good("a and b agree") + f" in {counted(found.agreeing, 'state')}" * (found.agreeing > 0)
    parts = [f"{len(states)} only on {node}{_established(states, ' ({})')}" for node, states in found.only.items()]
    parts += [f"{len(found.twice)} under two names"] * bool(found.twice)
    parts += [f"{counted(len(those), 'differs', 'differ')} in {kind.value}" for kind, those in found.differing.items() if those]
    count = sum(map(len, found.only.values())) + len(found.twice) + found.differ
    return paint.bad(f"a and b differ in {counted(count, 'state')}") + f": {', '.join(parts)}"


def _established(states: Sequence[Dumped], form: str) -> str:
    """How many of some states are established connections; empty if none is."""
    number = sum(state.is_established for state in states)
    return form.format(f"{number} established TCP") if number else ""


def _files(found: Compared, files: Dict[str, str], how: Shown) -> List[str]:
    """What is in which file, and what that leaves open."""
    lines = ["; ".join(f"{node}: {counted(found.sizes[node], 'state')} in {path}" for node, path in files.items())]
    for node, path in files.items():
        if found.again[node]:
            lines.append(f"{path}: {counted(found.again[node], 'state appears', 'states appear')} again; the first of each counts")
        if found.unnamed[node]:
            unnamed = counted(found.unnamed[node], "state without a name", "states without names")
            lines.append(f"{path}: {unnamed}, paired by flow alone; `pfctl -ss -vv` prints names")
    if all(found.sizes.values()) and not found.agreeing + found.differ:
        lines.append("no state is at both nodes: are these files of one pair, and is pfsync running?")
    return [how.paint.note(it) if at else it for at, it in enumerate(lines)]


def _unsynchronised(found: Compared) -> List[str]:
    return [
        f"no-sync, only on {node}: {counted(len(states), 'state')}, never sent to the peer"
        for node, states in found.unsynchronised.items()
        if states
    ]


def _moved(found: Compared) -> List[str]:
    if not found.moved:
        return []
    return [f"{counted(found.moved, 'state differs', 'states differ')} only in windows, by less than a window: packets came in between"]


# ---- states of only one node


class Group(NamedTuple):
    """What states of only one node have in common."""

    protocol: str
    direction: str
    service: str
    rule: Optional[int]
    creator: str
    when: str

    def __str__(self) -> str:
        words = [f"{self.protocol} {self.direction}" + (f" to port {self.service}" if self.service else "")]
        words += [] if self.rule is None else [f"rule {self.rule}"]
        words += [f"made by {self.creator}"] if self.creator else []
        return ", ".join([*words, self.when] if self.when else words)


def _alone(node: str, found: Compared, how: Shown) -> List[str]:
    """The states of only one node; those that have something in common together."""
    states = found.only[node]
    if not states:
        return []
    groups = _grouped(states, lambda it: _group(it, how.tolerance))
    of_them = _established(states, ", {}") + _of_them(groups)
    head = how.paint.bad(f"only on {node}: ") + f"{counted(len(states), 'state')}{of_them}; {_WHY_ALONE}"
    # (what the time between the dumps may explain comes last)
    explained = {group: its for group, its in groups.items() if group.when}
    others = {group: its for group, its in groups.items() if not group.when}
    ordered = {**_ordered(others), **_ordered(explained)}
    return [head, *_first_groups(ordered, lambda group, its: f"{group}{_ranges(its)}", _state, how)]


def _of_them(groups: Dict[Group, List[Dumped]]) -> str:
    """How many states of only one node may have begun or expired between the dumps."""
    numbers: Counter[str] = Counter()
    for group, its in groups.items():
        numbers[group.when] += len(its)
    said = (f"{number} {when}" for when, number in numbers.most_common() if when)
    return "".join(f", {it}" for it in said)


def _group(state: Dumped, tolerance: Tolerance) -> Group:
    its, when = ends(state.flow), ""
    if state.age is not None and state.age <= tolerance.seconds:
        when = f"not older than {clock(tolerance.seconds)}"
    elif state.expires is not None and state.expires <= tolerance.seconds:
        when = f"about to expire in {clock(tolerance.seconds)}"
    return Group(its.protocol, its.direction, its.service, state.marks.rule, state.creator, when)


def _ranges(states: Sequence[Dumped]) -> str:
    """How old the states of a group are, and when they expire."""
    ages = [state.age for state in states if state.age is not None]
    left = [state.expires for state in states if state.expires is not None]
    return (f", age {_range(ages)}" if ages else "") + (f", expires in {_range(left)}" if left else "")


def _range(times: Sequence[int]) -> str:
    first, last = min(times), max(times)
    return clock(first) if first == last else f"{clock(first)} to {clock(last)}"


def _state(dumped: Dumped) -> str:
    return f"{dumped.named()}  {dumped.flow}  {dumped.levels}"


# ---- states of both nodes


def _differing(kind: Kind, those: Sequence[Two], how: Shown) -> List[str]:
    """The states that differ first in this; those with the same difference together."""
    if not those:
        return []
    head = how.paint.bad(f"differ in {kind.value}: ") + f"{counted(len(those), 'state')}; {_WHY[kind]}"
    groups = _grouped(those, partial(_both, kind))
    return [head, *_first_groups(_ordered(groups), lambda both, _: both, lambda it: _fields(it, how.tolerance), how)]


def _fields(two: Two, tolerance: Tolerance) -> str:
    return f"{two.a.named()}  {two.a.flow}  {', '.join(fields(two, tolerance))}"


def _both(kind: Kind, two: Two) -> str:
    """What a kind of difference amounts to at each node, if few states have each."""
    if kind is Kind.LEVELS:
        return f"{two.a.levels} | {two.b.levels}"
    return f"rule {two.a.marks.rule} | rule {two.b.marks.rule}" if kind is Kind.RULES else ""


def _twice(those: Sequence[Two], how: Shown) -> List[str]:
    """The flows that have two names."""
    if not those:
        return []
    head = how.paint.bad("under two names: ") + f"{counted(len(those), 'flow')}; {_WHY_TWICE}"
    groups = _grouped(those, lambda it: f"made by {it.a.creator} | {it.b.creator}")
    return [head, *_first_groups(_ordered(groups), lambda made, _: made, lambda it: f"{it.a.named()} | {it.b.named()}  {it.a.flow}", how)]


def _without_rule(those: Sequence[Two], how: Shown) -> List[str]:
    """The states that agree, but have a rule at one node alone; each only where all are asked for."""
    if not those:
        return []
    groups = _grouped(those, lambda it: f"rule {_rule(it.a)} | {_rule(it.b)}")
    lines = _first_groups(_ordered(groups), lambda rules, _: rules, lambda it: f"{it.a.named()}  {it.a.flow}", how)
    heads = lines if how.lists_all else [line for line in lines if not line.startswith("    ")]
    agree = f"with a rule at one node alone, which {'counts' if len(those) == 1 else 'count'} as agreeing"
    return [f"{_WITHOUT_RULE}: {counted(len(those), 'state')} {agree}; {_WHY_WITHOUT_RULE}", *heads]


def _rule(state: Dumped) -> str:
    return "none" if state.marks.rule is None else str(state.marks.rule)


# ---- groups


def _grouped(items: Iterable[Item], of: Callable[[Item], Key]) -> Dict[Key, List[Item]]:
    """The items, with those of one key together."""
    groups: Dict[Key, List[Item]] = {}
    for it in items:
        groups.setdefault(of(it), []).append(it)
    return groups


def _ordered(groups: Dict[Key, List[Item]]) -> Dict[Key, List[Item]]:
    """The groups by the harm of their worst items, which come first in each, and then by their size."""
    those = {key: sorted(its, key=lambda it: it.harm) for key, its in groups.items()}
    return dict(sorted(those.items(), key=lambda it: (it[1][0].harm, -len(it[1]))))


def _first_groups(
    groups: Dict[Key, List[Item]], head: Callable[[Key, Sequence[Item]], str], text: Callable[[Item], str], how: Shown
) -> List[str]:
    """The first groups, each with its head, which may be empty, and the texts of its first items; or all of them."""
    ordered = [*groups.items()]
    shown = ordered if how.lists_all else ordered[:MOST_GROUPS]
    lines: List[str] = []
    for key, its in shown:
        title = head(key, its)
        lines += [f"  {len(its)}: {title}"] if title else []
        lines += _first(its, text, how)
    rest = len(ordered) - len(shown)
    return lines + ([f"  and {counted(rest, 'group')} more; --all lists them"] if rest else [])


def _first(items: Sequence[Item], text: Callable[[Item], str], how: Shown) -> List[str]:
    """The texts of the first items of a group, or of all."""
    most = len(items) if how.lists_all else MOST_STATES
    lines = [f"    {text(item)}" for item in items[:most]]
    return lines + ([f"    and {len(items) - most} more; --all lists them"] if len(items) > most else [])
