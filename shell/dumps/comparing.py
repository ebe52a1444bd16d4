"""Compares two dumps: which states only one node has, and which differ, and how."""
from __future__ import annotations

from dataclasses import dataclass, field
from enum import Enum
from typing import Dict, Iterable, List, NamedTuple, Optional, Sequence, Set, Tuple

from ..language.names import NODES
from ..language.packets import CIRCLE
from ..shows.diffs import RULE, unequal_fields
from .forms import clock, numbers, windows
from .states import Dumped, as_state, ends

# The fields that are compared as they are printed.
LEVELS = ("source level", "destination level")
# Words for what a node keeps to itself about a state's source address.
OF_A_NODE = frozenset(("src-track", "source-track", "sticky-address"))


class Kind(Enum):
    """How a state differs; of several kinds the first counts."""

    FLOWS = "keys"
    LEVELS = "levels"
    RULES = "rules"
    WINDOWS = "windows by more than a window"
    TIMES = "times"
    REST = "interfaces, routes or options"


@dataclass(frozen=True)
class Tolerance:
    """How many seconds times may be apart, and whether that holds for ages, too."""

    seconds: int = 10
    is_of_ages: bool = False

    def is_apart(self, one: Optional[int], two: Optional[int]) -> bool:
        return one is not None and two is not None and abs(one - two) > self.seconds


class Two(NamedTuple):
    """A state at both nodes."""

    a: Dumped
    b: Dumped

    @property
    def harm(self) -> Tuple[bool, int]:
        """What sorts it, by the node at which it is worth more."""
        return min(self.a.harm, self.b.harm)


@dataclass
class Compared:
    """What two dumps have, compared."""

    sizes: Dict[str, int] = field(default_factory=lambda: {it: 0 for it in NODES})
    # How many states have no name; and how many came more than once, where the first counts.
    unnamed: Dict[str, int] = field(default_factory=lambda: {it: 0 for it in NODES})
    again: Dict[str, int] = field(default_factory=lambda: {it: 0 for it in NODES})
    only: Dict[str, List[Dumped]] = field(default_factory=lambda: {it: [] for it in NODES})
    unsynchronised: Dict[str, List[Dumped]] = field(default_factory=lambda: {it: [] for it in NODES})
    # Flows with a different name at each node.
    twice: List[Two] = field(default_factory=list)
    # States that agree, but have a rule at one node and none at the other.
    without_rule: List[Two] = field(default_factory=list)
    differing: Dict[Kind, List[Two]] = field(default_factory=lambda: {it: [] for it in Kind})
    agreeing: int = 0
    # Those that agree, if they are kept.
    agreed: Optional[List[Two]] = None
    # How many of the states that agree differ in their windows by less than a window.
    moved: int = 0

    @property
    def differ(self) -> int:
        return sum(map(len, self.differing.values()))

    @property
    def is_same(self) -> bool:
        """Whether nothing differs except what is never sent to the peer, or what packets between the dumps explain."""
        return not (self.differ or self.twice or any(self.only.values()))


def compare(a: Iterable[Dumped], b: Iterable[Dumped], tolerance: Tolerance, keeps_all: bool = False) -> Compared:
    """Reads the first dump, and compares the states of the second with it as they come. Those that agree are kept or only counted."""
    found = Compared(agreed=[] if keeps_all else None)
    table = Table.read(a, found)
    rest: Dict[object, Dumped] = {}
    for state in b:
        found.sizes["b"] += 1
        found.unnamed["b"] += state.name is None
        key = key_of(state)
        if key in table.states:
            _take(table, key, state, found, tolerance)
        elif key in rest:
            found.again["b"] += 1
        else:
            rest[key] = state
    left = [it for it in table.states.values() if it]
    _pair_by_flows(left, list(rest.values()), found, tolerance)
    return found


def key_of(state: Dumped) -> object:
    """What pairs a state with one of the other node: its name, or if it has none its flow at its interface."""
    return (state.interface, state.flow) if state.name is None else state.name


@dataclass
class Table:
    """The states of the first dump by their names or flows; None once they have met their state of the second."""

    states: Dict[object, Optional[Dumped]]

    @classmethod
    def read(cls, a: Iterable[Dumped], found: Compared) -> "Table":
        states: Dict[object, Optional[Dumped]] = {}
        for state in a:
            found.sizes["a"] += 1
            found.unnamed["a"] += state.name is None
            if states.setdefault(key_of(state), state) is not state:
                found.again["a"] += 1
        return cls(states)


def _take(table: Table, key: object, state: Dumped, found: Compared, tolerance: Tolerance) -> None:
    """Compares a state of the second dump with its state of the first."""
    partner = table.states[key]
    if partner:
        table.states[key] = None
        _judge(Two(partner, state), found, tolerance)
    else:
        found.again["b"] += 1


# ---- states without a partner of the same name


class Flows:
    """States by their keys on the wire and in the stack: no two of a node share one."""

    def __init__(self, states: Iterable[Dumped]):
        self._by_key: Dict[object, List[Dumped]] = {}
        self._taken: Set[int] = set()
        for state, key in ((state, key) for state in states for key in _keys(state)):
            self._by_key.setdefault(key, []).append(state)

    def take(self, state: Dumped) -> Optional[Dumped]:
        """A state that shares a key with this one and was not taken yet."""
        wire, stack = map(self._last, _keys(state))
        found = wire or stack
        if found:
            self._taken.add(found.line)
        return found

    def _last(self, key: object) -> Optional[Dumped]:
        """The last state of a key that was not taken; later ones are forgotten."""
        its = self._by_key.get(key, [])
        while its and its[-1].line in self._taken:
            its.pop()
        return its[-1] if its else None


def _keys(state: Dumped) -> Tuple[object, object]:
    its = ends(state.flow)
    return (its.protocol, "wire", its.wire), (its.protocol, "stack", its.stack)


def _pair_by_flows(left: List[Dumped], rest: List[Dumped], found: Compared, tolerance: Tolerance) -> None:
    """Pairs states that have no name at one of the nodes by their flows, and finds the flows with two names."""
    flows = Flows(left if rest else ())
    met: Dict[str, Set[int]] = {node: set() for node in NODES}
    for state in rest:
        partner = flows.take(state)
        has_names = bool(partner and partner.name is not None and state.name is not None)
        if not partner or (has_names and not (partner.is_synchronised and state.is_synchronised)):
            continue
        met["a"].add(partner.line)
        met["b"].add(state.line)
        if has_names:
            found.twice.append(Two(partner, state))
        else:
            _judge(Two(partner, state), found, tolerance)
    _stand_alone("a", (it for it in left if it.line not in met["a"]), found)
    _stand_alone("b", (it for it in rest if it.line not in met["b"]), found)


def _stand_alone(node: str, states: Iterable[Dumped], found: Compared) -> None:
    for it in states:
        (found.only if it.is_synchronised else found.unsynchronised)[node].append(it)


# ---- states at both nodes


def _judge(two: Two, found: Compared, tolerance: Tolerance) -> None:
    """Counts a state of both nodes under its kind."""
    kind = kind_of(two, tolerance)
    if kind:
        found.differing[kind].append(two)
    else:
        found.agreeing += 1
        if found.agreed is not None:
            found.agreed.append(two)
        found.moved += has_windows(two) and two.a.windows != two.b.windows
        found.without_rule += [two] * (has_details(two) and two.a.marks.rule != two.b.marks.rule)


def kind_of(two: Two, tolerance: Tolerance) -> Optional[Kind]:
    """The first way in which a state differs; None if it is the same, except for what packets between the dumps explain."""
    a, b = two
    if a.flow != b.flow:
        return Kind.FLOWS
    if a.levels != b.levels:
        return Kind.LEVELS
    if has_details(two) and a.marks.rule != b.marks.rule and None not in (a.marks.rule, b.marks.rule):
        return Kind.RULES
    if has_windows(two) and a.windows != b.windows and _are_windows_apart(two):
        return Kind.WINDOWS
    if tolerance.is_apart(a.expires, b.expires) or tolerance.is_of_ages and tolerance.is_apart(a.age, b.age):
        return Kind.TIMES
    is_alike = (a.interface, a.marks.words, a.routes) == (b.interface, b.marks.words, b.routes)
    return Kind.REST if not is_alike and _rest(two) else None


def has_windows(two: Two) -> bool:
    return bool(two.a.windows and two.b.windows)


def has_details(two: Two) -> bool:
    return two.a.age is not None and two.b.age is not None


def _are_windows_apart(two: Two) -> bool:
    one, other = numbers(two.a.windows), numbers(two.b.windows)
    return _is_outside(one[:4], other[:4]) or _is_outside(one[4:], other[4:])


def _is_outside(one: Sequence[str], two: Sequence[str]) -> bool:
    """Whether the sequence number that one node has for an end is beyond the window of the other, or whether what is added or the
    scale differs."""
    if one[2:] != two[2:]:
        return True
    ahead = (int(one[0]) - int(two[0])) % CIRCLE
    return ahead > int(two[1]) if ahead < CIRCLE // 2 else CIRCLE - ahead > int(one[1])


def fields(two: Two, tolerance: Tolerance) -> List[str]:
    """Everything in which a state differs, field by field."""
    a, b = two
    parts = [f"levels {a.levels} | {b.levels}"] if a.levels != b.levels else []
    unequal = unequal_fields(as_state(a, has_windows(two)), as_state(b, has_windows(two)))
    passed = (*LEVELS, *(() if has_details(two) else RULE))
    parts += [f"{it} {one} | {other}" for it, (one, other) in unequal.items() if it not in passed]
    if has_windows(two):
        added = [" and ".join(window.added or "0" for window in windows(state.windows)) for state in two]
        parts += [f"added to the numbers {added[0]} | {added[1]}"] if added[0] != added[1] else []
    parts += [
        f"{what} {clock(one)} | {clock(other)}"
        for what, one, other in (("age", a.age, b.age), ("expires in", a.expires, b.expires))
        if one is not None and other is not None and tolerance.is_apart(one, other)
    ]
    return parts + _rest(two)


def _rest(two: Two) -> List[str]:
    """What differs in the interface, the routes, and the words after the rule; in the last two only if both dumps have them."""
    a, b = two
    parts = [f"interface {a.interface} | {b.interface}"] if a.interface != b.interface else []
    if has_details(two) and (a.marks.words ^ b.marks.words) - OF_A_NODE:
        parts.append(f"options {_list(a.marks.words - OF_A_NODE)} | {_list(b.marks.words - OF_A_NODE)}")
    if a.name is not None and b.name is not None and a.routes != b.routes:
        parts.append(f"routes {_list(a.routes)} | {_list(b.routes)}")
    return parts


def _list(words: Iterable[str]) -> str:
    return ", ".join(sorted(words)) or "none"
