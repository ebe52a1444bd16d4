"""What is to be made of two dumps: the states of both nodes, those of one alone, and flows that each node has under a name of its own."""
from __future__ import annotations

from collections import Counter
from dataclasses import dataclass, field
from enum import Enum
from typing import Dict, Iterator, List, NamedTuple, Optional, Tuple

from ..inferring.ways import Wanted
from ..language.names import NODES
from ..language.packets import Key
from .asked import About
from .comparing import Compared
from .states import Dumped
from .taking import Known, known


AGAIN = "a repetition in the file"


class Sort(Enum):
    """How a state comes to the nodes: its frame arrives, it is lost, it comes to a node that has the flow, or there is none."""

    SHARED = "shared"
    ALONE = "alone"
    TWIN = "twin"
    UNSENT = "no-sync"


@dataclass(eq=False)
class Item:
    """A state to be made: at which node, and what the nodes that have it then are to have."""

    node: str
    sort: Sort
    wants: Dict[str, Known]
    # Its keys in the laboratory, if these are not those of the dump.
    keys: Optional[Tuple[Key, Key]] = None
    # Why it is not as wanted, or why its times are not, as far as that is known; and whether no packet makes it.
    why: str = ""
    why_times: str = ""
    is_out: bool = False
    # The number of the rule that makes it, if that is known.
    rule: Optional[int] = None

    @property
    def wire(self) -> Key:
        return self.keys[0] if self.keys else self.first.wanted.wire

    @property
    def stack(self) -> Key:
        return self.keys[1] if self.keys else self.first.wanted.stack

    def wanted_at(self, node: str) -> Wanted:
        """What a node is to have, with the keys that it has here."""
        return self.wants[node].wanted._replace(wire=self.wire, stack=self.stack)

    @property
    def first(self) -> Known:
        """What its maker is to have."""
        return self.wants[self.node]

    @property
    def harm(self) -> Tuple[bool, bool, Tuple[bool, int]]:
        """What sorts it where there is not room for all: first what differs, and of that what hurts most."""
        return self.sort is Sort.SHARED and self.is_alike, self.sort is Sort.UNSENT, min(known.dumped.harm for known in self.wants.values())

    @property
    def is_alike(self) -> bool:
        """Whether all that are to have it are to have the same ends."""
        return len({(known.wanted.source, known.wanted.destination) for known in self.wants.values()}) == 1


class Left(NamedTuple):
    """States that are left out: of which node, and why."""

    node: str
    why: str


@dataclass
class Items:
    """What is to be made, what is left out, and how many states of each dump there are, of the flow that is asked for or of all."""

    made: List[Item] = field(default_factory=list)
    left: "Counter[Left]" = field(default_factory=Counter)
    sizes: Dict[str, int] = field(default_factory=lambda: {it: 0 for it in NODES})
    # One name with two sets of addresses, of which the laboratory makes two states.
    split: int = 0

    def add(self, node: str, sort: Sort, wants: Dict[str, Known]) -> None:
        self.made.append(Item(node, sort, wants))


def items_of(found: Compared, about: Optional[About]) -> Items:
    """What is to be made of two dumps, at the nodes that the names tell."""
    items, makers = Items(), _makers(found)
    has_names = {node: found.unnamed[node] < found.sizes[node] for node in NODES}
    for sort, states in _groups(found):
        taken = {node: known(it, has_names[node]) for node, it in states.items()}
        its = {node: it for node, it in taken.items() if isinstance(it, Known)}
        if about and not any(_is_about(it, about) for it in its.values()):
            continue
        for node, state in taken.items():
            items.sizes[node] += 1
            if isinstance(state, str):
                items.left[Left(node, state)] += 1
        _take(items, sort, its, makers)
    for node in NODES:
        if found.again[node] and not about:
            items.sizes[node] += found.again[node]
            items.left[Left(node, AGAIN)] += found.again[node]
    return items


def _take(items: Items, sort: Sort, its: Dict[str, Known], makers: Dict[str, str]) -> None:
    """Takes what is known of a state at each node. One that only one node's dump is good for stands there alone."""
    two = len(its) == 2
    if two and sort is Sort.SHARED:
        a, b = its["a"], its["b"]
        a, b = a.with_numbers_of(b), b.with_numbers_of(a)
        is_sent = a.dumped.is_synchronised and b.dumped.is_synchronised
        if is_sent and a.wanted[:4] == b.wanted[:4]:
            items.add(makers.get(a.dumped.creator or b.dumped.creator, "a"), sort, {"a": a, "b": b})
            return
        items.split += is_sent
    for node, known in its.items():
        is_unsent = not known.dumped.is_synchronised
        items.add(node, Sort.UNSENT if is_unsent else sort if two and sort is Sort.TWIN else Sort.ALONE, {node: known})


def _groups(found: Compared) -> Iterator[Tuple[Sort, Dict[str, Dumped]]]:
    """The states of both dumps, those together that are one state, or one flow under two names."""
    for pairs in (found.agreed or (), *found.differing.values()):
        for it in pairs:
            yield Sort.SHARED, {"a": it.a, "b": it.b}
    for it in found.twice:
        yield Sort.TWIN, {"a": it.a, "b": it.b}
    for alone in (found.only, found.unsynchronised):
        for node, states in alone.items():
            for state in states:
                yield Sort.ALONE, {node: state}


def _is_about(known: Known, about: About) -> bool:
    return any(about.has(end) for key in (known.wanted.wire, known.wanted.stack) for end in (key.far, key.near))


def _makers(found: Compared) -> Dict[str, str]:
    """The node of each creator: the one at which more of its states stand alone, or under its name where the other node has another."""
    counts: Counter[Tuple[str, str]] = Counter()
    for two in found.twice:
        counts.update(((two.a.creator, "a"), (two.b.creator, "b")))
    for node, states in found.only.items():
        counts.update((state.creator, node) for state in states)
    creators = {creator for creator, _ in counts}
    return {creator: "b" if counts[creator, "b"] > counts[creator, "a"] else "a" for creator in creators}

