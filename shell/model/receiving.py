"""What the records of a frame make of the states of a node, one after another, by the rules of the profile or of the kernel
(pfl_receive/specs). What became of each record is given. The shell says by this until when a state lives by other rules, and
`./random-runs` compares it with the program."""
from __future__ import annotations

from dataclasses import replace
from typing import Dict, Iterator, NamedTuple, Optional, Sequence, Union

from ..language.names import Name
from ..language.records import UPDATE
from ..language.setups import EXPIRY, RULE
from .checksums import rules_checksum
from .explanations import TakenRecord
from .frames import Carried, Changes, Frame
from .kernels import Kernel
from .merging import Merged, merged
from .pair import Node
from .setups import Setup
from .states import State


class Timeout(NamedTuple):
    """The seconds of a state's class, and those seconds as shortened by the number of states."""

    whole: int
    scaled: int

    @classmethod
    def of(cls, setup: Setup, node: str, rule: Optional[int], timeout_class: str, states: int) -> "Timeout":
        """That of a class under a rule, at a node with this number of states."""
        whole = setup.seconds(node, rule, timeout_class)
        return cls(whole, setup.adaptive.scaled(whole, states))


class Came(NamedTuple):
    """A record that made or changed a state: the state after it, and how it was merged, if it was."""

    state: State
    merged: Optional[Merged]


def received(setup: Setup, kernel: Kernel, node: Node, frame: Frame, fates: Sequence[TakenRecord]) -> Iterator[Optional[Came]]:
    """What comes of each record of a frame at a node, which was so before it: nothing where no state is made or merged."""
    states: Dict[Name, State] = {**node.states}
    # (a rule's number means a rule only where both have the same ones)
    known = len(setup.rules[node.id]) if frame.checksum == rules_checksum(setup.rules[node.id]) else 0
    for record, fate in zip(frame.records, fates):
        for name in [name for name in states if fate.takes(kernel, name)]:
            del states[name]
        carried, came = record.state, None
        if fate.fate[0] == "imported" and isinstance(carried, Carried):
            rule = None if record.kind is UPDATE and kernel.has(RULE) else _kept_rule(carried, known)
            timeout = Timeout.of(setup, node.id, rule, carried.timeout_class, len(states))
            came = Came(_imported(carried, rule, last_of_imported(kernel, timeout, carried.remaining, node.clock), node.clock), None)
        elif fate.fate[0] == "merged" and carried is not None:
            held = states[record.name]
            timeout = Timeout.of(setup, node.id, held.rule, carried.timeout_class, len(states))
            came = _merged(kernel, held, carried, last_of_merged(kernel, timeout, carried.remaining, node.clock))
        if came:
            states[record.name] = came.state
        yield came


def _kept_rule(carried: Carried, known: int) -> Optional[int]:
    """The rule that a state keeps where this many rules are the sender's and the receiver's."""
    return carried.rule if carried.rule is not None and carried.rule < known else None


def _imported(carried: Carried, rule: Optional[int], last: int, now: int) -> State:
    keys = carried.protocol, carried.direction, carried.wire, carried.stack
    return State(carried.name, *keys, carried.source, carried.destination, carried.timeout_class, last, rule, "-", 0, now)


def _merged(kernel: Kernel, held: State, came: Union[Carried, Changes], last: int) -> Came:
    """The class and the last use are those that came where an end is taken."""
    merging = merged(kernel, held, came)
    ends = {"source": merging.state.source, "destination": merging.state.destination}
    return Came(replace(held, **ends, timeout_class=merging.state.timeout_class, last=last if merging.taken else held.last), merging)


def last_of_imported(kernel: Kernel, timeout: Timeout, remaining: int, now: int) -> int:
    """When a state that comes with so many seconds left was used. By the kernel that may be after now."""
    if not kernel.has(EXPIRY):
        return _back(now, timeout.scaled - min(remaining, timeout.scaled))
    return _back(now, timeout.whole - remaining) if remaining else now


def last_of_merged(kernel: Kernel, timeout: Timeout, remaining: int, now: int) -> int:
    """When a state was used of which an update with so many seconds left is merged."""
    return now if kernel.has(EXPIRY) else _back(now, timeout.scaled - min(remaining, timeout.scaled))


def _back(now: int, seconds: int) -> int:
    """So many seconds before now; the clock begins at 0."""
    return max(0, now - 1000 * seconds)
