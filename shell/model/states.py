"""States of a node's table, and what they have in common with records of states."""
from __future__ import annotations

from dataclasses import dataclass
from typing import Optional, Sequence, Tuple

from ..language.names import FIN_WAIT_2, Name, number_or_none
from ..language.packets import Key


@dataclass(frozen=True)
class End:
    """An end of a connection, as the window is tracked."""

    level: int
    scale: Optional[int]
    window: int
    lo: int
    hi: int

    @classmethod
    def read(cls, words: Sequence[str]) -> "End":
        level, scale, window, lo, hi = words
        return cls(int(level), number_or_none(scale), int(window), int(lo), int(hi))


@dataclass(frozen=True)
class Flow:
    """What is shown of a state wherever it is: in a table, or in a record."""

    name: Name
    protocol: str
    direction: str
    wire: Key
    stack: Key
    source: End
    destination: End
    timeout_class: str


def is_closed(state: Flow) -> bool:
    """Whether it is a connection of TCP that both ends have closed."""
    return state.protocol == "tcp" and min(state.source.level, state.destination.level) >= FIN_WAIT_2


# How many words of a line describe a flow, from its name on.
FLOW_WORDS = 18


def flow_fields(words: Sequence[str]) -> Tuple[Name, str, str, Key, Key, End, End, str]:
    """The fields of a flow, from the words that describe it."""
    name, protocol, direction, wire_far, wire_near, stack_far, stack_near = words[:7]
    keys = Key(wire_far, wire_near), Key(stack_far, stack_near)
    return (Name.read(name), protocol, direction, *keys, End.read(words[7:12]), End.read(words[12:17]), words[17])


@dataclass(frozen=True)
class State(Flow):
    """An entry of a node's state table."""

    last: int
    rule: Optional[int]
    flags: str
    updates: int
    peer: Optional[int]

    @classmethod
    def read(cls, words: Sequence[str]) -> "State":
        last, rule, flags, updates, peer = words[FLOW_WORDS:]
        return cls(*flow_fields(words), int(last), number_or_none(rule), flags, int(updates), number_or_none(peer))
