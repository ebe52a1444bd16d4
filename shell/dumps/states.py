"""A state as a dump has it, and as the shell has it."""
from __future__ import annotations

from typing import NamedTuple, Optional, Tuple

from ..language.names import Name
from ..language.packets import CIRCLE, Key
from ..model.states import End, State
from . import forms
from .forms import FLOW, NO_SYNC, Marks, windows

NO_MARKS = Marks(None, frozenset())
NO_END = End(0, None, 0, 0, 0)
OUT = "->"
# The protocols whose ports say which service a flow belongs to.
WITH_SERVICES = ("tcp", "udp", "sctp")


class Dumped(NamedTuple):
    """A state of a dump, as texts where these are the same at both nodes. What its dump does not say is None or empty."""

    line: int
    interface: str
    flow: str
    levels: str
    windows: str = ""
    age: Optional[int] = None
    expires: Optional[int] = None
    marks: Marks = NO_MARKS
    name: Optional[str] = None
    routes: Tuple[str, ...] = ()

    @property
    def is_established(self) -> bool:
        """Whether it is a TCP connection that both ends use."""
        return self.levels == "ESTABLISHED:ESTABLISHED" and self.flow.startswith("tcp ")

    @property
    def harm(self) -> Tuple[bool, int]:
        """What sorts states by what their loss does: established TCP first, and of it the oldest."""
        return not self.is_established, -(self.age or 0) if self.is_established else 0

    @property
    def is_synchronised(self) -> bool:
        return NO_SYNC not in self.marks.words and NO_SYNC not in self.routes

    @property
    def creator(self) -> str:
        """The host that made it."""
        return "" if self.name is None else self.name.partition("/")[2]

    def named(self) -> str:
        """Its name, or its line if it has none."""
        return self.name or f"line {self.line}"


class Ends(NamedTuple):
    """A flow in its parts: protocol, direction, keys."""

    protocol: str
    direction: str
    wire: Key
    stack: Key

    @property
    def service(self) -> str:
        """The port that the first packet went to; empty if the protocol has none."""
        end = self.wire.far if self.direction == "out" else self.stack.near
        return _port(end) if self.protocol in WITH_SERVICES else ""


def _port(end: str) -> str:
    if end.endswith("]"):
        return end[end.index("[") + 1 : -1]
    return end.partition(":")[2] if end.count(":") == 1 else ""


def ends(flow: str) -> Ends:
    """The parts of a flow: on its way out the keys on the wire are printed, and those of the stack in brackets; on its way in the
    other way round."""
    found = FLOW.fullmatch(flow)
    assert found
    protocol, near, hidden_near, arrow, far, hidden_far = found.groups()
    printed, hidden = Key(far, near), Key(hidden_far or far, hidden_near or near)
    if arrow == OUT:
        return Ends(protocol, "out", printed, hidden)
    return Ends(protocol, "in", hidden, printed)


def _end(end: forms.End) -> End:
    lo = int(end.lo)
    return End(0, int(end.scale) if end.scale else None, 0, lo, (lo + int(end.span)) % CIRCLE)


def as_state(dumped: Dumped, with_windows: bool) -> State:
    """The state as the shell has it, except its name. What no dump says is 0 or `-`; levels are compared as they are printed."""
    protocol, direction, wire, stack = ends(dumped.flow)
    first, second = NO_END, NO_END
    if with_windows:
        first, second = map(_end, windows(dumped.windows))
    source, destination = (first, second) if direction == "out" else (second, first)
    return State(Name(0, dumped.line), protocol, direction, wire, stack, source, destination, "-", 0, dumped.marks.rule, "-", 0, None)
