"""What is found in captures, in parts: what each is a sign of, and the first of each."""
from __future__ import annotations

from dataclasses import dataclass, field
from enum import Enum
from typing import Callable, Dict, List, NamedTuple, Union

from .pairing import WINDOW
from .wording import lasting

# How many of a part are kept if not all are asked for.
MOST_OF_PART = 5


class About(NamedTuple):
    """What a part counts, and what that is a sign of, by which condition, with the lessons that show it."""

    one: str
    many: str
    sign: str


class Kind(Enum):
    """The parts, the worst first."""

    LOST = About(
        "frame not in the other capture",
        "frames not in the other capture",
        f"lost on the way, more than {lasting(WINDOW)} late, or not captured: lesson lost-insertion.pfl",
    )
    REQUESTS = About(
        "request for a state",
        "requests for a state",
        "an update came of a state that the node did not have: lessons lost-insertion.pfl, lost-frame.pfl",
    )
    BULK = About(
        "bulk update",
        "bulk updates",
        "a node asks for all states when its pfsync starts, as after a restart: lessons restart.pfl, lost-bulk-frame.pfl",
    )
    TWICE = About(
        "flow under two names",
        "flows under two names",
        "if neither state was gone by then, each node let a packet of the flow make one: lessons split-brain.pfl, lost-bulk-frame.pfl",
    )
    DELETED = About(
        "state deleted by the node that did not insert it",
        "states deleted by the node that did not insert them",
        "by expiry, by a kill, or for a flow that began anew at that node, as it does after a failover: lesson early-purge.pfl",
    )
    CROSSED = About(
        "update older than what the other node had sent",
        "updates older than what the other node had sent",
        "the node did not have that frame yet, or did not take it: lessons late-update.pfl, asymmetric-routing.pfl",
    )
    BACK = About(
        "update just as the other node had sent it",
        "updates just as the other node had sent them",
        "a packet of the flow came to both nodes, or an update was stale at this one: lesson asymmetric-routing.pfl",
    )
    RULES = About(
        "difference or change of the rules' checksums",
        "differences and changes of the rules' checksums",
        "while they differ, FreeBSD gives a state that comes no rule, as far as we know: compare `pfctl -sr` of both",
    )
    CLEARS = About(
        "clear",
        "clears",
        "the states were flushed at that node, as by `pfctl -F states`: lesson kill-that-comes-back.pfl",
    )
    DEFERRED = About(
        "insertion of which no acknowledgement is here",
        "insertions of which no acknowledgement is here",
        "with `defer` the first packet waits until the state is acknowledged, or its time is up: lesson failover-with-defer.pfl",
    )
    UNREAD = About("frame not read to its end", "frames not read to their ends", "what was not read of them is not in this report")


class Finding(NamedTuple):
    """Something that was found: when, and its text, which may depend on what comes later."""

    time: int
    text: Union[str, Callable[[], str]]

    def said(self) -> str:
        return self.text if isinstance(self.text, str) else self.text()


@dataclass
class Part:
    """How many there are of a kind, and the first ones."""

    count: int = 0
    first: List[Finding] = field(default_factory=list)


class Findings:
    """All that is found, in the order of its kinds."""

    def __init__(self, keeps_all: bool):
        self._most = 1 << 60 if keeps_all else MOST_OF_PART
        self.parts: Dict[Kind, Part] = {it: Part() for it in Kind}

    def count(self, kind: Kind) -> bool:
        """Counts one more; returns whether it is to be kept."""
        part = self.parts[kind]
        part.count += 1
        return part.count <= self._most

    def keep(self, kind: Kind, time: int, text: Union[str, Callable[[], str]]) -> None:
        """Keeps one that was counted."""
        self.parts[kind].first.append(Finding(time, text))

    @property
    def number(self) -> int:
        return sum(part.count for part in self.parts.values())
