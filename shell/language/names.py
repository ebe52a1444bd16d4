"""The names of nodes, states, levels and counters, and the words of pfctl(8) for them."""
from __future__ import annotations

from typing import Dict, NamedTuple, Optional, Tuple

NODES = ("a", "b")

TCP_LEVELS = (
    *("CLOSED", "LISTEN", "SYN_SENT", "SYN_RCVD", "ESTABLISHED", "CLOSE_WAIT", "FIN_WAIT_1", "CLOSING", "LAST_ACK"),
    *("FIN_WAIT_2", "TIME_WAIT"),
)
SYN_SENT, ESTABLISHED, CLOSING, FIN_WAIT_2, TIME_WAIT = (
    TCP_LEVELS.index(level) for level in ("SYN_SENT", "ESTABLISHED", "CLOSING", "FIN_WAIT_2", "TIME_WAIT")
)
OTHER_LEVELS = ("NO_TRAFFIC", "SINGLE", "MULTIPLE")
SINGLE, MULTIPLE = (OTHER_LEVELS.index(it) for it in ("SINGLE", "MULTIPLE"))


def level_name(protocol: str, level: int) -> str:
    """The level of an end as `pfctl -ss` prints it; for ICMP that is its number."""
    if protocol == "icmp":
        return str(level)
    names = TCP_LEVELS if protocol == "tcp" else OTHER_LEVELS
    return names[level] if level < len(names) else str(level)


class CounterName(NamedTuple):
    """A node's counter: its short name, and what it counts."""

    name: str
    counts: str


LOST = CounterName("lost", "held packets lost with their state")
COUNTERS: Tuple[CounterName, ...] = (
    CounterName("passed", "packets passed"),
    CounterName("blocked", "packets dropped"),
    CounterName("freed", "held packets released"),
    LOST,
    CounterName("bad", "records not taken"),
    CounterName("stale", "updates older than the state"),
    CounterName("broken", "frames that could not be read"),
)

BULK_START, BULK_END = 1, 2
BULK_STATUSES: Dict[int, str] = {BULK_START: "start", BULK_END: "end"}


class Name(NamedTuple):
    """A state's name: the boot that made it, and its number there. Names are ordered this way."""

    creator: int
    id: int

    @classmethod
    def read(cls, text: str) -> "Name":
        creator, _, number = text.partition(".")
        return cls(int(creator), int(number))

    def __str__(self) -> str:
        return f"{self.creator}.{self.id}"


# The name that means all states.
ALL_STATES = Name(0, 0)


def number_or_none(text: str) -> Optional[int]:
    """A number, or nothing if the line has a dash."""
    return None if text == "-" else int(text)
