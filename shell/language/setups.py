"""What a setup can say: the limits, the classes of timeouts, the options of rules and the rules of the kernel, each as a row."""
from __future__ import annotations

from dataclasses import dataclass
from typing import Tuple

from . import forms as form
from .forms import Form, choice, number


@dataclass(frozen=True)
class Limit:
    """A limit of the pair: its range, and its default, a number or this many fifths of `states`."""

    word: str
    least: int
    most: int
    default: int = 0
    fifths: int = 0

    @property
    def is_switch(self) -> bool:
        """Whether a line can set it only to 0 or 1."""
        return self.most == 1


STATES = Limit("states", 1, 65536, 64)
QUEUE = Limit("queue", 1, 65536, 256)
FRAMES = Limit("frames", 1, 4096, 64)
MTU = Limit("mtu", 148, 9000, 1500)
HELD = Limit("held", 1, 128, 128)
DEFER = Limit("defer", 0, 1, 0)
DEFER_MS = Limit("defer_ms", 1, 10000, 20)
MAXUPD = Limit("maxupd", 1, 255, 128)
BATCH = Limit("batch", 1, 256, 16)
BULK_MS = Limit("bulk_ms", 1, 60000, 10000)
# Timeouts shrink between these two.
ASTART = Limit("astart", 0, 131072, fifths=3)
AEND = Limit("aend", 0, 131072, fifths=6)
_LIMITS = (STATES, QUEUE, FRAMES, MTU, HELD, DEFER, DEFER_MS, MAXUPD, BATCH, BULK_MS, ASTART, AEND)
LIMITS = {limit.word: limit for limit in _LIMITS}


@dataclass(frozen=True)
class TimeoutClass:
    """A class of timeouts, with its seconds unless a rule or `set timeout` sets others."""

    word: str
    seconds: int


# By their numbers in frames.
CLASSES = (
    TimeoutClass("tcp.first", 120),
    TimeoutClass("tcp.opening", 30),
    TimeoutClass("tcp.established", 86400),
    TimeoutClass("tcp.closing", 900),
    TimeoutClass("tcp.finwait", 45),
    TimeoutClass("tcp.closed", 90),
    TimeoutClass("udp.first", 60),
    TimeoutClass("udp.single", 30),
    TimeoutClass("udp.multiple", 60),
    TimeoutClass("icmp.first", 20),
    TimeoutClass("icmp.error", 10),
    TimeoutClass("other.first", 60),
    TimeoutClass("other.single", 30),
    TimeoutClass("other.multiple", 60),
)
CLASS = choice("CLASS", tuple(it.word for it in CLASSES))


@dataclass(frozen=True)
class Option:
    """An option of a rule, and the words that follow it."""

    word: str
    values: Tuple[Form, ...] = ()

    @property
    def form(self) -> str:
        return f"[{' '.join([self.word, *(it.name for it in self.values)])}]"


QUICK = Option("quick")
PROTO = Option("proto", (form.PROTOCOL.named("P"),))
FROM, FROM_PORT = Option("from", (form.NET,)), Option("fport", (form.PORTS,))
TO, TO_PORT = Option("to", (form.NET,)), Option("tport", (form.PORTS,))
# These have no effect on a block rule.
FLAGS_ANY = Option("flags", (form.ANY,))
NO_SYNC = Option("no-sync")
MAX = Option("max", (form.N,))
# What replaces the near end: on the wire for a rule on the way out, on the stack for a rule on the way in.
NAT, RDR = Option("nat", (form.POOL,)), Option("rdr", (form.POOL,))
# May come once for each class, in the order of their numbers. A line `set timeout` has the same words.
TIMEOUT = Option("timeout", (CLASS, number("SECONDS", form.GREATEST)))
# In the order in which they come in a rule.
_OPTIONS = (QUICK, PROTO, FROM, FROM_PORT, TO, TO_PORT, FLAGS_ANY, NO_SYNC, MAX, NAT, RDR, TIMEOUT)
OPTIONS = {option.word: option for option in _OPTIONS}
RULE_FORM = f"pass|block in|out|any {' '.join(it.form for it in OPTIONS.values())}..."
MOST_RULES = 256


@dataclass(frozen=True)
class Switch:
    """A rule of FreeBSD's kernel that can take the place of the profile's: its word, what it says, and how sure we are of it."""

    word: str
    what: str
    sure: str


WINDOW = Switch(
    "window",
    "a segment without data is judged by what it acknowledges alone, and an end that was never heard begins with its first packet, "
    "whatever its level",
    "95%",
)
LOOSE = Switch(
    "loose",
    "where the other end was not heard, or an end has closed, a packet up to 67035 bytes outside what is known passes, and does not renew "
    "the state",
    "95%; that it moves the other end's hi: 85%",
)
MERGE = Switch("merge", "unless both ends of an update are stale, its destination is taken, stale or not", "85%")
RULE = Switch(
    "rule",
    "a state that comes as an update, in a bulk update or in answer to a request, has no rule, and so the default timeouts",
    "80%",
)
EXPIRY = Switch(
    "expiry",
    "a merge counts as a use now, and an imported state keeps the seconds that its record has left, counted by the unscaled timeout; 0 left "
    "gives a whole one",
    "90%; of an import: 85%",
)
RESET = Switch(
    "reset",
    "a reset needs the next number, or one beside it",
    "85% from 13.2-RELEASE-p7 and 13.3 on; before, only for packets that `scrub` has reassembled, 50%",
)
SCALE = Switch(
    "scale",
    "the window of an end's first SYN is kept in units of the scale that it offers, and an offer that is not answered is void",
    "95%",
)
CLEAR = Switch("clear", "a clear deletes all states of its creator, newer ones too", "90%")
REVIVE = Switch(
    "revive",
    "an insertion or a whole update brings a state back, although the receiver has yet to send its own deletion of it",
    "75%",
)
ICMP = Switch("icmp", "states of ICMP have no levels, so that no update of one is stale", "85%")
# In the order in which they are written.
SWITCHES = {it.word: it for it in (WINDOW, LOOSE, MERGE, RULE, EXPIRY, RESET, SCALE, CLEAR, REVIVE, ICMP)}
EVERY_SWITCH = "all"
