"""The events of a node and of a frame in flight, each as a row: its form, what it answers, and why it may be refused."""
from __future__ import annotations

from dataclasses import dataclass, replace
from functools import cached_property
from typing import Sequence, Tuple

from . import forms as form
from .faults import EVENT_REFUSALS, FRAME_FAULTS, numbered
from .forms import Form, number
from .packets import PacketEvent

LAST_MILLISECOND = 1000000000000
# A node that asks for all states gives up after this many tries.
MOST_TRIES = 12
_PATTERNS = {"NAME": r"[0-9]+\.[0-9]+", "K": f"[1-{len(FRAME_FAULTS)}]"}


@dataclass(frozen=True)
class Outcome:
    """The answer of an accepted event: its form, what the help adds, and a chart's words for it, where `n` is its number."""

    form: str
    help: str = ""
    drawn: str = ""

    @cached_property
    def word(self) -> str:
        return self.form.split()[0]

    @property
    def pattern(self) -> str:
        """The regular expression for this form."""
        return " ".join(_PATTERNS.get(word, "[0-9]+" if word.isupper() else f"(?:{word})") for word in self.form.split())


@dataclass(frozen=True)
class Event:
    """An event: its word and the forms of those that follow, what happens, what it answers, and its refusals in order."""

    word: str
    values: Tuple[Form, ...]
    what: str
    outcomes: Tuple[Outcome, ...]
    refusals: Tuple[str, ...]
    # How its words in a chart begin; {} is the last word of its line.
    drawn: str = ""
    # What else the help says about it.
    more: str = ""
    # The word that makes it happen at both nodes, or to all frames, in the shell.
    every: str = ""
    # The words after its own if it is a TCP packet.
    of_tcp: Tuple[Form, ...] = ()

    @property
    def forms(self) -> Tuple[str, ...]:
        """Its form, and the form for a TCP packet if it has one."""
        return tuple(self.form_with(it) for it in (self.values, self.of_tcp) if it)

    @property
    def refused(self) -> Tuple[str, ...]:
        """Its refusals with their numbers."""
        return tuple(numbered(refusal, EVENT_REFUSALS) for refusal in self.refusals)

    def outcome_of(self, words: Sequence[str]) -> Outcome:
        """The row of an outcome, from its words."""
        return next(outcome for outcome in self.outcomes if outcome.word == words[0])

    def form_with(self, values: Sequence[Form]) -> str:
        return " ".join([self.word, *map(str, values)])

    def values_of(self, words: Sequence[str]) -> Tuple[Form, ...]:
        """The forms of the words after its own, which is the first of these."""
        return self.of_tcp if self.of_tcp and len(words) > 3 and form.is_tcp(words[3]) else self.values


_NODE, _TICKET = (form.NODE,), (form.TICKET,)
_ENDS, _LEN = (form.SOURCE, form.DESTINATION), number("LEN", 65535)
_OF_SEGMENT = (form.FLAGS, number("SEQ", form.GREATEST), number("ACK", form.GREATEST), number("WINDOW", 65535))
_SCALE = replace(number("SCALE", 255), is_optional=True)
CUT_LENGTH = number("LEN", form.GREATEST)

PASS = Outcome("pass NAME", " (by the state NAME)")
PASS_WITHOUT_STATE = Outcome("pass -", " (without a state)")
HELD_BACK = Outcome("held NAME", " (until the peer knows the state)")
DROPPED = Outcome("drop block|max|full|key|window")
TAKEN = Outcome("taken N", ", the records of the frame, including those that were bad or stale (`why` says which),")
BROKEN = Outcome("broken K")
SENT = Outcome("sent TICKET LEN")
LOST = Outcome("lost")
ASKED = Outcome("asked TRIES", drawn="asks for all, try {n}")
SERVED = Outcome("served", drawn="gives up (served)")

PACKET = Event(
    "packet",
    (form.NODE, form.DIRECTION, form.PROTOCOL, *_ENDS, _LEN),
    "a packet comes to a node, on its way in or out; source and destination are ADDRESS:PORT, IPv6 in brackets",
    (PASS, PASS_WITHOUT_STATE, HELD_BACK, DROPPED),
    ("QueueFull", "CountFull"),
    more=f"FLAGS are - or letters of {form.FLAG_LETTERS} in this order.",
    of_tcp=(form.NODE, form.DIRECTION, form.PROTOCOL.named("tcp"), *_ENDS, *_OF_SEGMENT, _LEN, _SCALE),
)
FLUSH = Event("flush", _NODE, "a node sends one frame to the other", (SENT,), ("NothingPending", "LinkFull", "CountFull"))
DELIVER = Event(
    "deliver", _TICKET, "a frame in flight reaches its receiver", (TAKEN, BROKEN), ("NoSuchFrame", "QueueFull", "CountFull"),
    more="`deliver all` delivers every frame in flight, by ticket.", every="all",
)
LOSE = Event("lose", _TICKET, "a frame in flight is lost", (LOST,), ("NoSuchFrame",))
REPEAT = Event(
    "repeat", _TICKET, "a frame in flight is doubled under the next ticket", (SENT,), ("NoSuchFrame", "LinkFull", "CountFull")
)
CUT = Event(
    "cut", (form.TICKET, CUT_LENGTH), "a frame in flight keeps its first LEN bytes", (Outcome("cut LEN"),), ("NoSuchFrame",)
)
TICK = Event(
    "tick", (form.NODE, form.MS), "a node's clock advances by MS milliseconds",
    (Outcome("clock MS", drawn="clock {clock}"),), ("ClockFull",), "+{},",
    more="`tick both MS` ticks both nodes.", every="both",
)
PURGE = Event(
    "purge", _NODE, "a node deletes the states that have expired",
    (Outcome("purged N", drawn="{states} deleted"),), ("QueueFull", "CountFull"), "purge:",
    more="Timeouts depend on how many states it finds (`help set`).",
)
RELEASE = Event(
    "release", _NODE, "a node releases the held packets that are due",
    (Outcome("released N", drawn="{packets} released"),), ("NothingPending", "TooEarly", "CountFull"), "release:",
)
KILL = Event(
    "kill", (form.NODE, form.NAME), "a node deletes the state NAME, which is CREATOR.ID",
    (Outcome("killed"),), ("NoSuchState", "QueueFull", "CountFull"), "kill {}",
)
CLEAR = Event(
    "clear", _NODE, "a node clears all its states, and reports that to the peer",
    (Outcome("cleared N", drawn="{states} cleared"),), ("QueueFull", "CountFull"), "clear:",
)
RESTART = Event(
    "restart", _NODE, "a node starts anew without states, and asks the peer for all of them",
    (Outcome("boot N", drawn="boot {n}"),), ("CountFull",), "restart:",
)
TURN = Event(
    "turn", _NODE, "a node queues the next states of the bulk update that it serves",
    (Outcome("queued N", drawn="{states} queued"),), ("NotSyncing", "QueueFull", "CountFull"), "bulk turn:",
)
RETRY = Event(
    "retry", _NODE, "a node asks for all states again, or gives up after the twelfth try",
    (ASKED, SERVED), ("NotSyncing", "TooEarly", "QueueFull"), "bulk retry:",
)
_EVENTS = (PACKET, FLUSH, DELIVER, LOSE, REPEAT, CUT, TICK, PURGE, RELEASE, KILL, CLEAR, RESTART, TURN, RETRY)
EVENTS = {it.word: it for it in _EVENTS}
OF_FRAME = {it.word: it for it in _EVENTS if it.values[0] is form.TICKET}
# What happens at a node by itself, and concerns nothing else of the pair.
OF_NODE = {it.word: it for it in _EVENTS if it.word not in OF_FRAME and it not in (FLUSH, RESTART)}


def plain_event(words: Sequence[str]) -> str:
    """An event as a log has it, from the words of its line."""
    event = EVENTS[words[0]]
    return " ".join([event.word, *(it.plain(word) for it, word in zip(event.values_of(words), words[1:]))])


def read_packet(event: str) -> PacketEvent:
    """The packet of an event's line."""
    return PacketEvent.read(plain_event(event.split()))
