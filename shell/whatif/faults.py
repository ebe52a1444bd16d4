"""The single faults of a run as data: what each leaves out of the list of its events, and what it puts between them."""
from __future__ import annotations

from dataclasses import dataclass
from functools import cached_property
from itertools import combinations
from typing import Callable, Dict, FrozenSet, Iterator, List, NamedTuple, Sequence, Tuple

from ..language import events
from ..language.events import CUT, DELIVER, FLUSH, KILL, LOSE, OF_FRAME, PACKET, PURGE, RELEASE, REPEAT, RESTART, RETRY, SENT, TICK, TURN
from ..language.names import NODES
from ..model.branches import Happened
from ..shows.words import counted, seconds

# How far a clock jumps: further than the 60 s of udp.first and udp.multiple.
JUMP = 61_000
# By how many events a frame comes late.
LATE = (1, 2, 4)
# The place of an event: after this many events of the run, and its rank among those at the same place.
Position = Tuple[int, int]
# An event of the run itself, one that comes late, one that a fault puts before the next event, and what happens to that one's frame.
OWN, AFTER, BETWEEN, BEFORE = 0, 1, 2, 3


@dataclass(frozen=True)
class Planned:
    """An event that is to happen: its number in the run, or 0 if a fault adds it; its line, with the tickets and names of the run; and
    the ticket under which the run knows the frame that it sends, or 0. A frame that a fault adds has a negative ticket."""

    number: int
    line: str
    sends: int = 0

    @cached_property
    def words(self) -> List[str]:
        # (the events of a run are planned in each of its variants)
        return self.line.split()

    @cached_property
    def frame(self) -> int:
        """The frame that it is about, or 0."""
        return int(self.words[1]) if self.words[0] in OF_FRAME else 0


class Sent(NamedTuple):
    """A frame of the run: the event that sent it, its bytes, and the events about it, in order."""

    ticket: int
    number: int
    length: int
    later: List[Happened]

    def has(self, kind: events.Event) -> bool:
        return any(it.kind is kind for it in self.later)

    @property
    def end(self) -> int:
        """The event that delivered or lost it; 0 if it is in flight after the last event."""
        return next((it.number for it in self.later if it.kind in (DELIVER, LOSE)), 0)


class Course:
    """The events of a run with what came of each, and its frames."""

    def __init__(self, lines: Sequence[str], outcomes: Sequence[str]):
        self.events = [Happened(number, *it) for number, it in enumerate(zip(lines, outcomes), 1)]
        self.has_kills = any(it.kind is KILL for it in self.events)
        self.frames: Dict[int, Sent] = {}
        self.planned = [self._planned(it) for it in self.events]
        # For the name of a state the first packet that met it, which made it.
        self.makers: Dict[str, int] = {}
        for event in self.events:
            if event.kind is PACKET and len(event.outcome) > 1 and event.outcome[0] != events.DROPPED.word:
                self.makers.setdefault(event.outcome[1], event.number)

    def _planned(self, event: Happened) -> Planned:
        sends = int(event.outcome[1]) if event.outcome[0] == SENT.word else 0
        if sends:
            self.frames[sends] = Sent(sends, event.number, int(event.outcome[2]), [])
        if event.words[0] in OF_FRAME:
            self.frames[int(event.words[1])].later.append(event)
        return Planned(event.number, event.line, sends)

    def __len__(self) -> int:
        return len(self.events)

    def sender(self, ticket: int) -> str:
        """The node that sent a frame, or the one that it is a copy of."""
        event = self.events[self.frames[ticket].number - 1]
        return event.words[1] if event.kind is FLUSH else self.sender(int(event.words[1]))

    def in_flight(self, place: int) -> List[int]:
        """The frames in flight after the first events."""
        return [frame.ticket for frame in self.frames.values() if frame.number <= place and not 0 < frame.end <= place]


@dataclass(frozen=True)
class Fault:
    """A fault: its kind, the event that it is about, the fault in words (without the event that it comes before, if it is between
    events), which events it leaves out, and what it adds where."""

    kind: str
    at: int
    text: str
    left_out: FrozenSet[int] = frozenset()
    added: Tuple[Tuple[Position, Planned], ...] = ()
    # What two faults cannot both happen to: a frame by its ticket, or an event by its negative number; 0 for what is between events.
    subject: int = 0

    @property
    def name(self) -> str:
        """The fault in words, with the event that it is about."""
        return self.text if self.subject else f"{self.text} before event {self.at}"

    @property
    def place(self) -> int:
        """How many events of the run come unchanged before the first that it changes."""
        return min([number - 1 for number in self.left_out] + [position[0] for position, _ in self.added])


# A fault alone, or two together.
Variant = Tuple[Fault, ...]


def place_of(variant: Variant, course: Course) -> int:
    """How many events from the first on a variant has in common with its run."""
    return min((it.place for it in variant), default=len(course))


def planned(course: Course, variant: Variant) -> List[Planned]:
    """The events of a variant, from the first that is changed."""
    place = place_of(variant, course)
    left_out = {number for it in variant for number in it.left_out}
    steps: List[Tuple[Position, Planned]] = [((it.number, OWN), it) for it in course.planned[place:] if it.number not in left_out]
    steps += [step for it in variant for step in it.added]
    # (those at one place are in the order in which they are named)
    return [it for _, it in sorted(steps, key=lambda step: step[0])]


# ---- frames


def _delivered(course: Course) -> Iterator[Sent]:
    """The frames that are delivered, including those in flight after the last event, which are delivered at the end."""
    return (frame for frame in course.frames.values() if not frame.has(LOSE))


def _of_frame(kind: str, frame: Sent, what: str, *added: Tuple[Position, Planned], is_moved: bool = False) -> Fault:
    """A fault of a frame at the place where it would be delivered; the delivery itself is left out if it is moved."""
    where = f"event {frame.end}" if frame.end else f"sent by event {frame.number}"
    left_out = frozenset([frame.end]) if is_moved and frame.end else frozenset()
    return Fault(kind, frame.end or frame.number, f"frame {frame.ticket} {what} ({where})", left_out, added, frame.ticket)


def _before(course: Course, frame: Sent) -> Position:
    """The place just before a frame is delivered, or after the last event if the run does not deliver it."""
    return (frame.end - 1, BEFORE) if frame.end else (len(course), BEFORE)


def _lost(course: Course) -> Iterator[Fault]:
    """A frame is lost. One that is cut would do the same, since nobody can read it."""
    for frame in _delivered(course):
        at = (frame.end, OWN) if frame.end else _before(course, frame)
        yield _of_frame("lose", frame, "lost", (at, Planned(frame.end, f"{LOSE.word} {frame.ticket}")), is_moved=True)


def _twice(course: Course) -> Iterator[Fault]:
    """A frame is doubled, and its copy is delivered just after it."""
    for frame in _delivered(course):
        again = Planned(0, f"{REPEAT.word} {frame.ticket}", -frame.ticket)
        second = ((frame.end, AFTER), Planned(0, f"{DELIVER.word} {-frame.ticket}"))
        yield _of_frame("twice", frame, "twice", (_before(course, frame), again), *([second] if frame.end else []))


def _late(course: Course) -> Iterator[Fault]:
    """A frame comes some events late, but before the last event."""
    frames = ((it, more) for it in _delivered(course) for more in LATE if 0 < it.end < len(course) - more)
    for it, more in frames:
        yield _moved("late", it, it.end + more, f"late by {counted(more, 'event')}")


def _last(course: Course) -> Iterator[Fault]:
    """A frame comes after all events, even a frame that the run lost."""
    for frame in course.frames.values():
        if frame.has(LOSE):
            yield _moved("last", frame, len(course), "not lost, but last")
        elif 0 < frame.end < len(course):
            yield _moved("last", frame, len(course), "last")


def _moved(kind: str, frame: Sent, after: int, what: str) -> Fault:
    step = Planned(frame.end, f"{DELIVER.word} {frame.ticket}")
    return _of_frame(kind, frame, what, ((after, AFTER), step), is_moved=True)


# ---- events


SKIPPED = (PACKET, FLUSH, PURGE, RELEASE, TURN, RETRY)
# Faults that the run itself has and that are not about a frame.
OWN_FAULTS = (RESTART, KILL, events.CLEAR)


def _without(kind: str, event: Happened) -> Fault:
    words = event.words
    what = f"{words[0]} {' '.join(words[1:6])}" if event.kind is PACKET else event.line
    return Fault(kind, event.number, f"without event {event.number} ({what})", frozenset([event.number]), (), -event.number)


def _skipped(course: Course) -> Iterator[Fault]:
    for event in course.events:
        if event.kind in SKIPPED:
            yield _without("skip", event)


def _between(kind: str, course: Course, text: str, line: str) -> Iterator[Fault]:
    """Something that happens before each event in turn."""
    for number in range(1, len(course) + 1):
        yield Fault(kind, number, text, frozenset(), (((number - 1, BETWEEN), Planned(0, line)),))


def _restarted(course: Course) -> Iterator[Fault]:
    for node in NODES:
        yield from _between("restart", course, f"{node} restarts", f"{RESTART.word} {node}")


def _jumped(course: Course) -> Iterator[Fault]:
    for node in NODES:
        yield from _between("clock", course, f"the clock of {node} advances by {seconds(JUMP)}", f"{TICK.word} {node} {JUMP}")


def _undone(course: Course) -> Iterator[Fault]:
    """The faults of the run itself, each as if it had not happened."""
    for event in course.events:
        if event.kind is LOSE:
            frame = course.frames[int(event.words[1])]
            step = Planned(event.number, f"{DELIVER.word} {frame.ticket}")
            yield _of_frame("undone", frame, "not lost", ((event.number, OWN), step), is_moved=True)
        elif event.kind in (CUT, REPEAT):
            what = "not cut" if event.kind is CUT else "not repeated"
            text = f"frame {event.words[1]} {what} (event {event.number})"
            yield Fault("undone", event.number, text, frozenset([event.number]), (), int(event.words[1]))
        elif event.kind in OWN_FAULTS:
            yield _without("undone", event)


# The kinds of faults, in the order in which they are tried and listed.
KINDS: Dict[str, Callable[[Course], Iterator[Fault]]] = {
    "undone": _undone,
    "lose": _lost,
    "twice": _twice,
    "late": _late,
    "last": _last,
    "skip": _skipped,
    "restart": _restarted,
    "clock": _jumped,
}
# The kinds of which two are tried together unless others are asked for. The others have no place of their own in a run.
OF_PAIRS = tuple(it for it in KINDS if it not in ("restart", "clock"))


def faults_of(course: Course, kinds: Sequence[str], first: int, last: int) -> List[Fault]:
    """The faults of these kinds at the events from the first to the last."""
    return [it for kind, those in KINDS.items() if kind in kinds for it in those(course) if first <= it.at <= last]


def pairs_of(faults: Sequence[Fault]) -> Iterator[Variant]:
    """All pairs of faults that can both happen."""
    for one, two in combinations(faults, 2):
        if not (one.subject and one.subject == two.subject) and not one.left_out & two.left_out:
            yield one, two
