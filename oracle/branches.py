"""The branches of a run: their events, and what each must show."""
from __future__ import annotations

import contextlib
from typing import ContextManager, Iterator, List, NamedTuple, Optional, Sequence, Tuple

from shell.link.laboratory import outcome_of
from shell.language.events import OF_FRAME
from shell.model.pair import read_shown

from .frames import contents
from .reasons import compare_reason
from .refusals import against
from .subject import Differs, Subject

WITHOUT = "without"
# Where an event can be tried: a run, and a branch of it that serves nothing else.
Room = Tuple[Subject, str]


class Shown(NamedTuple):
    """What a branch showed after an event, and the outcome of that event."""

    lines: List[str]
    outcome: str = ""


class WantedBranch:
    """The events of a branch, and what it must show: first at the opening, then after each event that stands or was undone."""

    def __init__(self, events: List[str], shown: List[Shown], cursor: int):
        self.events, self.shown, self.cursor = events, shown, cursor
        self.former: Optional[Tuple[List[str], List[Shown], int]] = None

    @classmethod
    def at_opening(cls, lab: Subject) -> "WantedBranch":
        return cls([], [Shown(lab.shown("main", 0, 0))], 0)

    def fork(self, place: int) -> "WantedBranch":
        """A branch of the first events."""
        return WantedBranch(self.events[:place], self.shown[: place + 1], place)

    def take(self, lab: Subject, name: str, event: str, reply: str, foretold: Sequence[str]) -> None:
        """An event got this reply: it stands now, or has changed nothing. `why` had foretold it."""
        if not reply.startswith("step "):
            compare(f"why {name} {event}", self.refused(lab, name, event, reply), foretold, "came")
            self.compare(lab, name, f"{event}: {reply}")
            return
        undone = len(self.events) - self.cursor
        if reply.split()[-2:] != ["dropped", str(undone)]:
            raise Differs(f"{event}: {reply}, but {undone} events were undone")
        self.events[self.cursor :] = [event]
        self.cursor += 1
        why = lab.answer(f"why {name} {self.cursor}")
        compare(f"why {name} {event}", why, foretold, "came")
        self.shown[self.cursor :] = [Shown(lab.shown(name, self.cursor, self.cursor), outcome_of(reply))]
        self.former = None
        self.compare_why(lab, name, self.cursor, why)

    def go(self, lab: Subject, name: str, n: int) -> None:
        """The cursor moves by `n` events."""
        self.cursor += n
        self.order(lab, name, f"{'back' if n < 0 else 'forward'} {name} {abs(n)}", f"at {self.cursor}")

    def end(self, lab: Subject, name: str) -> None:
        """All events happen again, then all are taken back, and then they happen once more; each end is seen from the other, and
        some frames from the first."""
        self.go(lab, name, len(self.events) - self.cursor)
        self.go(lab, name, -self.cursor)
        self.past(lab, name, len(self.events))
        for ticket in sorted({0, 1, self.sent // 2, self.sent, self.sent + 1}):
            self.frame(lab, name, ticket)
        self.go(lab, name, len(self.events))
        self.past(lab, name, 0)

    def excise(self, room: ContextManager[Room], place: int) -> str:
        """An event is taken out; returns the reply that is wanted. The room has the events before it."""
        former = self.events, self.shown, self.cursor
        with room as (lab, name):
            fallen = self.leave_out(lab, name, place)
        self.former = former
        return " ".join(["excised", *map(str, fallen)])

    def leave_out(self, lab: Subject, name: str, place: int) -> List[int]:
        """Becomes what it must be without the event at the place; returns the places of those that fall out."""
        events, fallen, standing = self.events, [], min(self.cursor, place - 1)
        self.events, self.shown = events[: place - 1], self.shown[:place]
        for at, line in enumerate(events[place:], place + 1):
            reply = lab.ask(f"step {name} {line}")
            if not reply.startswith("step "):
                fallen.append(at)
                continue
            self.events.append(line)
            self.shown.append(Shown(lab.shown(name, len(self.events), len(self.events)), outcome_of(reply)))
            standing += at <= self.cursor
        self.cursor = standing
        return fallen

    def restore(self) -> str:
        """What was there before the newest excision is back, if it can be brought back; returns the reply that is wanted."""
        if not self.former:
            return "refused 10 NothingExcised"
        self.events, self.shown, self.cursor = self.former
        self.former = None
        return f"restored {self.cursor}"

    def order(self, lab: Subject, name: str, line: str, wanted: str) -> None:
        """A command must get this reply, and then the branch must show what is wanted."""
        lab.need(line, wanted)
        self.compare(lab, name, line)
        self.compare_log(lab, name, line)

    def log(self, name: str) -> List[str]:
        """The log that the branch must have: its events, each as its line."""
        first = f"log {name} events {len(self.events)} cursor {self.cursor}"
        return [first, *(f"event {at} step {name} {line}" for at, line in enumerate(self.events, 1)), "end"]

    def compare_log(self, lab: Subject, name: str, after: str) -> None:
        compare(f"after {after}", self.log(name), lab.answer(f"log {name}"), "came")

    def seen_at(self, name: str, place: int) -> List[str]:
        """The reply that `past` must get: what the branch showed when it stood there, or that it has no such place."""
        if place > len(self.events):
            return ["refused 5 NothingForward"]
        return [f"branch {name} events {len(self.events)} cursor {place}", *self.shown[place].lines]

    def past(self, lab: Subject, name: str, place: int) -> str:
        """The branch is seen at a place, and stays as it is; returns the first line of the reply."""
        line, wanted = f"past {name} {place}", self.seen_at(name, place)
        compare(line, wanted, lab.answer(line), "came")
        self.compare(lab, name, line)
        self.compare_log(lab, name, line)
        return wanted[0]

    def why(self, lab: Subject, name: str, place: int) -> List[str]:
        """An event is explained, and the branch stays as it is; returns the reply."""
        line = f"why {name} {place}"
        reply = lab.answer(line)
        if 1 <= place <= len(self.events):
            self.compare_why(lab, name, place, reply)
        else:
            compare(line, ["refused 9 NoEvent"], reply, "came")
        self.compare(lab, name, line)
        return reply

    def compare_why(self, lab: Subject, name: str, place: int, reply: List[str]) -> None:
        """The reply to `why` must have the event, its outcome, and what can be said about the reason without the program."""
        head = f"why {name} {place}"
        compare(head, [head, self.log(name)[place], f"outcome {self.shown[place].outcome}"], reply[:3], "came")
        compare_reason(lab.setup, reply, self.shown[place - 1].lines, self.shown[place].lines)

    def foretell(self, lab: Subject, name: str, event: str, room: ContextManager[Room]) -> List[str]:
        """An event that has not happened is explained, and the branch stays as it is; returns the reply. The room has the events of the
        branch that stand."""
        line = f"why {name} {event}"
        reply = lab.answer(line)
        with room as (other, spare):
            came = other.ask(f"step {spare} {event}")
            rest = other.answer(f"why {spare} {self.cursor + 1}")[2:] if came.startswith("step ") else []
        compare(line, [*self.head(name, event), *rest] if rest else self.refused(lab, name, event, came), reply, "came")
        self.compare(lab, name, line)
        return reply

    def head(self, name: str, event: str) -> List[str]:
        """How the reply that explains an event where the branch stands begins."""
        return [f"why {name} {self.cursor + 1}", f"event {self.cursor + 1} step {name} {event}"]

    def refused(self, lab: Subject, name: str, event: str, reply: str) -> List[str]:
        """What `why` must say about an event with this refusal where the branch stands."""
        _, _, _, number, refusal = reply.split()
        pair = read_shown([f"branch {name} events 0 cursor 0", *self.now()])
        return [*self.head(name, event), f"refused {number} {refusal}", *against(lab.setup, pair, event, refusal), "end"]

    def frame(self, lab: Subject, name: str, ticket: int) -> List[str]:
        """A frame is shown, and the branch stays as it is; returns the reply."""
        line = f"frame {name} {ticket}"
        reply = lab.answer(line)
        compare(line, self.traced(name, ticket), reply, "came")
        self.compare(lab, name, line)
        return reply

    @property
    def sent(self) -> int:
        """How many frames its events sent, under tickets from 1."""
        return sum(it.outcome.startswith("sent ") for it in self.shown)

    def traced(self, name: str, ticket: int) -> List[str]:
        """The reply that `frame` must get: the event that sent the frame, its bytes as they were shown then, what is in them, and the
        events of the ticket."""
        steps = [(line, f"outcome {it.outcome}") for line, it in zip(self.log(name)[1:], self.shown[1:])]
        sent = next((at for at, it in enumerate(self.shown) if it.outcome.startswith(f"sent {ticket} ")), None)
        if sent is None:
            return ["refused 11 NoFrame"]
        frame = next(line for line in self.shown[sent].lines if line.startswith(f"frame {ticket} "))
        data = frame.split()[3].replace("-", "")
        later = [it for it, event in zip(steps, self.events) if event.split()[0] in OF_FRAME and event.split()[1] == str(ticket)]
        lines = [*steps[sent - 1], frame, *contents(bytes.fromhex(data)), *(line for two in later for line in two)]
        return [f"frame {name} {ticket}", *lines, "end"]

    def now(self) -> List[str]:
        return self.shown[self.cursor].lines

    def compare(self, lab: Subject, name: str, after: str) -> None:
        compare(f"after {after}", self.now(), lab.shown(name, len(self.events), self.cursor), "shown")


def compare(where: str, wanted: Sequence[str], came: Sequence[str], how: str) -> None:
    if list(came) != list(wanted):
        raise Differs("\n".join([where, "wanted:", *wanted, f"{how}:", *came]))


@contextlib.contextmanager
def fork_for(lab: Subject, name: str, events: int, spare: str = WITHOUT) -> Iterator[Room]:
    """A fork with the first events of a branch, for a while."""
    lab.need(f"fork {name} {events} {spare}", "forked")
    yield lab, spare
    lab.need(f"drop {spare}", "removed")
