"""A search that goes deeper and deeper, in a run of its own: an interrupt does no harm to the pair that a person works with."""
from __future__ import annotations

from dataclasses import dataclass
from typing import Callable, List, NamedTuple, Optional, Tuple

from ..language.commands import BACK, STEP
from ..language.events import FLUSH, OF_FRAME
from ..language.searches import NONE
from ..link.laboratory import Asked, Laboratory, Unknown, outcome_of
from ..link.programs import Run
from ..model.branches import Branch, Happened
from ..model.flights import read_flight
from ..model.frames import Frame
from ..model.pair import Pair, read_shown
from .answers import Answer, Found, GaveUp, NoRun, read_answer
from .sought import SPLITS, Sought

OLD_PROGRAM = "this program does not know such a search: it is older than the shell"
# Takes the depth that is searched now, and what the search before it answered, if there was one.
Watch = Callable[[int, Optional[NoRun]], None]


class Step(NamedTuple):
    """An event that was found, and the frame that it sends or is about, as the event leaves it."""

    event: Happened
    frame: Optional[Frame]


@dataclass(frozen=True)
class Outcome:
    """How a search ended: its answer, or none if it was interrupted; the depth that it reached; the line that was answered last, with its
    reply; and what is known of the depth before. If a run was found, its steps, what then becomes of the packet that it is about, at
    its own node and at the other one, and the pair that the run leads to."""

    answer: Optional[Answer]
    depth: int
    asked: Optional[Asked]
    known: Optional[NoRun] = None
    steps: Tuple[Step, ...] = ()
    packet: str = ""
    at_other: str = ""
    last: Optional[Pair] = None


def search(lab: Laboratory, branch: Branch, sought: Sought, watch: Watch) -> Outcome:
    """Searches from where a branch stands, for runs of no event, then of one, and so on, until one is found or all have ended. An
    interrupt ends it."""
    depth = 0
    asked: Optional[Asked] = None
    known: Optional[NoRun] = None
    try:
        with lab.aside(branch) as run:
            for depth in range(sought.within + 1):
                watch(depth, known)
                now = _asked(run, sought.line(branch.name, depth))
                answer = _answer(now)
                if isinstance(answer, Found):
                    return _found(run, branch, sought, answer, now)
                if isinstance(answer, GaveUp):
                    return Outcome(answer, depth, now, known)
                asked, known = now, answer
                if known.depth is None:
                    break
        return Outcome(known, depth, asked, known)
    except KeyboardInterrupt:
        return Outcome(None, depth, asked, known)


def _asked(run: Run, line: str) -> Asked:
    return Asked(line, tuple(run.ask_freely(line)))


def _answer(asked: Asked) -> Answer:
    answer = read_answer(asked.reply)
    if answer is None:
        reply = asked.reply[0]
        is_old = reply == "bad 3 Unknown" or reply.split()[0] == NONE
        raise Unknown(OLD_PROGRAM if is_old else f"the program answers `{reply}` to `{asked.line}`")
    return answer


def _found(run: Run, branch: Branch, sought: Sought, answer: Found, asked: Asked) -> Outcome:
    """The events that were found, each with what it does."""
    steps: List[Step] = []
    for number, event in enumerate(answer.events, branch.cursor + 1):
        happened = Happened(number, event, outcome_of(_step(run, branch, event)))
        steps.append(Step(happened, _frame(run, branch, happened)))
    last = read_shown(run.ask_freely(f"show {branch.name}"))
    packet = _would(run, branch, sought.packet) if sought.packet else ""
    at_other = _would(run, branch, sought.packet_of_other) if sought.kind == SPLITS else ""
    return Outcome(answer, len(steps), asked, None, tuple(steps), packet, at_other, last)


def _frame(run: Run, branch: Branch, happened: Happened) -> Optional[Frame]:
    if happened.kind is not FLUSH and happened.words[0] not in OF_FRAME:
        return None
    ticket = (happened.outcome if happened.kind is FLUSH else happened.words)[1]
    return read_flight(run.ask_freely(f"frame {branch.name} {ticket}")).now


def _would(run: Run, branch: Branch, event: str) -> str:
    """What would come of an event, which is taken back."""
    reply = _step(run, branch, event)
    if reply.startswith(STEP.word):
        run.ask_freely(f"{BACK.word} {branch.name} 1")
    return outcome_of(reply)


def _step(run: Run, branch: Branch, event: str) -> str:
    return run.ask_freely(f"{STEP.word} {branch.name} {event}")[0]
