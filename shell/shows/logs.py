"""`log BRANCH`: the events of a branch with their outcomes, and where the cursor stands."""
from __future__ import annotations

from typing import List

from ..console.colours import Paint
from ..language.events import BROKEN, DROPPED, HELD_BACK, LOST, PASS
from ..link.laboratory import Laboratory
from ..model.branches import Branch


def log(lab: Laboratory, branch: Branch, paint: Paint) -> List[str]:
    """A headline, and each event of the branch with its number, its line and what came of it."""
    unknown = "" if lab.knows_setup else "; the outcomes are known with --setup FILE, the file that the server read"
    lines = [paint.head(_headline(branch) + unknown)]
    # (without the setup they cannot be run again)
    outcomes = lab.outcomes(branch.events) if lab.knows_setup else [""] * len(branch.events)
    number_width = len(str(len(branch.events)))
    event_width = max((len(it) for it in branch.events), default=0)
    for number, (event, outcome) in enumerate(zip(branch.events, outcomes), 1):
        if number == branch.cursor + 1:
            lines.append(paint.note(_cursor(branch, number_width)))
        stands = number <= branch.cursor
        text = f"  {number:>{number_width}}  {event:<{event_width}}  "
        if stands:
            lines.append((text + _painted(outcome, paint)).rstrip())
        else:
            lines.append(paint.dim(f"{text}{outcome}  (undone)"))
    if branch.events and branch.cursor == len(branch.events):
        lines.append(paint.note(_cursor(branch, number_width)))
    return lines


def _headline(branch: Branch) -> str:
    events = len(branch.events)
    text = f"{branch.name}: {events} {'event' if events == 1 else 'events'}"
    if not events:
        return text
    stand = "stands" if branch.cursor == 1 else "stand"
    return f"{text}, {branch.cursor} {stand}"


def _cursor(branch: Branch, width: int) -> str:
    return f"{'>':>{width + 2}}  cursor at {branch.cursor}"


def tone(outcome: str) -> str:
    """The colour of an outcome: `good`, `bad` or none."""
    first = outcome.partition(" ")[0]
    if first in (DROPPED.word, BROKEN.word, LOST.word, "refused", "bad"):
        return "bad"
    return "good" if first in (PASS.word, HELD_BACK.word) else ""


def _painted(outcome: str, paint: Paint) -> str:
    paints = {"bad": paint.bad, "good": paint.good}
    return paints[tone(outcome)](outcome) if tone(outcome) else outcome
