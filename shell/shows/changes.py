"""`changes BRANCH K`: what one event of a branch changed in the pair."""
from __future__ import annotations

from typing import List

from ..console.colours import Paint
from ..link.laboratory import Laboratory
from ..model.branches import Branch
from .differences import Difference, differences


def changes(lab: Laboratory, branch: Branch, number: int, paint: Paint) -> List[str]:
    """The event with its outcome, and everything that it changed, before and after."""
    event = lab.explanation(branch.name, number).event
    before, after = (lab.with_contents(lab.past(branch.name, place), branch) for place in (number - 1, number))
    lines = [paint.head(f"event {number}: {event.line}: {event.came}")]
    if number > branch.cursor:
        lines.append(paint.dim("  it was undone: this is what it changed before that"))
    found = differences(before, after)
    if not found:
        return [*lines, "  it changed nothing"]
    return [*lines, *(f"  {_painted(it, paint)}" for it in found)]


def _painted(difference: Difference, paint: Paint) -> str:
    if difference.is_new:
        return paint.good(str(difference))
    return paint.bad(str(difference)) if difference.is_gone else str(difference)
