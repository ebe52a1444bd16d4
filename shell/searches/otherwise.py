"""The answer to a search by other rules: all of them the kernel's, or the profile's where they are the kernel's already."""
from __future__ import annotations

from typing import Optional

from ..link.laboratory import Laboratory
from ..model.branches import Branch
from ..model.kernels import EVERY, PROFILE
from ..shows.words import counted
from .answers import Answer, Found, GaveUp, NoRun, is_same
from .deepening import Watch, search
from .sought import Sought


def by_other_rules(lab: Laboratory, branch: Branch, sought: Sought, answer: Optional[Answer], watch: Watch) -> str:
    """What a search finds by other rules, after the same events; nothing if that is the same, if it found no answer here, or if the setup
    is not known."""
    if not lab.knows_setup or not isinstance(answer, (Found, NoRun)):
        return ""
    kernel = PROFILE if lab.setup.kernel == EVERY else EVERY
    there = Laboratory(lab.program, setup=lab.setup.by(kernel))
    outcomes = there.outcomes(branch.events[: branch.cursor])
    parted = next((number for number, it in enumerate(outcomes, 1) if it.startswith("refused")), 0)
    if parted:
        return f"{kernel.by} this branch is a different run from event {parted} on, and is not searched"
    other = search(there, branch, sought, watch).answer
    return "" if other and is_same(answer, other) else f"{kernel.by}: {_words(other)}"


def _words(answer: Optional[Answer]) -> str:
    if isinstance(answer, Found):
        events = f": {', '.join(answer.events)}" if answer.events else ""
        return f"found, {counted(len(answer.events), 'event')}{events}"
    if isinstance(answer, NoRun):
        length = "of any length" if answer.depth is None else f"of at most {counted(answer.depth, 'event')}"
        return f"no run {length}" + ", and it was never asked" * (not answer.asked)
    return f"gave up after {counted(answer.runs, 'run')}" if isinstance(answer, GaveUp) else "interrupted"
