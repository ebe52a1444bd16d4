"""What the first fault of each group changes by other rules: all of them the kernel's, or the profile's where they are the kernel's
already."""
from __future__ import annotations

from typing import Dict, NamedTuple, Sequence

from ..console.colours import PLAIN
from ..link.laboratory import Laboratory
from ..model.branches import Branch
from ..model.kernels import EVERY, PROFILE
from .faults import Course
from .groups import Base
from .plays import Player
from .report import Numbered, change
from .tries import Tried


class Otherwise(NamedTuple):
    """What is to be said of the run, if it is another one by these rules; and of groups, by their numbers, what changes there."""

    run: str
    groups: Dict[int, str]


NOTHING = Otherwise("", {})


def otherwise(lab: Laboratory, branch: Branch, trial: Tried, groups: Sequence[Numbered]) -> Otherwise:
    """Plays the first fault of each of some groups by other rules; says what changes there, where that is something else."""
    kernel = PROFILE if lab.setup.kernel == EVERY else EVERY
    there = Laboratory(lab.program, setup=lab.setup.by(kernel))
    lines = branch.events[: branch.cursor]
    outcomes = there.outcomes(lines)
    parted = next((number for number, came in enumerate(outcomes, 1) if came.startswith("refused")), 0)
    if parted:
        return Otherwise(f"{kernel.by} the run is a different one from event {parted} on, and its faults are not tried", {})
    with there.beside(branch) as other:
        player = Player(other, branch, Course(lines, outcomes), trial.asked.flushing)
        played = player.play(())
        its = Tried(player, Base(player.course, played, other.setup), trial.asked, trial.why, played.shown, [], 0)
        found = {}
        for number, group in groups:
            text = change(its, its.base.effect(player.play(group.variants[0])), PLAIN)
            if text != change(trial, group.effect, PLAIN):
                found[number] = f"{kernel.by}: {text}"
        return Otherwise("", found)
