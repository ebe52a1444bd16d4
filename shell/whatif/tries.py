"""Tries the faults of a run, each by itself or every two together, and groups them by what they change."""
from __future__ import annotations

from dataclasses import dataclass, field
from typing import Callable, Dict, Iterable, Iterator, List

from ..link.laboratory import Laboratory, Unknown
from ..model.branches import Branch
from ..model.setups import Setup
from .asked import Asked
from .faults import Course, Fault, Variant, faults_of, pairs_of
from .groups import Base, Effect, Groups, is_of_one
from .plays import Played, Player
from .sharing import Alike, Sharing

# How many events of variants are stepped at most unless a part of the run was named, so that it takes minutes and not hours.
MOST_EVENTS = 10_000_000
# Takes how many variants have been tried, and how many there are.
Progress = Callable[[int, int], None]
# Says why a variant that was just played, the first of its group, does what it does.
Why = Callable[["Tried", Variant, Effect, Played], List[str]]

ON_A_SERVER = "a server does not report its setup: with --setup FILE, the file that it read, faults are tried in runs of their own"


@dataclass
class Tried:
    """What was tried, how far it got, and what it changes."""

    player: Player
    base: Base
    asked: Asked
    why: Why
    # The last reply to `show` in the run itself, at its end.
    shown: List[str]
    faults: List[Fault]
    total: int
    done: int = 0
    groups: Groups = field(default_factory=Groups)
    # What is known of variants that do the same as others.
    known: Dict[Alike, Effect] = field(default_factory=dict)
    # How many pairs change only what one of their faults, or each of them, changes alone.
    of_one: int = 0
    is_interrupted: bool = False

    @property
    def course(self) -> Course:
        return self.player.course

    @property
    def setup(self) -> Setup:
        return self.player.lab.setup


def course_of(lab: Laboratory, branch: Branch) -> Course:
    """The events of a branch that stand, with their outcomes."""
    if not lab.knows_setup:
        raise Unknown(ON_A_SERVER)
    lines = branch.events[: branch.cursor]
    if not lines:
        undone = ": all of them are undone" if branch.events else ""
        raise Unknown(f"{branch.name} has no events that stand{undone}, and so no faults to try")
    return Course(lines, lab.outcomes(lines))


def tried(player: Player, asked: Asked, progress: Progress, why: Why) -> Tried:
    """Tries what is asked for, and asks why of each group that will be shown. An interrupt ends it, and what was found so far counts."""
    course, setup = player.course, player.lab.setup
    faults = faults_of(course, asked.kinds, *asked.within(player.branch.name, len(course)))
    if not asked.pairs:
        _bounded(player.branch.name, course, faults)
    played = player.play(())
    base = Base(course, played, setup)
    total = sum(1 for _ in pairs_of(faults)) if asked.pairs else len(faults)
    trial = Tried(player, base, asked, why, played.shown, faults, total)
    try:
        (_try_pairs if asked.pairs else _try_each)(trial, progress)
    except KeyboardInterrupt:
        trial.is_interrupted = True
    return trial


def _bounded(branch: str, course: Course, faults: List[Fault]) -> None:
    """Refuses what would take hours."""
    events = sum(len(course) - fault.place for fault in faults)
    if events > MOST_EVENTS:
        raise Unknown(
            f"{branch} has {len(course):,} events that stand and {len(faults):,} single faults, whose runs have {events:,} events"
            f" together; at most {MOST_EVENTS:,} are tried: --from K and --to L try the faults at some events only, and --faults"
            " some kinds only"
        )


def _effect(trial: Tried, variant: Variant) -> Effect:
    return trial.base.effect(trial.player.play(variant))


def _add(trial: Tried, variant: Variant, effect: Effect, played: Played) -> None:
    """Adds a variant that was just played to its group. If it is the first one, and its group will be shown, it is asked why at once, since
    later it would have to be played again."""
    group = trial.groups.add(variant, effect)
    if group.many == 1 and not trial.asked.only and trial.asked.watch.has(effect):
        group.reason = trial.why(trial, variant, effect, played)


def _counted(trial: Tried, variants: Iterable[Variant], progress: Progress) -> Iterator[Variant]:
    """The variants, each counted once it is done."""
    for variant in variants:
        progress(trial.done, trial.total)
        yield variant
        trial.done += 1


def _watched(trial: Tried, progress: Progress) -> Iterator[Fault]:
    """The faults, which are tried before any pair."""
    for fault in trial.faults:
        progress(0, trial.total)
        yield fault


def _try_each(trial: Tried, progress: Progress) -> None:
    sharing = Sharing(trial.course)
    for variant in _counted(trial, ((fault,) for fault in trial.faults), progress):
        alike = None if trial.asked.flushing else sharing.alike(variant)
        if alike in trial.known:
            trial.groups.add(variant, trial.known[alike])
            continue
        played = trial.player.play(variant)
        effect = trial.base.effect(played)
        if alike:
            trial.known[alike] = effect
        _add(trial, variant, effect, played)


def _try_pairs(trial: Tried, progress: Progress) -> None:
    """Tries each fault by itself first: only a pair that does something else counts."""
    alone = {fault: _effect(trial, (fault,)) for fault in _watched(trial, progress)}
    for one, two in _counted(trial, pairs_of(trial.faults), progress):
        played = trial.player.play((one, two))
        effect = trial.base.effect(played)
        if is_of_one(effect, alone[one], alone[two], one.left_out | two.left_out):
            trial.of_one += 1
        else:
            _add(trial, (one, two), effect, played)
