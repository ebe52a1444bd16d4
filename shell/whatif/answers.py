"""The answer to a `whatif`: the groups in words, and the script with variants if one is asked for."""
from __future__ import annotations

import time
from functools import partial
from typing import IO, Callable, List, NamedTuple, Optional

from ..console.colours import Paint
from ..link.laboratory import Laboratory, Unknown
from ..model.branches import Branch
from ..scripts.annotating import NotWritten
from .asked import Asked
from .otherwise import NOTHING, otherwise
from .plays import Player
from .report import report, shown_groups, why_first
from .tries import Progress, course_of, tried
from .variants import Written, with_variants

# How many seconds pass before the line of progress is renewed.
RENEWED = 0.2


class Answer(NamedTuple):
    """The lines of the answer, and whether an interrupt ended it; the script to write, or why there is none."""

    lines: List[str]
    is_interrupted: bool
    written: Optional[Written] = None
    fault: str = ""


def answer(lab: Laboratory, branch: Branch, asked: Asked, paint: Paint, progress: Progress, script: Callable[[], str]) -> Answer:
    """Tries the faults of a branch in a run of its own; nothing changes here. Variants are added to the script."""
    course, taken = course_of(lab, branch), lab.names()
    with lab.beside(branch) as other:
        player = Player(other, branch, course, asked.flushing)
        trial = tried(player, asked, progress, partial(why_first, paint))
        groups = shown_groups(trial)
        others = NOTHING if trial.is_interrupted else otherwise(lab, branch, trial, groups)
        lines = report(trial, groups, paint, others.groups)
        found = Answer([*lines, *["", paint.note(others.run)] * bool(others.run)], trial.is_interrupted)
        try:
            return found._replace(written=with_variants(trial, script(), taken, groups)) if asked.out else found
        except (NotWritten, Unknown) as why:
            # (what was found is not lost)
            return found._replace(fault=str(why))


class Counter:
    """How many variants are tried, on a line that is overwritten on a terminal, and not shown elsewhere."""

    def __init__(self, out: IO[str]):
        self.out, self.is_shown = out, out.isatty()
        self.next = time.monotonic() + RENEWED

    def __call__(self, done: int, total: int) -> None:
        if self.is_shown and time.monotonic() >= self.next:
            self.next = time.monotonic() + RENEWED
            print(f"\r\033[K{done:,} of {total:,} tried", end="", file=self.out, flush=True)

    def clear(self) -> None:
        if self.is_shown:
            print("\r\033[K", end="", file=self.out, flush=True)
