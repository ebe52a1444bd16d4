"""The answer to a `depends`: of a script with all of its commands, or of the events of a branch."""
from __future__ import annotations

from contextlib import closing
from typing import List, NamedTuple, Sequence

from ..console.colours import Paint
from ..language.commands import STEP
from ..link.laboratory import Laboratory, Unknown
from ..model.branches import Branch
from .choices import tried
from .reasons import Reasons
from .replayed import Command, Script
from .report import Report

ON_A_SERVER = "a server does not report its setup: with --setup FILE, the file that it read, its events are played by other rules"


class Answer(NamedTuple):
    """The lines of the answer, and whether a reply depends on the rules."""

    lines: List[str]
    depends: bool


def of_script(program: str, lines: Sequence[str], name: str, shows_all: bool, paint: Paint) -> Answer:
    """Which replies of a script depend on its rules; none of its lines is faulty."""
    return _answer(Script.of(program, lines), name, shows_all, paint)


def of_branch(lab: Laboratory, branch: Branch, shows_all: bool, paint: Paint) -> Answer:
    """The same of the events of a branch that stand."""
    if not lab.knows_setup:
        raise Unknown(ON_A_SERVER)
    return _answer(script_of(lab, branch), branch.name, shows_all, paint)


def script_of(lab: Laboratory, branch: Branch) -> Script:
    """The events of a branch that stand, on the branch main of a script."""
    return Script(lab.program, lab.setup.lines, [Command(f"{STEP.word} main {event}") for event in branch.events[: branch.cursor]])


def _answer(script: Script, name: str, shows_all: bool, paint: Paint) -> Answer:
    trial = tried(script)
    with closing(Reasons(script)) as why:
        return Answer(Report(trial, name, shows_all, why, paint).lines(), trial.changes)
