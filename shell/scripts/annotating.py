"""Writes the replies into scripts, as lines `#>`, and reports the lines of them that look like slips."""
from __future__ import annotations

import os
import re
import tempfile
from dataclasses import dataclass
from difflib import unified_diff
from typing import Callable, Iterator, List, Sequence

from ..console.endings import NotDone
from ..link.programs import run_lines, setup_fault
from ..shows.words import counted
from .proofreading import Slip, kind_of, setup_slip, slips
from .texts import read
from .verifying import CHECKED, FAULT, REPLY, STATUS, Script

# The option by which nothing is written.
DRY_RUN = ("-n", "--dry-run")


class NotWritten(NotDone):
    """Replies would be lost: nothing was written."""


@dataclass(frozen=True)
class Annotated:
    """A script with its replies, and how to find the lines that are faulty or refused now and, by the replies that it had, were not
    before."""

    text: str
    slips: Callable[[], List[Slip]]


def annotated(program: str, text: str) -> Annotated:
    """The script with the replies, the faults and the status as they come, instead of those that it has."""
    script = Script.of(text)
    ran = run_lines(program, script.lines)
    fault = setup_fault(ran.faults)
    if len(ran.replies) < len(script.commands) and not (ran.faults and (script.marked[FAULT] or script.marked[STATUS])):
        had = "the replies that the script has are kept" if any(command.expected for command in script.commands) else "nothing is written"
        why = [str(setup_slip(fault, script.lines))] if fault else ran.faults
        raise NotWritten(f"{'; '.join(why) or 'not every line was answered'}: {had}")
    below = {command.number: reply for command, reply in zip(script.commands, ran.replies)}
    checked = iter(_checked(program, script))
    lines: List[str] = []
    for number, line in enumerate(script.lines, 1):
        if line.startswith(CHECKED):
            lines += [f"{CHECKED}{it}" for it in checked]
        elif not line.startswith((REPLY, FAULT, STATUS)):
            lines.append(line)
            lines += [f"{REPLY}{it}" for it in below.get(number, [])]
    lines += [f"{FAULT}{it}" for it in ran.faults]
    lines += [f"{STATUS}{ran.status}"] * bool(ran.status)

    def new_slips() -> List[Slip]:
        known = {it.number for it in script.commands if kind_of([line for _, line in it.expected]) == kind_of(below.get(it.number, []))}
        found = [setup_slip(fault, script.lines)] if fault and not script.marked[FAULT] else []
        return [*found, *slips(program, script.lines, below, known)]

    return Annotated("".join(f"{line}\n" for line in lines), new_slips)


def _checked(program: str, script: Script) -> List[str]:
    if not script.marked[CHECKED]:
        return []
    return [line for reply in run_lines(program, script.lines, "check").replies for line in reply]


def _replaced(path: str, text: str) -> None:
    """Writes a script in place of another one, which is whole at every moment."""
    path = os.path.realpath(path)
    folder = os.path.dirname(path)
    with tempfile.NamedTemporaryFile("w", dir=folder, delete=False, encoding="utf-8", errors="surrogateescape", newline="") as it:
        it.write(text)
    os.chmod(it.name, os.stat(path).st_mode)
    os.replace(it.name, path)


def _differences(path: str, text: str, new: str) -> Iterator[str]:
    """Where a script and what it would become differ, in lines as diff(1) has them; none if they do not."""
    old_lines, new_lines = (re.findall("[^\n]*\n|[^\n]+", it) for it in (text, new))
    for line in unified_diff(old_lines, new_lines, path, path):
        yield from [line[:-1]] if line.endswith("\n") else [line, "\\ No newline at end of file"]


@dataclass(frozen=True)
class Written:
    """What became of a script: the lines about it, and those of its lines that look like slips."""

    path: str
    lines: List[str]
    slips: List[Slip]


def annotate(program: str, paths: Sequence[str], is_dry: bool = False) -> Iterator[Written]:
    """Writes the replies into scripts, and reports what became of each; stops at one that could not be written. A dry run writes
    nothing, and reports what would change."""
    for path in paths:
        text = read(path)
        try:
            new = annotated(program, text)
        except NotWritten as why:
            raise NotWritten(f"{path}: {why}") from why
        changes = list(_differences(path, text, new.text))
        if changes and not is_dry:
            _replaced(path, new.text)
        became = "as it was" if not changes else "replies would be written" if is_dry else "replies written"
        yield Written(path, [*(changes if is_dry else ()), f"{path}: {became}"], new.slips())


def about_slips(found: int) -> str:
    """What is said below the lines of scripts that look like slips."""
    return f"{counted(found, 'line is', 'lines are')} faulty or refused, and had no such reply before"
