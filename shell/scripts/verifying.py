"""Scripts with their replies: compares the lines `#>` with what comes."""
from __future__ import annotations

import re
import time
from dataclasses import dataclass, field
from typing import Dict, Iterator, List, Sequence, Tuple

from ..language.lines import content_of, has_word, lines_of, opens
from ..link.programs import run_lines
from .kinds import OtherFile
from .texts import read

REPLY, FAULT, CHECKED, STATUS = "#> ", "#! ", "#? ", "#= "
# A line that was meant as one of these, and is a comment.
LIKE_A_MARK = re.compile(r"\s*#[>!?=]")


def is_mark(line: str) -> bool:
    """Whether a line is a reply, a fault or a status, or looks like one."""
    return LIKE_A_MARK.match(line) is not None


@dataclass(frozen=True)
class Mismatch:
    """A place where a script's marked lines and what came differ."""

    line: int
    what: str
    wanted: str
    came: str

    def __str__(self) -> str:
        return f"{self.line}: {self.what}\n  expected: {self.wanted or 'nothing'}\n  got:      {self.came or 'nothing'}"


@dataclass
class Command:
    """A line with an answer: its number, and the reply that the script expects, each line with its own number."""

    number: int
    expected: List[Tuple[int, str]] = field(default_factory=list)


@dataclass
class Script:
    """A script: its lines, counted from 1, and what it expects."""

    lines: List[str]
    commands: List[Command] = field(default_factory=list)
    stray: List[Tuple[int, str]] = field(default_factory=list)
    unread: List[Tuple[int, str]] = field(default_factory=list)
    marked: Dict[str, List[Tuple[int, str]]] = field(default_factory=lambda: {it: [] for it in (FAULT, CHECKED, STATUS)})

    @classmethod
    def of(cls, text: str) -> "Script":
        script, is_open = cls(lines_of(text)), False
        for number, line in enumerate(script.lines, 1):
            line = content_of(line)
            if line.startswith(REPLY):
                script._expect(number, line[len(REPLY) :])
            elif line[:3] in script.marked:
                script.marked[line[:3]].append((number, line[3:]))
            elif is_mark(line):
                script.unread.append((number, line))
            elif has_word(line) and is_open:
                script.commands.append(Command(number))
            elif has_word(line):
                is_open = opens(line)
        return script

    def _expect(self, number: int, text: str) -> None:
        (self.commands[-1].expected if self.commands else self.stray).append((number, text))


def verify(program: str, text: str) -> List[Mismatch]:
    """Where the script's marked lines differ from the replies, faults and status: each place, from the first on."""
    script = Script.of(text)
    ran = run_lines(program, script.lines)
    found = [Mismatch(number, "reply to no line", text, "") for number, text in script.stray]
    found += [
        Mismatch(number, "no mark: these are `#> `, `#! `, `#= `, `#? ` at the start", text, "") for number, text in script.unread
    ]
    for at, command in enumerate(script.commands):
        found += _replies(command, ran.replies[at] if at < len(ran.replies) else [])
    last = len(script.lines)
    found += _differ("fault", script.marked[FAULT], ran.faults, last)
    found += _differ("status", script.marked[STATUS] or [(last, "0")], [str(ran.status)], last)
    if script.marked[CHECKED] or script.marked[FAULT]:
        checked = run_lines(program, script.lines, "check")
        found += _differ("check", script.marked[CHECKED], [line for reply in checked.replies for line in reply], last)
    return found


def _replies(command: Command, reply: List[str]) -> Iterator[Mismatch]:
    return _differ("reply", command.expected, reply, command.number)


def _differ(what: str, wanted: List[Tuple[int, str]], came: List[str], at: int) -> Iterator[Mismatch]:
    """The first place where two lists of lines differ, if they do; `at` is the line for what is in no line of the script."""
    for place in range(max(len(wanted), len(came))):
        number, text = wanted[place] if place < len(wanted) else (at, "")
        line = came[place] if place < len(came) else ""
        if text != line:
            yield Mismatch(number, what, text, line)
            return


@dataclass(frozen=True)
class Verified:
    """The result of running scripts against their replies: a line for each difference, and one for all; and how many seconds that
    took."""

    lines: List[str]
    differing: int
    seconds: float

    def shown(self, is_timed: bool) -> List[str]:
        """The lines. Where somebody waits for them, the last one has the time; elsewhere they are always the same."""
        return [*self.lines[:-1], f"{self.lines[-1]}, in {self.seconds:.2f} s" if is_timed else self.lines[-1]]


def verified(program: str, paths: Sequence[str]) -> Verified:
    """Runs scripts, and reports where their marked lines and the replies differ, or why one could not be read."""
    lines: List[str] = []
    differing, unread, begun = 0, 0, time.monotonic()
    for path in paths:
        try:
            found = [f"{path}:{it}" for it in verify(program, read(path))]
        except OSError as error:
            if error.filename == program:
                raise
            lines.append(f"{error.filename or path}: {error.strerror}")
            unread += 1
            continue
        except OtherFile as why:
            lines.append(str(why))
            unread += 1
            continue
        differing += bool(found)
        lines += found
    total = f"{len(paths)} script{'s' * (len(paths) != 1)}"
    wrong = [f"{differing} differ{'s' * (differing == 1)}"] * bool(differing) + [f"{unread} could not be read"] * bool(unread)
    lines.append(f"{total}: {', '.join(wrong) or 'all replies as they say'}")
    return Verified(lines, differing + unread, time.monotonic() - begun)
