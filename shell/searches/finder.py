"""The words `search` and `take` of the shell."""
from __future__ import annotations

import time
from dataclasses import dataclass
from typing import IO, Iterable, Iterator, Optional, Protocol, Sequence, Tuple

from ..console.colours import Paint
from ..language import helps
from ..language.searches import SEARCH
from ..link.laboratory import Asked, Laboratory, Unknown
from .answers import Found, NoRun, read_answer
from .deepening import search
from .otherwise import by_other_rules
from .reading import is_for_people, read, wrong_goal
from .report import report, runs

ON_A_SERVER = (
    "a server does not search: its `log` shows the events of a branch; in a shell of your own, after the same setup, step them "
    "and search there"
)
NAME = "found"


@dataclass(frozen=True)
class Way:
    """What a search found: the events that stood on its branch, and those that follow."""

    branch: str
    stood: Tuple[str, ...]
    events: Tuple[str, ...]


class Status:
    """How far a search is, in a line that is overwritten on a terminal, and not shown elsewhere."""

    def __init__(self, out: IO[str], paint: Paint, is_shown: bool):
        self.out, self.paint, self.is_shown = out, paint, is_shown
        self.begun = time.monotonic()

    def watch(self, depth: int, none: Optional[NoRun]) -> None:
        before = ""
        if none:
            before = f"depth {none.depth}: none in {runs(none.runs)}, {time.monotonic() - self.begun:.1f} s; "
        self._write(self.paint.dim(f"{before}depth {depth} .."))

    def clear(self) -> None:
        self._write("")

    def _write(self, text: str) -> None:
        if self.is_shown:
            print(f"\r\033[K{text}", end="", file=self.out, flush=True)


class Dialogue(Protocol):
    """A dialogue whose user searches."""

    lab: Laboratory
    out: IO[str]
    paint: Paint
    is_typed: bool

    def show(self, lines: Sequence[str]) -> None: ...

    def show_whole(self, lines: Sequence[str]) -> None: ...

    def ask(self, line: str) -> bool: ...

    def record(self, asked: Asked) -> None: ...

    def steps(self, branch: str, events: Iterable[str]) -> None: ...


class Finder:
    """Searches for the user of a shell, and steps what was found."""

    def __init__(self, shell: Dialogue):
        self.shell, self.lab = shell, shell.lab
        self.way: Optional[Way] = None
        self.has_searched = False

    def search(self, line: str) -> None:
        """A search in people's words, or the program's own line."""
        if not self.lab.searches:
            raise Unknown(ON_A_SERVER)
        fault = wrong_goal(line)
        if fault:
            raise Unknown(f"{fault}; `help {SEARCH}` has the forms")
        if is_for_people(line):
            self._search(line)
        else:
            self._ask(line)

    def _ask(self, line: str) -> None:
        """The program's own line, whose answer is shown as it is."""
        self.shell.ask(line)
        reply = self.lab.last.reply if self.lab.last else ("",)
        answer = read_answer(reply)
        if answer is not None:
            self._keep(line.split()[1], answer.events if isinstance(answer, Found) else None)

    def _search(self, line: str) -> None:
        sought, branch = read(line, self.lab.in_use), self.lab.branch(self.lab.in_use)
        status = Status(self.shell.out, self.shell.paint, self.shell.is_typed and self.shell.out.isatty())
        try:
            outcome = search(self.lab, branch, sought, status.watch)
        finally:
            status.clear()
        self._keep(branch.name, outcome.answer.events if isinstance(outcome.answer, Found) else None)
        if outcome.asked:
            self.shell.record(outcome.asked)
        self.shell.show(report(sought, outcome, self.shell.paint))
        try:
            said = by_other_rules(self.lab, branch, sought, outcome.answer, status.watch)
        finally:
            status.clear()
        self.shell.show([self.shell.paint.note(said)] * bool(said))
        if outcome.answer is None and not self.shell.is_typed:
            # (outside a dialogue an interrupt ends the shell)
            raise KeyboardInterrupt

    def _keep(self, name: str, events: Optional[Sequence[str]]) -> None:
        self.has_searched, self.way = True, None
        if events is not None:
            branch = self.lab.branch(name)
            self.way = Way(name, tuple(branch.events[: branch.cursor]), tuple(events))

    def take(self, words: Sequence[str]) -> None:
        """Steps what the last search found, on a new branch."""
        if len(words) > 1:
            raise Unknown(f"usage: {helps.SHELL['take'].form}")
        way = self._way()
        name = words[0] if words else next(self._names())
        fork = f"fork {way.branch} {len(way.stood)} {name}"
        self.shell.show_whole([self.shell.paint.dim(f"> {fork}")])
        if self.shell.ask(fork):
            self.lab.in_use = name
            self.shell.show([self.shell.paint.note(f"the branch in use is now {name}")])
            self.shell.steps(name, way.events)

    def _way(self) -> Way:
        """What the last search found, if its branch is still as it was."""
        if self.way is None:
            found_none = "the last search found nothing to take"
            raise Unknown(found_none if self.has_searched else "nothing was found yet: `search` first")
        if self.way.branch not in self.lab.names():
            raise Unknown(f"the branch {self.way.branch}, from which the search began, is gone: search again")
        branch = self.lab.branch(self.way.branch)
        if tuple(branch.events[: branch.cursor]) != self.way.stood:
            raise Unknown(f"{self.way.branch} has changed since the search: its events before the cursor differ; search again")
        return self.way

    def _names(self) -> Iterator[str]:
        """Names for a new branch that are not taken."""
        taken, number = self.lab.names(), 1
        while True:
            name = NAME if number == 1 else f"{NAME}-{number}"
            if name not in taken:
                yield name
            number += 1
