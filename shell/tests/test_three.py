"""A dialogue of three people at one pair, two at shells and one at a page, as docs/SHELL.md prints it.

`python3 -m shell.tests.test_three` writes it anew, from the lines that are typed in it."""
from __future__ import annotations

import contextlib
import json
import os
import re
import subprocess
import sys
import urllib.request
from typing import Callable, Dict, Iterator, List, NamedTuple, Tuple

from ..language.commands import CHANGING
from ..language.events import EVENTS
from ..pages.server import free_port
from . import TOP, program
from .dialogues import PROMPT
from .followers import Followers, ProvedFollowers
from .terminals import Terminal

PATH = f"{TOP}/docs/SHELL.md"
# The block of the dialogue, and what is before and after its lines.
BLOCK = re.compile(r"(.*<!-- dialogue of three -->\n```text\n)(.*?)(```\n.*)", re.DOTALL)
SETUP = ["rule a block any", "rule a pass out", "rule b block any", "rule b pass out", "open"]
SHELLS = ("Ann", "Bob")
MORE = {"PFL_LAB": program(), "PFL_LAB_HISTORY": "", "NO_COLOR": "1", "PYTHONDONTWRITEBYTECODE": "1"}
AT_PAGE = "Cid"
LINE = re.compile(rf"({'|'.join((*SHELLS, AT_PAGE))})  (.*)")


class Turn(NamedTuple):
    """Who does something, and the line."""

    who: str
    line: str

    @property
    def changes(self) -> bool:
        return self.line.split()[0] in (*CHANGING, *EVENTS)


def turns(text: str) -> Iterator[Turn]:
    """What is typed in a dialogue, and clicked at the page."""
    for who, row in (it.groups() for it in map(LINE.fullmatch, text.splitlines()) if it):
        prompt = PROMPT.match(row)
        if prompt:
            yield Turn(who, row[prompt.end() :])
        elif who == AT_PAGE:
            yield Turn(who, row)


class Play:
    """The dialogue as it happens: two terminals and a page, and the rows that came to each."""

    def __init__(self, port: int, ends: contextlib.ExitStack):
        self.terminals: Dict[str, Terminal] = {}
        self.rows: List[str] = []
        self._ends = ends
        self.address = self._begin_page(port)
        for who in SHELLS:
            words = [sys.executable, f"{TOP}/lab", "shell", "--port", str(port), "--page", self.address, "--name", who]
            terminal = self.terminals[who] = Terminal(words, MORE, columns=132, rows=60)
            ends.callback(terminal.close)
        for terminal in self.terminals.values():
            terminal.wait_for("main 0/0>")
        # How many rows of each were taken.
        self.taken = {who: 1 for who in SHELLS}

    def _begin_page(self, port: int) -> str:
        """Begins the page, which prints its addresses before the server answers; returns the one for stepping."""
        words = [sys.executable, f"{TOP}/lab", "page", "--serve", str(free_port()), "--port", str(port)]
        its = subprocess.Popen(words, stdout=subprocess.PIPE, env={**os.environ, **MORE}, text=True)
        self._ends.callback(its.communicate)
        self._ends.callback(its.terminate)
        assert its.stdout
        return its.stdout.readline().split()[0]

    def play(self, turn: Turn) -> None:
        if turn.who == AT_PAGE:
            body = json.dumps({"name": turn.who, "line": f"step main {turn.line}"}).encode()
            request = urllib.request.Request(f"{self.address}do", body, {"Content-Type": "application/json"})
            urllib.request.urlopen(request, timeout=30).close()
            self.rows.append(f"{turn.who}  {turn.line}")
        else:
            self.terminals[turn.who].type(f"{turn.line}\r")
            self._take(turn.who)
        for who in SHELLS:
            if who != turn.who and turn.changes:
                self._take(who)

    def _take(self, who: str) -> None:
        """Takes the rows that come to a terminal above its next prompt."""
        terminal, taken = self.terminals[who], self.taken[who]
        rows = terminal.wait(lambda rows: len(rows) > taken + 1 and bool(PROMPT.fullmatch(f"{rows[-1]} ")))
        self.taken[who] = len(rows) - 1
        self.rows += [f"{who}  {row}".rstrip() for row in rows[taken:-1]]


def played(port: int, text: str, ends: contextlib.ExitStack) -> str:
    """A dialogue as it comes where its lines are typed."""
    play = Play(port, ends)
    for turn in turns(text):
        play.play(turn)
    return "".join(f"{row}\n" for row in play.rows)


def told() -> Tuple[str, str, str]:
    """The dialogue, with what is before and after it."""
    with open(PATH, encoding="utf-8") as it:
        found = BLOCK.fullmatch(it.read())
    assert found
    before, text, after = found.groups()
    return before, text, after


class Three(Followers):
    def test_the_dialogue_is_so(self) -> None:
        before, text, after = told()
        self.assertIn("\\n".join(SETUP), before)
        # (each shell gives its name by one more)
        self.assertIn(f"`closed {len(SHELLS) + sum(it.changes for it in turns(text))}`", after)
        self.assertGreater(len([*turns(text)]), 5)
        self.assertEqual(text, played(self.serve(3, SETUP), text, self.ends))


class ThreeProved(ProvedFollowers, Three):
    """The same over the program's own server."""


def renew(serve: Callable[[contextlib.ExitStack], int]) -> None:
    before, text, after = told()
    with contextlib.ExitStack() as ends:
        new = played(serve(ends), text, ends)
    with open(PATH, "w", encoding="utf-8") as it:
        it.write(f"{before}{new}{after}")


if __name__ == "__main__":
    from .servers import standin_server

    renew(lambda ends: ends.enter_context(standin_server(3, SETUP)).port)
