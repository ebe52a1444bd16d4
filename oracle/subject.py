"""A run of the program that gets one line after another."""
from __future__ import annotations

import subprocess
import threading
from typing import List, Optional

from shell.language.commands import OPEN
from shell.link.programs import read_reply
from shell.model.setups import Setup


class Differs(Exception):
    """What is shown is not what it must be."""


class Subject:
    """A run of the program that is compared with a model, and ended if it takes longer than this many seconds. A line has a character
    for each byte."""

    def __init__(self, program: str, seconds: Optional[float] = None):
        self.run = subprocess.Popen([program, "run"], stdin=subprocess.PIPE, stdout=subprocess.PIPE)
        assert self.run.stdin and self.run.stdout
        self.input, self.output = self.run.stdin, self.run.stdout
        self.replies = iter(lambda: self.output.readline().decode("latin-1"), "")
        self.lines: List[str] = []
        self.setup = Setup()
        self.program, self.seconds = program, seconds
        self.watch = threading.Timer(seconds or 0, self.run.kill)
        if seconds:
            self.watch.start()

    def send(self, line: str) -> None:
        self.lines.append(line)
        try:
            self.input.write(f"{line}\n".encode("latin-1"))
            self.input.flush()
        except OSError as error:
            raise Differs(f"{line}: the program has ended") from error

    def open(self, setup: Setup) -> None:
        """Sends the lines of a setup, and ends it."""
        for line in (*setup.lines, OPEN.word):
            self.send(line)
        self.setup = setup

    def answer(self, line: str) -> List[str]:
        """The whole reply to a command."""
        self.send(line)
        reply = read_reply(self.replies)
        if not reply:
            raise Differs(f"{line}: no reply")
        return reply

    def ask(self, line: str) -> str:
        """The reply to a command that is not faulty, which is one line."""
        reply = self.answer(line)
        if len(reply) > 1 or reply[0].startswith("bad "):
            raise Differs(f"{line}: {reply[0]}")
        return reply[0]

    def need(self, line: str, wanted: str) -> None:
        reply = self.ask(line)
        if reply != wanted:
            raise Differs(f"{line}: {reply}, not {wanted}")

    def shown(self, branch: str, events: int, cursor: int) -> List[str]:
        """The pair as shown by a branch with this many events, of which this many stand."""
        first, *shown = self.answer(f"show {branch}")
        if first != f"branch {branch} events {events} cursor {cursor}":
            raise Differs(f"show {branch}: {first}, not {events} events and {cursor}")
        return shown

    def close(self) -> None:
        """Ends the input, and waits for the end of the run."""
        try:
            self.input.close()
        except OSError:
            # (it ended before it read everything)
            pass
        self.run.wait()
        self.output.close()
        self.watch.cancel()
