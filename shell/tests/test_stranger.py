"""A stranger's first ten minutes, by README.md and docs/TUTORIAL.md alone: in a copy of the repository, without the kit, what they print
to be typed is typed, and comes to what they say.

`python3 -m shell.tests.test_stranger` writes the screens of the tutorial anew, from the lines that are typed in them."""
from __future__ import annotations

import os
import re
import shlex
import shutil
import signal
import subprocess
import sys
import tempfile
import unittest
import urllib.request
from pathlib import Path
from typing import Dict, Iterator, List, NamedTuple

from ..pages.server import free_port
from . import TOP, program
from .children import SECONDS, bounded, take_signals
from .dialogues import PROMPT, typed

PAGES = ("README.md", "docs/TUTORIAL.md")
TUTORIAL = f"{TOP}/docs/TUTORIAL.md"
# How long a command may take, in seconds. Each takes about one.
PATIENCE = 20.0
COMMANDS = re.compile(r"(?ms)^```sh\n(.*?)^```$")
# What a comment after a command says of its end.
STATUS = re.compile(r"#.*\bstatus (\d+)")
SERVES = re.compile(r"#.*\ban interrupt ends it\b")
INTERRUPTED = 130
# The port that the pages print. Somebody may have it.
PORT = "8080"
# The screens of one session, in order.
SCREEN = re.compile(r"(<!-- dialogue(?: continued)? -->\n```text\n)(.*?)(```\n)", re.DOTALL)
PLAY = "import sys; from shell.tests.dialogues import printed; sys.stdout.write(printed(sys.stdin.read().splitlines()))"
# The picture on README's first screen: this script, up to where it takes its events back.
PICTURE, PICTURED, TAKEN_BACK = "docs/pictures/lost-insertion.svg", "examples/lost-insertion.pfl", "\nback "


def read(path: str) -> str:
    return Path(path).read_text(encoding="utf-8")


class Command(NamedTuple):
    """A line for a shell, as a page prints it."""

    page: str
    line: str

    @property
    def status(self) -> int:
        """The status that the page says it ends with."""
        found = STATUS.search(self.line)
        return int(found[1]) if found else 0

    @property
    def serves(self) -> bool:
        return bool(SERVES.search(self.line))


def commands(page: str) -> Iterator[Command]:
    """What a page has a stranger type, in order."""
    blocks: List[str] = COMMANDS.findall(read(f"{TOP}/{page}"))
    lines = (line for block in blocks for line in block.replace("\\\n", " ").splitlines())
    yield from (Command(page, line) for line in lines if line)


def screens() -> List[str]:
    """The screens of the tutorial."""
    return [it[1] for it in SCREEN.findall(read(TUTORIAL))]


def session() -> List[str]:
    """What is typed in the tutorial's session."""
    return typed("".join(screens()))


def played(folder: str) -> str:
    """The tutorial's session as a terminal shows it. What it saves is saved in the folder."""
    more = {"PFL_LAB": os.path.abspath(program()), "PYTHONPATH": TOP, "PYTHONIOENCODING": "utf-8", "PYTHONDONTWRITEBYTECODE": "1"}
    lines = "".join(f"{it}\n" for it in session())
    words = (sys.executable, "-c", PLAY)
    return subprocess.run(words, input=lines, cwd=folder, env={**os.environ, **more}, stdout=subprocess.PIPE, encoding="utf-8", check=True, timeout=SECONDS).stdout


def copied(folder: str) -> None:
    """Copies what a clone of the repository has."""
    found = subprocess.run(("git", "ls-files", "-z"), cwd=TOP, capture_output=True, text=True, check=False, timeout=SECONDS)
    if found.returncode:
        raise unittest.SkipTest(f"git does not say what a clone has: {found.stderr.strip()}")
    for name in filter(os.path.lexists, (f"{TOP}/{it}" for it in found.stdout.split("\0") if it)):
        copy = os.path.join(folder, os.path.relpath(name, TOP))
        os.makedirs(os.path.dirname(copy), exist_ok=True)
        shutil.copy2(name, copy, follow_symlinks=False)


class Clone(unittest.TestCase):
    """A clone without the kit, and a home of its own."""

    folder: str
    home: str

    @classmethod
    def setUpClass(cls) -> None:
        room = tempfile.TemporaryDirectory()
        cls.addClassCleanup(room.cleanup)
        cls.folder, cls.home = f"{room.name}/pfl_lab", f"{room.name}/home"
        os.makedirs(f"{cls.home}/bin")
        # (the folder of the kit may be that of Python)
        os.symlink(os.path.realpath(sys.executable), f"{cls.home}/bin/python3")
        copied(cls.folder)

    def environment(self) -> Dict[str, str]:
        """An environment without the kit, and without a program."""
        kept = {it: text for it, text in os.environ.items() if not it.startswith(("PFL_LAB", "XDG_"))}
        folders = [it for it in kept["PATH"].split(":") if not os.path.exists(f"{it}/rt")]
        return {**kept, "HOME": self.home, "PATH": ":".join([f"{self.home}/bin", *folders])}

    def start(self, line: str) -> "subprocess.Popen[str]":
        """Starts a shell with a line."""
        return subprocess.Popen(
            ("sh", "-c", line),
            cwd=self.folder,
            env=self.environment(),
            stdin=subprocess.PIPE,
            stdout=subprocess.PIPE,
            stderr=subprocess.STDOUT,
            encoding="utf-8",
            start_new_session=True,
            preexec_fn=take_signals,
        )


class Stranger(Clone):
    """Types what the pages print."""

    def test_what_is_printed_works(self) -> None:
        found = [command for page in PAGES for command in commands(page)]
        self.assertEqual({it.page for it in found}, {*PAGES})
        for dialogue in found:
            with self.subTest(dialogue.page, line=dialogue.line):
                (self.serve if dialogue.serves else self.run_it)(dialogue)

    def run_it(self, command: Command) -> None:
        """Runs a command to its end. A shell gets what is typed in the tutorial."""
        is_shell = shlex.split(command.line, comments=True) == ["./lab", "shell"]
        lines = "".join(f"{it}\n" for it in session()) if is_shell else ""
        ran = self.start(command.line)
        try:
            said = ran.communicate(lines, PATIENCE)[0]
        finally:
            self.end(ran)
        self.assertEqual(ran.returncode, command.status, said)

    def serve(self, command: Command) -> None:
        """Starts a command that serves a page, sees the page, and interrupts the command."""
        self.assertIn(f" {PORT}", command.line)
        # (an interrupt is for the command, and not for the shell that starts it)
        ran = self.start(f"exec {command.line.replace(PORT, str(free_port()))}")
        assert ran.stdout
        try:
            with bounded(ran, PATIENCE):
                address = ran.stdout.readline().split()[0]
            with urllib.request.urlopen(address, timeout=PATIENCE) as it:
                self.assertIn(b"<html", it.read())
            os.killpg(ran.pid, signal.SIGINT)
            said = ran.communicate(timeout=PATIENCE)[0]
        finally:
            self.end(ran)
        self.assertEqual(ran.returncode, INTERRUPTED, said)

    def end(self, ran: "subprocess.Popen[str]") -> None:
        """Ends what has not ended by itself, with all that it started."""
        if ran.poll() is None:
            os.killpg(ran.pid, signal.SIGKILL)
            ran.communicate(timeout=PATIENCE)


class Screens(unittest.TestCase):
    """What the pages show is what comes."""

    def test_the_session_of_the_tutorial(self) -> None:
        with tempfile.TemporaryDirectory() as folder:
            self.assertEqual("".join(screens()), played(folder))

    def test_the_picture_is_that_of_the_script(self) -> None:
        with tempfile.TemporaryDirectory() as folder:
            Path(folder, "night.pfl").write_text(read(f"{TOP}/{PICTURED}").partition(TAKEN_BACK)[0])
            words = (sys.executable, f"{TOP}/lab", "chart", "night.pfl", "night.svg")
            subprocess.run(words, cwd=folder, env={**os.environ, "PFL_LAB": os.path.abspath(program())}, check=True, timeout=SECONDS)
            self.assertEqual(read(f"{folder}/night.svg"), read(f"{TOP}/{PICTURE}"))


def renew() -> None:
    """Writes the tutorial with its screens as they come."""
    with tempfile.TemporaryDirectory() as folder:
        rows = iter(re.split(rf"(?m)^(?={PROMPT.pattern})", played(folder))[1:])

    def renewed(screen: "re.Match[str]") -> str:
        return screen[1] + "".join(next(rows) for _ in typed(screen[2])) + screen[3]

    text = SCREEN.sub(renewed, read(TUTORIAL))
    Path(TUTORIAL).write_text(text, encoding="utf-8")


if __name__ == "__main__":
    renew()
