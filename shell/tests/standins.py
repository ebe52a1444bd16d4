"""A program for tests that answers searches with what it is given, and may wait for ever; all else is the laboratory's. And a
dialogue with it."""
from __future__ import annotations

import io
import os
import sys
import tempfile
import threading
import time
import unittest
from typing import Callable, Dict, List

from ..console.colours import PLAIN
from ..dialogue.shell import Shell
from ..link.laboratory import Laboratory
from . import TOP, program

QUERY = "packet a out udp 10.0.0.1:1000 192.0.2.9:53 40"
ANSWER = "packet b in udp 192.0.2.9:53 10.0.0.1:1000 80"
SETUP = ["rule a block any", "rule a pass out", "rule b block any", "rule b pass out", "open"]
NONE = {depth: [f"none {depth} {depth + 1} {depth}"] for depth in range(9)}

TEXT = """#!{python}
import os, subprocess, sys, time

sys.path.insert(0, {top!r})
from shell.language.lines import has_word
from shell.link.programs import read_reply

PROGRAM, ANSWERS = {program!r}, {answers!r}
if sys.argv[1:] != ["run"]:
    os.execv(PROGRAM, [PROGRAM, *sys.argv[1:]])
run = subprocess.Popen([PROGRAM, "run"], stdin=subprocess.PIPE, stdout=subprocess.PIPE, text=True)
replies, is_open = iter(run.stdout), False
for line in sys.stdin:
    words = line.split()
    if words[:1] == ["search"]:
        depth = int(words[2])
        while depth not in ANSWERS:
            open(sys.argv[0] + ".waits", "w").close()
            time.sleep(1)
        print(*ANSWERS[depth], sep="\\n", flush=True)
        continue
    run.stdin.write(line)
    run.stdin.flush()
    if is_open and has_word(line):
        print(*read_reply(replies), sep="\\n", flush=True)
    is_open = is_open or words == ["open"]
run.stdin.close()
sys.exit(run.wait())
"""


def standin(test: unittest.TestCase, answers: Dict[int, List[str]]) -> str:
    """A program that answers a search of each depth so, and never one of another depth; it is there until the test ends."""
    folder = tempfile.TemporaryDirectory()
    test.addCleanup(folder.cleanup)
    path = f"{folder.name}/pfl_lab"
    with open(path, "w", encoding="utf-8") as it:
        it.write(TEXT.format(python=sys.executable, top=TOP, program=program(), answers=answers))
    os.chmod(path, 0o755)
    return path


def once_it_waits(path: str, do: Callable[[], object]) -> threading.Thread:
    """Does something as soon as the stand-in was asked for a depth of which it gives no answer."""

    def wait() -> None:
        end = time.monotonic() + 60
        while not os.path.exists(f"{path}.waits") and time.monotonic() < end:
            time.sleep(0.02)
        # (the shell has still to begin to wait for the answer)
        time.sleep(0.1)
        do()

    thread = threading.Thread(target=wait)
    thread.start()
    return thread


class Dialogue(unittest.TestCase):
    def shell(self, path: str = "", is_typed: bool = False) -> Shell:
        """A shell after a query at a, of which nothing is told to b yet."""
        lab = Laboratory(path or program())
        self.addCleanup(lab.close)
        shell = Shell(lab, io.StringIO(), PLAIN, is_typed=is_typed)
        shell.take([*SETUP, QUERY], echo=False)
        return shell

    def said(self, shell: Shell, *lines: str) -> List[str]:
        """What the shell says to the lines."""
        shell.out = io.StringIO()
        shell.take(lines, echo=False)
        return shell.out.getvalue().splitlines()
