"""A search that takes long: it shows how far it is on a terminal, and an interrupt ends it and nothing else."""
from __future__ import annotations

import os
import pty
import re
import select
import signal
import subprocess
import sys
import time
import unittest
from typing import Optional

from . import TOP
from .children import SECONDS, take_interrupts, take_signals
from .standins import NONE, SETUP, Dialogue, once_it_waits, standin


class Interrupts(Dialogue):
    def setUp(self) -> None:
        take_interrupts(self)

    def test_an_interrupt_ends_the_search_and_not_the_pair(self) -> None:
        path = standin(self, {0: ["none 0 1 1"], 1: ["none 1 3 2"]})
        shell = self.shell(path, is_typed=True)
        thread = once_it_waits(path, lambda: os.kill(os.getpid(), signal.SIGINT))
        said = self.said(shell, "search apart", "names", "take", "flush a")
        thread.join(SECONDS)
        # (the line that was answered last is kept, as every other search)
        self.assertEqual(said[0], "> search main 1 1000000 quiet apart; 8 any deliver; 8 flush a; 8 flush b")
        self.assertEqual(said[1], "interrupted at depth 2; up to depth 1 there is none")
        self.assertIn("\n#> none 1 3 2\n", shell.script())
        self.assertEqual(said[-3:], ["names main", "the last search found nothing to take", "step sent 1 148 dropped 0"])

    def test_an_interrupt_ends_a_line_of_the_program_too(self) -> None:
        path = standin(self, {0: ["none 0 1 1"]})
        shell = self.shell(path, is_typed=True)
        self.said(shell, "fork main 0 other")
        self.assertEqual(self.said(shell, "search other 0 9 apart"), ["none 0 1 1"])
        thread = once_it_waits(path, lambda: os.kill(os.getpid(), signal.SIGINT))
        with self.assertRaises(KeyboardInterrupt):
            self.said(shell, "search main 3 9 apart")
        thread.join(SECONDS)
        self.assertEqual(self.said(shell, "names", "flush a"), ["names main other", "step sent 1 148 dropped 0"])


class Command(unittest.TestCase):
    """`./lab shell` as a program."""

    def start(self, path: str, stdin: int, stdout: int, stderr: Optional[int] = None) -> "subprocess.Popen[bytes]":
        env = {**os.environ, "PFL_LAB": path, "PFL_LAB_HISTORY": "", "TERM": "dumb", "NO_COLOR": "1"}
        command = (sys.executable, f"{TOP}/lab", "shell")
        return subprocess.Popen(
            command, env=env, start_new_session=True, preexec_fn=take_signals, stdin=stdin, stdout=stdout, stderr=stderr
        )

    def test_on_a_pipe_the_result_alone_is_told(self) -> None:
        given = "\n".join([*SETUP, "search apart", "names"])
        with self.start(standin(self, NONE), stdin=subprocess.PIPE, stdout=subprocess.PIPE) as ran:
            out = ran.communicate(given.encode(), timeout=60)[0].decode()
        self.assertEqual(out.splitlines()[0], "> search main 8 1000000 quiet apart; 8 any deliver; 8 flush a; 8 flush b")
        self.assertRegex(out.splitlines()[1], "^no run of at most 8 events of these choices leads there: proved, over 9 runs, 8 of which end ")
        self.assertEqual((out.splitlines()[4:], ran.returncode), (["names main"], 0))

    def test_on_a_pipe_an_interrupt_ends_the_shell_and_tells_how_far_it_came(self) -> None:
        given = "\n".join([*SETUP, "names", "search apart", "names"])
        path = standin(self, {0: ["none 0 1 1"]})
        with self.start(path, stdin=subprocess.PIPE, stdout=subprocess.PIPE, stderr=subprocess.PIPE) as ran:
            once_it_waits(path, lambda: ran.send_signal(signal.SIGINT))
            out, told = ran.communicate(given.encode(), timeout=60)
        names, line, known, *others = out.decode().splitlines()
        self.assertEqual((names, known), ("names main", "interrupted at depth 1; up to depth 0 there is none"))
        self.assertRegex(line, "^> search main 0 1000000 quiet apart; ")
        self.assertEqual((len(others), told, ran.returncode), (2, b"", 130))

    def test_on_a_terminal_it_shows_how_far_it_is(self) -> None:
        ours, its = pty.openpty()
        self.addCleanup(os.close, ours)
        with self.start(standin(self, {0: ["none 0 1 1"], 1: ["none 1 3214 3214"]}), stdin=its, stdout=its, stderr=its) as ran:
            os.close(its)
            os.write(ours, "\n".join([*SETUP, "search apart", ""]).encode())
            shown = self.until(ours, "depth 2 \\.\\.")
            self.assertRegex(shown, "\r\x1b\\[Kdepth 0 \\.\\.\r\x1b\\[Kdepth 0: none in 1 run, [0-9.]+ s; depth 1 \\.\\.")
            self.assertRegex(shown, "\r\x1b\\[Kdepth 1: none in 3,214 runs, [0-9.]+ s; depth 2 \\.\\.")
            ran.send_signal(signal.SIGINT)
            shown = self.until(ours, "main 0/0> ")
            line = "> search main 1 1000000 quiet apart; 8 any deliver; 8 flush a; 8 flush b\r\n"
            wanted = f"\r\x1b[K{line}interrupted at depth 2; up to depth 1 there is none\r\n"
            self.assertTrue(shown.lstrip("^C").startswith(wanted), shown)
            os.write(ours, b"names\nquit\n")
            self.until(ours, "names main\r\n")
            self.assertEqual(ran.wait(timeout=20), 0)

    def until(self, ours: int, wanted: str) -> str:
        """What a terminal shows, up to a text."""
        shown, end = "", time.monotonic() + 20
        while not re.search(wanted, shown):
            ready = select.select([ours], [], [], max(0.0, end - time.monotonic()))[0]
            self.assertTrue(ready, f"{wanted} is not in {shown!r}")
            shown += os.read(ours, 4096).decode()
        return shown


if __name__ == "__main__":
    unittest.main()
