"""Long output at a terminal goes through a pager."""
from __future__ import annotations

import io
import os
import subprocess
import sys
import unittest
from typing import List
from unittest import mock

from ..console.paging import paged, pager_for
from . import TOP, program
from .terminals import Terminal
from .test_fitting import ToTerminal

TWENTY = [f"line {it}" for it in range(20)]
# A pager that shows three lines, and says what less would do.
THREE = "head -n 3; echo $LESS"


class Choice(unittest.TestCase):
    def pager(self, lines: List[str], out: io.StringIO, **environment: str) -> str:
        its = {"TERM": "xterm", "COLUMNS": "80", "LINES": "20", **environment}
        with mock.patch.dict(os.environ, its), mock.patch("shutil.which", return_value="/usr/bin/less"):
            return pager_for(lines, out)

    def test_what_is_longer_than_the_screen_goes_through_one(self) -> None:
        self.assertEqual(self.pager(TWENTY, ToTerminal(), PAGER="more"), "more")
        self.assertEqual(self.pager(TWENTY[1:], ToTerminal(), PAGER="more"), "")

    def test_where_none_is_wanted_there_is_none(self) -> None:
        for name in ("", " ", "cat"):
            self.assertEqual(self.pager(TWENTY, ToTerminal(), PAGER=name), "")
        self.assertEqual(self.pager(TWENTY, ToTerminal(), PAGER="more", TERM="dumb"), "")
        self.assertEqual(self.pager(TWENTY, io.StringIO(), PAGER="more"), "")

    def test_without_a_word_it_is_less_where_that_is_there(self) -> None:
        with mock.patch.dict(os.environ):
            os.environ.pop("PAGER", None)
            self.assertEqual(self.pager(TWENTY, ToTerminal()), "less")
            with mock.patch.dict(os.environ, {"TERM": "xterm", "LINES": "20", "COLUMNS": "80"}), mock.patch("shutil.which", return_value=None):
                self.assertEqual(pager_for(TWENTY, ToTerminal()), "")


class Shown(unittest.TestCase):
    def terminal(self, *words: str, **more: str) -> Terminal:
        its = {"PFL_LAB": program(), "PFL_LAB_HISTORY": "", "NO_COLOR": "1", **more}
        terminal = Terminal([sys.executable, f"{TOP}/lab", *words], its, columns=80, rows=12)
        self.addCleanup(terminal.close)
        return terminal

    def test_a_long_answer_of_a_dialogue(self) -> None:
        terminal = self.terminal("shell", PAGER=THREE, LESS="FRX")
        terminal.wait_for("setup>")
        terminal.type("help\r")
        rows = terminal.wait(lambda rows: rows[-1] == "setup>" and len(rows) > 2)
        self.assertEqual(rows[2], "Setup, up to `open`")
        self.assertEqual(rows[5:], ["FRX", "setup>"])
        # What fits is printed.
        terminal.type("help quit\r")
        rows = terminal.wait(lambda rows: rows[-1] == "setup>" and len(rows) > 8)
        self.assertEqual(rows[7:], ["quit", "  ends the shell, as the end of input does", "setup>"])

    def test_less_has_its_options(self) -> None:
        with mock.patch.dict(os.environ):
            os.environ.pop("LESS", None)
            terminal = self.terminal("chart", f"{TOP}/examples/failover-in-mid-stream.pfl", PAGER="echo $LESS $LV")
            terminal.wait(lambda rows: rows[0] == "FRX -c")

    def test_a_pager_that_is_not_there_hides_nothing(self) -> None:
        terminal = self.terminal("chart", f"{TOP}/examples/failover-in-mid-stream.pfl", PAGER="no-such-pager")
        terminal.wait(lambda rows: any("b (boot 2)" in row for row in rows))

    def test_an_interrupt_is_for_the_pager(self) -> None:
        terminal = self.terminal("shell", PAGER="trap 'echo ended; exit' INT; echo begun; while :; do sleep 0.1; done")
        terminal.wait_for("setup>")
        terminal.type("help\r")
        terminal.wait(lambda rows: "begun" in rows)
        terminal.type("\x03")
        rows = terminal.wait(lambda rows: rows[-1] == "setup>" and len(rows) > 2)
        self.assertEqual(rows[-2].replace("^C", ""), "ended")

    def test_elsewhere_there_is_none(self) -> None:
        environment = {**os.environ, "PFL_LAB": program(), "PAGER": "echo paged", "LINES": "2"}
        command = (sys.executable, f"{TOP}/lab", "chart", f"{TOP}/examples/failover-in-mid-stream.pfl")
        ran = subprocess.run(command, env=environment, capture_output=True, text=True, timeout=60)
        self.assertNotIn("paged", ran.stdout)
        self.assertFalse(paged(TWENTY, io.StringIO()))


if __name__ == "__main__":
    unittest.main()
