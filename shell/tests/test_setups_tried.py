"""A setup that comes from a file: it is tried by one run of the program, and what is said of faults is what is said line by line."""
from __future__ import annotations

import io
import tempfile
import unittest
from typing import Iterable, List, Tuple
from unittest import mock

from ..console.colours import PLAIN
from ..dialogue.shell import Shell
from ..link.laboratory import Laboratory
from ..link.programs import check_setup
from ..model.setups import Setup
from ..scripts.stories import story_of
from . import program
from .standins import Dialogue

RULES = [f"rule {node} pass {way}" for node in "ab" for way in ("in", "out")] * 20
WHOLE = ["# Rules.", "kernel loose", "set states 20", *RULES, "", "set timeout udp.first 5", "open", "names"]
# Setups with faults, or with something else among their lines.
OTHERS = (
    ["rule a pass any", "rule c pass any", "frob", "set states 0", "rule b pass any", "open", "names"],
    ["rule a pass any", "kernel", "setup", "help rule", "tick a 1", "rule b block any", "open", "rule a pass any", "open"],
    ["set states 5", "set states 5000000", "open", "open"],
    ["rule a pass any", "rule a pass \xa0any", "kernel nothing", "open now", "open"],
    [*["rule a pass any"] * 257, "open", "names"],
    ["  rule a pass any ", "\trule b  pass any", "names", "open", "names"],
)


class Tried(Dialogue):
    def taken(self, lines: Iterable[str]) -> Tuple[int, str, Setup]:
        """How many runs a shell needs to try the lines, what it says, and the setup."""
        lab = Laboratory(program())
        self.addCleanup(lab.close)
        shell = Shell(lab, io.StringIO(), PLAIN)
        with mock.patch("shell.link.laboratory.check_setup", side_effect=check_setup) as runs:
            shell.take(lines, echo=False)
        out = shell.out
        assert isinstance(out, io.StringIO)
        return runs.call_count, out.getvalue(), lab.setup

    def test_one_run_tries_a_file(self) -> None:
        runs, said, setup = self.taken(WHOLE)
        # (and one more comes before the pair is made)
        self.assertEqual((runs, said), (2, "names main\n"))
        one_by_one, *rest = self.taken(iter(WHOLE))
        self.assertEqual(rest, [said, setup])
        self.assertEqual(one_by_one, len(RULES) + 4)

    def test_what_is_said_is_the_same_as_line_by_line(self) -> None:
        for lines in OTHERS:
            with self.subTest(lines[:3]):
                self.assertEqual(self.taken(lines)[1:], self.taken(iter(lines))[1:])

    def test_a_file_read_amid_another_keeps_the_order(self) -> None:
        with tempfile.TemporaryDirectory() as folder:
            path = f"{folder}/rules.pfl"
            with open(path, "w", encoding="utf-8") as it:
                it.write("rule a block any\nrule b block any\n")
            lines: List[str] = ["rule a pass any", f"read {path}", "rule b pass any", "open"]
            setup = self.taken(lines)[2]
        self.assertEqual(setup.lines, ["rule a pass any", "rule a block any", "rule b block any", "rule b pass any"])

    def test_a_story_needs_as_few(self) -> None:
        lab = Laboratory(program())
        self.addCleanup(lab.close)
        with mock.patch("shell.link.laboratory.check_setup", side_effect=check_setup) as runs:
            story_of(lab, WHOLE)
        self.assertEqual(runs.call_count, 2)


if __name__ == "__main__":
    unittest.main()
