"""What goes to a terminal fits its columns."""
from __future__ import annotations

import io
import os
import sys
import unittest
from typing import List
from unittest import mock

from ..console.colours import PLAIN, Paint
from ..console.fitting import fitted, length_of
from ..dialogue.shell import Shell
from ..language import helps
from ..reasons.faulty import explain_fault
from . import TOP, laboratory, program
from .terminals import Terminal

# A state of a flow over IPv6, and one over IPv4, of which each fills more than a row.
SCRIPT = """
set defer 1
rule a pass out proto udp from 10.0.0.0/8 fport 1000:2000 to 192.0.2.0/24 tport 53 timeout udp.first 5 timeout udp.single 6
rule b pass out
open
step main packet a out udp 10.0.0.1:1000 192.0.2.9:53 40
step main packet a out udp [2001:0db8:0000:0000:0000:0000:0000:0001]:1000 [2001:0db8:0000:0000:0000:0000:0000:0002]:53 40
step main packet a out tcp 10.0.0.17:51512 192.0.2.80:443 S 0 0 60000 0
step main flush a
step main restart b
"""


class ToTerminal(io.StringIO):
    """What a terminal gets."""

    def isatty(self) -> bool:
        return True


class Rows(unittest.TestCase):
    def test_a_line_is_broken_at_spaces_and_goes_on_farther_in(self) -> None:
        self.assertEqual(fitted(["a line of words"], 9), ["a line of", "    words"])
        self.assertEqual(fitted(["  a line of words"], 12), ["  a line of", "      words"])
        self.assertEqual(fitted(["short", "", "a line"], 6), ["short", "", "a line"])

    def test_what_a_short_word_is_about_goes_on_below_itself(self) -> None:
        self.assertEqual(fitted(["  1.1  udp 10.0.0.1:1 -> 192.0.2.9:53"], 24), ["  1.1  udp 10.0.0.1:1 ->", "       192.0.2.9:53"])

    def test_no_word_is_broken(self) -> None:
        self.assertEqual(fitted(["a longlonglong b"], 6), ["a", "   longlonglong", "   b"])

    def test_a_colour_ends_with_its_row_and_begins_again(self) -> None:
        paint = Paint(True)
        rows = [f"{paint.bad('no such')} thing", f"    {paint.dim('here or')}", f"    {paint.dim('there')}"]
        self.assertEqual(fitted([f"{paint.bad('no such')} thing {paint.dim('here or there')}"], 13), rows)
        self.assertEqual(length_of(rows[0]), 13)

    def test_elsewhere_lines_are_as_they_were(self) -> None:
        self.assertEqual(fitted(["word " * 50], None), ["word " * 50])

    def test_a_mark_is_below_its_word(self) -> None:
        lines = explain_fault("rule a pass out proto tcp fport 80 on em0", "line 3 Unknown", 29)
        wanted = ["  rule a pass out proto tcp", "  fport 80 on em0", "           ^^"]
        self.assertEqual(lines[1:4], wanted)
        self.assertEqual(explain_fault("back main", "bad 4 Missing", 13)[1:3], ["  back main", "            ^"])
        self.assertEqual(explain_fault("back main", "bad 4 Missing", 12)[1:4], ["  back", "  main", "       ^"])


class Dialogue(unittest.TestCase):
    """A shell at a terminal of 80 columns, and one whose output goes elsewhere."""

    def setUp(self) -> None:
        patch = mock.patch.dict(os.environ, {"COLUMNS": "80", "LINES": "500"})
        patch.start()
        self.addCleanup(patch.stop)
        lab = laboratory(SCRIPT)
        self.addCleanup(lab.close)
        self.shell = Shell(lab, io.StringIO(), PLAIN, is_typed=True)

    def said(self, line: str, out: io.StringIO) -> List[str]:
        self.shell.out = out
        # (a form that was shown once is not shown again)
        self.shell.forms.clear()
        self.shell.onecmd(line)
        return out.getvalue().splitlines()

    def test_words_are_the_same_in_rows_that_fit(self) -> None:
        faulty = "rule a pas out proto tcp from 10.0.0.0/8 fport 1000 to 192.0.2.0/24 tport 53"
        for line in ("view", "diff", "log", "why 1", "changes", "frame 1", "help", *(f"help {it}" for it in helps.WORDS), faulty, "back to"):
            with self.subTest(line):
                fits, whole = self.said(line, ToTerminal()), self.said(line, io.StringIO())
                self.assertLessEqual(max(map(len, fits)), 80)
                self.assertEqual(" ".join(fits).split(), " ".join(whole).split())

    def test_lines_of_the_language_are_never_broken(self) -> None:
        for line in ("show main", "names"):
            self.assertEqual(self.said(line, ToTerminal())[-1], self.said(line, io.StringIO())[-1])
        self.assertGreater(max(map(len, self.said("show main", ToTerminal()))), 80)

    def test_a_chart_is_drawn_for_its_columns(self) -> None:
        self.assertLessEqual(max(map(len, self.said("chart", ToTerminal()))), 80)
        self.assertGreater(max(map(len, self.said("chart", io.StringIO()))), 80)


class Command(unittest.TestCase):
    """`./lab` at a terminal of 80 columns."""

    def rows(self, *words: str, last: str) -> List[str]:
        terminal = Terminal([sys.executable, f"{TOP}/lab", *words], {"PFL_LAB": program(), "NO_COLOR": "1"}, columns=80, rows=60)
        self.addCleanup(terminal.close)
        return terminal.wait(lambda rows: any(row.strip().endswith(last) for row in rows))

    def test_help(self) -> None:
        rows = self.rows("--help", last="--version  Print version")
        at = rows.index("  import     Imports the rules of an interface from a pf.conf(5), as a setup:")
        self.assertEqual(rows[at + 1], "             ./lab import PF.CONF --on IF")

    def test_a_fault(self) -> None:
        rows = self.rows("chart", f"{TOP}/{'long-' * 20}name.pfl", last="No such file or directory")
        self.assertEqual(rows[0], "lab:")

    def test_a_chart(self) -> None:
        rows = self.rows("chart", f"{TOP}/examples/lost-insertion.pfl", last="pass 1.1")
        self.assertIn("a (boot 1)                 b (boot 2)", rows[1])


if __name__ == "__main__":
    unittest.main()
