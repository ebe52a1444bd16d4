"""Places to go back to, by number and by name, and branches that begin where one stands."""
from __future__ import annotations

import io
import tempfile
import unittest
from pathlib import Path
from typing import List

from ..console.colours import PLAIN
from ..dialogue.shell import Shell
from ..language import helps
from ..language.commands import COMMANDS, WITHOUT_BRANCH
from ..link.laboratory import Laboratory
from ..scripts.texts import read
from . import TOP, program

TICKS = ("open", "tick a 1", "tick a 2", "tick a 3")


class Places(unittest.TestCase):
    def setUp(self) -> None:
        lab = Laboratory(program())
        self.addCleanup(lab.close)
        self.shell = Shell(lab, io.StringIO(), PLAIN)
        self.said(*TICKS)

    def said(self, *lines: str) -> List[str]:
        """What the shell says to the lines."""
        self.shell.out = io.StringIO()
        self.shell.take(lines, echo=False)
        return self.shell.out.getvalue().splitlines()

    def test_back_to_a_number_goes_either_way(self) -> None:
        self.assertEqual(self.said("back to 1"), ["> back main 2", "at 1"])
        self.assertEqual(self.said("back main to 2"), ["> forward main 1", "at 2"])
        self.assertEqual(self.said("back to 2"), ["> back main 0", "at 2"])
        self.assertEqual(self.said("back to 4"), ["main has 3 events, so it has no place 4"])
        self.assertEqual(self.said("back to 99999999999"), ["there is no mark 99999999999; `mark` lists them"])

    def test_a_command_without_its_branch_means_the_one_in_use(self) -> None:
        self.assertEqual(self.said("back 1", "forward 1"), ["> back main 1", "at 2", "> forward main 1", "at 3"])
        self.assertEqual(self.said("fork 2 two", "use two"), ["> fork main 2 two", "forked"])
        self.assertEqual(self.said("excise 1", "restore"), ["> excise two 1", "excised", "> restore two", "restored 2"])
        self.assertEqual(self.said("show")[:2], ["> show two", "branch two events 2 cursor 2"])
        self.assertEqual(self.said("past 1")[:2], ["> past two 1", "branch two events 2 cursor 1"])
        self.assertEqual(self.said("back 3"), ["> back two 3", "refused 4 TooFarBack"])

    def test_a_command_of_another_form_is_answered_as_it_is(self) -> None:
        self.assertEqual(self.said("back main", "drop", "fork main 1"), ["bad 4 Missing"] * 3)
        self.assertEqual(self.said("back main 1"), ["at 2"])

    def test_what_is_missing_is_not_the_branch(self) -> None:
        self.shell.is_typed = True
        self.assertEqual(self.said("back")[:3], ["> back main", "bad 4 Missing", "N is missing: a number from 0 to 4294967295"])
        self.assertEqual(self.said("fork 3")[0], "> fork main 3")
        self.assertEqual(self.said("excise")[-1], "expected: excise [BRANCH] K")
        self.assertEqual(self.said("drop")[-1], "expected: drop BRANCH")

    def test_the_documents_have_each_form_without_its_branch(self) -> None:
        page, manual = (Path(TOP, f"docs/{name}").read_text(encoding="utf-8") for name in ("SHELL.md", "man/pfl_shell.1"))
        for word in WITHOUT_BRANCH:
            values = [form.name for form in COMMANDS[word].values[1:]]
            self.assertEqual(helps.COMMANDS[word].form, " ".join([word, "[BRANCH]", *values]))
            self.assertIn(f"`{' '.join([word, *values])}`", page)
            self.assertRegex(manual, rf"\n\.Ic {' Ar '.join([word, ' '.join(values).lower()]) if values else word}[ ,.\n]")

    def test_a_mark_is_found_by_its_name(self) -> None:
        self.assertEqual(self.said("mark"), ["there are no marks; `mark NAME` sets one"])
        self.assertEqual(self.said("mark end", "back main 2", "mark one"), ["end: main, after 3 events", "at 1", "one: main, after 1 event"])
        self.assertEqual(self.said("back to end"), ["> forward main 2", "at 3"])
        self.assertEqual(self.said("back to one"), ["> back main 2", "at 1"])
        self.assertEqual(self.said("mark"), ["end: main, after 3 events", "one: main, after 1 event"])
        self.assertEqual(self.said("back to none"), ["there is no mark none; `mark` lists them"])

    def test_a_mark_has_a_name(self) -> None:
        for name in ("1", "One", "a b", "a" * 17):
            told = f"{name} is not the name of a mark: that is a letter from a to z and at most 15 more of a to z, 0 to 9 and `-`"
            self.assertEqual(self.said(f"mark {name}"), [told])

    def test_a_mark_is_one_of_its_events(self) -> None:
        self.said("mark end", "fork main 3 other", "fork main 2 short", "use other", "tick b 1")
        self.assertEqual(self.said("back other to end"), ["> back other 1", "at 3"])
        self.assertEqual(self.said("back to end"), ["> back main 0", "at 3"])
        gone = "no longer has the events that stood at mark end: main, after 3 events"
        self.assertEqual(self.said("back short to end"), [f"short {gone}"])
        self.assertEqual(self.said("excise main 1", "back to end"), ["excised", f"main {gone}"])

    def test_a_branch_begins_here(self) -> None:
        self.assertEqual(self.said("back main 1", "fork here new"), ["at 2", "> fork main 2 new", "forked"])
        self.assertEqual(self.said("use new", "tick b 1", "fork here main"), ["step clock 1 dropped 0", "> fork new 3 main", "refused 2 NameTaken"])

    def test_lines_of_the_laboratory_are_what_they_were(self) -> None:
        self.said("fork main 3 to", "fork main 3 here")
        self.assertEqual(self.said("back to 1"), ["at 2"])
        self.assertEqual(self.said("back main to 1"), ["> back main 2", "at 1"])
        self.assertEqual(self.said("fork here 2 new"), ["forked"])
        self.assertEqual(self.said("back to", "back main", "fork here"), ["bad 4 Missing"] * 3)

    def test_a_script_has_the_lines_that_they_stand_for(self) -> None:
        self.said("mark end", "back to 1", "fork here new", "back to end")
        with tempfile.TemporaryDirectory() as folder:
            self.said(f"save {folder}/saved.pfl")
            lines = read(f"{folder}/saved.pfl").splitlines()
        self.assertEqual(lines[7:], ["back main 2", "#> at 1", "fork main 1 new", "#> forked", "forward main 2", "#> at 3"])

    def test_help_has_them(self) -> None:
        forms = [line for line in self.said("help back", "help fork") if line[0] != " "]
        self.assertEqual(forms, ["back [BRANCH] N", "back [BRANCH] to K", "back [BRANCH] to MARK", "fork [BRANCH] K NEW", "fork here NEW"])
        listed = self.said("help")
        for it in ("back to   moves the cursor", "fork here makes a branch"):
            self.assertTrue(any(line.startswith(f"  {it}") for line in listed), it)


if __name__ == "__main__":
    unittest.main()
