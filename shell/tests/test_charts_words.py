"""The word `chart`, of the command line and of a dialogue."""
from __future__ import annotations

import io
import os
import subprocess
import sys
import tempfile
import unittest
from typing import List
from xml.etree import ElementTree

from ..console.colours import PLAIN
from ..dialogue.shell import Shell
from ..link.laboratory import Laboratory
from . import TOP, program
from .drawings import CROSSING

LESSON = f"{TOP}/examples/failover-in-mid-stream.pfl"


class Command(unittest.TestCase):
    def ran(self, *words: str) -> "subprocess.CompletedProcess[str]":
        environment = {**os.environ, "PFL_LAB": program(), "PYTHONIOENCODING": "utf-8"}
        command = (sys.executable, f"{TOP}/lab", "chart", *words)
        return subprocess.run(command, env=environment, capture_output=True, text=True, encoding="utf-8", timeout=60)

    def test_a_part(self) -> None:
        lines = self.ran(LESSON, "--from", "4", "--to", "5").stdout.splitlines()
        self.assertEqual(lines[0], "main, events 4 to 5 of 12; #N is frame N")
        self.assertEqual(len(lines), 3)

    def test_names_of_branches_always_and_notes_where_asked_for(self) -> None:
        plain, noted = (self.ran(LESSON, *more).stdout for more in ((), ("--notes",)))
        for it in (plain, noted):
            self.assertIn("branch later begins here", it)
        self.assertNotIn("The power goes.", plain)
        self.assertIn("The power goes.", noted)
        # What stands above the setup is about no event.
        self.assertNotIn("nightly copies", noted)

    def test_another_branch_has_the_story_that_came_before(self) -> None:
        told = self.ran(LESSON, "--notes", "--branch", "later", "--flow", "1.1").stdout
        self.assertIn("10.0.0.17 connects to a server", told)
        self.assertIn("What if the power had gone a little later?", told)
        self.assertNotIn("The power goes.", told)

    def test_a_picture_has_all_that_too(self) -> None:
        with tempfile.TemporaryDirectory() as folder:
            ran = self.ran(LESSON, f"{folder}/x.svg", "--notes", "--from", "11")
            with open(f"{folder}/x.svg", encoding="utf-8") as it:
                self.assertIn("The power goes.", it.read())
        self.assertEqual((ran.returncode, ran.stdout, ran.stderr), (0, "", ""))

    def test_bytes_that_are_no_text(self) -> None:
        with tempfile.TemporaryDirectory() as folder:
            with open(f"{folder}/x.pfl", "wb") as it:
                it.write(b"# A \xff title\nopen\n# A \x1b note\nstep main tick a 1\n")
            self.assertIn("A \ufffd note", self.ran(f"{folder}/x.pfl", "--notes").stdout)
            self.assertEqual(self.ran(f"{folder}/x.pfl", f"{folder}/x.svg", "--notes").returncode, 0)
            root = ElementTree.parse(f"{folder}/x.svg").getroot()
        self.assertIn("A \ufffd title", "".join(root.itertext()))
        self.assertIn("A \ufffd note", "".join(root.itertext()))

    @unittest.skipUnless(os.path.exists("/dev/full"), "there is no /dev/full, which is a full disk")
    def test_a_full_disk_is_reported_with_the_file(self) -> None:
        with tempfile.TemporaryDirectory() as folder:
            os.symlink("/dev/full", f"{folder}/x.svg")
            ran = self.ran(LESSON, f"{folder}/x.svg")
            self.assertEqual((ran.returncode, ran.stderr), (1, f"lab: {folder}/x.svg: No space left on device\n"))

    def test_what_is_wrong(self) -> None:
        for words, status, told in (
            (("--from", "13"), 1, "lab: main has no event 13 to draw: those that stand are counted from 1 to 12\n"),
            (("--from", "3", "--to", "2"), 1, "lab: there is nothing to draw from event 3 to event 2, which comes before it\n"),
            (("--flow", "1.2"), 1, "lab: no packet of main that stands made a state 1.2; those made are 1.1\n"),
            (("--from", "x"), 2, "argument --from: x: the events of a branch are counted from 1 on\n"),
            (("--flow", "x"), 2, "argument --flow: x: a flow is named by a state's name, CREATOR.ID, such as 1.3\n"),
            (("--branch", "none"), 1, "lab: there is no branch none; `names` lists them\n"),
        ):
            ran = self.ran(LESSON, *words)
            self.assertEqual((ran.returncode, ran.stdout), (status, ""), words)
            self.assertTrue(ran.stderr.endswith(told), ran.stderr)


class Dialogue(unittest.TestCase):
    def setUp(self) -> None:
        lab = Laboratory(program())
        self.addCleanup(lab.close)
        self.shell = Shell(lab, io.StringIO(), PLAIN)
        self.said(*CROSSING.splitlines())

    def said(self, *lines: str) -> List[str]:
        """What the shell says to the lines."""
        self.shell.out = io.StringIO()
        self.shell.take(lines, echo=False)
        return self.shell.out.getvalue().splitlines()

    def test_parts_of_a_branch(self) -> None:
        self.assertEqual(self.said("chart main from 9 to 10")[0], "main, events 9 to 10 of 14")
        self.assertEqual(self.said("chart to 1")[0], "main, event 1 of 14")
        self.assertEqual(self.said("chart from 2 flow 1.1")[0], "main, events 2 to 14 of 14, what is about 1.1; #N is frame N")

    def test_branches_begin_where_they_were_forked(self) -> None:
        told = "\n".join(self.said("fork main 9 other", "chart main from 9"))
        self.assertIn("branch other begins here", told)
        self.assertNotIn("branch other begins here", "\n".join(self.said("drop other", "chart")))

    def test_what_is_wrong(self) -> None:
        form = "usage: chart [BRANCH] [from K] [to L] [flow NAME] [FILE.svg]"
        self.assertEqual(self.said("chart main other"), [form])
        self.assertEqual(self.said("chart main from"), [form])
        self.assertEqual(self.said("chart from 15"), ["main has no event 15 to draw: those that stand are counted from 1 to 14"])
        self.assertEqual(self.said("chart flow 1.9"), ["no packet of main that stands made a state 1.9; those made are 1.1, 1.2"])
        self.assertEqual(self.said("chart flow x"), ["x: a flow is named by a state's name, CREATOR.ID, such as 1.3"])


if __name__ == "__main__":
    unittest.main()
