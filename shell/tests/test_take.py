"""`take`: the events that were found are stepped on a new branch, or it is told why not."""
from __future__ import annotations

import unittest
from typing import Dict, List

from ..dialogue.shell import Shell
from .standins import QUERY, Dialogue, standin

FOUND: Dict[int, List[str]] = {0: ["none 0 1 1"], 1: ["found main events 1 runs 3", "event 1 step main flush a", "end"]}


class Taken(Dialogue):
    """Steps what was found, or says why not."""

    def found(self) -> Shell:
        shell = self.shell(standin(self, FOUND))
        self.said(shell, "search apart, anywhere")
        return shell

    def test_names_are_those_that_are_free(self) -> None:
        shell = self.found()
        self.assertEqual(self.said(shell, "take", "use main", "take", "use main", "take mine", "names")[-1], "names main found found-2 mine")
        self.assertEqual(shell.lab.branch("mine").events, [QUERY, "flush a"])
        self.assertEqual(shell.lab.in_use, "mine")

    def test_what_the_program_refuses_is_not_stepped(self) -> None:
        shell = self.found()
        self.assertEqual(self.said(shell, "take main"), ["> fork main 1 main", "refused 2 NameTaken"])
        self.assertEqual(self.said(shell, "take Mine"), ["> fork main 1 Mine", "refused 3 BadName"])
        self.assertEqual((shell.lab.in_use, shell.lab.branch("main").events), ("main", [QUERY]))

    def test_a_branch_that_has_changed_is_not_taken(self) -> None:
        changed = "main has changed since the search: its events before the cursor differ; search again"
        for lines in (["flush a"], ["back main 1"], ["excise main 1"]):
            shell = self.found()
            self.said(shell, *lines)
            self.assertEqual(self.said(shell, "take", "names"), [changed, "names main"])

    def test_a_branch_that_is_as_it_was_is_taken(self) -> None:
        shell = self.found()
        self.said(shell, "flush a", "back main 1", "fork main 0 other", "use other")
        self.assertEqual(self.said(shell, "take")[0], "> fork main 1 found")

    def test_a_branch_that_is_gone_is_told(self) -> None:
        shell = self.found()
        self.said(shell, "fork main 0 other", "drop main")
        self.assertRegex(self.said(shell, "take")[0], "the branch main, from which the search began, is gone")

    def test_words_left_over_are_told(self) -> None:
        self.assertEqual(self.said(self.found(), "take a b"), ["usage: take [NAME]"])
        self.assertRegex(self.said(self.shell(), "take")[0], "nothing was found yet")


if __name__ == "__main__":
    unittest.main()
