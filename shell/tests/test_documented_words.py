"""`docs/words.py` writes what `help` says of the shell's words as a table and in mdoc(7)."""
from __future__ import annotations

import sys
import unittest

from ..language.helps import Help
from . import TOP

sys.path.insert(0, f"{TOP}/docs")
import words


class Written(unittest.TestCase):
    def test_forms_in_macros(self) -> None:
        for form, wanted in (
            ("view [BRANCH] [K] NODE", "Ic view Oo Ar branch Oc Oo Ar k Oc Ar node"),
            ("why [[BRANCH] K]", "Ic why Oo Oo Ar branch Oc Ar k Oc"),
            ("diff BRANCH BRANCH", "Ic diff Ar branch branch"),
            ("search differ [, PART]..", "Ic search Cm differ Oo , Ar part Oc ..."),
            ("annotate [--dry-run] FILE..", "Ic annotate Oo Fl -dry-run Oc Ar file ..."),
            ("chart [from K] [FILE.svg]", "Ic chart Oo Cm from Ar k Oc Oo Ar file.svg Oc"),
        ):
            self.assertEqual(words.form_macros(form, "Ic"), wanted)

    def test_several_options_are_one_part(self) -> None:
        self.assertEqual(words.forms(Help("whatif [BRANCH] [--from K] [--pairs]", "")), ["whatif [BRANCH] [OPTION ..]"])
        self.assertEqual(words.forms(Help("depends [BRANCH] [--all-replies]\nquit", "")), ["depends [BRANCH] [--all-replies]", "quit"])

    def test_a_word_in_macros(self) -> None:
        about = Help(
            "take [NAME]",
            "steps what was found",
            "The K-th event (`found`, say) is `here`. As `diff -u` does, `quiet` is left out: see pfl_lab(1).",
            (("within N", "at most N events."),),
            "Then `back to NAME`.",
            "step what was found",
        )
        self.assertEqual(
            [*words.item("take", about)],
            [
                *(".It Ic take Oo Ar name Oc", "Step what was found.", "The K-th event", ".Cm ( found ,", "say) is", ".Cm here .", "As"),
                *(".Dq diff -u", "does,", ".Ic quiet", "is left out: see", ".Xr pfl_lab 1 .", ".Bl -tag -width Ds", ".It Cm within Ar n"),
                *("At most", ".Ar n", "events.", ".El", ".Pp", "Then", ".Ic back Cm to Ar name ."),
            ],
        )

    def test_rows_have_each_form_and_each_part(self) -> None:
        self.assertEqual([*words.rows("depends")][2:], ["| `--all-replies` | shows each reply that changes |"])
        self.assertIn("| `diff [BRANCH]`, `diff BRANCH BRANCH` | reports where", "\n".join(words.rows("")))
        # (a word has its first clause, and a part its first sentence)
        self.assertIn("| `changes [BRANCH] [K]` | shows what the K-th event changed, before and after |", [*words.rows("")])
        self.assertIn("| `lose N`, `repeat N`, `cut LENGTH N` | frames are lost", "\n".join(words.rows("search")))
        self.assertIn("| `landed` | ask only when no frame is in flight |", [*words.rows("search")])
        self.assertIn("| `passes packet ..` | the packet would pass, or be held |", [*words.rows("search")])


if __name__ == "__main__":
    unittest.main()
