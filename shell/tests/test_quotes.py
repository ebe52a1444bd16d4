"""The documents quote what README names, and show what the quoted contracts say: `docs/reading.py` refuses pages that do not."""
from __future__ import annotations

import shutil
import subprocess
import sys
import tempfile
import unittest
from pathlib import Path
from typing import Tuple

from . import TOP

README = "# Lab\n\n## What it promises\n1. All is well: `Pair::apply` carries this, with the law `all_is_well`.\n\n## Documents\nSee `Pair::other`.\n"
ARCHITECTURE = "# Architecture\n\n| Law | Named by |\n|---|---|\n| all is well | `all_is_well` of pfl_pair |\n\nNot `this` of pfl_pair.\n"
PROVED = "# Proved\nThe law is `all_is_well`.\n\n<!-- contracts pfl_pair Pair::apply all_is_well -->\n"
READING = "# Reading\n\n<!-- reached docs/PROVED.md -->\n\n<!-- definition pfl_pair step AllIsWell is_well -->\n"
SOURCE = """ghost use Rattle.pfl_pair.specs.Pairs.{step};
ghost use Rattle.pfl_pair.specs.Laws.{AllIsWell};

impl Pair {
    /// Lets an event happen.
    pub fn apply(&mut self)
        ensures step { step self.old ≡ self.new }
    {
        self.step();
    }
}

/// All is well.
pub fn all_is_well()
    ensures { AllIsWell }
{}
"""
PAIRS = """use Rattle.std.specs.Prelude.{ℕ}

-- one more
abbrev pub more : ℕ → ℕ
more n = n + 1

-- an event
abbrev pub step : ℕ → ℕ
step n = more n
"""
LAWS = """use Rattle.std.specs.Prelude.{ℕ}

-- a number is well
abbrev pub is_well : ℕ → Bool
is_well n = nat_le n 9

-- each is
abbrev pub AllIsWell : Type 0
AllIsWell = (n : ℕ) → IsTrue (is_well n)
"""
FILES = {
    "README.md": README,
    "docs/ARCHITECTURE.md": ARCHITECTURE,
    "docs/PROVED.md": PROVED,
    "docs/READING.md": READING,
    "crates/pfl_pair/src/pair.rt": SOURCE,
    "crates/pfl_pair/specs/Pairs.antt": PAIRS,
    "crates/pfl_pair/specs/Laws.antt": LAWS,
}


class Quotes(unittest.TestCase):
    """A small repository of one crate and three pages."""

    def setUp(self) -> None:
        self.top = Path(tempfile.mkdtemp())
        self.addCleanup(shutil.rmtree, self.top)
        for path, text in FILES.items():
            (self.top / path).parent.mkdir(parents=True, exist_ok=True)
            (self.top / path).write_text(text)
        for it in ("reading.py", "definitions.py", "meanings.py"):
            shutil.copy(f"{TOP}/docs/{it}", self.top / "docs")

    def run_it(self, *words: str) -> Tuple[int, str]:
        ran = subprocess.run((sys.executable, "docs/reading.py", *words), cwd=self.top, capture_output=True, text=True, check=False, timeout=60)
        return ran.returncode, ran.stderr

    def change(self, path: str, old: str, new: str) -> None:
        """Changes one text of a page, and writes its blocks."""
        page = self.top / path
        text = page.read_text()
        self.assertEqual(text.count(old), 1, old)
        page.write_text(text.replace(old, new))
        self.run_it()

    def refuses(self, fault: str) -> None:
        """The check has this fault and no other."""
        self.assertEqual(self.run_it("--check"), (1, f"docs/reading.py: {fault}\n"))

    def test_pages_that_have_all_pass(self) -> None:
        self.run_it()
        self.assertEqual(self.run_it("--check"), (0, ""))
        self.assertNotIn("-- one more\n", (self.top / "docs/READING.md").read_text())

    def test_a_page_that_is_out_of_date_is_refused(self) -> None:
        self.run_it()
        path = self.top / "crates/pfl_pair/specs/Laws.antt"
        path.write_text(LAWS.replace("nat_le n 9", "nat_le n 8"))
        self.refuses("docs/READING.md: stale; run docs/reading.py, and read what it changed")

    def test_a_law_of_a_promise_has_to_be_quoted(self) -> None:
        self.change("docs/PROVED.md", "Pair::apply all_is_well", "Pair::apply")
        self.change("docs/READING.md", "step AllIsWell is_well", "step")
        self.refuses("README.md: all_is_well is named by a promise, but docs/PROVED.md does not quote its contract")

    def test_a_function_of_a_promise_has_to_be_quoted(self) -> None:
        self.change("docs/PROVED.md", "Pair::apply all_is_well", "all_is_well")
        self.change("docs/READING.md", "step AllIsWell", "AllIsWell")
        self.refuses("README.md: Pair::apply is named by a promise, but docs/PROVED.md does not quote its contract")

    def test_the_promises_have_to_be_there(self) -> None:
        self.change("README.md", "## What it promises", "## Promises")
        self.refuses("README.md: has no heading `## What it promises`")

    def test_the_statement_of_a_law_has_to_be_shown(self) -> None:
        self.change("docs/READING.md", "step AllIsWell is_well", "step is_well")
        self.refuses("docs/READING.md: AllIsWell of pfl_pair.specs.Laws is cited by a contract or a law of docs/PROVED.md, but not shown")

    def test_what_the_statement_is_made_of_has_to_be_shown(self) -> None:
        self.change("docs/READING.md", "step AllIsWell is_well", "step AllIsWell")
        self.refuses("docs/READING.md: is_well of pfl_pair.specs.Laws is cited by a contract or a law of docs/PROVED.md, but not shown")

    def test_what_a_contract_cites_has_to_be_shown(self) -> None:
        self.change("docs/READING.md", "step AllIsWell is_well", "AllIsWell is_well")
        self.refuses("docs/READING.md: step of pfl_pair.specs.Pairs is cited by a contract or a law of docs/PROVED.md, but not shown")

    def test_a_page_has_to_show_what_the_contracts_reach(self) -> None:
        (self.top / "docs/READING.md").write_text("# Reading\n")
        self.run_it()
        self.refuses("docs/PROVED.md: no page says what its contracts reach")

    def test_the_table_has_to_have_each_law(self) -> None:
        self.change("docs/ARCHITECTURE.md", "`all_is_well` of", "`Pair::apply` of")
        self.refuses("docs/ARCHITECTURE.md: the table of laws lacks all_is_well of pfl_pair")

    def test_the_table_names_nothing_else(self) -> None:
        self.change("docs/ARCHITECTURE.md", "`all_is_well` of", "`all_is_well` and `nobody_is_well` of")
        self.refuses("docs/ARCHITECTURE.md: the table of laws: function nobody_is_well of pfl_pair: not found")

    def test_a_law_has_to_be_named(self) -> None:
        self.change("docs/PROVED.md", "The law is `all_is_well`.", "There is a law.")
        self.refuses("docs/PROVED.md: does not name the law all_is_well of pfl_pair")

    def test_a_page_counts_what_it_shows(self) -> None:
        self.change("docs/READING.md", "step AllIsWell is_well", "step AllIsWell is_well more")
        text = (self.top / "docs/READING.md").read_text()
        self.assertIn("```text\n4 of 4 definitions, 8 of 8 lines; this page shows 4 of these 4, in 8 lines:\npfl_pair 4\n```", text)

    def test_definitions_of_one_file_stand_below_its_name(self) -> None:
        self.run_it()
        text = (self.top / "docs/READING.md").read_text()
        self.assertTrue(text.endswith("-- pfl_pair.specs.Pairs\n" + PAIRS.split("\n\n")[2] + "\n-- pfl_pair.specs.Laws\n"
                                      "-- each is\nabbrev pub AllIsWell : Type 0\nAllIsWell = (n : ℕ) → IsTrue (is_well n)\n\n"
                                      "-- a number is well\nabbrev pub is_well : ℕ → Bool\nis_well n = nat_le n 9\n```\n"), text)


if __name__ == "__main__":
    unittest.main()
