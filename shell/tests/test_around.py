"""`./test --around` over a small repository: which program it takes, and what it says came of the tests."""
from __future__ import annotations

import shutil
import unittest
from typing import Dict, List, Tuple

from . import TOP
from .trees import QUICK, SmallTree

PASSING = """import unittest
from . import program
class Small(unittest.TestCase):
    def test_it(self):
        self.assertTrue(program().endswith("/pfl_lab"))
"""
MIXED = """import unittest
class Small(unittest.TestCase):
    def test_it(self):
        for number in (1, 2):
            with self.subTest(number=number):
                self.fail()
    def test_that(self):
        self.skipTest("there is no fox")
    def test_this(self):
        pass
class Unset(unittest.TestCase):
    @classmethod
    def setUpClass(cls):
        raise ValueError
    def test_one(self):
        pass
    test_two = test_one
"""
DYING = """import os, unittest
class Small(unittest.TestCase):
    def test_one(self):
        os._exit(3)
    test_two = test_one
"""
SKIPPED = """import unittest
def setUpModule():
    raise unittest.SkipTest("there is no fox")
class Small(unittest.TestCase):
    def test_one(self):
        pass
    test_two = test_one
"""


class WithTests(SmallTree):
    """A small repository with tests of its own."""

    def setUp(self) -> None:
        super().setUp()
        folder = self.top / "shell/tests"
        folder.mkdir()
        for name in ("__init__.py", "__main__.py", "running.py"):
            shutil.copy(f"{TOP}/shell/tests/{name}", folder)
        for name, text in (("test_passing", PASSING), ("test_mixed", MIXED), ("test_skipped", SKIPPED)):
            (folder / f"{name}.py").write_text(text)


class Around(WithTests):
    def around(self, *words: str) -> Tuple[int, str, str]:
        ran = self.start("", "test", "--around", *words)
        out, said = ran.communicate(timeout=60)
        return ran.returncode, out, said

    def test_the_release_of_the_tree_is_taken(self) -> None:
        self.release()
        for name in ("test_passing", "shell.tests.test_passing", "test_passing.Small.test_it"):
            status, out, said = self.around(name)
            self.assertEqual((status, out), (0, "1 passed, 0 failed\n"), said)

    def test_where_there_is_no_program_of_the_tree_one_line_says_so(self) -> None:
        more = "; ./lab build makes one, and PFL_LAB can name another\n"
        self.assertEqual(self.around(), (125, "", f"test: there is no release/RELEASE{more}"))
        self.release()
        (self.top / "crates/pfl_low/src/lib.rt").write_text("//! nothing.\n")
        why = "no program is built from this tree, and release 1 does not match it"
        self.assertEqual(self.around("test_passing"), (125, "", f"test: {why}{more}"))

    def test_what_fails_and_what_is_skipped_is_counted_test_by_test(self) -> None:
        self.release()
        status, out, _ = self.around()
        self.assertEqual((status, out), (1, "test: 3 tests were skipped: there is no fox\n2 passed, 3 failed, 3 skipped\n"))

    def test_a_module_that_ends_its_process_has_failed_and_the_others_run(self) -> None:
        self.release()
        (self.top / "shell/tests/test_dying.py").write_text(DYING)
        status, out, said = self.around("test_dying", "test_passing")
        self.assertEqual((status, out), (1, "1 passed, 1 failed\n"))
        self.assertIn("test: shell.tests.test_dying ended before its tests did\n", said)

    def test_a_module_that_is_not_there_is_named(self) -> None:
        said = "test: there is no module test_pasing of tests (did you mean `test_passing`?)\n"
        self.assertEqual(self.around("test_pasing"), (2, "", said))
        ran = self.start("", "test", "--arround")
        self.assertEqual(ran.communicate(timeout=60)[1], "usage: ./test [--around [MODULE..]]\n")
        self.assertEqual(ran.returncode, 2)


# The table of a gate that takes no time, whose last line has the date.
COSTS = [
    "| Crate | proof | tests proved | wrong bodies | built and run | all |",
    "|---|---|---|---|---|---|",
    "| **all crates** | 0 | 0 | 0 | 0 | 0 |",
    "",
]
SKIPPED_THREE = "test: 3 skipped, since commands are not there: see above"
# A gate that passes, beside a checker that proves nothing.
GATE = f'{QUICK}if [ "$1" = ci ]; then echo a part; echo "7 passed, 0 failed"; fi\n'
# The checks before the gate, which are of the real tree.
BEFORE = (*(f"docs/{it}.py" for it in ("reading", "words", "prose", "imports", "libraries")), "proving/cases.py", "proving/layout.py")


class Whole(WithTests):
    """`./test` itself, whose checks before the gate find nothing."""

    def setUp(self) -> None:
        super().setUp()
        self.release()
        for name in ("docs", "examples", "crates/test_cases/data/examples"):
            (self.top / name).mkdir(parents=True)
        for name in BEFORE:
            (self.top / name).write_text("")
        self.command("bin/mypy")
        # (what the gate has built)
        self.command("crates/pfl_lab/out/pfl_lab")

    def command(self, name: str) -> None:
        """A command that finds no fault."""
        path = self.top / name
        path.parent.mkdir(exist_ok=True)
        path.write_text("#!/bin/sh\n")
        path.chmod(0o755)

    def environment(self, checker: str) -> Dict[str, str]:
        """One in which no other mypy is found."""
        self.command("bin/diff")
        its = super().environment(checker)
        return {**its, "PATH": f"{self.top}/bin"} if checker is GATE else its

    def whole(self) -> Tuple[int, List[str]]:
        """The status, and the lines without what the gate cost."""
        ran = self.start(GATE, "test")
        lines = ran.communicate(timeout=60)[0].splitlines()
        at = lines.index("a part") + 1
        self.assertEqual(lines[at : at + len(COSTS)], COSTS)
        last = at + len(COSTS)
        self.assertRegex(lines[last], r"^Processor seconds, [0-9-]+, on [0-9]+ processors: 0 minutes by the clock, 0 processor minutes with all ")
        return ran.returncode, lines[:at] + lines[last + 1 :]

    def test_nothing_is_said_of_skipped_tests_where_none_is(self) -> None:
        for name in ("test_mixed", "test_skipped"):
            (self.top / f"shell/tests/{name}.py").unlink()
        self.assertEqual(self.whole(), (0, ["a part", "8 passed, 0 failed"]))

    def test_skipped_tests_and_skipped_types_are_counted(self) -> None:
        (self.top / "shell/tests/test_mixed.py").unlink()
        (self.top / "bin/mypy").unlink()
        status, lines = self.whole()
        self.assertRegex(lines[0], "^test: there is no mypy on the path, ")
        whys = ["test: 2 tests were skipped: there is no fox", SKIPPED_THREE]
        self.assertEqual((status, lines[1:]), (0, ["a part", *whys, "8 passed, 0 failed"]))

    def test_tests_that_fail_are_one_part(self) -> None:
        status, lines = self.whole()
        self.assertEqual((status, lines[-2:]), (1, [SKIPPED_THREE, "7 passed, 1 failed"]))


if __name__ == "__main__":
    unittest.main()
