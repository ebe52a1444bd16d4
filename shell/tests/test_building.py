"""`./lab build` by a checker that proves nothing: in which order it proves, what it says, and that an interrupt ends all of it."""
from __future__ import annotations

import io
import os
import signal
import subprocess
import time
import unittest
from pathlib import Path
from typing import Dict, List
from unittest import mock

from proving.build import Progress
from proving.costs import Estimate, jobs_of_first
from proving.crates import Crate, Crates, chains, paths

from .trees import QUICK, SmallTree

# A checker that proves nothing of one crate.
FAILING = QUICK + 'if [ "$crate" = pfl_low ]; then echo no proof of it; exit 1; fi\n'
# A checker that waits, with a process of its own.
SLOW = """#!/bin/sh
echo $$ > "$NOTES/checker-$$"
sleep 300 &
echo $! > "$NOTES/child-$!"
wait
"""


def small(lists: Dict[str, List[str]]) -> Crates:
    return {name: Crate(name, name, tuple(libraries)) for name, libraries in lists.items()}


class Lists(unittest.TestCase):
    """What is reckoned from crates.txt."""

    def test_ways_are_counted_once_for_each_path(self) -> None:
        crates = small({"a": [], "b": ["a"], "c": ["a", "b"], "d": ["b", "c"]})
        self.assertEqual(paths(crates), {"a": 1, "b": 2, "c": 4, "d": 7})

    def test_a_chain_is_the_dearest_way_up(self) -> None:
        crates = small({"a": [], "b": ["a"], "c": ["a"], "d": ["b"]})
        self.assertEqual(chains(crates, {"a": 1, "b": 2, "c": 5, "d": 4}), {"a": 7, "b": 6, "c": 5, "d": 4})

    def test_the_dearest_chain_gets_the_processors_that_are_left(self) -> None:
        """Beside d the check of a has three jobs, of which the second and the third count half: both take 50 s. Those of b and of c have four
        jobs, and take 40 s each."""
        crates = small({"a": [], "b": ["a"], "c": ["b"], "d": []})
        with mock.patch("proving.costs.processors", return_value=4):
            minutes = Estimate(crates, {"a": 100.0, "b": 100.0, "c": 100.0, "d": 50.0}, 4).minutes()
        self.assertEqual(minutes, (50 + 40 + 40) / 60)

    def test_the_first_of_those_that_begin_has_the_jobs_that_are_left(self) -> None:
        for free, begun, jobs in ((4, 1, 4), (4, 2, 3), (4, 4, 1), (3, 1, 3), (1, 1, 1), (0, 1, 1), (-1, 2, 1)):
            self.assertEqual(jobs_of_first(free, begun), jobs, (free, begun))

    def test_an_estimate_goes_by_the_processors(self) -> None:
        crates = small({"a": [], "b": [], "c": [], "d": []})
        minutes = []
        for many in (1, 2, 4):
            with mock.patch("proving.costs.processors", return_value=many):
                minutes.append(Estimate(crates, dict.fromkeys("abcd", 60.0), 4).minutes())
        self.assertEqual(minutes, [4, 2, 1])


class Said(unittest.TestCase):
    """What is said in a file of how far the work is."""

    def test_a_long_silence_has_a_line(self) -> None:
        now, said = 1000.0, io.StringIO()
        clock = mock.patch("time.monotonic", side_effect=lambda: now)
        with mock.patch("sys.stderr", said), mock.patch("proving.build.LOGS", os.devnull), clock:
            progress = Progress({"pfl_low": 30.0, "pfl_run": 90.0})
            for now in (1010.0, 1299.0, 1300.0, 1310.0):
                progress.show(["pfl_low"])
            now = 1360.0
            progress.proved("pfl_low", ["pfl_run"])
            for now in (1600.0, 1659.0, 1660.0):
                progress.show(["pfl_run"])
        self.assertEqual(
            said.getvalue().splitlines(),
            ["lab: 5 min, 0 % of the work: pfl_low", "lab: 6 min, 25 % of the work: pfl_low is proved", "lab: 11 min, 25 % of the work: pfl_run"],
        )


class Building(SmallTree):
    """What `./lab build` does."""

    def build(self, checker: str) -> "subprocess.Popen[str]":
        return self.start(checker, "lab", "build")

    def test_each_crate_is_proved_after_those_below_it(self) -> None:
        out, said = self.build(QUICK).communicate(timeout=60)
        order = (self.top / "notes/order").read_text().split()
        self.assertEqual(sorted(order), ["pfl_lab", "pfl_low", "pfl_run", "pfl_side"])
        self.assertLess(order.index("pfl_low"), order.index("pfl_run"))
        self.assertEqual(order[-1], "pfl_lab")
        self.assertEqual(out, f"{self.top}/crates/pfl_lab/out/pfl_lab\n")
        self.assertRegex(said, r"^lab: proving and building the program: about \d+ minutes on the \d+ processors here \(\d+ processor minutes\), ")
        self.assertRegex(said, r"; crates at a time: \d+, each with up to 3 GB of memory; ")
        self.assertIn("100 % of the work: pfl_lab is proved", said)

    def test_what_is_built_is_not_proved_again(self) -> None:
        self.build(QUICK).communicate(timeout=60)
        (self.top / "notes/order").unlink()
        said = self.build(QUICK).communicate(timeout=60)[1]
        self.assertNotIn("proving", said)
        self.assertFalse((self.top / "notes/order").exists())

    def test_what_the_checker_said_of_a_failure_is_kept(self) -> None:
        lab = self.build(FAILING)
        said = lab.communicate(timeout=60)[1]
        log = self.top / "out/lab/pfl_low.failed.log"
        self.assertEqual(lab.returncode, 125)
        self.assertIn(f"lab: pfl_low is not proved or built; the checker's output is in {log}\n", said)
        self.build(QUICK).communicate(timeout=60)
        self.assertEqual(log.read_text(), "no proof of it\n")

    def test_an_interrupt_ends_the_checkers_too(self) -> None:
        lab = self.build(SLOW)
        notes = self.top / "notes"
        started = time.monotonic()
        while not list(notes.glob("child-*")) and time.monotonic() - started < 30:
            time.sleep(0.1)
        time.sleep(1)
        lab.send_signal(signal.SIGINT)
        lab.communicate(timeout=30)
        self.assertEqual(lab.returncode, 130)
        numbers = [int(it.name.rpartition("-")[2]) for it in notes.iterdir()]
        self.assertGreaterEqual(len(numbers), 2)
        self.assertEqual([number for number in numbers if is_running(number)], [])


def is_running(number: int) -> bool:
    """Whether there is a process of this number that has not ended."""
    try:
        return Path(f"/proc/{number}/stat").read_text().rpartition(")")[2].split()[0] != "Z"
    except OSError:
        return False


if __name__ == "__main__":
    unittest.main()
