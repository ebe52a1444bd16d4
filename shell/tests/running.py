"""Runs tests module by module and counts what came of them: in this process, or in as many as there are processors."""
from __future__ import annotations

import faulthandler
import io
import json
import os
import re
import subprocess
import sys
import threading
import unittest
import warnings
from collections import Counter, deque
from dataclasses import dataclass, field
from typing import Deque, Dict, Iterable, Iterator, List, Sequence, Set, TextIO, Union

# After how many seconds a test that has not ended ends the tests of its module, which then shows where it waits.
LONGEST = 900
# The word by which a process takes modules to run.
TAKING = "--taking"
# The modules that take longest come first, so that no processor waits for one of them at the end.
FIRST = (
    *("test_releases", "test_bridge_followed", "test_bridge", "test_building", "test_around", "test_seats", "test_shell", "test_notes"),
    *("test_charts_sheets", "test_import_translated_meaning", "test_inferring_nights", "test_installing", "test_dumps_read"),
)
# The modules that say how fast something is: they run after all others, one after another.
ALONE = ("test_capture_speed", "test_page_size")
# What unittest reports of a module or a class that was not set up.
_NOT_SET_UP = re.compile(r"\w+(?:Module|Class) \((?P<its>.*)\)")

Tests = Iterable[Union[unittest.TestCase, unittest.TestSuite]]


@dataclass
class Came:
    """What came of tests: how many there were and failed, how many were skipped by why, and the report of unittest."""

    many: int = 0
    failed: int = 0
    skipped: Dict[str, int] = field(default_factory=dict)
    report: str = ""

    def add(self, other: "Came") -> None:
        self.many += other.many
        self.failed += other.failed
        self.skipped = dict(Counter(self.skipped) + Counter(other.skipped))

    @property
    def passed(self) -> int:
        return self.many - self.failed - sum(self.skipped.values())


class Bounded(unittest.TextTestResult):
    """A result of tests none of which may wait without end."""

    def startTest(self, test: unittest.TestCase) -> None:
        faulthandler.dump_traceback_later(LONGEST, exit=True)
        super().startTest(test)


def names_of(tests: Tests) -> Iterator[str]:
    """The names of tests, one by one."""
    for test in tests:
        if isinstance(test, unittest.TestSuite):
            yield from names_of(test)
        else:
            yield test.id()


def meant(reported: str, names: Sequence[str]) -> Set[str]:
    """The tests that a report is about: one, or all of a module or a class that was not set up."""
    whole = _NOT_SET_UP.fullmatch(reported)
    if whole:
        return {name for name in names if name.startswith(f"{whole['its']}.")}
    # (a part of a test has more after the test's name)
    return {reported.partition(" ")[0]}


def run(name: str, out: TextIO) -> Came:
    """Runs the tests of a module, or some of them, and writes the report of unittest."""
    tests = unittest.defaultTestLoader.loadTestsFromName(name)
    names = [*names_of(tests)]
    faulthandler.dump_traceback_later(LONGEST, exit=True)
    if not sys.warnoptions:
        warnings.simplefilter("default")
    result = unittest.TextTestRunner(out, verbosity=0, resultclass=Bounded).run(tests)
    faulthandler.cancel_dump_traceback_later()
    failed: Set[str] = set().union(*(meant(test.id(), names) for test, _ in (*result.failures, *result.errors)))
    done = {*failed}
    skipped: "Counter[str]" = Counter()
    for test, why in result.skipped:
        its = meant(test.id(), names) - done
        done |= its
        skipped[why] += len(its)
    return Came(len(names), len(failed) or int(not result.wasSuccessful()), dict(skipped))


# ---- in several processes


def _module(name: str) -> str:
    """The module of a test's name."""
    return next(part for part in name.split(".") if part.startswith("test_"))


def take() -> None:
    """Runs the tests whose names come on standard input, and answers each with what came of them, as a line of JSON."""
    with os.fdopen(os.dup(0), encoding="utf-8") as given, os.fdopen(os.dup(1), "w", encoding="utf-8") as answers:
        # (what tests read and write there are neither names nor answers)
        os.dup2(os.open(os.devnull, os.O_RDONLY), 0)
        os.dup2(2, 1)
        for line in given:
            report = io.StringIO()
            came = run(line.strip(), report)
            came.report = report.getvalue()
            print(json.dumps(vars(came)), file=answers, flush=True)


class Workers:
    """Processes that run tests side by side."""

    def __init__(self) -> None:
        self._names: Deque[str] = deque()
        self._processes: List["subprocess.Popen[str]"] = []
        self._lock = threading.Lock()
        self.came = Came()

    def run(self, names: Sequence[str], many: int) -> Came:
        """What came of tests, in this many processes. Each report of tests that failed is printed when it comes."""
        long = {name: at for at, name in enumerate(FIRST)}
        alone = [name for name in names if _module(name) in ALONE]
        others = sorted({*names} - {*alone}, key=lambda name: (long.get(_module(name), len(long)), name))
        try:
            self._run(others, many)
            self._run(alone, 1)
        finally:
            for process in self._processes:
                process.kill()
        return self.came

    def _run(self, names: Sequence[str], many: int) -> None:
        self._names.extend(names)
        threads = [threading.Thread(target=self._work, daemon=True) for _ in range(min(many, len(names)))]
        for thread in threads:
            thread.start()
        for thread in threads:
            thread.join()

    def _work(self) -> None:
        """Has a process run one module after another; a process that ends before its tests is followed by another one."""
        while self._names:
            command = (sys.executable, "-m", "shell.tests", TAKING)
            with subprocess.Popen(command, stdin=subprocess.PIPE, stdout=subprocess.PIPE, text=True) as process:
                self._processes.append(process)
                self._give(process)

    def _give(self, process: "subprocess.Popen[str]") -> None:
        assert process.stdin and process.stdout
        while self._names:
            try:
                name = self._names.popleft()
            except IndexError:
                return
            print(name, file=process.stdin, flush=True)
            answer = process.stdout.readline()
            came = Came(**json.loads(answer)) if answer else Came(1, 1, report=f"test: {name} ended before its tests did\n")
            with self._lock:
                self.came.add(came)
                if came.failed:
                    print(came.report, end="", file=sys.stderr, flush=True)
            if not answer:
                return
