"""Runs the tests of everything around the program, or those of some modules: `python3 -m shell.tests [MODULE..]`.

Several modules run side by side, one on each processor. The last line is `N passed, M failed`, with `, K skipped` after it if some were
skipped; the lines above it say why these were.
"""
from __future__ import annotations

import os
import sys
import time
from typing import List, Sequence

from . import TOP, program
from ..language.forms import nearest
from .running import TAKING, Came, Workers, run, take

HERE = f"{TOP}/shell/tests"
PACKAGE = "shell.tests."


def modules() -> List[str]:
    return sorted(name[: -len(".py")] for name in os.listdir(HERE) if name.startswith("test_") and name.endswith(".py"))


def module_fault(word: str) -> str:
    """What is wrong with the name of a module; empty if nothing is."""
    named = short(word).partition(".")[0]
    return "" if named in modules() else f"there is no module {named} of tests{nearest(named, modules())}"


def short(word: str) -> str:
    return word[len(PACKAGE) :] if word.startswith(PACKAGE) else word


def came_of(names: Sequence[str]) -> Came:
    """Runs tests: those of one module here, and those of several in a process for each processor."""
    if len(names) == 1:
        return run(names[0], sys.stderr)
    begun = time.monotonic()
    came = Workers().run(names, len(os.sched_getaffinity(0)))
    print(f"Ran {came.many} tests in {time.monotonic() - begun:.0f} s", file=sys.stderr)
    return came


def report(came: Came) -> int:
    """Reports what came of tests; returns the status."""
    for why, count in came.skipped.items():
        print(f"test: {count} {'test was' if count == 1 else 'tests were'} skipped: {why}")
    skipped = sum(came.skipped.values())
    print(f"{came.passed} passed, {came.failed} failed{f', {skipped} skipped' if skipped else ''}", flush=True)
    return int(came.failed > 0)


def main(words: List[str]) -> int:
    os.chdir(TOP)
    if words == [TAKING]:
        take()
        return 0
    for word in words:
        if module_fault(word):
            print(f"test: {module_fault(word)}", file=sys.stderr)
            return 2
    program()
    return report(came_of([f"{PACKAGE}{short(word)}" for word in words or modules()]))


if __name__ == "__main__":
    sys.exit(main(sys.argv[1:]))
