"""Tests of everything around the program, over the one that PFL_LAB names or that of this tree: `./test --around` runs them, and
`python3 -m unittest shell.tests.test_marks` those of one module."""
from __future__ import annotations

import atexit
import os
import sys
from functools import lru_cache
from typing import List

from proving.programs import program_of_tree
from proving.releases import NoRelease

from ..console.colours import PLAIN
from ..depends.why import why_last
from ..language.lines import has_word
from ..link.chosen import NoProgram, chosen
from ..link.laboratory import Laboratory

TOP = os.path.dirname(os.path.dirname(os.path.dirname(os.path.realpath(__file__))))
NO_PROGRAM_STATUS = 125


def program() -> str:
    """The program that the tests run: the one that PFL_LAB names, else that of this tree, as `./lab` chooses it."""
    return _program(os.environ.get("PFL_LAB", ""))


@lru_cache(maxsize=None)
def _program(_: str) -> str:
    try:
        return chosen() or program_of_tree()
    except NoProgram as why:
        said = f"{why}"
    except NoRelease as why:
        said = f"{why}; ./lab build makes one, and PFL_LAB can name another"
    print(f"test: {said}", file=sys.stderr, flush=True)
    # (an exception would be reported once for each test)
    os._exit(NO_PROGRAM_STATUS)


def laboratory(script: str) -> Laboratory:
    """A laboratory after the lines of a script, which are all expected to be taken."""
    lab = Laboratory(program())
    atexit.register(lab.close)
    for line in _lines(script):
        if not has_word(line):
            lab.pass_over(line)
        elif lab.is_open:
            lab.ask(line)
        else:
            lab.take_setup(line)
    return lab


def reasons(script: str) -> List[str]:
    """The reason of a script's last reply, line by line, without what was asked."""
    lab = laboratory(script)
    lines = [it.strip() for it in why_last(lab, PLAIN)[1:]]
    lab.close()
    return lines


def _lines(script: str) -> List[str]:
    return [line.strip() for line in script.splitlines() if line.strip()]
