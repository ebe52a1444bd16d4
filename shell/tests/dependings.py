"""Answers of `./lab depends` as a page prints them.

`python3 -m shell.tests.dependings PAGE..` writes those of pages anew.
"""
from __future__ import annotations

import io
import os
import re
import sys
from contextlib import redirect_stderr, redirect_stdout
from typing import List, Match, Tuple

from ..main import main
from . import TOP, program

MARK = re.compile(r"<!-- depends (.*) -->\n```text\n((?:.|\n)*?)```")


def said_by(*words: str) -> Tuple[int, List[str], str]:
    """The status, the lines and the faults of the command, at the top of the repository."""
    out, told, here = io.StringIO(), io.StringIO(), os.getcwd()
    os.chdir(TOP)
    try:
        with redirect_stdout(out), redirect_stderr(told):
            status = main(["--program", program(), "depends", *words])
    except SystemExit as ended:
        status = int(ended.code or 0)
    finally:
        os.chdir(here)
    return status, out.getvalue().splitlines(), told.getvalue()


def _renewed(found: Match[str]) -> str:
    lines = said_by(*found[1].split())[1]
    return f"<!-- depends {found[1]} -->\n```text\n" + "".join(f"{line}\n" for line in lines) + "```"


if __name__ == "__main__":
    for path in sys.argv[1:]:
        with open(path, encoding="utf-8") as old:
            text = MARK.sub(_renewed, old.read())
        with open(path, "w", encoding="utf-8") as new:
            new.write(text)
