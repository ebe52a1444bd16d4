"""Dialogues as a page prints them: prompts with typed lines, and what the shell says to each.

`python3 -m shell.tests.dialogues PAGE..` writes the dialogues of pages anew, from the lines that are typed in them.
"""
from __future__ import annotations

import io
import re
import sys
from typing import Iterable, List

from ..console.colours import PLAIN
from ..dialogue.shell import Shell
from ..link.laboratory import Laboratory
from . import program

MARK = "<!-- dialogue -->\n```text\n"
PROMPT = re.compile(r"(?:setup|[a-z][a-z0-9-]* \d+/\d+(?: \(kernel [a-z ]+\))?)> ")


def dialogues(page: str) -> List[str]:
    """The dialogues that a page prints."""
    return [part.partition("```")[0] for part in page.split(MARK)[1:]]


def typed(dialogue: str) -> List[str]:
    """The lines that are typed in a dialogue."""
    found = (PROMPT.match(line) for line in dialogue.splitlines())
    return [it.string[it.end() :] for it in found if it]


def printed(lines: Iterable[str]) -> str:
    """What a terminal shows where these lines are typed."""
    lab, out = Laboratory(program()), io.StringIO()
    shell = Shell(lab, out, PLAIN, is_typed=True)
    for line in lines:
        shell.set_prompt()
        print(f"{shell.prompt}{line}", file=out)
        shell.onecmd(line)
    lab.close()
    return out.getvalue()


def renewed(page: str) -> str:
    """A page with its dialogues as the shell has them."""
    for it in dialogues(page):
        page = page.replace(it, printed(typed(it)))
    return page


if __name__ == "__main__":
    for path in sys.argv[1:]:
        with open(path, encoding="utf-8") as old:
            text = renewed(old.read())
        with open(path, "w", encoding="utf-8") as new:
            new.write(text)
