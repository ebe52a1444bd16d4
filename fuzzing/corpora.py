"""The scripts that are changed."""
from __future__ import annotations

import glob
from typing import List, NamedTuple, Sequence

from shell.language.lines import opens
from shell.scripts.texts import read

FOLDERS = ("examples", "crates/test_cases/data/cases")
MARKS = ("#>", "#!", "#?", "#=")


class Script(NamedTuple):
    """The lines up to `open`, and those after it."""

    setup: List[str]
    commands: List[str]


def corpus(top: str) -> List[Script]:
    """The scripts of a repository in the order of their names, without the replies in them."""
    paths = sorted(path for folder in FOLDERS for path in glob.glob(f"{top}/{folder}/*.pfl"))
    return [split(without_marks(read(path))) for path in paths]


def without_marks(text: str) -> List[str]:
    """The lines of a script, each byte as one character."""
    characters = text.encode("utf-8", "surrogateescape").decode("latin-1")
    return [it for it in characters.split("\n")[:-1] if not it.startswith(MARKS)]


def split(lines: Sequence[str]) -> Script:
    end = next((at for at, line in enumerate(lines) if opens(line)), len(lines) - 1) + 1
    return Script(list(lines[:end]), list(lines[end:]))
