"""What a `depends` asks for, from the words of a command line or of a dialogue."""
from __future__ import annotations

import argparse
from typing import Sequence, Tuple

from ..language.helps import DEPENDS
from ..link.asking import Asking

ALL_REPLIES = "--all-replies"


class Options(argparse.Namespace):
    """The words that were read in a dialogue."""

    branch: str
    all_replies: bool


def add_options(words: argparse.ArgumentParser) -> None:
    """The options, the same on a command line and in a dialogue."""
    words.add_argument(ALL_REPLIES, action="store_true", help="shows each reply that changes, not only the first by each word")


def read(words: Sequence[str]) -> Tuple[str, bool]:
    """The branch that is named in a dialogue, or nothing, and whether all replies are shown."""
    reader = Asking(DEPENDS)
    add_options(reader)
    options = reader.parse_args(words, Options())
    return options.branch, options.all_replies
