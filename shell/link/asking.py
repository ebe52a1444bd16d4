"""Reads the words that come after a question in a dialogue: the branch that it is of, and options."""
from __future__ import annotations

import argparse
from typing import NoReturn

from ..language.helps import SHELL
from .laboratory import Unknown


class Asking(argparse.ArgumentParser):
    """Reads the words after a word of the shell, where a fault ends nothing. The branch may be left out."""

    def __init__(self, word: str) -> None:
        super().__init__(prog=word, add_help=False, allow_abbrev=False)
        self.add_argument("branch", nargs="?", default="")

    def error(self, message: str) -> NoReturn:
        raise Unknown(f"{message[:1].lower()}{message[1:]}; usage: {SHELL[self.prog].form}")
