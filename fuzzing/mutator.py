"""Changes of lines for AFL++, which loads this module in addition to its own changes of bytes (AFL_PYTHON_MODULE)."""
from __future__ import annotations

import os
import random

from .corpora import corpus, split
from .drafts import Draft

TOP = os.path.dirname(os.path.dirname(os.path.realpath(__file__)))
SCRIPTS = corpus(TOP)
CHANCE = random.Random()


def init(seed: int) -> None:
    CHANCE.seed(seed)


def fuzz(script: bytearray, other: bytearray, longest: int) -> bytearray:
    """A script with changes in some lines, or now and then in the setup."""
    draft = Draft(CHANCE, split(script.decode("latin-1").split("\n")), SCRIPTS)
    if CHANCE.random() < 0.2:
        draft.change_setup()
    draft.change_commands(CHANCE.choice((0, 1, 1, 2, 4)))
    return bytearray(draft.text().encode("latin-1")[:longest])


def deinit() -> None:
    """AFL++ requires it."""
