"""Scripts that are changed at random."""
from __future__ import annotations

import random
from typing import Sequence

from .corpora import Script
from .drafts import Draft
from .lines import with_few_runs
from .texts import OF_TEXTS


def mutated(chance: random.Random, scripts: Sequence[Script]) -> str:
    """A script of the corpus with changes of lines, and now and then of bytes; each byte is one character."""
    draft = Draft(chance, chance.choice(scripts), scripts)
    draft.change_setup()
    draft.change_commands(chance.choice((1, 2, 3, 5, 8, 13, 30)))
    text = draft.text()
    if chance.random() < 0.3:
        for _ in range(chance.choice((1, 1, 1, 2, 3, 5, 20))):
            text = chance.choice(OF_TEXTS)(chance, text)
    return with_few_runs(text)
