"""What an event comes to by other rules than those of its setup, where its reason does not name them."""
from __future__ import annotations

import re
from typing import Collection, Iterator, List, Sequence, Set

from ..language.commands import KERNEL
from ..link.laboratory import Laboratory
from ..reasons.kernel import PAGE
from .otherwise import Mark, marks_of

# Words of the kernel's rules, as a reason names them.
_NAMED = re.compile(rf"{KERNEL.word} ((?:[a-z]+, )*[a-z]+)")


def explain_dependence(lab: Laboratory, events: Sequence[str], number: int, reason: Sequence[str]) -> List[str]:
    """Each set of rules by which the event at a place, from 1 on, comes to something else, but for those that its reason names. It is asked
    in runs of their own."""
    if not lab.knows_setup:
        return []
    found, named = marks_of(lab.program, lab.setup, events[:number], number), {*_words(reason)}
    lines = [_words_of(it) for it in found.of.get(number, []) if not _are_named(it.words, named)]
    return [*lines, *(f"{by} the run is a different one since event {since} ({PAGE})" for by, since in found.partings.items() if since < number)]


def _words_of(mark: Mark) -> str:
    return f"{mark.by} it is `{mark.outcome}`{', as here' * mark.is_as_here} ({PAGE})"


def _words(reason: Sequence[str]) -> Iterator[str]:
    return (word for line in reason for found in _NAMED.finditer(line) for word in found[1].split(", "))


def _are_named(words: Collection[str], named: Set[str]) -> bool:
    return bool(words) and {*words} <= named
