"""The form of the line `search`: semicolons separate its parts."""
from __future__ import annotations

from typing import List

from . import forms as form
from .events import OF_FRAME
from .forms import number

SEARCH = "search"
MOST_CHOICES = 16
MOST_PHASES = 16
DEEPEST = 64
# When a search is asked, and for what: two goals are about the states of both nodes, and the others about what an event brings.
SCOPES = (LANDED, QUIET, SETTLED) = ("landed", "quiet", "settled")
OF_PAIR = (APART, DIFFER) = ("apart", "differ")
OF_PACKET = (PASSED, UNPASSED, DROPPED, ADMITTED, SPLIT) = ("passed", "unpassed", "dropped", "admitted", "split")
GOALS = (*OF_PAIR, *OF_PACKET)
# What a choice says for an event of any frame.
ANY = "any"
# The part after which the choices of the next phase come.
THEN = "then"
_CHOICES = ("N EVENT", *(" ".join(["N", ANY, it.word, *map(str, it.values[1:])]) for it in OF_FRAME.values()), THEN)
_GOALS = (*OF_PAIR, *(f"{it} EVENT" for it in OF_PACKET))
FORM = f"{SEARCH} BRANCH DEPTH RUNS [{'|'.join(SCOPES)}] {'|'.join(_GOALS)}[; {'|'.join(_CHOICES)}].."
# The first words of the replies, and the word in place of a depth where no run of any length leads to the goal.
FOUND, NONE, GAVE_UP = "found", "none", "gave"
ANY_LENGTH = "any"
HEAD = (form.BRANCH, number("DEPTH", DEEPEST), number("RUNS", form.GREATEST))


def words_of(line: str) -> List[str]:
    """The words of a line; in a search each semicolon is a word."""
    words = line.split()
    return line.replace(";", " ; ").split() if words[:1] == [SEARCH] else words
