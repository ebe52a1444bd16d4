"""Replies in words, and what kinds of commands they are to."""
from __future__ import annotations

from dataclasses import dataclass
from difflib import unified_diff
from typing import List

from ..language.commands import PAST, SHOW
from ..language.events import PACKET
from ..language.searches import SEARCH
from ..link.laboratory import outcome_of
from ..model.pair import read_shown
from ..searches.answers import Found, GaveUp, NoRun, read_answer
from ..shows.differences import differences
from ..shows.words import counted
from .comparing import Difference, is_look
from .replayed import Reply, Spot

# So many differences of a shown pair are named.
MOST_FIELDS = 3


@dataclass(frozen=True)
class Kind:
    """A kind of reply: how one that changes is counted, and several."""

    one: str
    many: str

    def counted(self, number: int) -> str:
        return f"{number} {self.one if number == 1 else self.many}"


_PACKETS = Kind("packet gets a different verdict", "packets get different verdicts")
_EVENTS = Kind("other event has a different outcome", "other events have different outcomes")
_SEARCHES = Kind("search has a different answer", "searches have different answers")
_OTHERS = Kind("other command has a different reply", "other commands have different replies")
_LOOKS = Kind("reply that shows the pair", "replies that show the pair")
# In the order in which they are said.
KINDS = (_PACKETS, _EVENTS, _SEARCHES, _OTHERS, _LOOKS)


def kind_of(spot: Spot) -> Kind:
    if spot.is_event:
        return _PACKETS if spot.event.startswith(f"{PACKET.word} ") else _EVENTS
    return _SEARCHES if spot.command.word == SEARCH else _LOOKS if is_look(spot) else _OTHERS


def outcome_words(reply: Reply) -> str:
    """What came of an event: its outcome, or why it is refused."""
    text = outcome_of(reply[0])
    return f"refused {text.split()[-1]}" if text.startswith("refused") else text


def found_words(reply: Reply) -> str:
    """The answer to a search."""
    answer = read_answer(reply)
    if isinstance(answer, Found):
        return f"found, {counted(len(answer.events), 'event')}"
    if isinstance(answer, NoRun):
        length = "of any length" if answer.depth is None else f"of at most {counted(answer.depth, 'event')}"
        return f"no run {length}" + ", and never asked" * (not answer.asked)
    return "gave up" if isinstance(answer, GaveUp) else reply[0]


def looked_words(spot: Spot, difference: Difference, is_whole: bool) -> List[str]:
    """What a look shows otherwise."""
    if spot.command.word not in (SHOW.word, PAST.word):
        every = unified_diff(difference.before, difference.after, lineterm="", n=0)
        lines = [line for line in every if not line.startswith(("---", "+++", "@@"))]
    else:
        lines = [f"{one}" for one in differences(read_shown(difference.before), read_shown(difference.after))]
    more = 0 if is_whole else len(lines) - MOST_FIELDS
    return lines if more <= 0 else [*lines[:MOST_FIELDS], f"and {more} more"]
