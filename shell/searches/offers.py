"""What a word of a search can be, given the words before it: for the key that completes a line."""
from __future__ import annotations

from typing import List, NamedTuple, Sequence, Tuple

from ..language.events import CUT, EVENTS, OF_FRAME, OF_NODE, PACKET
from ..language.names import NODES
from ..language.searches import ANY, OF_PAIR, SCOPES, SEARCH, SPLIT, THEN, words_of, GOALS as GOALS_OF_LINES
from .reading import OF_ANY, PARTS, is_for_people
from .sought import DIES, GOALS


class Offers(NamedTuple):
    """The words that may come, or the words of an event that has begun, which determine the next one."""

    words: Tuple[str, ...] = ()
    event: Tuple[str, ...] = ()
    is_for_people: bool = False


def offers(words: Sequence[str]) -> Offers:
    """What may come after words that begin with `search`."""
    if len(words) == 1:
        return Offers(tuple(GOALS))
    if is_for_people(" ".join(words)):
        return _of_people(words)._replace(is_for_people=True)
    return _of_line(words_of(" ".join(words)))


def _of_people(words: Sequence[str]) -> Offers:
    """Parts that end with commas."""
    part: List[str] = []
    for word in words:
        part = [] if word.endswith(",") else [*part, word]
    if not part:
        return Offers(PARTS)
    if part[0] == SEARCH:
        return Offers((PACKET.word,) if part[2:] == [] and part[1] not in OF_PAIR else (), tuple(part[2:]))
    if part in (["at"], [DIES]):
        return Offers(("most",) if part == ["at"] else NODES)
    if part[0] in OF_ANY or part[0] == CUT.word:
        return Offers()
    return Offers((), tuple(part)) if part[0] in EVENTS else Offers()


def _of_line(words: Sequence[str]) -> Offers:
    """Parts that end with semicolons; the first has a branch, a depth and a number of runs, the others how often."""
    ends = [at for at, word in enumerate(words) if word == ";"]
    if not ends:
        return _of_goal([word for word in words[4:] if word not in SCOPES], len(words))
    part = list(words[ends[-1] + 2 :])
    if words[-1] == ";":
        return Offers((THEN,))
    if words[ends[-1] + 1] == THEN:
        return Offers()
    if part[:1] == [ANY]:
        return Offers(tuple(OF_FRAME) if len(part) == 1 else ())
    return Offers((), tuple(part)) if part else Offers((ANY, *EVENTS))


def _of_goal(goal: Sequence[str], length: int) -> Offers:
    """What may come after the first words of the first part, this many, the last of which are of a goal if it has begun."""
    if length < 4:
        return Offers()
    if not goal:
        return Offers((*(SCOPES if length == 4 else ()), *GOALS_OF_LINES))
    if goal[0] in OF_PAIR:
        return Offers()
    if goal[1:]:
        return Offers((), tuple(goal[1:]))
    return Offers(tuple(OF_NODE if goal[0] == SPLIT else EVENTS))
