"""Faults that do the same: what happens at one node may change places with what happens at the other, and the pair after both is the same.

pfl_search proves that of its runs (`Commuting.antt` there). Here an event that a fault adds at a node changes places with events that the
run accepted. It does so with none that copies or cuts a frame, and a restart not with another one, since restarts number the boots.
"""
from __future__ import annotations

from typing import Dict, List, NamedTuple, Optional

from ..language.events import DELIVER, FLUSH, LOSE, OF_NODE, RESTART
from ..model.branches import Happened
from ..model.pair import other
from .faults import Course, Variant


class Alike(NamedTuple):
    """What is the same for variants that do the same: the event that they add, and how many events of the run come before it at least."""

    line: str
    place: int


class Sharing:
    """Which variants of a run do the same: those of one event that is added at a node, with only events between its places that have
    nothing to do with that node."""

    def __init__(self, course: Course):
        self.course = course
        # For each added event and each number of events before it the least number of them that do the same.
        self._least: Dict[str, List[int]] = {}

    def alike(self, variant: Variant) -> Optional[Alike]:
        """What the variants that do the same have in common; nothing if no others are known to do the same."""
        # (which state is killed in a variant may depend on which events come before the first that is changed)
        if len(variant) != 1 or variant[0].left_out or len(variant[0].added) != 1 or self.course.has_kills:
            return None
        (place, _), step = variant[0].added[0]
        return Alike(step.line, self._of(step.line)[place]) if _is_of_one_node(step.words) else None

    def _of(self, line: str) -> List[int]:
        if line not in self._least:
            least, words = [0], line.split()
            for event in self.course.events:
                least.append(least[-1] if self._is_apart(words, event) else event.number)
            self._least[line] = least
        return self._least[line]

    def _is_apart(self, words: List[str], event: Happened) -> bool:
        """Whether an event of the run has nothing to do with the node of an added event."""
        node, its = words[1], event.words
        if event.kind is LOSE:
            return True
        if event.kind is DELIVER:
            # (a frame comes to the node that did not send it)
            return self.course.sender(int(its[1])) == node
        if event.kind is RESTART and words[0] == RESTART.word:
            return False
        return (its[0] in OF_NODE or event.kind in (FLUSH, RESTART)) and its[1] == other(node)


def _is_of_one_node(words: List[str]) -> bool:
    return words[0] in OF_NODE or words[0] == RESTART.word
