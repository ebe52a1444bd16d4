"""Moments of a branch, as a page shows them: an event, what came of it and why, and what it changed."""
from __future__ import annotations

from dataclasses import dataclass, field
from typing import Dict, List, Optional, Sequence, Tuple

from ..console.colours import PLAIN
from ..link.histories import History
from ..link.laboratory import Laboratory
from ..model.explanations import Explanation
from ..model.flights import Flight
from ..reasons.explained import reasons
from ..reasons.questions import Question
from ..shows.differences import Difference
from ..shows.logs import tone
from ..shows.words import counted
from .facts import Facts, Look

# A page shows the first of many reasons or changes, and how many more there are.
MOST_LINES = 60


@dataclass
class Moment:
    """An event and what came of it. There are no edits if the pair was not looked at afterwards."""

    event: str
    outcome: str
    why: Sequence[str]
    changes: Sequence[Tuple[str, str]] = ()
    edits: Optional[Facts] = None
    who: str = ""

    def as_data(self, notes: Sequence[str], after: Sequence[str], rules: Sequence[str] = ()) -> Dict[str, object]:
        """The moment for JSON, with the paragraphs about its event, those after it, and what it comes to by other rules."""
        its: Dict[str, object] = {"event": self.event, "outcome": self.outcome, "tone": tone(self.outcome)}
        if self.who:
            its["who"] = self.who
        if after:
            its["after"] = list(after)
        if rules:
            its["rules"] = list(rules)
        return {**its, "notes": list(notes), "why": list(self.why), "changes": [[*change] for change in self.changes], "edits": self.edits}


@dataclass
class Known:
    """What is known about some events: their lines, what came of each and which frame it sent, if any, and all frames by ticket."""

    lines: List[str] = field(default_factory=list)
    explained: List[Tuple[Explanation, Optional[Flight]]] = field(default_factory=list)
    flights: Dict[int, Flight] = field(default_factory=dict)
    # What would have come of the newest event, if it is a packet, at the other node.
    at_peer: Optional[Explanation] = None

    def history(self, lab: Laboratory, look: Look) -> History:
        """The events before the newest one, with nearly all that a reason needs at hand."""
        number = len(self.lines)
        history = History(lab, "main", self.lines[: number - 1])
        pairs, past = {number - 1: look.before, number: look.after}, history.pair
        history.explained = lambda place: self.explained[place - 1][0]
        history.pair = lambda place: pairs[place] if place in pairs else past(place)
        history.sent = self.flights.__getitem__
        if self.at_peer is not None:
            history.would_come = {self.at_peer.event.line: self.at_peer}.__getitem__
        return history


def moment(lab: Laboratory, known: Known, look: Look) -> Moment:
    """The newest of some events, if the pair was looked at after it, and also before."""
    explanation, before = known.explained[-1][0], known.history(lab, look)
    why = [line.strip() for line in reasons(Question(before, explanation, PLAIN))]
    changes = _first([(_tone(one), str(one)) for one in look.differences], "change")
    return Moment(explanation.event.line, explanation.event.came, _first_lines(why), changes, look.edits)


def unseen(explanation: Explanation, look: Optional[Look]) -> Moment:
    """An event, if the pair was not looked at before it: its reason is in the words of the program."""
    return Moment(explanation.event.line, explanation.event.came, _first_lines(explanation.lines), edits=look.edits if look else None)


def _tone(difference: Difference) -> str:
    return "good" if difference.is_new else "bad" if difference.is_gone else ""


def _first_lines(lines: Sequence[str]) -> List[str]:
    return [line for _, line in _first([("", line) for line in lines], "line")]


def _first(lines: List[Tuple[str, str]], what: str) -> List[Tuple[str, str]]:
    """The first of many lines, and how many more there are."""
    more = len(lines) - MOST_LINES
    return lines if more <= 1 else [*lines[:MOST_LINES], ("dim", f"and {counted(more, f'more {what}')}")]
