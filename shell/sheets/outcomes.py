"""What came of a line of a script: its reply, the words that a chart has for it, and the reason in few lines."""
from __future__ import annotations

from dataclasses import dataclass
from typing import List, Sequence

from ..charts.contents import record_words
from ..charts.marks import PacketMarks, delivery_mark, node_mark
from ..console.colours import PLAIN
from ..depends.why import why_last
from ..language.commands import BACK, EXCISE, FORK, FORWARD, STEP
from ..language.events import CUT, DELIVER, FLUSH, LOSE, PACKET, REPEAT
from ..language.searches import SEARCH
from ..link.laboratory import Laboratory
from ..model.explanations import Explanation
from ..reasons.explained import INDENT, explained_event

# How many lines of a reason a sheet has; the shell has the others.
MOST_REASONS = 4


@dataclass
class Answer:
    """The reply, what came of the line in words, if there are such, and why."""

    reply: List[str]
    outcome: str
    why: List[str]


def answer_of(lab: Laboratory, line: str, reply: Sequence[str], number: int, before: int) -> Answer:
    """The answer to the newest line: the number of its event, or where its branch is now, and where the branch was before."""
    words, kind = line.split(), reply[0].split()[0]
    if kind == "refused":
        return Answer([*reply], f"refused: {reply[0].split()[-1]}", _short(why_last(lab, PLAIN)[1:], ""))
    if words[0] != STEP.word:
        why = why_last(lab, PLAIN)[1:] if words[0] in (EXCISE.word, SEARCH) else []
        return Answer([*reply], _moved(words, number, before), _short(why, ""))
    explanation = lab.explanation(words[1], number)
    why = explained_event(lab, lab.branch(words[1]), number, PLAIN)[1:]
    return Answer([*reply], outcome_words(lab, words[1], explanation), _short(why, f"`why {words[1]} {number}`"))


def outcome_words(lab: Laboratory, branch: str, explained: Explanation) -> str:
    """What came of an accepted event, as a chart draws it."""
    event = explained.event
    if event.kind is PACKET:
        return PacketMarks().mark(explained).fate
    if event.kind in (FLUSH, REPEAT):
        flight = lab.flight(branch, int(event.outcome[1]))
        said = [f"copy of #{event.words[1]}"] if event.kind is REPEAT else record_words(flight.frame.records)
        return f"#{flight.ticket}: {', '.join(said)}"
    if event.kind is DELIVER:
        mark = delivery_mark(explained, lab.flight(branch, int(event.words[1])))
        return f"#{event.words[1]}: {' '.join(filter(None, [*mark.words, mark.fate]))}"
    if event.kind is LOSE:
        return f"#{event.words[1]}: lost"
    if event.kind is CUT:
        return f"#{event.words[1]}: cut to {event.outcome[1]} bytes"
    return node_mark(event).fate or event.came


def _moved(words: Sequence[str], cursor: int, before: int) -> str:
    """What a command did to a branch, for those whose replies do not say it."""
    if words[0] in (BACK.word, FORWARD.word) and cursor != before:
        first, last = min(cursor, before) + 1, max(cursor, before)
        events = f"event {first} of {words[1]}" if first == last else f"events {first} to {last} of {words[1]}"
        verb = ("is" if first == last else "are") + " undone" if words[0] == BACK.word else f"happen{'s' * (first == last)} again"
        return f"{events} {verb}"
    return f"branch {words[3]} begins after event {words[2]} of {words[1]}" if words[0] == FORK.word else ""


def _short(lines: Sequence[str], more: str) -> List[str]:
    """The first lines of a reason, and the question that gives the others."""
    its = [line[len(INDENT) :] if line.startswith(INDENT) else line for line in lines]
    if len(its) <= MOST_REASONS:
        return its
    return [*its[:MOST_REASONS], f"and more: see {more or '`why`'} in the shell"]
