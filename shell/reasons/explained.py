"""The reason for what the program replied, in words and numbers. For an event the program itself says what came of it, or would come of
it, and why."""
from __future__ import annotations

from typing import Callable, Dict, List, Optional, Sequence

from ..console.colours import Paint
from ..console.fitting import shortened
from ..language.commands import STEP
from ..language.events import BROKEN, DROPPED, HELD_BACK, PASS, TAKEN, plain_event
from ..link.histories import History
from ..link.laboratory import Laboratory, Unknown, outcome_of
from ..model.branches import Branch
from ..model.explanations import Explanation
from .broken import explain_broken
from .commands import explain_command, explain_done
from .events import explain_other
from .faulty import explain_fault
from .packets import explain_packet
from .questions import Question
from .refusals import explain_refusal
from .taken import explain_taken

INDENT = "  "
# What is to be said besides the reason of an event, by the events of its branch, its place and the lines of the reason.
More = Callable[[Laboratory, Sequence[str], int, Sequence[str]], List[str]]
_OF_OUTCOMES: Dict[str, Callable[[Question], List[str]]] = {
    PASS.word: explain_packet,
    HELD_BACK.word: explain_packet,
    DROPPED.word: explain_packet,
    TAKEN.word: explain_taken,
    BROKEN.word: explain_broken,
    "refused": explain_refusal,
}


def no_more(lab: Laboratory, events: Sequence[str], number: int, reason: Sequence[str]) -> List[str]:
    return []


def explained_event(lab: Laboratory, branch: Branch, number: int, paint: Paint, more: More = no_more) -> List[str]:
    """Why an event of a branch, by its place from 1 on, had its outcome: the outcome, and under it the reason."""
    lines = _explained(lab, branch, lab.explanation(branch.name, number), paint)
    return [*lines, *_indented([paint.note(line) for line in more(lab, branch.events, number, lines)])]


def explained_ahead(lab: Laboratory, name: str, event: str, paint: Paint, more: More = no_more) -> List[str]:
    """What would come of an event where a branch stands, and why. If it would be accepted, it happens aside, to see what it would do."""
    explanation, branch = lab.explanation(name, event), lab.branch(name)
    if explanation.event.is_refused:
        return _explained(lab, branch, explanation, paint)
    if not lab.knows_setup:
        more_later = "it would be accepted; with --setup FILE, or once it is stepped, `why` says more"
        return [_head(explanation, paint), *_indented([*explanation.lines, more_later])]
    with lab.beside(branch) as other:
        other.ask(f"{STEP.word} {name} {event}")
        return explained_event(other, other.branch(name), explanation.event.number, paint, more)


def explained_last(lab: Laboratory, paint: Paint, columns: Optional[int] = None, more: More = no_more) -> List[str]:
    """The reason for the newest reply; a faulty line is shown in rows of at most this many columns."""
    if lab.last is None:
        raise Unknown("nothing was asked yet")
    line, reply = lab.last.line, lab.last.reply[0]
    words, kind = line.split(), reply.split()[0]
    if kind == "bad":
        return [paint.head(f"{shortened(line)}: {reply}"), *_indented(explain_fault(line, reply, columns - len(INDENT) if columns else None, set()))]
    if kind == "refused" and "Event" not in reply.split():
        return [paint.head(f"{line}: {reply}"), *_indented(explain_command(lab, line, reply))]
    if words[0] != STEP.word:
        return [paint.head(f"{line}: {reply}"), *_indented(explain_done(words, reply))]
    if kind == STEP.word:
        branch = lab.branch(words[1])
        lines = explained_event(lab, branch, branch.cursor, paint, more)
        same = lines[0] == paint.head(f"{plain_event(words[2:])}: {outcome_of(reply)}")
        return lines if same else [paint.note(f"another session has changed {branch.name} since; its newest event is this:"), *lines]
    lines = explained_ahead(lab, words[1], " ".join(words[2:]), paint, more)
    moved = paint.dim("this is from the branch as it is now, which other sessions may have changed since")
    return lines if lab.is_own else [*lines, *_indented([moved])]


def _explained(lab: Laboratory, branch: Branch, explanation: Explanation, paint: Paint) -> List[str]:
    before = History(lab, branch.name, branch.events[: explanation.event.number - 1])
    return [_head(explanation, paint), *_indented(reasons(Question(before, explanation, paint)))]


def reasons(question: Question) -> List[str]:
    """The reason for an event's outcome, line by line."""
    return _OF_OUTCOMES.get(question.outcome[0], explain_other)(question)


def _head(explanation: Explanation, paint: Paint) -> str:
    return paint.head(f"{explanation.event.line}: {explanation.event.came}")


def _indented(lines: Sequence[str]) -> List[str]:
    return [f"{INDENT}{line}" for line in lines]
