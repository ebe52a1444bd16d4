"""The answer to a search in people's words."""
from __future__ import annotations

from typing import List, Sequence

from ..console.colours import Paint
from ..language.searches import DIFFER, QUIET
from ..model.pair import Pair, other
from ..shows.diffs import unequal_fields
from ..shows.words import counted
from .answers import Found, GaveUp, NoRun
from .deepening import Outcome, Step
from .sought import ANYWHERE, DIES, DROPS, SPLITS, WHERE, Sought

NEVER_ASKED = f"it was never asked, so this says nothing about it: `{ANYWHERE}` asks at the end of each run"
# How the names of the fields begin that `differ` compares, and the flags of a state that it leaves out.
COMPARED = ("source ", "destination ", "class")
UNSYNCHRONISED = "n"


def runs(number: int) -> str:
    return "1 run" if number == 1 else f"{number:,} runs"


def report(sought: Sought, outcome: Outcome, paint: Paint) -> List[str]:
    """What a search found, or why it found nothing, and what was allowed."""
    if isinstance(outcome.answer, Found):
        lines = _found(sought, outcome, outcome.answer, paint)
    elif isinstance(outcome.answer, NoRun):
        lines = [paint.head(_none(outcome.answer)), *map(paint.note, _left_open(sought, outcome.answer))]
    else:
        lines = [paint.note(_stopped(outcome))]
    lines += [paint.dim(term) for term in sought.terms]
    return [*lines, paint.dim("`take` steps them on a new branch")] if outcome.steps else lines


def _found(sought: Sought, outcome: Outcome, answer: Found, paint: Paint) -> List[str]:
    tried = f"({runs(answer.runs)} tried)"
    if answer.events:
        head = f"found: {counted(len(answer.events), 'event')}, a shortest way {tried}"
    else:
        head = f"found: no event is needed, it is so at the cursor of the branch {tried}"
    lines = [paint.head(head), *_steps(outcome.steps)]
    return lines if outcome.last is None else [*lines, *_then(sought, outcome, outcome.last, paint)]


def _steps(steps: Sequence[Step]) -> List[str]:
    """The events with the places that they get, as they are typed, and what comes of each."""
    rows = [(str(step.event.number), step.event.line, step.event.came, _frame(step)) for step in steps]
    number, event, outcome = (max((len(row[at]) for row in rows), default=0) for at in range(3))
    return [f"  {row[0]:>{number}}  {row[1]:<{event}}  {row[2]:<{outcome}}  {row[3]}".rstrip() for row in rows]


def _frame(step: Step) -> str:
    """The frame that an event is about: where it goes, and what it carries."""
    return f"frame {step.frame.ticket} to {step.frame.to}: {step.frame.summary}" if step.frame else ""


def _then(sought: Sought, outcome: Outcome, last: Pair, paint: Paint) -> List[str]:
    """What meets the goal after the last event; and if the pair is not at rest there, how to ask only where it is."""
    at_other = f"; at {other(sought.node)}: {outcome.at_other}" if outcome.at_other else ""
    lines = [f"  then {sought.packet}: {outcome.packet}{at_other}" if sought.packet else f"  then {_of_states(sought, last)}"]
    if last.frames or any(node.pending or node.serve != "-" for node in last.nodes.values()):
        lines.append(paint.note(f"the pair is not at rest there: `{QUIET}` asks only {WHERE[QUIET]}"))
    return lines


def _of_states(sought: Sought, pair: Pair) -> str:
    return _differing(pair) if sought.kind == DIFFER else _apart(pair)


def _apart(pair: Pair) -> str:
    """The states that only one node has, by their names."""
    parts = []
    for node, peer in ((pair.a, pair.b), (pair.b, pair.a)):
        names = [str(state) for state in sorted(node.states) if state not in peer.states]
        if names:
            parts.append(f"{', '.join(names)} only on {node.id}")
    return f"a and b are apart by names: {'; '.join(parts)}"


def _differing(pair: Pair) -> str:
    """The states at both nodes that differ in what `differ` compares, and in what."""
    parts = []
    for name in sorted({*pair.a.states} & {*pair.b.states}):
        one, two = pair.a.states[name], pair.b.states[name]
        fields = {it: both for it, both in unequal_fields(one, two).items() if it.startswith(COMPARED)}
        if fields and UNSYNCHRONISED not in (one.flags, two.flags):
            parts.append(f"{name}: {', '.join(f'{it} {first} | {second}' for it, (first, second) in fields.items())}")
    return f"a and b differ in {'; '.join(parts)}"


def _none(answer: NoRun) -> str:
    if answer.depth is None:
        what = "no run of these choices leads there, of any length"
    else:
        what = f"no run of at most {counted(answer.depth, 'event')} of these choices leads there"
    ends = {0: "none of which ends", 1: "1 of which ends"}.get(answer.asked, f"{answer.asked:,} of which end")
    return f"{what}: proved, over {runs(answer.runs)}, {ends} where it is asked"


def _left_open(sought: Sought, answer: NoRun) -> List[str]:
    """What the answer says nothing about, and how to ask it."""
    if not answer.asked:
        return [NEVER_ASKED]
    if sought.kind in (DROPS, SPLITS) and sought.scope != ANYWHERE:
        node = other(sought.node)
        word = ANYWHERE if node in sought.phases[-1].dead else f"{DIES} {node}"
        return [f"{node} can die at other moments, too: `{word}` asks at each of them"]
    return []


def _stopped(outcome: Outcome) -> str:
    """A line that a search gave up or was interrupted, and what is known nevertheless."""
    known = "nothing is known"
    if outcome.known:
        never = "" if outcome.known.asked else ", but it was never asked"
        known = f"up to depth {outcome.known.depth} there is none{never}"
    if isinstance(outcome.answer, GaveUp):
        return f"gave up after {runs(outcome.answer.runs)} at depth {outcome.depth}; {known}"
    return f"interrupted at depth {outcome.depth}; {known}"
