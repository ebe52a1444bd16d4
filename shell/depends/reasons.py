"""Why an event comes to something else by other rules: what `why` says of it there, and if its rules say nothing of the event itself,
which earlier event they made something else of."""
from __future__ import annotations

from typing import Dict, List, NamedTuple, Optional, Sequence

from ..console.colours import PLAIN
from ..language.commands import KERNEL, PAST, STEP
from ..language.events import KILL
from ..language.names import NODES, Name
from ..link.histories import History
from ..link.laboratory import Laboratory
from ..link.programs import Run
from ..model.explanations import Explanation, Judged, OfState, Purge
from ..model.kernels import Kernel
from ..model.pair import read_shown
from ..reasons.explained import reasons
from ..reasons.kernel import THE_KERNEL
from ..reasons.questions import Question
from ..shows.differences import differences
from .replayed import Script
from .why import why_ahead

# How the words of a reason begin that is a rule of the kernel, or the profile's in its place.
_BY = (f"by {KERNEL.word} ", "by the profile", THE_KERNEL)
# So many lines of a reason are shown, and so many fields that differ.
MOST_LINES, MOST_FIELDS = 3, 3
# How many lines say what decided; one of most events.
_LINES = {Judged: 2, Purge: 2}


class Reason(NamedTuple):
    """Lines for people: what decided; and since which earlier event the pair is another one, and why, where that is known."""

    lines: Sequence[str]
    since: int = 0
    caused: Sequence[str] = ()


class Reasons:
    """The reasons for what comes of events of a script by other rules. For each set of rules there is a run with the events in question;
    what they have in common with those before stays."""

    def __init__(self, script: Script):
        self.script = script
        self._labs: Dict[Kernel, _Lab] = {}

    def reason(self, kernel: Kernel, events: Sequence[str], event: str) -> Reason:
        """Why an event comes to what it does by a kernel, after others."""
        here, there = self._lab(self.script.own, events), self._lab(kernel, events)
        explanation = there.lab.explanation("main", event)
        if explanation.event.is_refused:
            lines = [line.strip() for line in why_ahead(there.lab, "main", event, PLAIN)[1:]]
            return self._cause(here, there, _node_of(there, event), None)._replace(lines=lines[:1])
        there.step(event)
        question = there.question(len(events) + 1)
        lines = reasons(question)
        by_rules = [line for line in lines if _is_by(line)]
        if by_rules:
            return Reason(by_rules[:MOST_LINES])
        decided = lines[: _LINES.get(type(question.reason), 1)]
        return self._cause(here, there, _node_of(there, event), _name_of(question.explanation))._replace(lines=decided)

    def _cause(self, here: "_Lab", there: "_Lab", node: str, name: Optional[Name]) -> Reason:
        """The event from which on a node has something else; where a state is named, of that."""

        def is_other(place: int) -> bool:
            return _lines_of(here.past(place), node, name) != _lines_of(there.past(place), node, name)

        last = len(here.events)
        if not last or not is_other(last):
            return Reason(())
        first = 0
        while last - first > 1:
            middle = (first + last) // 2
            first, last = (first, middle) if is_other(middle) else (middle, last)
        said = [line for line in reasons(there.question(last)) if _is_by(line)][:MOST_LINES]
        return Reason((), last, said or _fields(here.past(last), there.past(last), node))

    def _lab(self, kernel: Kernel, events: Sequence[str]) -> "_Lab":
        if kernel not in self._labs:
            self._labs[kernel] = _Lab(self.script, kernel)
        self._labs[kernel].go_to(events)
        return self._labs[kernel]

    def close(self) -> None:
        for it in self._labs.values():
            it.lab.close()


class _Lab:
    """A run by some rules whose branch main has the events in question."""

    def __init__(self, script: Script, kernel: Kernel):
        self.lab = Laboratory(script.program, setup=script.setup(kernel))
        self.lab.session = Run(script.program, self.lab.setup.lines)
        self.events: List[str] = []

    def go_to(self, events: Sequence[str]) -> None:
        """Makes the branch have these events alone."""
        same = next((at for at, (one, two) in enumerate(zip(self.events, events)) if one != two), min(len(self.events), len(events)))
        if same < len(self.events):
            self.lab.ask(f"back main {len(self.events) - same}")
        self.events = [*events[:same]]
        for it in events[same:]:
            self.step(it)

    def step(self, event: str) -> None:
        self.lab.ask(f"{STEP.word} main {event}")
        self.events.append(event)

    def past(self, place: int) -> List[str]:
        return self.lab.ask(f"{PAST.word} main {place}")

    def question(self, place: int) -> Question:
        return Question(History(self.lab, "main", self.events[: place - 1]), self.lab.explanation("main", place), PLAIN)


def _is_by(line: str) -> bool:
    return any(it in line for it in _BY)


def _node_of(run: _Lab, event: str) -> str:
    """The node at which an event happens: a frame comes to its receiver."""
    words = event.split()
    if words[1] in NODES:
        return words[1]
    return run.lab.flight("main", int(words[1])).frame.to


def _name_of(explanation: Explanation) -> Optional[Name]:
    """The state that an event is about, if it is one."""
    if isinstance(explanation.reason, OfState):
        return explanation.reason.name
    return Name.read(explanation.event.words[2]) if explanation.event.words[0] == KILL.word else None


def _lines_of(shown: Sequence[str], node: str, name: Optional[Name]) -> List[str]:
    """The lines about a node but for its counters, or about one state of it."""
    begins = [node, str(name)] if name else [node]
    its = ((line, line.split()) for line in shown)
    return [line for line, words in its if words[0] != "count" and words[1 : len(begins) + 1] == begins]


def _fields(here: Sequence[str], there: Sequence[str], node: str) -> List[str]:
    """What is otherwise at a node after an event, by the script's own rules and by others."""
    found = [f"{it}" for it in differences(read_shown(here), read_shown(there)) if it.where == node and it.what != "counter"]
    return found[:MOST_FIELDS]
