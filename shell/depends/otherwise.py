"""The events of a run that come to something else by other rules, each with what it comes to."""
from __future__ import annotations

from typing import Dict, Iterator, List, NamedTuple, Optional, Sequence, Tuple

from ..language.commands import STEP
from ..model.kernels import Kernel
from ..model.setups import Setup
from ..shows.words import counted
from .choices import Tried, by_rules, together_words, tried
from .replayed import Command, Script
from .replies import outcome_words

# Of so many events of a run; of later ones it is asked only by the word `depends`.
MOST_EVENTS = 2000


class Mark(NamedTuple):
    """By which rules an event comes to something else, and to what; and the words of these rules, but for all and none. All of them may
    come to what it is here, although one of them does not."""

    by: str
    outcome: str
    words: Tuple[str, ...] = ()
    is_as_here: bool = False

    def __str__(self) -> str:
        return f"{self.by}: {self.outcome}"


class Marks(NamedTuple):
    """The events that come to something else, by their numbers; and by which rules the run is another one from an event on, after which
    nothing is known."""

    of: Dict[int, List[Mark]]
    partings: Dict[str, int]


NONE = Marks({}, {})


def marks_of(program: str, setup: Setup, events: Sequence[str], only: Optional[int] = None) -> Marks:
    """The events of a run that come to something else by other rules than those of its setup; or one of them alone. Those after the first
    ones are not asked about, which changes nothing for these."""
    if not events or only and only > MOST_EVENTS:
        return NONE
    script = Script(program, setup.lines, [Command(f"{STEP.word} main {event}") for event in events[:MOST_EVENTS]])
    trial = tried(script, None if only is None else (only - 1,))
    every = (*trial.singles, *(far.its for far in trial.far))
    places = sorted({place for one in every for place in one.by_place if only in (None, place + 1)})
    partings = {by_rules(script.own, one.kernel): spot.number for one in every for spot in one.partings[:1]}
    return Marks({at + 1: [*_marks(trial, at)] for at in places}, partings)


def _marks(trial: Tried, place: int) -> Iterator[Mark]:
    """By each word that changes an event alone, by the words that do it together, and by all rules of the kernel or of the profile, if
    that is something else again."""
    own = trial.script.own
    for one in trial.singles:
        if place in one.by_place:
            yield Mark(by_rules(own, one.kernel), outcome_words(one.by_place[place]), _words(own, one.kernel))
    for far in trial.far:
        for two in far.together:
            if place in two.places:
                words = together_words(own, two.its.kernel)
                yield Mark(words, outcome_words(two.its.by_place[place]), _words(own, two.its.kernel))
        if place in far.undone:
            yield Mark(by_rules(own, far.its.kernel), outcome_words(trial.script.replies(own)[place]), is_as_here=True)


def _words(own: Kernel, kernel: Kernel) -> Tuple[str, ...]:
    return tuple(it.word for it in own.apart(kernel))


def notes_of(its: Marks, own: Kernel, events: int) -> Dict[int, List[str]]:
    """What a chart says of them: a paragraph above each of these events, by how many events come before it, and one after the last."""
    notes = {number - 1: [f"Event {number}, {'; '.join(map(str, those))}."] for number, those in its.of.items()}
    which = f" (event{'s' * (len(its.of) > 1)} {', '.join(map(str, sorted(its.of)))})" if its.of else ""
    depend = f"{len(its.of) or 'none'} of {counted(events, 'event')} depend{'s' * (len(its.of) < 2)} on the choice of rules{which}"
    others = [f"{by} it is a different run from event {number} on" for by, number in its.partings.items()]
    notes.setdefault(events, []).append(f"{own.by.capitalize()}; {'; '.join([depend, *others])}.")
    return notes
