"""The words that people type after `search`, with what they leave out."""
from __future__ import annotations

import re
from dataclasses import dataclass, field
from typing import Dict, List, Optional, Sequence, Tuple

from ..language.events import CUT, DELIVER, EVENTS, FLUSH, LOSE, OF_FRAME, PACKET, REPEAT, TICK
from ..language.forms import GREATEST, NODE, nearest
from ..language.lines import LONGEST_LINE
from ..language.searches import ANY, DEEPEST, MOST_CHOICES, MOST_PHASES, OF_PAIR, PASSED, QUIET, SEARCH, THEN, UNPASSED
from ..link import macros
from ..link.laboratory import Unknown, event_of
from .sought import ALWAYS, ANY_DELIVERY, ANYWHERE, DIES, DROPS, GOALS, PASSES, RUNS, WHERE, Choice, Phase, Sought, EVENTS as EVENTS_AT_MOST

PARTS = (*WHERE, "within", "at", DIES, THEN, *EVENTS)
# What happens to any frame: the number after it says how often, and is not a ticket.
OF_ANY = (DELIVER.word, LOSE.word, REPEAT.word)
# What people say where the program says this.
_SAID = {**{goal: said for said, goal in GOALS.items()}, PASSED: PASSES, UNPASSED: DROPS}


def is_for_people(line: str) -> bool:
    """Whether a line that begins with `search` goes on in people's words, and not with a branch, a depth and a number of runs."""
    words = _words(line)
    return len(words) > 1 and words[1] in GOALS and not _is_of_program(words)


def wrong_goal(line: str) -> str:
    """What is wrong with the word after `search`, if one that people say was probably meant, and the line is not the program's."""
    words = _words(line)
    if len(words) < 2 or words[1] in GOALS or _is_of_program(words):
        return ""
    meant = f" (did you mean `{_SAID[words[1]]}`?)" if words[1] in _SAID else nearest(words[1], GOALS)
    return meant and f"`{words[1]}` is nothing to search for{meant}"


def _words(line: str) -> List[str]:
    return line.replace(",", " ").split()


def _is_of_program(words: Sequence[str]) -> bool:
    return len(words) > 3 and all(re.fullmatch("[0-9]+", word) for word in words[2:4])


def read(line: str, branch: str) -> Sought:
    """The search from a branch that a line asks for in people's words; raises what is wrong with the line."""
    # (a comma before a digit belongs to a number, as in 1,000,000)
    first, *rest = (it.split() for it in re.split(",(?![0-9])", line.split(None, 1)[1]))
    parts = _Parts()
    packet = _packet(first)
    for words in rest:
        parts.take(words)
    sought = parts.sought(first[0], packet)
    length = len(sought.line(branch, sought.within))
    if length > LONGEST_LINE:
        raise Unknown(f"the line that says this has {length} characters, but at most {LONGEST_LINE} are read: allow fewer events")
    return sought


def _packet(words: Sequence[str]) -> str:
    """The packet that is asked about; empty if it is the states."""
    kind, *event = words
    if kind in OF_PAIR:
        if event:
            raise Unknown(f"a comma is missing: `{SEARCH} {kind}, {' '.join(event)}`")
        return ""
    if event[:1] != [PACKET.word]:
        raise Unknown(f"`{SEARCH} {kind}` needs a packet: `{SEARCH} {kind} packet NODE in|out ..`; `help packet` has its form")
    return event_of(event)


@dataclass
class _Draft:
    """A phase as far as it is read: the nodes that do nothing more in it, and how often each choice that is named may happen; nothing
    means as often as there are events."""

    dead: Tuple[str, ...] = ()
    uses: Dict[str, Optional[int]] = field(default_factory=dict)

    def allow(self, what: str, uses: Optional[int]) -> None:
        _once(f"`{what}`", what if what in self.uses else None)
        node = _node_of(what)
        if node in self.dead:
            raise Unknown(f"`{what}`: {node} does nothing more after `{DIES} {node}`")
        self.uses[what] = uses


class _Parts:
    """The parts after the first, as far as they are read."""

    def __init__(self) -> None:
        self.scope: Optional[str] = None
        self.within: Optional[int] = None
        self.runs: Optional[int] = None
        self.drafts = [_Draft()]

    def take(self, words: Sequence[str]) -> None:
        if not words:
            raise Unknown("a part is empty: commas separate the parts")
        if words[0] in WHERE:
            _alone(words, 1)
            _once("where it is asked", self.scope)
            self.scope = words[0]
        elif words[0] == "within":
            _once("`within`", self.within)
            self.within = _counted(words[1:], "event", DEEPEST, "within N")
        elif words[0] == "at":
            _once("`at most`", self.runs)
            self.runs = _counted(words[2:] if words[:2] == ["at", "most"] else (), "run", GREATEST, "at most RUNS")
        elif words[0] in (DIES, THEN):
            self._begin(words)
        else:
            for what, uses in _choices(words):
                self.drafts[-1].allow(what, uses)

    def _begin(self, words: Sequence[str]) -> None:
        """Begins the next phase."""
        _alone(words, 2 if words[0] == DIES else 1)
        dead = self.drafts[-1].dead
        if words[0] == DIES:
            node = "".join(words[1:])
            fault = NODE.fault(node) if node else NODE.missing
            if fault:
                raise Unknown(f"`{' '.join(words)}`: {fault}")
            _once(f"`{DIES} {node}`", node if node in dead else None)
            dead = (*dead, node)
        self.drafts.append(_Draft(dead))
        if len(self.drafts) > MOST_PHASES:
            raise Unknown(f"a search has at most {MOST_PHASES} phases")

    def sought(self, kind: str, packet: str) -> Sought:
        within = EVENTS_AT_MOST if self.within is None else self.within
        phases = self._phases(within)
        said = [choice.what for phase in phases for choice in phase.choices]
        if len(said) > MOST_CHOICES:
            raise Unknown(f"a search has at most {MOST_CHOICES} choices, but these are {len(said)}: {', '.join(said)}")
        dead = self.drafts[-1].dead
        if packet and _node_of(packet) in dead:
            raise Unknown(f"{_node_of(packet)} does nothing more after `{DIES} {_node_of(packet)}`: ask about a packet at the other node")
        scope = self.scope or (ANYWHERE if dead else QUIET)
        return Sought(kind, packet, scope, within, RUNS if self.runs is None else self.runs, phases)

    def _phases(self, within: int) -> Tuple[Phase, ...]:
        """The phases with what people leave out: the events that happen without being named may happen as often as in the phase before."""
        phases: List[Phase] = []
        always: Dict[str, Optional[int]] = dict.fromkeys(ALWAYS)
        for draft in self.drafts:
            uses = {what: many for what, many in {**always, **draft.uses}.items() if _node_of(what) not in draft.dead}
            always = {what: uses[what] for what in always if what in uses}
            choices = tuple(Choice(what, within if many is None else many) for what, many in uses.items())
            phases.append(Phase(choices, draft.dead))
        return tuple(phases)


def _alone(words: Sequence[str], most: int) -> None:
    """Raises that a comma is missing where a part of at most this many words goes on."""
    if len(words) > most:
        raise Unknown(f"a comma is missing: `{' '.join(words[:most])}, {' '.join(words[most:])}`")


def _node_of(what: str) -> str:
    """The node whose event a choice is; empty if it is a frame's."""
    first, *rest = what.split()
    return "" if first == ANY or first in OF_FRAME else rest[0]


def _once(what: str, had: object) -> None:
    if had is not None:
        raise Unknown(f"{what} is given twice")


def _choices(words: Sequence[str]) -> List[Tuple[str, Optional[int]]]:
    """What a part allows, and how often; nothing for a number means as often as there are events."""
    if words[0] not in EVENTS:
        meant = nearest(words[0], PARTS) or "; `help search` lists them"
        raise Unknown(f"no part of a search begins with `{words[0]}`{meant}")
    if list(words) == [DELIVER.word, DELIVER.every]:
        return [(ANY_DELIVERY, None)]
    what, uses = _times(words)
    if what[:2] == [TICK.word, TICK.every] and len(what) == 3:
        return [(event_of(tick.split()), uses) for tick in macros.ticks(what[2])]
    return [(_any(what) or event_of(what), uses)]


def _any(words: Sequence[str]) -> str:
    """What happens to any frame; empty if a ticket says to which."""
    if words[0] == CUT.word and len(words) == 2:
        return f"{ANY} {CUT.word} {_number(words[1], GREATEST, 'cut LENGTH N')}"
    return f"{ANY} {words[0]}" if words[0] in OF_ANY and len(words) == 1 else ""


def _times(words: Sequence[str]) -> Tuple[List[str], int]:
    """A part without how often it may happen, and how often: `N times`, or just a number where one may come; once if not said."""
    if words[-1] in ("times", "time") and len(words) > 2:
        return list(words[:-2]), _number(words[-2], GREATEST, f"{' '.join(words[:-2])} N times")
    if words[-1] == "once" and len(words) > 1:
        return list(words[:-1]), 1
    with_number = {CUT.word: 3, FLUSH.word: 3, **dict.fromkeys(OF_ANY, 2)}
    if with_number.get(words[0]) == len(words):
        return list(words[:-1]), _number(words[-1], GREATEST, f"{' '.join(words[:-1])} N")
    return list(words), 1


def _counted(words: Sequence[str], noun: str, most: int, form: str) -> int:
    """A number, and its noun if people say it."""
    if not words or len(words) > 2 or words[1:] not in ([], [noun], [f"{noun}s"]):
        raise Unknown(f"`{form}` takes one number")
    return _number(words[0], most, form)


def _number(word: str, most: int, form: str) -> int:
    digits = word.replace(",", "")
    if not re.fullmatch("[0-9]{1,20}", digits) or int(digits) > most:
        raise Unknown(f"`{word}` is not a number from 0 to {most}: {form}")
    return int(digits)
