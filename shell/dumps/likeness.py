"""The pair that a script makes, compared with the dumps that it was made of, field by field."""
from __future__ import annotations

from collections import Counter
from typing import Dict, List, NamedTuple, Optional, Sequence, Tuple

from ..inferring.ways import was_heard
from ..language.names import NODES
from ..language.packets import CIRCLE
from ..language.setups import NO_SYNC
from ..model.pair import Node
from ..model.setups import Setup
from ..model.states import End, State
from ..shows.words import counted, milliseconds_left
from .comparing import Compared, Tolerance
from .files import shown
from .items import Item, Items, Sort
from .playing import Play
from .ruling import NO_FORM, NO_ROOM
from .taking import Known, added

MISSING = "is not there"
KEYS, LEVELS, NUMBERS, SCALES, LEFT = "keys", "levels", "sequence numbers", "scales", "seconds left"


class Unlike(NamedTuple):
    """States of a node that are not as their dump has them: in what, and why, if that is known."""

    node: str
    what: str
    why: str


class Likeness(NamedTuple):
    """How many states of each node are there, how many of them as their dump has them, which are not, and how many are there besides."""

    there: "Counter[str]"
    same: "Counter[str]"
    unlike: Dict[Unlike, List[Item]]
    besides: "Counter[str]"


def likeness(play: Play, items: Sequence[Item], setup: Setup, tolerance: Tolerance) -> Likeness:
    """Compares each state that is to be there with the one that is."""
    assert play.pair
    found = Likeness(Counter(), Counter(), {}, Counter({it: len(play.pair.nodes[it].states) for it in NODES}))
    for item in items:
        for node, known in item.wants.items():
            its = play.pair.nodes[node]
            state = its.states.get(play.names[item]) if item in play.names else None
            found.there[node] += state is not None
            found.besides[node] -= state is not None
            what = _unlike(known, state, setup, its, tolerance) if state else [MISSING]
            found.same[node] += not what
            for part in what:
                why = item.why if part != LEFT else item.why_times or _too_short(known, state, item, setup)
                found.unlike.setdefault(Unlike(node, part, why), []).append(item)
    return found


def _too_short(known: Known, state: Optional[State], item: Item, setup: Setup) -> str:
    """Why a state has fewer seconds left than in its dump, if its timeout is too short for that."""
    if not state or known.dumped.expires is None:
        return ""
    seconds = setup.seconds(item.node, item.rule, state.timeout_class)
    return f"{state.timeout_class} times out after {seconds} s" if seconds < known.dumped.expires else ""


def _unlike(known: Known, state: State, setup: Setup, node: Node, tolerance: Tolerance) -> List[str]:
    """In what a state is not as its dump has it, of what the dump says."""
    wanted, what = known.wanted, []
    if (state.protocol, state.direction, state.wire, state.stack) != wanted[:4]:
        what.append(KEYS)
    both = ((state.source, wanted.source), (state.destination, wanted.destination))
    has_levels = not (wanted.protocol == "icmp" and wanted.source.level == wanted.destination.level == 0)
    if has_levels and any(one.level != two.level for one, two in both):
        what.append(LEVELS)
    if known.has_numbers and any(_numbers(one) != _numbers(two) for one, two in both):
        what.append(NUMBERS)
    if known.has_numbers and any(one.scale != two.scale for one, two in both):
        what.append(SCALES)
    if tolerance.is_apart(milliseconds_left(setup, node, state) // 1000, known.dumped.expires):
        what.append(LEFT)
    return what


def _numbers(end: End) -> Tuple[int, int]:
    """The next number of an end, and how many may follow, as pfctl prints them; of one that was not heard pf has 0 and 1."""
    span = (end.hi - end.lo) % CIRCLE
    return end.lo, 0 if not was_heard(end) and end.lo == 0 and span == 1 else span


# ---- in words


def compared_in(tolerance: Tolerance) -> str:
    """What is compared."""
    return (
        f"compared as far as a dump has it: {KEYS}, {LEVELS} (except of ICMP, of which pf has none), {NUMBERS} and {SCALES} of TCP, and"
        f" {LEFT}, which may be {tolerance.seconds} apart; not ages, windows, rules, interfaces, routes, options, packets and bytes"
    )


def in_words(found: Likeness, items: Items, files: Dict[str, str]) -> List[str]:
    """How many states of each dump are there, how many as the dump has them, and in what the others differ and why."""
    lines = []
    for node, path in files.items():
        size, there = items.sizes[node], found.there[node]
        said = f"{there} of {counted(size, 'state')} of {shown(path)} {'is' if there == 1 else 'are'} there"
        lines.append(f"{node}: {said}, {found.same[node]} of them as in the dump in all that is compared")
        lines += [f"{node}: {counted(count, 'state')} left out: {left.why}" for left, count in items.left.items() if left.node == node]
        unlike = {it: those for it, those in found.unlike.items() if it.node == node}
        lines += [_unlike_line(it, those) for it, those in sorted(unlike.items(), key=lambda it: -len(it[1]))]
        if found.besides[node]:
            lines.append(f"{node}: {counted(found.besides[node], 'state is', 'states are')} there that the dump does not have")
    return lines


def _unlike_line(unlike: Unlike, those: Sequence[Item]) -> str:
    """A line on states that are not as their dump has them, with the name of the first."""
    one, many = (MISSING, "are not there") if unlike.what == MISSING else (f"differs in {unlike.what}", f"differ in {unlike.what}")
    first = f"{'the first is ' if len(those) > 1 else ''}{shown(those[0].wants[unlike.node].dumped.named())}"
    return f"{unlike.node}: {counted(len(those), f'state {one}', f'states {many}')}{f', since {unlike.why}' if unlike.why else ''}: {first}"


def not_had(found: Compared, items: Items) -> List[str]:
    """What of the dumps the laboratory does not have."""
    lines = []
    if found.without_rule:
        states = counted(len(found.without_rule), "state has", "states have")
        here = "here each comes by an insertion, and keeps its rule at both nodes if their rules are the same"
        lines.append(f"{states} a rule at one node alone in the dumps; {here}")
    if items.split:
        states = counted(items.split, "state has", "states have")
        lines.append(f"{states} one name and two sets of addresses; here each is two states, whose frames are lost")
    sent = sum(it.sort is not Sort.UNSENT and not it.first.dumped.is_synchronised for it in items.made)
    if sent:
        states = counted(sent, f"state is {NO_SYNC.word}", f"states are {NO_SYNC.word}")
        lines.append(f"{states} in the dumps, and sent here in a frame that is lost: {NO_ROOM}, or {NO_FORM}")
    number = sum(added(known.dumped) for it in items.made for known in it.wants.values())
    if number:
        states = counted(number, "state has", "states have")
        lines.append(f"{states} numbers to which pf adds something (`modulate state`); here nothing is added")
    return lines
