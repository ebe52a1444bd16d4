"""Two dumps as the opening of a pair: a script after which node a has the states of the first, and node b those of the second."""
from __future__ import annotations

import os
from typing import Dict, List, Mapping, NamedTuple, Optional, Tuple

from ..console.endings import NotDone
from ..language.commands import OPEN, SET
from ..language.lines import has_word
from ..language.names import NODES
from ..language.setups import AEND, ASTART, CLASSES, DEFER, FRAMES, QUEUE, STATES, TIMEOUT, Limit
from ..link.programs import check_setup
from ..model.setups import Setup
from ..scripts import texts
from .asked import OUT, About
from .comparing import Compared, Tolerance
from .files import shown
from .items import Items, Sort, items_of
from .likeness import compared_in, in_words, likeness, not_had
from .playing import Player, judge
from .ruling import rules_for
from .stages import Stage, Timing, stages_of


class NotOpened(NotDone):
    """No script can have the states of the dumps."""


class Asked(NamedTuple):
    """Where the script goes, the file with the rules of the pair, if they are given, and of whose states it is; of all if none is named."""

    out: str
    rules: Optional[str]
    about: Optional[About]


class Opening(NamedTuple):
    """The text of a script, and what there is to say of it."""

    text: str
    said: List[str]


def opening(program: str, found: Compared, files: Dict[str, str], tolerance: Tolerance, asked: Asked) -> Opening:
    """A script that has the states of two dumps, which were compared, as far as packets make them."""
    for path in (*files.values(), *([asked.rules] if asked.rules else [])):
        if os.path.realpath(path) == os.path.realpath(asked.out):
            raise NotOpened(f"{asked.out} is one of the files that are read: {OUT} writes a file of its own")
    if not asked.about:
        _check_room(found.sizes)
    items = items_of(found, asked.about)
    _check_made(items, asked)
    lines = _setup(items, texts.rules_of(program, asked.rules) if asked.rules else None)
    fault = check_setup(program, [line for line in lines if has_word(line)])
    if fault:
        raise fault
    judge(program, Setup.of(lines), items.made)
    lines, stages = _timed(lines, items, tolerance, asked.rules is None)
    play = Player(program, lines).played(stages)
    said = [*_about(asked), *in_words(likeness(play, items.made, Setup.of(lines), tolerance), items, files), *not_had(found, items)]
    head = [f"The states of {shown(files['a'])} at node a, and of {shown(files['b'])} at node b, as far as packets make them."]
    text = [*(f"# {it}" for it in (*head, *said, compared_in(tolerance))), *lines, OPEN.word, *play.lines]
    return Opening("".join(f"{it}\n" for it in text), said)


def _check_room(sizes: Mapping[str, int]) -> None:
    """Raises that a node has no room for so many states."""
    for node, count in sizes.items():
        if count > STATES.most:
            many = f"{node} has {count} states, and a node of the laboratory has room for {STATES.most}"
            raise NotOpened(f"{many}: --flow ADDRESS[:PORT] takes those of one address")


def _check_made(items: Items, asked: Asked) -> None:
    """Raises that there is nothing to make, or too much."""
    if not items.made:
        none = f"no state of the dumps has {asked.about} at an end" if asked.about else "the dumps have none"
        raise NotOpened(f"there is no state to make: {none}, or each is left out")
    _check_room({node: sum(node in it.wants for it in items.made) for node in NODES})


def _about(asked: Asked) -> List[str]:
    return [f"of both dumps only the states that have {asked.about} at an end; all numbers count only these"] if asked.about else []


# ---- the setup


def _setup(items: Items, given: Optional[List[str]]) -> List[str]:
    """The lines of the setup of a script: the given ones, with room for the states, or rules of its own."""
    room = _room(Setup.of(given or ()), items)
    return [*room, *rules_for(items.made).lines()] if given is None else [*given, *room]


def _room(setup: Setup, items: Items) -> List[str]:
    """The limits that a setup lacks for its states, and for the frames that wait. Timeouts do not shrink because there is more room."""
    most = max(sum(node in it.wants for it in items.made) for node in NODES)
    waiting = sum(it.sort is Sort.TWIN for it in items.made)
    wanted = {STATES: 2 * most, QUEUE: 2 * most, FRAMES: FRAMES.default + waiting}
    lines = [_set(limit, min(limit.most, least)) for limit, least in wanted.items() if setup.limits[limit] < least]
    lines += [_set(it, 0) for it in (ASTART, AEND) if not {ASTART, AEND} & {*setup.limits}]
    return lines + [_set(DEFER, 0)] * (setup.limits[DEFER] > 0)


def _set(limit: Limit, number: int) -> str:
    return f"{SET.word} {limit.word} {number}"


def _timed(lines: List[str], items: Items, tolerance: Tolerance, may_set: bool) -> Tuple[List[str], List[Stage]]:
    """The lines of the setup, and the packets of all items with their times. Where no rules are given, a class whose timeout is too short
    for a state gets a longer one."""
    made = [it for it in items.made if not it.is_out]
    timing = Timing(Setup.of(lines), tolerance, {})
    stages = [stage for it in made for stage in stages_of(it, timing)]
    if not may_set or not timing.lacking:
        return lines, stages
    order = [it.word for it in CLASSES if it.word in timing.lacking]
    lines = [*(f"{SET.word} {TIMEOUT.word} {it} {timing.lacking[it]}" for it in order), *lines]
    longer = Timing(Setup.of(lines), tolerance, {})
    return lines, [stage for it in made for stage in stages_of(it, longer)]
