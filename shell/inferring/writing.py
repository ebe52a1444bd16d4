"""The script that is written, and what is reported of it."""
from __future__ import annotations

import os
import textwrap
from typing import Iterator, List, NamedTuple, Sequence, Tuple

from ..language.commands import OPEN
from ..language.names import NODES
from ..shows.words import counted
from .comparing import FIELDS
from .happening import Happening
from .night import Night
from .playing import Playing
from .setting import Setting

_WIDTH = 138
# What is not compared with the captured records; rules are, if they are given.
_NOT_COMPARED = (
    *("interfaces", "ages", "the seconds left", "whether an acknowledgement is asked for", "names of states"),
    *("whose states a clear is for", "checksums", "levels of ICMP, which pf does not have, and classes of ICMPv6"),
)


class Sources(NamedTuple):
    """The files that a script is inferred from: captures of pfsync, logs and captures of an interface by their nodes, and the rules."""

    captures: Sequence[str]
    logs: Sequence[Tuple[str, str]]
    data: Sequence[Tuple[str, str]]
    rules: str

    def said(self) -> str:
        """The kinds of files, in words."""
        parts = [f"{counted(len(self.captures), 'capture')} of pfsync ({', '.join(map(os.path.basename, self.captures))})"]
        for kind, its in (("pflog0", self.logs), ("an interface", self.data)):
            files = ", ".join(f"{os.path.basename(path)} at {node}" for node, path in its)
            parts += [f"{counted(len(its), 'capture')} of {kind} ({files})"] * bool(its)
        parts += [f"the rules in {os.path.basename(self.rules)}"] * bool(self.rules)
        return f"{', '.join(parts[:-1])} and {parts[-1]}" if len(parts) > 1 else parts[0]


class Written(NamedTuple):
    """The lines of the script, what is said of it, and what is reported of blocked packets: of all, or of the first ones."""

    lines: List[str]
    said: List[str]
    blocked: List[str]


def written(
    sources: Sources, night: Night, setting: Setting, playing: Playing, happening: Happening, are_clocks_known: bool, lists_all: bool
) -> Written:
    """The script of a night that has happened, with a head that says what it is and what it is not."""
    said = [
        f"Inferred from {sources.said()}.",
        f"It is one night of many that look the same on the cable. Times are by the clock of a, in {night.times.zone}.",
        *_agreement(happening, setting),
        *happening.blocking.sums(),
        *_clocks(sources, are_clocks_known),
        *_absent(sources, night, setting),
        *_part(night),
        *_passed_over(night, happening),
        *_drift(playing),
    ]
    kept = setting.lines if setting.lines[0].startswith("#") else ["", *setting.lines]
    lines = [*(line for text in said for line in _comment(text)), "", *kept, OPEN.word, "", *playing.script]
    return Written(lines, said, happening.blocking.lines(lists_all))


def _comment(text: str) -> List[str]:
    return textwrap.wrap(text, _WIDTH, initial_indent="# ", subsequent_indent="#   ", break_on_hyphens=False)


def _they(number: int, many: str, one: str) -> str:
    """The words for a number of things, or for one."""
    return one if number == 1 else many


# ---- how far it agrees


def _agreement(happening: Happening, setting: Setting) -> Iterator[str]:
    agreement = happening.agreement
    have = _they(agreement.same, "have", "has")
    yield f"Held against the captured frames, {agreement.same} of {agreement.frames} {have} the same records, by kind and by state."
    fields = [f"{what} ({_all(agreement.agree[what], agreement.compared[what])})" for what in FIELDS if agreement.compared[what]]
    if fields:
        yield f"The records in these agree in {', '.join(fields)}."
    yield f"Not compared: {', '.join([*['rules'] * (not setting.has_rules), *_NOT_COMPARED])}."
    unexplained = happening.causes.unexplained
    if unexplained:
        places = _they(unexplained, "their places", "its place")
        yield f"{counted(unexplained, 'record')} could not be explained: the comments in {places} say why."
    yield f"The first frame that parts: {agreement.first}." if agreement.first else "No frame parts."


def _all(number: int, of: int) -> str:
    return f"all {of}" if number == of else f"{number} of {of}"


def _clocks(sources: Sources, are_known: bool) -> Iterator[str]:
    """Whose times the files of b have."""
    if not are_known and any(node == "b" for node, _ in (*sources.logs, *sources.data)):
        yield "How the clock of b differs from that of a is not known: what b logged, or its interface carried, has its own times."


# ---- what is not in it


def _absent(sources: Sources, night: Night, setting: Setting) -> Iterator[str]:
    watched = [node for node, _ in sources.data]
    if len(watched) < len(NODES):
        where = f" at {next(it for it in NODES if it not in watched)}" if watched else ""
        what = "of which no message or log has anything, such as those of the last second before a node died; other packets are inferred"
        yield f"Not in it: packets{where} {what}."
    else:
        yield "Not in it: packets that went over other interfaces than the captured ones."
    if not setting.has_rules:
        yield "The rules of the pair are not in it either: --rules takes them."
    kernel = setting.setup.kernel
    if kernel.is_profile:
        yield "The laboratory's profile decides; by a line `kernel all` in the file of --rules FreeBSD's rules do, as far as we know them."
    else:
        rules = "FreeBSD's rules decide, as far as we know them; where there is no word, the laboratory's profile does"
        yield f"By {kernel.short} {rules}."
    for shown, what in ((len(night.shown), "later ones of the receiver show it"), (sum(it.arrived is None for it in night.sent), "")):
        if shown:
            they = _they(shown, "they", "it")
            what = what or f"here {they} {_they(shown, 'come', 'comes')} at once, since nothing shows it"
            yield f"Of {counted(shown, 'frame')} no capture says whether {they} came: {what}."


def _part(night: Night) -> Iterator[str]:
    """Which part of the captures it has."""
    part = night.part
    if part.addresses:
        records = "a frame has only their records, and how far a bulk update is is left out"
        yield f"It has only flows with {part.flow_words} at an end: {records}."
    if part.first is not None or part.last is not None:
        begin = f" from {night.times.at(part.first)}" if part.first is not None else ""
        end = f" up to {night.times.at(part.last)}" if part.last is not None else ""
        yield f"It has only what happened{begin}{end}."


def _passed_over(night: Night, happening: Happening) -> Iterator[str]:
    left = night.left + happening.carrying.passed_over + happening.blocking.passed_over
    yield from night.faults
    yield from (f"Passed over: {number} x {what}." for what, number in sorted(left.items()))


def _drift(playing: Playing) -> Iterator[str]:
    drift = playing.drift()
    if drift:
        states = f"{counted(len(drift), 'state')} at the end, such as {drift[0]}, {_they(len(drift), 'are', 'is')}"
        yield f"{states} not as the replies suggest: packets may be inferred wrongly."
