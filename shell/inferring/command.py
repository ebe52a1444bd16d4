"""`./lab capture .. --script NIGHT.pfl`: a script of the laboratory from captures."""
from __future__ import annotations

import os
from contextlib import closing
from typing import Callable, Iterator, NamedTuple, Sequence, Tuple, Union

from ..captures.carried import Carried, Unread, carried
from ..captures.files import BadCapture, Packet, packets
from ..captures.links import PFSYNC_LINKS
from ..captures.pairing import Overlay
from ..captures.pflog import LINK, Logged, Passed, logged
from ..captures.wording import Times
from ..link.laboratory import Unknown
from ..scripts import texts
from .asked import SCRIPT, ScriptOptions, of_nodes
from .happening import Happening
from .night import Night, Part, night_of
from .playing import MOST_EVENTS, Playing
from .setting import TooMuch, setting_of
from .writing import Sources, Written, written

UNTOLD = "packet of an interface whose flow is in no message"
_PART = "--flow ADDRESS, --from TIME and --to TIME take a part"


class Captured(NamedTuple):
    """The captures that were read, what of them is taken, the form of times, and by the numbers of messages whether later ones show that
    they came."""

    overlay: Overlay
    part: Part
    times: Times


def infer(words: ScriptOptions, program: str, captures: Sequence[str], captured: Captured, lists_all: bool = False) -> Written:
    """Infers the script. What is too much for one says which words take a part."""
    sources = Sources(captures, of_nodes(words, "log"), of_nodes(words, "data"), words.rules or "")
    _refuse_own(words.script or "", sources)
    try:
        night = night_of(captured.overlay.sent(), captured.part, captured.times)
        _refuse_empty(night)
        _refuse_long(night)
        _add_others(night, sources, captured.overlay)
        setting = setting_of(night, texts.rules_of(program, sources.rules) if sources.rules else None)
        with closing(Playing(program, setting)) as playing:
            happening = Happening(night, playing, setting)
            happening.play()
            return written(sources, night, setting, playing, happening, captured.overlay.sides.clocks.is_known, lists_all)
    except TooMuch as why:
        raise Unknown(f"{why}: {_PART}") from why
    except BadCapture as why:
        raise Unknown(str(why)) from why


def _refuse_own(script: str, sources: Sources) -> None:
    """Refuses to write over a file that the script is inferred from."""
    files = [*sources.captures, *(path for _, path in (*sources.logs, *sources.data)), *[sources.rules] * bool(sources.rules)]
    if os.path.realpath(script) in {os.path.realpath(file) for file in files}:
        raise Unknown(f"{script} is one of the files that the script is inferred from: {SCRIPT} writes another one")


def _refuse_empty(night: Night) -> None:
    """Refuses a night of which no frame has anything that is asked for."""
    if not night.sent and not night.formers:
        raise Unknown("no frame has a record of what --flow, --from and --to ask for, so there is no script")


def _refuse_long(night: Night) -> None:
    """Refuses a night whose frames alone make too many events."""
    if 2 * len(night.sent) > MOST_EVENTS:
        raise TooMuch(f"{len(night.sent)} frames make more than the {MOST_EVENTS} events that a script may have")


# ---- logs and captures of an interface

_Found = Union[Carried, Logged, Passed, Unread]


def _add_others(night: Night, sources: Sources, overlay: Overlay) -> None:
    """Adds what logs and captures of an interface have, by the clock of a."""
    for node, path in sources.logs:
        for found in _by_a(overlay, node, logged(_readable(night, path), path)):
            if isinstance(found, Logged) and _is_taken(night, found.time, found.packet.ends):
                night.logged.append((node, found))
                _refuse_many(len(night.logged), "logged packets")
            elif isinstance(found, Passed):
                night.left["logged packet that pf passed"] += 1
            elif isinstance(found, Unread):
                night.left[f"{found.why} in the log of {node}"] += 1
    for node, path in sources.data:
        for found in _by_a(overlay, node, carried(_of_interface(_readable(night, path), path))):
            if isinstance(found, Carried) and _is_taken(night, found.time, found.packet.ends):
                _add_carried(night, node, found, bool(sources.rules))
            elif isinstance(found, Unread):
                night.left[f"{found.why} at the interface of {node}"] += 1


def _add_carried(night: Night, node: str, carried: Carried, has_rules: bool) -> None:
    """Adds a packet of an interface. Only with the rules can there be an event for one of whose flow no message tells."""
    if not has_rules and not night.tells_of(carried.packet):
        night.left[UNTOLD] += 1
        return
    night.carried.append((node, carried))
    _refuse_many(len(night.carried), "packets of the interfaces")


def _refuse_many(number: int, what: str) -> None:
    if number > MOST_EVENTS:
        raise TooMuch(f"more than {MOST_EVENTS} {what} would be in the script")


def _readable(night: Night, path: str) -> Iterator[Packet]:
    """The packets of a file. If it cannot be read on after some of them, these count, and the fault is reported."""
    has_some = False
    try:
        for packet in packets(path):
            yield packet
            has_some = True
    except BadCapture as why:
        if not has_some:
            raise
        night.faults.append(f"{why}; what comes before counts.")


def _is_taken(night: Night, time: int, ends: Tuple[str, str]) -> bool:
    return night.part.has_time(time) and night.part.has_ends(ends)


def _by_a(overlay: Overlay, node: str, its: Iterator[_Found]) -> Iterator[_Found]:
    """What a file of a node has, by the clock of a."""
    to_a: Callable[[int], int] = overlay.sides.clocks.to_a
    for found in its:
        yield found if node == "a" or isinstance(found, Unread) else found._replace(time=to_a(found.time))


def _of_interface(its: Iterator[Packet], path: str) -> Iterator[Packet]:
    """The packets of an interface, and not of pflog0 or pfsync0."""
    for packet in its:
        if packet.link == LINK or packet.link in PFSYNC_LINKS:
            which = "pflog0, which goes with --log-a or --log-b" if packet.link == LINK else "pfsync0"
            raise BadCapture(f"{path}: it is a capture of {which}")
        yield packet

