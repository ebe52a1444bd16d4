"""The fewest packets that lead from one pair of levels to another."""
from __future__ import annotations

from collections import deque
from functools import lru_cache
from typing import Dict, NamedTuple, Optional, Tuple

from ..language.names import SINGLE, SYN_SENT, Name
from ..language.packets import Key, PacketEvent
from ..model.kernels import Kernel
from ..model.states import End, State
from ..model.tracking import is_first, moved

# The ends of a state, by their places.
SOURCE, DESTINATION = 0, 1
NO_FLAGS = "-"


class Step(NamedTuple):
    """A packet that leads on: the end that sends it, and its flags."""

    end: int
    flags: str


class Place(NamedTuple):
    """The levels of both ends, and whether the destination was heard: a reset of the source closes one that was not."""

    source: int
    destination: int
    is_heard: bool

    def apart(self, other: "Place") -> Tuple[int, bool]:
        """How far it is from another one."""
        levels = abs(self.source - other.source) + abs(self.destination - other.destination)
        return levels, self.is_heard != other.is_heard


Path = Tuple[Step, ...]

# Where a state begins, once its first packet has come.
BEGUN = Place(SYN_SENT, 0, False)
BEGUN_OTHERWISE = Place(SINGLE, 0, False)

# By preference: a FIN without ACK is rare, and comes last.
_SEGMENTS = tuple(Step(end, flags) for flags in ("SA", "S", "A", "FA", "R", "F") for end in (DESTINATION, SOURCE))
_DATAGRAMS = (Step(DESTINATION, NO_FLAGS), Step(SOURCE, NO_FLAGS))

_KEY = Key("192.0.2.2:2", "192.0.2.1:1")
# Two ends in the middle of a connection, and a window that reaches both.
_NUMBERS = (5000, 70000)
_WINDOW = 4000


@lru_cache(maxsize=None)
def paths(kernel: Kernel, is_tcp: bool, start: Place, answers_with_syn: bool) -> Dict[Place, Path]:
    """All places that packets lead to from one, each with the fewest packets. The destination begins with a SYN, or without one."""
    found: Dict[Place, Path] = {start: ()}
    places = deque([start])
    while places:
        place = places.popleft()
        for step in _SEGMENTS if is_tcp else _DATAGRAMS:
            then = _after(kernel, is_tcp, place, step) if _may_come(is_tcp, place, step, answers_with_syn) else None
            if then and then not in found:
                found[then] = (*found[place], step)
                places.append(then)
    return found


def nearest(found: Dict[Place, Path], wanted: Place) -> Place:
    """The place itself, or the one that comes nearest to it with the fewest packets."""
    return wanted if wanted in found else min(found, key=lambda it: (*it.apart(wanted), len(found[it])))


def _may_come(is_tcp: bool, place: Place, step: Step, answers_with_syn: bool) -> bool:
    """Whether an end would send such a packet: its first one may have a SYN, and no other."""
    if not is_tcp:
        return True
    begins = step.end == DESTINATION and not place.is_heard
    return ("S" in step.flags) == (begins and answers_with_syn)


def _after(kernel: Kernel, is_tcp: bool, place: Place, step: Step) -> Optional[Place]:
    """Where a packet leads; nothing if it is dropped."""
    if not is_tcp:
        after = moved(kernel, _datagrams(place), _packet(step, "udp", 0, 0), 0)
        return Place(after.source.level, after.destination.level, after.destination.level > 0) if after else None
    state = _connection(place)
    if step.end == DESTINATION and not place.is_heard and not is_first(kernel, state.destination):
        return None
    sender, receiver = _NUMBERS if step.end == SOURCE else _NUMBERS[::-1]
    after = moved(kernel, state, _packet(step, "tcp", sender, receiver), 0)
    heard = place.is_heard or step.end == DESTINATION
    return Place(after.source.level, after.destination.level, heard) if after else None


def _connection(place: Place) -> State:
    """A connection at these levels, in which packets with the next numbers are inside the window."""
    first, second = _NUMBERS
    source = End(place.source, None, _WINDOW, first, first + _WINDOW)
    heard = End(place.destination, None, _WINDOW, second, second + _WINDOW)
    destination = heard if place.is_heard else End(place.destination, None, 0, 0, 0)
    return State(Name(1, 1), "tcp", "out", _KEY, _KEY, source, destination, "tcp.first", 0, None, "-", 0, None)


def _datagrams(place: Place) -> State:
    source, destination = (End(level, None, 0, 0, 0) for level in (place.source, place.destination))
    return State(Name(1, 1), "udp", "out", _KEY, _KEY, source, destination, "udp.first", 0, None, "-", 0, None)


def _packet(step: Step, protocol: str, seq: int, ack: int) -> PacketEvent:
    near, far = _KEY.near, _KEY.far
    way = ("out", protocol, near, far) if step.end == SOURCE else ("in", protocol, far, near)
    return PacketEvent("a", *way, 0, step.flags, seq, ack if "A" in step.flags else 0, _WINDOW if protocol == "tcp" else 0)
