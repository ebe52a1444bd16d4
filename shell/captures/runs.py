"""The frames of a run as captures: what tcpdump(1) would have written at each node, had the frames been messages of FreeBSD 13.

A node's capture has the frames that it sent and those that came to it. A lost frame is in its sender's capture alone, and one that was
repeated is in its receiver's as often as it came. A frame of the laboratory is shorter than the message of a kernel: where a cut left a
third of the frame, it leaves a third of the message.
"""
from __future__ import annotations

import os
from dataclasses import replace
from ipaddress import IPv4Address
from itertools import accumulate
from typing import Dict, List, NamedTuple, Sequence

from ..language.events import REPEAT, TICK
from ..language.names import NODES
from ..link.laboratory import Laboratory, Unknown
from ..model.branches import Branch
from ..model.flights import Flight
from ..shows.words import counted
from .encoding import creator_of_bulk_status, message
from .writing import LINK_ETHERNET, LINK_PFSYNC, Written, on_ethernet, pcap

# The addresses of the nodes, those of the example in pfsync(4).
ADDRESSES = {"a": IPv4Address("192.168.254.254"), "b": IPv4Address("192.168.254.253")}
# When the clocks of the nodes were at 0, in nanoseconds: 2026-01-01 00:00 UTC.
CLOCKS_BEGAN = 1767225600 * 10**9
_MILLISECOND = 10**6


class Seen(NamedTuple):
    """A message at a node: whether the node sent it, when it was there, its bytes, and whether it had more."""

    is_sent: bool
    time: int
    message: bytes
    is_cut: bool = False


Captures = Dict[str, List[Seen]]


class Clocks:
    """The clocks of both nodes, by the events of a run."""

    def __init__(self, events: Sequence[str]) -> None:
        self._after = {node: [*accumulate((_tick(event, node) for event in events), initial=0)] for node in NODES}

    def time(self, node: str, place: int) -> int:
        """The time at a node of the event at this place, counted from 1. Events of one millisecond are a nanosecond apart."""
        return CLOCKS_BEGAN + self._after[node][place] * _MILLISECOND + place


def captures_of(lab: Laboratory, branch: Branch) -> Captures:
    """What each node saw of the frames, up to the cursor of a branch."""
    clocks = Clocks(branch.events[: branch.cursor])
    captures: Captures = {node: [] for node in NODES}
    whole: Dict[int, Flight] = {}
    for ticket in range(1, lab.show(branch.name).next_ticket):
        flight = _up_to(lab.flight(branch.name, ticket), branch.cursor)
        sent = whole[ticket] = flight if flight.origin is None else whole[flight.origin]
        content = message(bytes.fromhex(sent.frame.checksum), sent.frame.records, creator_of_bulk_status(sent.frame.data))
        if flight.sent.kind is not REPEAT:
            captures[flight.source].append(Seen(True, clocks.time(flight.source, flight.sent.number), content))
        if flight.ended and flight.is_delivered:
            left = len(content) * len(flight.now.data) // len(sent.frame.data)
            captures[flight.to].append(Seen(False, clocks.time(flight.to, flight.ended.number), content[:left], left < len(content)))
    return {node: sorted(its, key=lambda it: it.time) for node, its in captures.items()}


def capture(seen: Sequence[Seen], node: str, is_pfsync: bool) -> bytes:
    """The file of a node's capture: at its interface to the peer, or at pfsync0, where messages have no headers of Ethernet and IP."""
    if is_pfsync:
        return pcap((Written(it.time, it.message) for it in seen), LINK_PFSYNC)
    peer = next(it for it in NODES if it != node)
    return pcap((Written(it.time, on_ethernet(it.message, ADDRESSES[node if it.is_sent else peer])) for it in seen), LINK_ETHERNET)


def written(lab: Laboratory, branch: Branch, paths: Sequence[str], is_pfsync: bool) -> str:
    """Writes the captures of both nodes, and returns a line about them."""
    parts = []
    for (node, seen), path in zip(captures_of(lab, branch).items(), paths):
        shown = [it for it in seen if it.is_sent] if is_pfsync else seen
        save(path, capture(shown, node, is_pfsync))
        sent, cut = sum(it.is_sent for it in shown), sum(it.is_cut for it in shown)
        parts.append(f"{path} has {counted(len(shown), 'message')} ({sent} sent by {node}{_received(len(shown) - sent, cut, is_pfsync)})")
    return "; ".join(parts)


def _received(came: int, cut: int, is_pfsync: bool) -> str:
    """How many messages came to a node, and how many of these were cut; at pfsync0 none is seen."""
    if is_pfsync:
        return ""
    return f", {came} received" + f", {cut} of them cut to the share that is left of the frame" * (cut > 0)


def refuse_same_files(script: str, paths: Sequence[str]) -> None:
    """Refuses to write over the script, or to write both captures into one file."""
    real = [os.path.realpath(it) for it in (script, *paths)]
    for path, its in zip(paths, real[1:]):
        if its == real[0]:
            raise Unknown(f"{path} is the script itself: captures are written to other files")
    if real[1] == real[2]:
        raise Unknown(f"{paths[0]} and {paths[1]} are one file: each node has a capture of its own")


def save(path: str, content: bytes) -> None:
    """Writes a file. A fault names the file, even one after it was opened, such as a full disk."""
    try:
        with open(path, "wb") as it:
            it.write(content)
    except OSError as error:
        raise OSError(error.errno, error.strerror, path) from error


def _tick(event: str, node: str) -> int:
    """By how many milliseconds an event moves the clock of a node."""
    word, *rest = event.split()
    return int(rest[1]) if word == TICK.word and rest[0] == node else 0


def _up_to(flight: Flight, cursor: int) -> Flight:
    """What became of a frame by the events that stand."""
    return replace(flight, later=[it for it in flight.later if it.number <= cursor])
