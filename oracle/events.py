"""Random events of all kinds, many of which are refused."""
from __future__ import annotations

import random
from typing import Dict, Iterator, Sequence, Tuple

from shell.language import events
from shell.language.events import EVENTS, LAST_MILLISECOND, PACKET, Event
from shell.language.names import NODES
from shell.language.packets import CIRCLE

# The kinds without which nothing else happens come more often.
WEIGHTS: Dict[Event, float] = {
    **{PACKET: 30, events.FLUSH: 17, events.DELIVER: 18, events.REPEAT: 4, events.CUT: 1, events.TICK: 9},
    **{events.PURGE: 3, events.KILL: 3, events.CLEAR: 1, events.TURN: 5, events.RETRY: 3},
}
LONG = (LAST_MILLISECOND - 1,)
FLAGS = ("S", "SA", "A", "A", "FA", "FA", "PA", "R")
# How far the number of a packet of TCP is from the first one of its connection, and what it acknowledges from the other's.
NEAR, NEAR_ACKS = (0, 1, 1, 1, 2, 10, 5000), (1, 1, 1, 2, 10)
# Near the edges of what passes by the kernel's rules, with and without a scale.
FAR = (*NEAR, *NEAR, -1, 3, 66000, 67000, 68000, 130000, 3000000000, -66000, -67034, -68000)
FAR_ACKS = (*NEAR_ACKS, *NEAR_ACKS, 67000, 68000, -66000, -68000, -600000)
SCALES = ("", "", " 0", " 1", " 7")
CONNECTION = ("tcp", "10.0.0.1:1000", "192.0.2.9:80")


def flow(chance: random.Random) -> Tuple[str, str, str]:
    """A protocol and the ends of one of a few flows, the inner end first."""
    kind = chance.random()
    inner = chance.choice(("10.0.0.1", "10.0.0.1", "10.0.0.1", "10.0.0.2", "203.0.113.1"))
    # (rules of `setups.py` translate to this address and these ports)
    is_translated = inner == "203.0.113.1"
    if kind < 0.1:
        identifier = 7000 if is_translated else 7
        return "icmp", f"{inner}:{identifier}", f"192.0.2.9:{identifier}"
    protocol, outer, most = ("udp", "192.0.2.9:53", 1002) if kind < 0.5 else ("tcp", "192.0.2.9:80", 1001)
    port = chance.randint(7000, 7001) if is_translated else chance.randint(1000, most)
    return protocol, f"{inner}:{port}", outer


def packet(chance: random.Random, node: str, is_far: bool = False) -> str:
    """A packet of a flow in either direction; a TCP packet mostly fits the connection. If it may be far from that, it is mostly one of a
    single connection, so that this moves."""
    direction = chance.choice(("in", "out"))
    protocol, inner, outer = CONNECTION if is_far and chance.random() < 0.6 else flow(chance)
    ends = f"{outer} {inner}" if direction == "in" else f"{inner} {outer}"
    where = f"packet {node} {direction} {protocol} {ends}"
    if protocol != "tcp":
        return f"{where} {chance.randint(0, 100)}"
    flags = chance.choice((*FLAGS, "A", "RA") if is_far else FLAGS)
    own, other = (500, 100) if direction == "in" else (100, 500)
    sequence = own + chance.choice(FAR if is_far else NEAR)
    acknowledged = other + chance.choice(FAR_ACKS if is_far else NEAR_ACKS) if "A" in flags else 0
    if is_far and flags == "RA" and chance.random() < 0.5:
        acknowledged = 0
    scale = chance.choice(SCALES) if is_far and "S" in flags else ""
    window, length = chance.choice((0, 1000, 65535)), chance.choice((0, 0, 10))
    return f"{where} {flags} {sequence % CIRCLE} {acknowledged % CIRCLE} {window} {length}{scale}"


def some(chance: random.Random, shown: Sequence[str], other: str, *words: str) -> str:
    """What follows the words in one of the shown lines that begin with them, or something else."""
    found = [line[len(words)] for line in map(str.split, shown) if tuple(line[: len(words)]) == words]
    return chance.choice(found) if found and chance.random() < 0.95 else other


def kinds(chance: random.Random, shown: Sequence[str], is_far: bool) -> Iterator[Tuple[float, str]]:
    """The kinds of events, each with its weight."""
    node = chance.choice(NODES)
    words = {
        "NODE": node,
        "TICKET": some(chance, shown, "9", "frame"),
        "LEN": str(chance.randint(0, 160)),
        "MS": str(chance.choice(LONG if chance.random() < 0.02 else (1, 20, 1000, 1999, 2000, 10000, 30000, 60000))),
        "NAME": some(chance, shown, "1.99", "state", node),
    }
    for event in EVENTS.values():
        line = packet(chance, node, is_far) if event is PACKET else " ".join([event.word, *(words[value.name] for value in event.values)])
        yield WEIGHTS.get(event, 2), line


def event(chance: random.Random, shown: Sequence[str], is_far: bool = False) -> str:
    """An event of any kind, mostly about what is shown; a packet of TCP may be far from its connection."""
    weighted = [*kinds(chance, shown, is_far)]
    return chance.choices([line for _, line in weighted], [weight for weight, _ in weighted])[0]
