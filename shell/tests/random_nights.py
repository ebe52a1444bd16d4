"""Nights of random connections over a pair, from seeds: clients talk through one node or the other, frames come, come late or are lost,
and now and then something expires, is killed, or begins anew."""
from __future__ import annotations

import random
from typing import Iterator, List, NamedTuple, Sequence

from ..link.laboratory import Laboratory
from ..model.pair import Pair

NAT = "pass out proto udp from 10.0.1.0/24 nat 203.0.113.1:4000:4999"
RULES = ("block any", "pass out", "pass in proto tcp tport 80", NAT)
SETUP = (
    *("set states 200", "set astart 0", "set aend 0", "set batch 3", "set frames 60"),
    *(f"rule {node} {rule}" for node in "ab" for rule in RULES),
)


class Conversation(NamedTuple):
    """The packets between two ends, in order: each as the words of an event after its node."""

    packets: List[str]


def conversation(chance: random.Random, number: int) -> Conversation:
    """A query and its answers, or a connection with data, which may end or be reset."""
    kind, far = chance.random(), f"192.0.2.{chance.randint(1, 9)}"
    if kind < 0.3:
        near = f"10.0.{int(kind < 0.1)}.{number % 250 + 1}:{1000 + number}"
        # (the first port of the pool that is free is not known here, so a translated answer may be blocked)
        return Conversation([f"out udp {near} {far}:53 40", *[f"in udp {far}:53 {near} 120"] * (kind > 0.1)] * chance.randint(1, 3))
    if kind < 0.35:
        near, other = f"10.0.0.{number % 250 + 1}:{number}", f"{far}:{number}"
        return Conversation([f"out icmp {near} {other} 64", f"in icmp {other} {near} 64"] * chance.randint(1, 2))
    inward = chance.random() < 0.3
    client, server = (f"{far}:{2000 + number}", "10.0.0.80:80") if inward else (f"10.0.0.{number % 250 + 1}:{2000 + number}", f"{far}:443")
    return Conversation([*_connection(chance, client, server, ("in", "out") if inward else ("out", "in"))])


def _connection(chance: random.Random, client: str, server: str, ways: Sequence[str]) -> Iterator[str]:
    scale = chance.choice(("", " 0", " 7"))
    numbers = [chance.randrange(2**32), chance.randrange(2**32)]
    window = chance.choice((1000, 60000, 65535))

    def segment(end: int, flags: str, length: int = 0, with_scale: str = "") -> str:
        seq, ack = numbers[end], numbers[1 - end] if "A" in flags else 0
        numbers[end] = (seq + length + ("S" in flags) + ("F" in flags)) % 2**32
        ends = f"{client} {server}" if end == 0 else f"{server} {client}"
        return f"{ways[end]} tcp {ends} {flags} {seq} {ack} {window} {length}{with_scale}"

    yield segment(0, "S", 0, scale)
    yield segment(1, "SA", 0, scale)
    yield segment(0, "A")
    for _ in range(chance.randint(0, 5)):
        end = chance.randint(0, 1)
        yield segment(end, "PA", chance.choice((1, 100, 900)))
        yield segment(1 - end, "A")
    ending = chance.random()
    if ending < 0.4:
        yield segment(0, "FA")
        yield segment(1, "FA")
        yield segment(0, "A")
    elif ending < 0.5:
        yield segment(1, "R")


def play(lab: Laboratory, seed: int, events: int) -> None:
    """Steps a night in a laboratory that is open. Both clocks go on together, a millisecond or more between two happenings."""
    chance = random.Random(seed)
    talks: List[List[str]] = []
    started = 0
    for _ in range(events):
        pair = lab.show("main")
        if not talks or chance.random() < 0.1:
            started += 1
            talks.append(conversation(chance, started).packets)
        for it in _events(chance, talks, pair):
            lab.ask(f"step main {it}")
        for it in _ticks(chance, lab.show("main")):
            lab.ask(f"step main {it}")
        talks[:] = [talk for talk in talks if talk]


def _events(chance: random.Random, talks: List[List[str]], pair: Pair) -> Sequence[str]:
    """What happens next. Most frames come at once, and some come late."""
    kind, node = chance.random(), "a" if chance.random() < 0.8 else "b"
    if pair.frames and chance.random() < 0.4:
        return [f"deliver {chance.choice([*pair.frames])}"]
    if kind < 0.6:
        return [f"packet {node} {chance.choice(talks).pop(0)}"]
    if kind < 0.9:
        fate = chance.choices(["deliver", "lose", ""], [75, 10, 15])[0]
        sender = chance.choice("aab")
        return [f"flush {sender}", *[f"{fate} {pair.next_ticket}"] * bool(fate and pair.nodes[sender].pending)]
    return [_rare(chance, pair)]


def _ticks(chance: random.Random, pair: Pair) -> Sequence[str]:
    """Time goes on, and far only while nothing is on its way."""
    milliseconds = 1 if pair.frames else chance.choice((1, 1, 20, 500, 3000, 20000))
    return [f"tick {it} {milliseconds}" for it in "ab"]


def _rare(chance: random.Random, pair: Pair) -> str:
    node = chance.choice("ab")
    states = [*pair.nodes[node].states]
    kinds = ["purge", "turn", "purge", "turn", "retry"] + ["kill"] * 2 * bool(states) + ["restart"] * (chance.random() < 0.1)
    kind = chance.choice(kinds)
    return f"kill {node} {chance.choice(states)}" if kind == "kill" else f"{kind} {node}"
