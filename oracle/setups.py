"""Random setups, whose limits are soon met."""
from __future__ import annotations

import random
from typing import Dict, Iterator, List, Sequence

from shell.language.commands import KERNEL, KERNEL_WORD
from shell.language.names import NODES
from shell.language.setups import AEND, ASTART, BATCH, BULK_MS, CLASSES, DEFER, FRAMES, HELD, MAXUPD, MTU, QUEUE, STATES, SWITCHES, Limit

# The values given to each limit that is set, and for some the value that it has in every other setup.
TRIED: Dict[Limit, Sequence[int]] = {
    **{STATES: range(1, 7), QUEUE: range(1, 13), FRAMES: range(1, 7), HELD: range(1, 4), BATCH: range(1, 3)},
    **{MTU: (MTU.least, 200, 300, MTU.default), DEFER: (0, 1), MAXUPD: (1, 2, MAXUPD.default)},
    **{BULK_MS: (1, 1000, BULK_MS.default)},
}
SMALLEST: Dict[Limit, int] = {STATES: 3, QUEUE: 2, FRAMES: 2, HELD: 1, BATCH: 1}
# Ports that take in all flows of `events.py`, some of them, or none.
PORTS = ("53", "80:80", "53:80", "54:79", "1000:1001", "0:65535")


def setup(chance: random.Random) -> Iterator[str]:
    """Limits so small that events are refused, the smallest for every other seed, timeouts of some classes, and a few rules, mostly the
    same at both nodes."""
    smallest = chance.random() < 0.5
    for limit, values in TRIED.items():
        yield f"set {limit.word} {SMALLEST[limit] if smallest and limit in SMALLEST else chance.choice(values)}"
    for limit in (ASTART, AEND):
        if chance.random() < 0.5:
            yield f"set {limit.word} {chance.choice((0, 0, 1, 2, 3, 5, 9))}"
    for it in chance.sample(CLASSES, chance.choice((0, 0, 1, 2, 3))):
        yield f"set timeout {it.word} {chance.choice((0, 1, 2, 5, 30, it.seconds))}"
    yield from _rules(chance)


def with_kernel(chance: random.Random, lines: Sequence[str]) -> List[str]:
    """The lines of a setup, every other time with lines `kernel` between them: one word, all, or any number, some of them twice."""
    setup = [*lines]
    for _ in range(chance.choice((1, 1, 1, 2)) if chance.random() < 0.5 else 0):
        words = [chance.choice(KERNEL_WORD.words)] if chance.random() < 0.5 else chance.choices([*SWITCHES], k=chance.randint(1, 5))
        setup.insert(chance.randint(0, len(setup)), " ".join([KERNEL.word, *words]))
    return setup


def _rules(chance: random.Random) -> Iterator[str]:
    nat, rdr = f"out nat {_pool(chance, '203.0.113.1:7000')}", f"in rdr {_pool(chance, '10.0.0.1:1000')}"
    both = chance.choice(("out", "any", "any flags any", "any timeout udp.first 5", "out max 2", nat, f"out tport {chance.choice(PORTS)}"))
    is_redirected = chance.random() < 0.25
    for node in NODES:
        if chance.random() < 0.2:
            ports = chance.choice(PORTS)
            blocks = f"block any tport {ports}", f"block in fport {ports}"
            yield f"rule {node} {chance.choice((*blocks, 'pass in no-sync', 'pass out max 1'))}"
        other = chance.choice(("out", "any no-sync", "any max 1", nat, rdr, f"any fport {chance.choice(PORTS)}"))
        yield f"rule {node} pass {both if chance.random() < 0.8 else other}"
        if is_redirected:
            yield f"rule {node} pass {rdr}"


def _pool(chance: random.Random, end: str) -> str:
    """The end, or a pool of up to four ports that begins with it."""
    address, _, port = end.partition(":")
    ports = chance.choice((0, 0, 1, 1, 2, 3))
    return f"{address}:{port}:{int(port) + ports}" if ports else end
