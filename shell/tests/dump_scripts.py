"""Random dumps for tests of `compare --out`, and what a dump and a shown pair have in common, each read by itself."""
from __future__ import annotations

import random
import re
from typing import Dict, List, NamedTuple, Tuple

from ..model.pair import Node
from ..shows.words import flow, levels, near_and_far

HEAD = re.compile(r"^all (\S+ .*?) {7}(\S+)$", re.MULTILINE)
NUMBERS = re.compile(r"\[(\d+) \+ (\d+)\](?: wscale (\d+))?  \[(\d+) \+ (\d+)\](?: wscale (\d+))?")

# A flow with its levels, and the numbers of both ends as pfctl prints them; none if it is not of TCP.
Printed = Tuple[str, str, Tuple[str, ...]]


def printed_in(dump: str) -> List[Printed]:
    """The states of a dump whose forms are those of these tests."""
    states = []
    for text in re.split(r"^(?=all )", dump, flags=re.MULTILINE)[1:]:
        head, numbers = HEAD.search(text), NUMBERS.search(text)
        assert head
        states.append((head[1], head[2], tuple(group or "" for group in numbers.groups()) if numbers else ()))
    return sorted(states)


def printed_of(node: Node) -> List[Printed]:
    """The states of a node in the same form."""
    states = []
    for state in node.states.values():
        ends = near_and_far(state)
        numbers = [(str(end.lo), str((end.hi - end.lo) % 2**32), "" if end.scale is None else str(end.scale)) for end in ends]
        states.append((flow(state), levels(state), numbers[0] + numbers[1] if state.protocol == "tcp" else ()))
    return sorted(states)


def clock(seconds: int) -> str:
    return f"{seconds // 3600:02}:{seconds // 60 % 60:02}:{seconds % 60:02}"


class State(NamedTuple):
    """A state of a random dump."""

    flow: str
    levels: str
    numbers: Tuple[int, int, int, int]
    expires: int
    name: str

    def text(self, chance: random.Random) -> str:
        lo, span, other_lo, other_span = self.numbers
        numbers = f"   [{lo} + {span}] wscale 6  [{other_lo} + {other_span}] wscale 7\n" if self.flow.startswith("tcp ") else ""
        age = 86400 - self.expires + chance.randrange(1000)
        return (
            f"all {self.flow}       {self.levels}\n{numbers}"
            f"   age {clock(age)}, expires in {clock(self.expires)}, 1:1 pkts, 2:2 bytes, rule 3\n"
            f"   id: {self.name[:16]} creatorid: {self.name[17:]} gateway: 0.0.0.0\n"
        )


def random_state(chance: random.Random, number: int) -> State:
    """A state with keys of its own; some are translated, on their way out or in."""
    protocol, outwards, is_translated = chance.choice(("tcp", "tcp", "tcp", "udp")), chance.random() < 0.5, chance.random() < 0.1
    port, client = 1024 + number, f"198.51.{number // 250}.{number % 250 + 1}"
    if outwards:
        near = f"203.0.113.1:{50001 + number} (10.0.0.1:{port})" if is_translated else f"192.0.2.1:{port}"
        its = f"{protocol} {near} -> {client}:443"
    else:
        its = f"{protocol} {'10.0.0.80:8443 (203.0.113.1:443)' if is_translated else '192.0.2.80:443'} <- {client}:{port}"
    numbers = (chance.randrange(2**32), chance.randrange(1, 65536), chance.randrange(2**32), chance.randrange(1, 4000000))
    name = f"{number:016x}/{chance.choice(('0a0a0a0a', '0b0b0b0b'))}"
    if protocol == "tcp":
        return State(its, "ESTABLISHED:ESTABLISHED", numbers, chance.randrange(60000, 86400), name)
    return State(its, "MULTIPLE:MULTIPLE", numbers, chance.randrange(1, 60), name)


def random_dumps(seed: int, most: int) -> Dict[str, str]:
    """Two dumps of one pair: states at both nodes, at one alone, under two names, and with other numbers or levels."""
    chance = random.Random(seed)
    texts: Dict[str, List[str]] = {"a": [], "b": []}
    for number in range(most):
        one = random_state(chance, number)
        lo, span, other_lo, other_span = one.numbers
        on, other_on = (lo + chance.randrange(span)) % 2**32, (other_lo + chance.randrange(other_span)) % 2**32
        moved = one._replace(numbers=(on, span, other_on, other_span))
        ended = ((lo + 1) % 2**32, span, (other_lo + 1) % 2**32, other_span)
        closed = one._replace(levels="FIN_WAIT_2:FIN_WAIT_2", numbers=ended, expires=80)
        named = one._replace(name=f"{one.name[:16]}/0c0c0c0c")
        is_tcp = one.flow.startswith("tcp ")
        pairs = [(one, one), (one, one), (one, None), (None, one), (one, named), *([(one, moved), (moved, one), (one, closed)] * is_tcp)]
        its = chance.choice(pairs)
        for node, state in zip(texts, its):
            if state:
                texts[node].append(state.text(chance))
    return {node: "".join(its) for node, its in texts.items()}
