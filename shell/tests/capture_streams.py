"""Long captures of a pair, from a seed: states come and go, most of what is sent are short updates, and some frames are lost."""
from __future__ import annotations

import random
import struct
from typing import IO, List, NamedTuple, Tuple

from . import capture_files as made
from .capture_files import A, B, ETHERNET, NOON, SECOND, ethernet, group, ip, message, pcap, peer, state

# A peer of TCP that both ends use.
_SHORT = struct.Struct(">Q8xIIIHHBB6x8xIIIHHBB6xIIB3x")
_CREATORS = (0xA0A0A0A0, 0xB0B0B0B0)
# A frame's way, and how far the clock of b is ahead.
_WAY, _AHEAD = 150_000, 3 * SECOND


class Sizes(NamedTuple):
    """How many messages are in each capture, how many states live, and how many of a thousand frames are lost."""

    messages: int
    states: int
    lost: int = 1


class Living:
    """A state of TCP whose numbers go on."""

    def __init__(self, nth: int, node: int):
        self.number = (nth % 4) << 56 | 0x5F000000 + nth
        self.creator, self.node, self.sequence = _CREATORS[node], node, nth * 7919
        host = f"{nth >> 16 & 255}.{nth >> 8 & 255}.{nth & 255}"
        self.ends = (f"198.{host}", 443), (f"10.{host}", 40000)

    def whole(self) -> bytes:
        source, destination = peer(2, self.sequence, self.sequence + 2, 64240, 7), peer(0)
        return state(self.number, self.creator, self.ends, None, 6, 2, source, destination, 60, 0, 3)

    def moved(self, by: int) -> bytes:
        lo = self.sequence = (self.sequence + by) % 2**32
        ends = lo, (lo + 64256) % 2**32, 0, 502, 0, 4, 0x87
        return _SHORT.pack(self.number, *ends, *ends, self.creator, 86400, 2)


def write_two(files: Tuple[IO[bytes], IO[bytes]], sizes: Sizes, seed: int) -> int:
    """Writes both captures; returns how many frames were lost."""
    rng = random.Random(seed)
    for file in files:
        file.write(pcap([], ETHERNET, nanoseconds=True))
    living: Tuple[List[Living], List[Living]] = ([], [])
    number = lost = 0
    time = NOON
    for nth in range(sizes.messages):
        node = int(rng.random() < 0.2)
        mine, groups = living[node], []
        if sum(map(len, living)) < sizes.states or rng.random() < 0.05:
            new = [Living(number + more, node) for more in range(rng.randrange(2, 6))]
            number += len(new)
            mine += new
            groups.append(group(made.INS, *(it.whole() for it in new)))
        else:
            chosen = {it.number: it for it in (mine[rng.randrange(len(mine))] for _ in range(rng.randrange(2, 7)))}
            groups.append(group(made.UPD_C, *(it.moved(rng.randrange(1, 3000)) for it in chosen.values())))
        surplus = sum(map(len, living)) - sizes.states
        if surplus > 0 and len(mine) > surplus:
            groups.append(group(made.DEL_C, *(made.name(it.number, it.creator) for it in mine[:surplus])))
            del mine[:surplus]
        packet = ethernet(ip((A, B)[node], message(*groups)))
        is_lost = rng.randrange(1000) < sizes.lost and nth > 20
        for which, file in enumerate(files):
            if which == node or not is_lost:
                at = time + _WAY * (which != node) + _AHEAD * which
                file.write(struct.pack("<IIII", at // SECOND, at % SECOND, len(packet), len(packet)) + packet)
        lost += is_lost
        time += rng.randrange(100_000, 1_900_000)
    return lost
