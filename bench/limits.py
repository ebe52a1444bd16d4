"""How long the machine takes for what no program of this kind can do without, in microseconds."""
from __future__ import annotations

import array
import os
import time
from typing import Callable

REPLY = b"step pass 1.12345 dropped 0\n"
WRITES = 200_000
LOOKUPS = 1_000_000
# 32 MiB: far more than a processor's caches, and about as much as the states of a full table take.
FAR = 1 << 22
NEAR = 1 << 9


def microseconds(work: Callable[[int], None], many: int) -> float:
    start = time.process_time()
    work(many)
    return (time.process_time() - start) / many * 1e6


def write_of_a_reply() -> float:
    """A write of a reply to a file in memory, including the interpreter's time for a call, some 0.05 microseconds."""
    file = os.memfd_create("replies")

    def work(many: int) -> None:
        for _ in range(many):
            os.write(file, REPLY)

    try:
        return microseconds(work, WRITES)
    finally:
        os.close(file)


def chase(size: int) -> float:
    """Microseconds per look-up, where each has to wait for the one before; the places are in random order."""
    places = array.array("Q", ((at * 2_862_933 + 3_037_493) % size for at in range(size)))

    def work(many: int) -> None:
        at = 0
        for _ in range(many):
            at = places[at]

    work(min(size, LOOKUPS))
    return microseconds(work, LOOKUPS)


def cache_miss() -> float:
    """How much longer a look-up far away takes than one nearby."""
    return chase(FAR) - chase(NEAR)
