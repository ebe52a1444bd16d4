"""What it costs to prove a crate from scratch, as in seconds.txt, and what that means on this machine."""
from __future__ import annotations

import bz2
import os
import re
import time
from typing import Dict, Set

from .crates import PARTS, TOP, Crates, chains

KNOWN = f"{TOP}/proving/seconds.txt"
HEAD = "# Processor seconds of each crate in a first ./lab build, where one processor packs the text of proving/costs.py in {:.3f} s"
MACHINE = re.compile(r"in (\d+\.\d+) s$", re.MULTILINE)
ROW = re.compile(r"^(\w+) (\d+)$", re.MULTILINE)
# The most memory that a check of a large crate takes.
MEMORY = 3_000_000_000
# Processor seconds for a kilobyte of sources, for a crate without a row.
SECONDS_OF_KILOBYTE = 1.2


def known() -> str:
    with open(KNOWN, encoding="utf-8") as it:
        return it.read()


def files_of(folder: str) -> Set[str]:
    """The sources of a crate, and the folders that they are in."""
    return {file for part in PARTS for at, _, names in os.walk(f"{folder}/{part}") for file in (at, *(f"{at}/{name}" for name in names))}


def costs(crates: Crates) -> Dict[str, float]:
    """The processor seconds of each crate's proof on the machine of the table; without a row there, by the size of its sources."""
    rows = {name: float(seconds) for name, seconds in ROW.findall(known())}
    return {name: rows.get(name) or SECONDS_OF_KILOBYTE * sum(map(os.path.getsize, files_of(it.folder))) / 1000 for name, it in crates.items()}


def table(seconds: Dict[str, float]) -> str:
    """The table of a build on this machine."""
    return "".join([f"{HEAD.format(bzip2_seconds())}\n", *(f"{name} {it:.0f}\n" for name, it in seconds.items())])


def bzip2_seconds() -> float:
    """How long one processor of this machine takes to pack a fixed text with bzip2: the best of three times."""
    text = b" ".join(str(it * it).encode() for it in range(200_000))
    found = []
    for _ in range(3):
        start = time.process_time()
        bz2.compress(text)
        found.append(time.process_time() - start)
    return min(found)


def slowness() -> float:
    """How much slower this machine is than the machine of the table."""
    there = MACHINE.search(known())
    return bzip2_seconds() / float(there[1]) if there else 1.0


def memory() -> int:
    with open("/proc/meminfo", encoding="utf-8") as it:
        return 1024 * int(it.read().partition("MemAvailable:")[2].split()[0])


def processors() -> int:
    return len(os.sched_getaffinity(0))


def checks_at_once() -> int:
    """How many crates are proved side by side: one for each processor, as far as memory goes."""
    return max(1, min(processors(), memory() // MEMORY))


def jobs_of_first(free: int, begun: int) -> int:
    """How many jobs the first of some checks has that begin together, where so many lanes are free of jobs: all that the others leave, which
    have one each, since every job states anew what a crate is stated over."""
    return max(1, free - begun + 1)


class Estimate:
    """The course of a build, second by second, if the jobs under way took equal shares of the processors, and none more than one; half of
    what each further job of a check does goes into what it states anew."""

    def __init__(self, crates: Crates, seconds: Dict[str, float], at_once: int):
        self.crates, self.at_once = crates, at_once
        self.chains = chains(crates, seconds)
        self.left = dict(seconds)
        # How many jobs each check under way has.
        self.running: Dict[str, int] = {}

    def minutes(self) -> float:
        seconds = 0
        while self.left:
            self.go_on()
            seconds += 1
        return seconds / 60

    def go_on(self) -> None:
        """A second passes."""
        self.begin()
        share = min(1.0, processors() / sum(self.running.values()))
        for name, jobs in list(self.running.items()):
            self.left[name] -= share * (jobs + 1) / 2
            if self.left[name] <= 0:
                del self.left[name]
                del self.running[name]

    def begin(self) -> None:
        """Begins checks, as a build does."""
        ready = [it for it in self.left if it not in self.running and not any(lib in self.left for lib in self.crates[it].libraries)]
        begun = sorted(ready, key=lambda it: -self.chains[it])[: self.at_once - len(self.running)]
        first = jobs_of_first(self.at_once - sum(self.running.values()), len(begun))
        self.running.update((name, 1 if place else first) for place, name in enumerate(begun))
