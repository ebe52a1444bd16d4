"""The crates that crates.txt lists, each with the libraries that it uses."""
from __future__ import annotations

import os
import re
from dataclasses import dataclass
from functools import lru_cache
from typing import Dict, List, Tuple

TOP = os.path.dirname(os.path.dirname(os.path.realpath(__file__)))
PARTS = ("src", "specs", "proofs")

Crates = Dict[str, "Crate"]


@dataclass(frozen=True)
class Crate:
    """A crate, its line, and those of its libraries that belong to this repository."""

    name: str
    line: str
    libraries: Tuple[str, ...]

    @property
    def folder(self) -> str:
        return f"{TOP}/crates/{self.name}"


@lru_cache(maxsize=None)
def listed() -> Crates:
    """All crates, in the order of crates.txt."""
    with open(f"{TOP}/crates.txt", encoding="utf-8") as it:
        lines = [line.partition("#")[0].strip() for line in it]
    found = {re.split(r"[\s:]", line)[0]: line for line in lines if ":" in line}
    uses = {name: line.partition(":")[2].split() for name, line in found.items()}
    return {name: Crate(name, found[name], tuple(it for it in uses[name] if it in found)) for name in found}


def below(name: str) -> Crates:
    """A crate with everything below it, lowest first."""
    found: Crates = {}
    for it in listed()[name].libraries:
        found.update(below(it))
    found[name] = listed()[name]
    return found


def paths(crates: Crates) -> Dict[str, int]:
    """How many paths lead down from each crate through the libraries of crates.txt, including the path of no step."""
    found: Dict[str, int] = {}

    def count(name: str) -> int:
        if name not in found:
            found[name] = 1 + sum(map(count, crates[name].libraries))
        return found[name]

    return {name: count(name) for name in crates}


def chains(crates: Crates, costs: Dict[str, float]) -> Dict[str, float]:
    """What each crate costs together with the most expensive chain of crates above it."""
    found: Dict[str, float] = {}
    above: Dict[str, List[str]] = {name: [] for name in crates}
    for name, crate in crates.items():
        for it in crate.libraries:
            above[it].append(name)

    def length(name: str) -> float:
        if name not in found:
            found[name] = costs[name] + max(map(length, above[name]), default=0)
        return found[name]

    return {name: length(name) for name in crates}
