"""What the program reads in a script: lines, their faults, and the setup (docs/FORMATS.md)."""
from __future__ import annotations

import functools
from dataclasses import dataclass
from typing import List, Optional, Sequence, Tuple

from shell.language.faults import LIMIT_FAULTS, LINE_FAULTS, RULE_FAULTS, numbered
from shell.language.lines import check_line, has_word, lines_of, opens
from shell.language.readers import LineFault
from shell.language.setups import MOST_RULES, NAT, RDR
from shell.model.setups import Rule, Setup


@functools.lru_cache(maxsize=4096)
def fault_of(line: str, of_setup: bool) -> str:
    """The number and the name of a line's first fault; empty if it has none."""
    try:
        check_line(line, of_setup)
    except LineFault as fault:
        return numbered(fault.name, LINE_FAULTS)
    return ""


@dataclass
class Reading:
    """A script's setup, up to its line `open` or its fault, which is empty if there is none, and the lines after it."""

    setup: Setup
    fault: str
    first: int
    commands: List[str]

    @property
    def reported(self) -> str:
        """What the program reports on standard error."""
        return f"pfl_lab: setup line {self.first}: {self.fault}\n" if self.fault else ""

    @property
    def status(self) -> int:
        return int(bool(self.fault) or any(bad for _, bad in self.faults()))

    def faults(self) -> List[Tuple[int, str]]:
        """The number of each line after the setup that has a word, and the fault of the line, or an empty text."""
        numbered = enumerate(self.commands, self.first + 1)
        return [(number, fault_of(line, False)) for number, line in numbered if has_word(line)]

    def checked(self) -> str:
        """The output of a check."""
        if self.fault:
            return ""
        faults = self.faults()
        lines = [f"line {number} bad {fault}\n" for number, fault in faults if fault]
        return "".join([*lines, f"good {len(faults) - len(lines)}\n"])


def read(script: str) -> Reading:
    """Reads a script as far as that is possible without events."""
    # (a CR at the end of a script is not part of a line's end; a second one there counts)
    setup, lines = Setup(), lines_of(script + "\r" * script.endswith("\r"))
    for number, line in enumerate(lines, 1):
        if not has_word(line):
            continue
        fault = fault_of(line, True)
        if fault:
            return Reading(setup, f"line {fault.split()[0]}", number, [])
        if opens(line):
            return Reading(setup, fault_of_rules(setup) or fault_of_limits(setup), number, lines[number:])
        setup.add(line)
    return Reading(setup, "no open", len(lines), [])


def fault_of_rules(setup: Setup) -> str:
    """The first fault of the rules; those of node a come first."""
    names = [it for rules in setup.rules.values() for it in [_fault_of(rules)] if it]
    return f"rule {RULE_FAULTS.index(names[0]) + 1}" if names else ""


def _fault_of(rules: Sequence[Rule]) -> Optional[str]:
    if len(rules) > MOST_RULES:
        return "TooMany"
    if any(rule.has(NAT) and rule.words[1] != "out" for rule in rules):
        return "NatNotOut"
    if any(rule.most_states == 0 for rule in rules):
        return "ZeroMax"
    return "RdrNotIn" if any(rule.has(RDR) and rule.words[1] != "in" for rule in rules) else None


def fault_of_limits(setup: Setup) -> str:
    """The first fault of the limits: one below its range comes before any above it."""
    if any(value < limit.least for limit, value in setup.limits.items()):
        return f"world {LIMIT_FAULTS.index('TooSmall') + 1}"
    is_large = any(value > limit.most for limit, value in setup.limits.items())
    return f"world {LIMIT_FAULTS.index('TooLarge') + 1}" if is_large else ""
