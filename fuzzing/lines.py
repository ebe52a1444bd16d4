"""Random changes of single lines, after which many are still right."""
from __future__ import annotations

import random
import re
from typing import Callable, List

from oracle.searches import MOST_RUNS
from shell.language.commands import KERNEL, KERNEL_WORD, RULE
from shell.language.forms import ACTION, GREATEST, NODE, RULE_DIRECTION
from shell.language.searches import SEARCH
from shell.language.setups import OPTIONS, Option

from .vocabulary import ALIKE, BY_NAME, EDGES, FEW, LENGTHS, RULES_OF_KERNEL


def change_some(chance: random.Random, lines: List[str], change: Callable[[random.Random, str], str]) -> None:
    """Changes one line, or now and then several."""
    for _ in range(chance.choice((1, 1, 1, 3)) if lines else 0):
        at = chance.randrange(len(lines))
        lines[at] = change(chance, lines[at])


def with_other_word(chance: random.Random, line: str) -> str:
    """A word is replaced, mostly by one that can take its place, or it is removed or doubled."""
    words = line.split(" ")
    at = chance.randrange(len(words))
    alike = [it for it in ALIKE if words[at] in it]
    chosen = chance.choice(alike) if alike and chance.random() < 0.85 else chance.choice(ALIKE)
    how = chance.random()
    words[at : at + 1] = [chance.choice(chosen)] if how < 0.9 else [] if how < 0.95 else [words[at]] * 2
    return " ".join(words)


def with_other_number(chance: random.Random, line: str) -> str:
    """A number is replaced by one near it or at an edge, or gets more digits."""
    # (Python reads no number with more than 4300 digits)
    found = [*re.finditer("[0-9]{1,500}", line)]
    if not found:
        return line
    number = chance.choice(found)
    digits, how = number[0], chance.random()
    if how < 0.5:
        other = str(max(0, int(digits) + chance.choice((-2, -1, 1, 1, 2))))
    elif how < 0.8:
        other = str(chance.choice(EDGES))
    else:
        zeros = "0" * chance.choice((1, 1, chance.randint(2, 400)))
        other = chance.choice((f"{zeros}{digits}", f"{digits}{digits}", f"{digits}0", f"{digits}000"))
    return line[: number.start()] + other + line[number.end() :]


def spread(chance: random.Random, line: str) -> str:
    """Blanks between, before and after the words, a CR at the end, or a line as long as a line can be."""
    words = line.split()
    blanks = [chance.choice((" ", " ", "\t", "  ", " \t ")) for _ in words]
    wide = chance.choice(("", " ", "\t")) + "".join(it + blank for it, blank in zip(words, blanks))
    if chance.random() < 0.2:
        return wide.ljust(chance.choice(LENGTHS[:5]))
    return wide + chance.choice(("", "", "\r", "\r\r"))


def with_few_runs(text: str) -> str:
    """A script whose searches try few runs; a search whose number of runs is not a number keeps it."""

    def few(found: "re.Match[str]") -> str:
        return found[1] + (found[2] if int(found[2]) > GREATEST else str(int(found[2]) % (MOST_RUNS + 1)))

    return re.sub(rf"(?m)^([ \t]*{SEARCH}[ \t]+[^ \t\n]+[ \t]+[^ \t\n]+[ \t]+)([0-9]{{1,500}})", few, text)


def rule(chance: random.Random) -> str:
    """A rule with some of its options, mostly in order."""
    taken = [_option(chance, option) for option in OPTIONS.values() if chance.random() < 0.15]
    if chance.random() < 0.1:
        chance.shuffle(taken)
    values = (chance.choice(it.words) for it in (NODE, ACTION, RULE_DIRECTION))
    return " ".join([RULE.word, *values, *taken])


def kernel(chance: random.Random) -> str:
    """A line `kernel`, mostly with words that are rules."""
    words = KERNEL_WORD.words if chance.random() < 0.7 else RULES_OF_KERNEL
    return " ".join([KERNEL.word, *chance.choices(words, k=chance.choice((0, 1, 1, 1, 2, 2, 3, 4, 40, 90)))])


def _option(chance: random.Random, option: Option) -> str:
    values = (chance.choice(BY_NAME.get(value.name) or value.words or FEW) for value in option.values)
    return " ".join([option.word, *map(str, values)])
