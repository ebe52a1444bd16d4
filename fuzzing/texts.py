"""Random changes of a script's bytes, each byte as one character."""
from __future__ import annotations

import random
from typing import Callable, Tuple

from .vocabulary import BYTES, LENGTHS


def flip(chance: random.Random, text: str) -> str:
    at = chance.randrange(len(text) + 1)
    return text[:at] + "".join(chr(ord(it) ^ 1 << chance.randrange(8)) for it in text[at : at + 1]) + text[at + 1 :]


def insert(chance: random.Random, text: str) -> str:
    at, byte = chance.randrange(len(text) + 1), chance.choice(BYTES)
    return text[:at] + chance.choice((byte, byte * chance.choice((2, 30, 600)), chr(chance.randrange(256)), "\n")) + text[at:]


def cut_out(chance: random.Random, text: str) -> str:
    at = chance.randrange(len(text) + 1)
    return text[:at] + text[at + chance.choice((1, 1, 1, 2, 5, 50)) :]


def double(chance: random.Random, text: str) -> str:
    """A part is repeated, anywhere."""
    at, to = (chance.randrange(len(text) + 1) for _ in range(2))
    return text[:to] + text[at : at + chance.choice((1, 5, 50, 300))] + text[to:]


def end_early(chance: random.Random, text: str) -> str:
    """The end is missing, mostly only the last line feed."""
    return text[: -chance.choice((1, 1, 1, 2, 3, chance.randint(1, len(text) + 1)))]


def lengthen(chance: random.Random, text: str) -> str:
    """A line is as long as a line can be, or longer: a comment, blanks, or words."""
    lines = text.split("\n")
    at, length = chance.randrange(len(lines)), chance.choice(LENGTHS)
    filler = chance.choice((" ", "\t", "0", "x", "\0", "\xff", " x"))
    line = chance.choice((lines[at], "", "#", " #", "show main", "step main tick a 1"))
    lines[at] = (line + filler * length)[:length]
    return "\n".join(lines)


def end_lines(chance: random.Random, text: str) -> str:
    """Other line ends: a CR in all of them, in some, a CR alone in the middle, or two line feeds."""
    how = chance.randrange(4)
    if how == 0:
        return text.replace("\n", "\r\n")
    if how == 1:
        return "".join(it + ("\r" if chance.random() < 0.3 else "") + "\n" for it in text.split("\n")[:-1])
    at = chance.randrange(len(text) + 1)
    return text[:at] + ("\r" if how == 2 else "\n\n") + text[at:]


def open_otherwise(chance: random.Random, text: str) -> str:
    """No line `open`, two, one with a fault, or one in another place."""
    lines = [it for it in text.split("\n") if it != "open"]
    for _ in range(chance.choice((0, 1, 1, 2))):
        how = chance.choice(("open", "open", "open ", "\topen\r", "open open", "Open", "open\0"))
        lines.insert(chance.randint(0, min(len(lines), 12)), how)
    return "\n".join(lines)


def empty(chance: random.Random, text: str) -> str:
    """Nothing, or nearly nothing."""
    return chance.choice(("", "\n", "\r\n", "open", "open\n", "#", "\0", " \t\n\r", "open\nopen\n", text.partition("\n")[0]))


OF_TEXTS: Tuple[Callable[[random.Random, str], str], ...] = (
    *(flip, flip, insert, insert, insert, cut_out, cut_out, double, end_early, lengthen, lengthen),
    *(end_lines, open_otherwise, empty),
)
