"""What rc.conf(5) says about pfsync(4): `maxupd` and `defer`."""
from __future__ import annotations

import re
import shlex
from typing import Dict, Iterator, List, NamedTuple, Optional, Tuple

from ..console.characters import legible
from ..language.comments import of_statement
from ..language.setups import DEFER, MAXUPD, Limit
from .services import number_of
from .sources import place, read

_NAMES = ("ifconfig_pfsync0", "pfsync_ifconfig")
_ASSIGNMENT = re.compile(r"\s*([A-Za-z_][A-Za-z0-9_]*)=")


class Assigned(NamedTuple):
    """A variable of rc.conf: its line, and its words."""

    number: int
    words: List[str]


class Rc(NamedTuple):
    """The lines of a setup, what to report, and whether something is out."""

    lines: List[str] = []
    said: List[str] = []
    is_out: bool = False


def of_rc(path: str) -> Rc:
    """What a file in the form of rc.conf says about pfsync."""
    its = _assigned(path)
    lines: List[str] = []
    said = [] if its else [f"{legible(path)}: no {' or '.join(_NAMES)} is in it: the defaults of pfsync stay"]
    is_out = False
    for name, (number, words) in its.items():
        limits = list(_limits(words))
        lines += [of_statement(place(path, number), legible(f"{name}=\"{' '.join(words)}\""))]
        lines += [f"set {limit.word} {value}" for limit, value in limits if value is not None]
        if any(value is None for _, value in limits):
            is_out = True
            said.append(f"{legible(path)}:{number}: out: `maxupd` is {MAXUPD.least} to {MAXUPD.most} here")
    return Rc(lines, said, is_out)


def _assigned(path: str) -> Dict[str, Assigned]:
    """The assignments to the variables of pfsync0, with the last value of each."""
    found: Dict[str, Assigned] = {}
    for number, line in enumerate(read(path).split("\n"), 1):
        name = _ASSIGNMENT.match(line)
        if name and name[1] in _NAMES:
            found[name[1]] = Assigned(number, _words(line))
    return found


def _words(line: str) -> List[str]:
    """The words of the value of an assignment; none if a shell would not take it."""
    try:
        return "".join(shlex.split(line, comments=True)[:1]).partition("=")[2].split()
    except ValueError:
        return []


def _limits(words: List[str]) -> Iterator[Tuple[Limit, Optional[int]]]:
    """The limits that words of ifconfig(8) set; None for a number out of range."""
    for at, word in enumerate(words):
        if word in ("defer", "-defer"):
            yield DEFER, int(word == "defer")
        elif word == "maxupd":
            value = number_of("".join(words[at + 1 : at + 2]), MAXUPD.most)
            yield MAXUPD, value if value is not None and value >= MAXUPD.least else None
