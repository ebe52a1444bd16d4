"""What a browser or a shell sends: a line of the language with the name of its sender, or the name of a session, taken from the body of a
request; or the places of a page whose offers it wants, taken from a query; or refused."""
from __future__ import annotations

import json
import re
from typing import Any, Dict, NamedTuple, Optional, Sequence

from ..language.commands import BACK, CHANGING, DROP, EXCISE, FORK, FORWARD, RESTORE
from ..link.visits import cleaned
from .offers import PLACE

# The commands that mean something else after another change of their branch.
COUNTING = tuple(it.word for it in (BACK, FORWARD, FORK, DROP, EXCISE, RESTORE))
LONGEST_LINE = 4096
NOBODY = "somebody"
# Of how many places the offers are asked at once.
MOST_PLACES = 120
# What a session says to show that a name is its own: a name of a branch that nobody has.
SIGN = re.compile("[a-z][a-z0-9]{15}")
_WANTED = re.compile(r"branch=([a-z][a-z0-9-]{0,15})&places=([a-z0-9/.,]{1,8192})")


class NotTaken(ValueError):
    """A body is not given to the program, with the reason."""


class Typed(NamedTuple):
    """A line that changes the pair, its sender, and the version of the page that it was sent from, if given."""

    name: str
    line: str
    version: Optional[int] = None

    @property
    def takes_from(self) -> str:
        """The branch whose events it takes by their number or their place; none for any other line."""
        words = self.line.split()
        return words[1] if words[0] in COUNTING and len(words) > 1 else ""


class Claim(NamedTuple):
    """The name of a session, and the sign by which that session is known; the name can be empty."""

    name: str
    sign: str


class Wanted(NamedTuple):
    """The places of a branch whose offers a page wants."""

    branch: str
    places: Sequence[str]


def read_wanted(query: str) -> Wanted:
    """The places in a query."""
    found = _WANTED.fullmatch(query)
    places = [*dict.fromkeys(found[2].split(","))] if found else []
    if not found or len(places) > MOST_PLACES or not all(map(PLACE.fullmatch, places)):
        raise NotTaken(f"offers?branch=NAME&places=PLACE,.. is expected, with at most {MOST_PLACES} places like a, frame/1 and b/state/1.1")
    return Wanted(found[1], places)


def read_typed(body: bytes) -> Typed:
    """The line in a body, and the name."""
    members = _read(body)
    name, line, version = members.get("name", ""), members.get("line"), members.get("version")
    if not isinstance(name, str) or not isinstance(line, str) or type(version) not in (int, type(None)):
        raise NotTaken('the body has to be {"name": "..", "line": "..", "version": N}')
    _check(line)
    return Typed(cleaned(name) or NOBODY, line.strip(), version)


def read_claim(body: bytes) -> Claim:
    """The name in a body, and the sign."""
    members = _read(body)
    name, sign = members.get("name"), members.get("sign")
    if not isinstance(name, str) or not isinstance(sign, str) or not SIGN.fullmatch(sign):
        raise NotTaken('the body has to be {"name": "..", "sign": "a letter and 15 letters or digits"}')
    return Claim(cleaned(name), sign)


def _read(body: bytes) -> Dict[str, Any]:
    """The members of a body; none if it is no object."""
    try:
        members = json.loads(body.decode())
    except (ValueError, RecursionError):
        raise NotTaken("the body is not JSON") from None
    return members if isinstance(members, dict) else {}


def _check(line: str) -> None:
    if len(line.encode(errors="replace")) > LONGEST_LINE:
        raise NotTaken(f"the line is too long: at most {LONGEST_LINE} bytes are read")
    if any(it < " " or "\x7f" <= it < "\xa0" or "\ud800" <= it < "\ue000" for it in line):
        raise NotTaken("the line has a control character; send one line at a time")
    if line.split()[:1] not in [[it] for it in CHANGING]:
        raise NotTaken(f"a page sends only lines that change the pair: {', '.join(CHANGING)}")
