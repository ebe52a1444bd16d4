"""The lines that pfctl(8) prints for a state: `print_state` of FreeBSD 13, as recalled from its sources."""
from __future__ import annotations

import re
from functools import lru_cache
from typing import Dict, FrozenSet, NamedTuple, Optional, Sequence, Tuple

_GAP = r"[ \t]+"
# An address, or its name if pfctl was to look it up, with a port such as `:443` or `[443]`.
_HOST = r"[0-9A-Za-z_.:%?/-]+(?:\[\d{1,5}\])?"
_PLACE = rf"({_HOST})(?:{_GAP}\(({_HOST})\))?"
_LEVELS = r"([A-Z_0-9]{1,20}:[A-Z_0-9]{1,20}|<BAD STATE LEVELS \d{1,3}:\d{1,3}>)"
_INTERFACE = r"([\w.:@-]+)"
_PROTOCOL = r"([\w.+-]+)"
_END = rf"\[(\d{{1,10}}) ?\+ ?(\d{{1,10}})\](?:\(\+(\d{{1,10}})\))?(?:{_GAP}wscale (\d{{1,3}}))?"
_TIME = r"(\d{1,9}:[0-5]\d:[0-5]\d)"
_PACKETS, _BYTES = (rf"\d{{1,20}}:\d{{1,20}} {it}" for it in ("pkts", "bytes"))
_TIMES = rf"age{_GAP}{_TIME},[ \t]*expires{_GAP}in{_GAP}{_TIME}(?:, {_PACKETS}, {_BYTES}(?=[,\s]|$))?"
# (all digits are printed: with fewer a name was cut)
_NAME = rf"id:{_GAP}([0-9a-f]{{16}}){_GAP}creatorid:{_GAP}([0-9a-f]{{8}})(?!\S)"
_ROUTE = r"(?:gateway|origif|route-to|rt): "

_ARROW = r"[^\n]*? (?:->|<-) "
# What may be a state's first line, well formed or not: what follows does not belong to the state before it.
LIKE_A_HEAD = re.compile(_ARROW)

# `all tcp 203.0.113.1:51512 (10.0.0.17:51512) -> 192.0.2.80:443       ESTABLISHED:ESTABLISHED`
HEAD = re.compile(rf"{_INTERFACE}{_GAP}{_PROTOCOL}{_GAP}{_PLACE}{_GAP}(->|<-){_GAP}{_PLACE}{_GAP}{_LEVELS}", re.ASCII)
FLOW = re.compile(rf"{_PROTOCOL} {_PLACE} (->|<-) {_PLACE}", re.ASCII)
# `[3058113415 + 65535] wscale 6  [1224512417 + 65664] wscale 7`
WINDOWS = re.compile(rf"{_END}{_GAP}{_END}", re.ASCII)
# `age 00:01:40, expires in 23:59:57, 120:118 pkts, 9312:88214 bytes, rule 3`
TIMES = re.compile(rf"{_TIMES}(.*)", re.ASCII)
# `id: 5f00a1b200000003 creatorid: 8a1b2c3d gateway: 192.0.2.1`
NAME = re.compile(rf"{_NAME}(.*)", re.ASCII)
# `gateway: 192.0.2.1`, on a line of its own.
ROUTE = re.compile(_ROUTE, re.ASCII)


def _whole(pattern: str) -> str:
    """A pattern whose groups find nothing by themselves, with one blank for each gap."""
    return re.sub(r"(?<!\\)\((?!\?)", "(?:", pattern.replace(_GAP, " "))


# All lines of a state in their usual form, up to the first line of the next one: nearly all come like this, and one search is faster
# than one for each line.
RECORD = re.compile(
    rf"{_INTERFACE} ({_whole(_PROTOCOL)} {_whole(_PLACE)} (?:->|<-) {_whole(_PLACE)}) +{_LEVELS}\r?\n"
    rf"(?:[ \t]+({_whole(_END)}  ?{_whole(_END)})\r?\n)?"
    rf"(?:[ \t]+{_TIMES}([^\r\n]*)\r?\n)?"
    rf"(?:[ \t]+{_NAME}([^\n]*\n(?:[ \t]+{_ROUTE}[^\n]*\n)*))?"
    rf"(?=\S{_ARROW})",
    re.ASCII,
)
_TRAFFIC = re.compile(f"{_PACKETS}|{_BYTES}", re.ASCII)
_NUMBERED = re.compile(r"(rule|anchor) (\d{1,10})", re.ASCII)
_MARK = re.compile(r"\(?([a-z][a-z-]*(?: (?:[a-z]+|0x[0-9a-f]+|\([0-9a-fx ]+\)))*)\)?", re.ASCII)

_SAID = re.compile(r"\s*(?:([a-z-]+): (\S+)|\(?([a-z]+(?:-[a-z]+)*)\)?)(?!\S)", re.ASCII)
# The interface where the state's first packet came in; each node has its own.
ORIGIN = "origif"
NO_SYNC = "no-sync"


class Marks(NamedTuple):
    """What follows a state's times, packets and bytes: its rule, and words such as `sloppy`."""

    rule: Optional[int]
    words: FrozenSet[str]


class End(NamedTuple):
    """The sequence numbers of an end as printed: the next one, how many may follow, what is added to them, and the scale of the
    window."""

    lo: str
    span: str
    added: Optional[str]
    scale: Optional[str]


class Times(NamedTuple):
    """A line of details: the seconds since a state began and until it expires, and what else is said."""

    age: int
    expires: int
    marks: Marks


class Named(NamedTuple):
    """A line with a state's name, and the routes and words after it."""

    name: str
    routes: Tuple[str, ...]


def times(text: str) -> Optional[Times]:
    """The details of a state, if the text is such a line."""
    found = TIMES.fullmatch(text)
    marks = marks_of(found[3]) if found else None
    return Times(seconds(found[1]), seconds(found[2]), marks) if found and marks else None


@lru_cache(1 << 17)
def seconds(text: str) -> int:
    """The seconds of a time as pfctl prints it."""
    hours, minutes, rest = text.split(":")
    return (int(hours) * 60 + int(minutes)) * 60 + int(rest)


@lru_cache(1 << 14)
def marks_of(text: str) -> Optional[Marks]:
    """What a rest such as `, anchor 1, rule 3, sloppy` says; the parts come in any order."""
    numbers: Dict[str, int] = {}
    words = set()
    for part in text.split(",")[1:]:
        part = " ".join(part.split())
        number, mark = _NUMBERED.fullmatch(part), _MARK.fullmatch(part)
        if number:
            numbers[number[1]] = int(number[2])
        elif mark:
            words.add(mark[1])
        elif not _TRAFFIC.fullmatch(part):
            return None
    return None if text and not text.startswith(",") else Marks(numbers.get("rule"), frozenset(words))


def named(text: str) -> Optional[Named]:
    """The name of a state, if the text is such a line."""
    found = NAME.fullmatch(text)
    after = routes(found[3]) if found else None
    return Named(name_of(found[1], found[2]), after) if found and after is not None else None


def name_of(identity: str, creator: str) -> str:
    """A name in the form that `pfctl -k id -k ID/CREATOR` takes."""
    return f"{identity}/{creator}"


@lru_cache(1 << 14)
def routes(text: str) -> Optional[Tuple[str, ...]]:
    """What a rest such as `gateway: 192.0.2.1 origif: em0` says, except the interface of origin; None if it is something else."""
    said, at, end = [], 0, len(text.rstrip())
    while at < end:
        found = _SAID.match(text, at)
        if not found:
            return None
        at = found.end()
        if found[1] != ORIGIN:
            said.append(found[3] or f"{found[1]} {found[2]}")
    return tuple(said) if len({*map(kind_of_route, said)}) == len(said) else None


def kind_of_route(route: str) -> str:
    """What a route or word is about: no state has two of one kind."""
    return route.partition(" ")[0]


def numbers(text: str) -> Sequence[str]:
    """What a line that WINDOWS matches has about both ends, each as in `End`, in the order in which they are printed."""
    found = WINDOWS.match(text)
    assert found
    return found.groups()


def windows(text: str) -> Tuple[End, End]:
    """Both ends of such a line."""
    its = numbers(text)
    return End(*its[:4]), End(*its[4:])


def clock(time: int) -> str:
    """Seconds as pfctl prints them."""
    return f"{time // 3600:02}:{time // 60 % 60:02}:{time % 60:02}"
