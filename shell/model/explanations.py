"""The program's answer to `why`: what came of an event of a branch, or would come of one, and why."""
from __future__ import annotations

from typing import Dict, List, NamedTuple, Optional, Sequence, Tuple, Union

from ..language.names import Name, number_or_none
from ..language.records import BY_WORD, CLEAR, RecordKind
from ..language.setups import CLEAR as CLEAR_RULE
from .branches import Happened
from .kernels import Kernel
from .setups import Adaptive


class NotExplained(ValueError):
    """The text is not an explanation."""


class Edge(NamedTuple):
    """A number of a TCP packet, the one or two numbers that bound it, and by how much it lies beyond, if it does."""

    number: int
    bounds: Tuple[int, ...]
    missed: Optional[int]


class Loose(NamedTuple):
    """By how much a packet ends after what passes loosely, and begins before it, if it does."""

    right: Optional[int]
    left: Optional[int]


class OfState(NamedTuple):
    """A state has the key of the packet. A TCP packet is tested: its edges are `right`, `left`, and `ack` if that counts. By the kernel's
    rules it may be judged by its sender's lo, since it has no data; a reset may be asked for its number; and a packet that misses one of
    these may pass loosely."""

    name: Name
    edges: Dict[str, Edge]
    is_eased: bool = False
    reset: Optional[Edge] = None
    loose: Optional[Loose] = None

    @property
    def is_inside(self) -> bool:
        """Whether it passes inside the window; one that is not of TCP does."""
        its = [*self.edges.values(), *([self.reset] if self.reset else [])]
        return all(it.missed is None for it in its)

    @property
    def passes_loosely(self) -> bool:
        return self.loose == Loose(None, None)


class Judged(NamedTuple):
    """The rules judged the packet, after a closed connection of its ends was deleted: the rule that decided, if one matches, and what
    came of it: `block`, `max MOST STATES`, `full LIMIT STATES`, `wire NAME`, `stack NAME` or `new NAME`; nothing if none matches."""

    closed: Optional[Name]
    rule: Optional[int]
    how: str
    values: Tuple[str, ...]

    @property
    def name(self) -> Name:
        return Name.read(self.values[0])


# The ends of a record that are behind those of the state, or that are taken, by their word.
_ENDS: Dict[str, Tuple[str, ...]] = {"-": (), "src": ("source",), "dst": ("destination",), "both": ("source", "destination")}


class TakenRecord(NamedTuple):
    """A record of a frame: its kind, what it is about, and the words for what became of it."""

    kind: RecordKind
    about: Tuple[str, ...]
    fate: Tuple[str, ...]

    @property
    def is_bad(self) -> bool:
        return self.fate[0] == "bad"

    @property
    def stale(self) -> Tuple[str, ...]:
        return _ENDS[self.fate[1]] if self.fate[0] == "merged" else ()

    @property
    def last(self) -> Optional[int]:
        """When the state that it made, or that it is merged into, counts as last used."""
        places = {"imported": 1, "merged": 2}
        return int(self.fate[places[self.fate[0]]]) if self.fate[0] in places else None

    @property
    def taken(self) -> Tuple[str, ...]:
        """The ends that were taken: by the profile those that are not stale. By the kernel's rule the program says which."""
        if self.fate[0] != "merged":
            return ()
        return _ENDS[self.fate[3]] if self.goes_together else tuple(it for it in _ENDS["both"] if it not in self.stale)

    @property
    def goes_together(self) -> bool:
        """Whether it was merged by the kernel's rule, by which the destination goes with the source."""
        return self.fate[0] == "merged" and len(self.fate) > 3

    def takes(self, kernel: Kernel, name: Name) -> bool:
        """Whether it took a state of this name, if there was one. By the kernel's rule a clear has no bound."""
        if self.kind is CLEAR:
            return name.creator == int(self.about[0]) and (kernel.has(CLEAR_RULE) or name.id <= int(self.about[1]))
        return self.fate == ("deleted",) and self.about == (str(name),)


class Expiry(NamedTuple):
    """A state that a purge found: the seconds of its class, those seconds as shortened by the number of states, and when it expires."""

    name: Name
    timeout_class: str
    timeout: int
    scaled: int
    expires: int

    @property
    def last(self) -> int:
        """When the state was last used."""
        return self.expires - 1000 * self.scaled


class Purge(NamedTuple):
    """What a purge looked at: the clock, how many states there were, between which numbers timeouts shrink, and the states by name."""

    clock: int
    states: int
    adaptive: Adaptive
    expiries: List[Expiry]

    @property
    def due(self) -> List[Expiry]:
        """The states that are deleted, by name."""
        return [expiry for expiry in self.expiries if expiry.expires <= self.clock]


class Against(NamedTuple):
    """The numbers for which an event is refused, after the word for them: `ticket NEXT`, `frames LIMIT FRAMES`,
    `pending LIMIT PENDING`, `clock MS LAST` or `due MS DUE`; none if the refusal has none."""

    numbers: Tuple[int, ...]


# What there is to say besides the outcome: for a frame that can be read, its records; for most events, nothing.
Reason = Union[OfState, Judged, List[TakenRecord], Purge, Against, None]


class Explanation(NamedTuple):
    """An event, what came of it or would come of it, and why; and the lines of the reason as the program writes them."""

    event: Happened
    reason: Reason
    lines: Sequence[str] = ()

    @property
    def records(self) -> List[TakenRecord]:
        """The records of a frame that was read."""
        return self.reason if isinstance(self.reason, list) else []


def read_explanation(reply: Sequence[str]) -> Explanation:
    """The explanation that a reply gives."""
    try:
        _, event, came, *lines, _ = reply
        happened, words = Happened.read(event, came), [line.split() for line in lines]
        return Explanation(happened, _against(words) if happened.is_refused else _reason(words), lines)
    except (IndexError, KeyError, ValueError) as error:
        raise NotExplained("\n".join(reply)) from error


def _reason(lines: Sequence[List[str]]) -> Reason:
    first = lines[0][0] if lines else ""
    if first == "state":
        return _of_state(lines)
    if first in ("closed", "rule"):
        return _judged(lines)
    if first == "record":
        return [_record(BY_WORD[kind], words) for _, kind, *words in lines]
    return _purge(lines) if lines else None


def _of_state(lines: Sequence[List[str]]) -> OfState:
    """The tests of a packet, in any order."""
    words = {word: values for word, *values in lines}
    (name,), is_eased = words.pop("state"), words.pop("eased", None) is not None
    loose = _loose(words.pop("loose")) if "loose" in words else None
    edges = {word: _edge(values) for word, values in words.items()}
    reset = edges.pop("reset", None)
    return OfState(Name.read(name), edges, is_eased, reset, loose)


def _edge(values: Sequence[str]) -> Edge:
    number, *bounds, missed = values
    return Edge(int(number), tuple(map(int, bounds)), number_or_none(missed))


def _loose(values: Sequence[str]) -> Loose:
    right, left = map(number_or_none, values)
    return Loose(right, left)


def _against(lines: Sequence[List[str]]) -> Against:
    return Against(tuple(int(number) for _, *numbers in lines for number in numbers))


def _judged(lines: Sequence[List[str]]) -> Judged:
    closed = Name.read(lines[0][1]) if lines[0][0] == "closed" else None
    (_, rule, *verdict), *start = lines[closed is not None :]
    how, *values = start[0] if start else verdict or [""]
    return Judged(closed, number_or_none(rule), how, tuple(values))


def _record(kind: RecordKind, words: Sequence[str]) -> TakenRecord:
    return TakenRecord(kind, tuple(words[: kind.words]), tuple(words[kind.words :]))


def _purge(lines: Sequence[List[str]]) -> Purge:
    (_, clock), (_, states, start, end), *rest = lines
    expiries = [Expiry(Name.read(name), its_class, *map(int, numbers)) for _, name, its_class, *numbers in rest]
    return Purge(int(clock), int(states), Adaptive(int(start), int(end)), expiries)
