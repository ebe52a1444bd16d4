"""Frames and their records: the messages of pfsync(4) version 5, as the program reports them (docs/FORMATS.md)."""
from __future__ import annotations

from collections import Counter
from dataclasses import dataclass
from typing import Iterable, Optional, Sequence, Tuple, Union

from ..language.names import ALL_STATES, Name, number_or_none
from ..language.records import BULK_STATUS, BY_WORD, CLEAR, SHORT_UPDATE, RecordKind
from .states import FLOW_WORDS, End, Flow, flow_fields

HEADER = 20


@dataclass(frozen=True)
class Carried(Flow):
    """A state as an insertion, an update or a deletion carries it, with the seconds that it has left at the sender."""

    remaining: int
    rule: Optional[int]
    asks_for_acknowledgement: bool


@dataclass(frozen=True)
class Changes:
    """The parts of a state that packets change, as a short update carries them."""

    source: End
    destination: End
    timeout_class: str
    remaining: int


@dataclass(frozen=True)
class Record:
    """A record: its kind, what it is about (a name; for a clear a creator and the greatest id; for a bulk status how far the update
    is), and what it carries of a state."""

    kind: RecordKind
    about: Tuple[str, ...]
    state: Union[Carried, Changes, None] = None

    @classmethod
    def read(cls, words: Sequence[str]) -> "Record":
        kind = BY_WORD[words[0]]
        about, rest = tuple(words[1 : kind.words + 1]), words[kind.words + 1 :]
        if kind is SHORT_UPDATE:
            return cls(kind, about, Changes(End.read(rest[:5]), End.read(rest[5:10]), rest[10], int(rest[11])))
        if not rest:
            return cls(kind, about)
        remaining, rule, flags = words[1 + FLOW_WORDS :]
        return cls(kind, about, Carried(*flow_fields(words[1:]), int(remaining), number_or_none(rule), flags == "k"))

    @property
    def name(self) -> Name:
        """The state that it is about; 0.0 for all of them."""
        return ALL_STATES if self.kind in (CLEAR, BULK_STATUS) else Name.read(self.about[0])


@dataclass(frozen=True)
class Frame:
    """A frame on its way: the node that it goes to, its bytes, and the records in them, if those were asked for."""

    ticket: int
    to: str
    data: bytes
    records: Tuple[Record, ...] = ()

    @classmethod
    def read(cls, words: Sequence[str]) -> "Frame":
        ticket, to, data = words
        return cls(int(ticket), to, b"" if data == "-" else bytes.fromhex(data))

    @property
    def broken(self) -> str:
        """Why its receiver cannot read it; empty if it can. A cut frame still has its original length in its header."""
        length, first = len(self.data), int.from_bytes(self.data[2:4], "big")
        if length < HEADER:
            return f"it has {length} bytes, but a header alone has {HEADER}"
        return "" if first == length else f"bytes 2 and 3 of its header say {first} bytes, but {length} are there"

    @property
    def checksum(self) -> str:
        """The checksum of the sender's rules."""
        return self.data[4:HEADER].hex()

    @property
    def summary(self) -> str:
        """What it carries, in a few words: `2 inserts, 1 bulk status`."""
        if self.broken:
            return f"broken: {self.broken}"
        return kinds_counted(record.kind for record in self.records)


def kinds_counted(kinds: Iterable[RecordKind]) -> str:
    """How many records there are of each kind, in the order of the first ones."""
    counts = Counter(kind.name for kind in kinds)
    return ", ".join(f"{n} {_plural(name) if n > 1 else name}" for name, n in counts.items()) or "no records"


def _plural(name: str) -> str:
    return name + ("es" if name.endswith("s") else "s")
