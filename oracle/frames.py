"""The bytes of a frame, read without the program: what `frame` must write about them (docs/FORMATS.md)."""
from __future__ import annotations

import ipaddress
from typing import Callable, Dict, List

from shell.language.faults import FRAME_FAULTS
from shell.language.forms import GREATEST, PROTOCOLS
from shell.language.records import BULK_STATUS, CLEAR, DELETE, INSERT, KINDS, SHORT_UPDATE, UPDATE, RecordKind
from shell.language.setups import CLASSES

HEADER = 20


class Bytes:
    """Numbers that are read one after the other, big endian."""

    def __init__(self, data: bytes):
        self.data = data

    def take(self, size: int) -> bytes:
        part, self.data = self.data[:size], self.data[size:]
        return part

    def number(self, size: int) -> int:
        return int.from_bytes(self.take(size), "big")

    def name(self) -> str:
        number = self.number(8)
        return f"{self.number(4)}.{number}"

    def key(self, family: int) -> str:
        address, port = self.take(16), self.number(2)
        if family == 4:
            return f"{ipaddress.IPv4Address(address[:4])}:{port}"
        return f"[{ipaddress.IPv6Address(address).exploded}]:{port}"

    def end(self) -> str:
        level, scale, window, lo, hi = (self.number(size) for size in (1, 1, 2, 4, 4))
        return f"{level} {'-' if scale == 255 else scale} {window} {lo} {hi}"

    def changing(self) -> str:
        """The ends, the class and the seconds left."""
        ends, its_class = f"{self.end()} {self.end()}", CLASSES[self.number(1)].word
        self.take(3)
        return f"{ends} {its_class} {self.number(4)}"


def _state(data: Bytes) -> str:
    name = data.name()
    protocol, family, direction, flags = (data.number(1) for _ in range(4))
    keys = " ".join(data.key(family) for _ in range(4))
    changing, rule = data.changing(), data.number(4)
    way = {1: "in", 2: "out"}[direction]
    last = f"{'-' if rule == GREATEST else rule} {'k' if flags else '-'}"
    return f"{name} {PROTOCOLS.get(protocol, str(protocol))} {way} {keys} {changing} {last}"


_READERS: Dict[RecordKind, Callable[[Bytes], str]] = {
    **dict.fromkeys((INSERT, UPDATE, DELETE), _state),
    SHORT_UPDATE: lambda data: f"{data.name()} {data.changing()}",
    CLEAR: lambda data: f"{data.number(4)} {data.number(8)}",
    # (after the creator)
    BULK_STATUS: lambda data: str(data.number(5) & 255),
}


def fault_of(data: bytes) -> str:
    """Why a frame cannot be read; empty if it can. Only a cut makes a frame unreadable, and it keeps the length in the header."""
    if len(data) < HEADER:
        return "Short"
    return "Length" if int.from_bytes(data[2:4], "big") != len(data) else ""


def contents(data: bytes) -> List[str]:
    """The lines that say what is in a frame: its records, or its fault."""
    if fault_of(data):
        return [f"broken {FRAME_FAULTS.index(fault_of(data)) + 1}"]
    rest, lines = Bytes(data[HEADER:]), []
    while rest.data:
        kind, _, count = KINDS[rest.number(1)], rest.number(1), rest.number(2)
        for _ in range(count):
            lines.append(f"record {kind.word} {_READERS.get(kind, Bytes.name)(Bytes(rest.take(kind.size)))}")
    return lines
