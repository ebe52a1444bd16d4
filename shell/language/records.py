"""The kinds of records in frames: the messages of pfsync(4), each as a row."""
from __future__ import annotations

from dataclasses import dataclass
from typing import Dict


@dataclass(frozen=True)
class RecordKind:
    """A kind of record: its number, its name, the bytes of a record, its word in explanations and shown frames, the word of the queue
    that sends it, if any, and how many words say what it is about."""

    number: int
    name: str
    size: int
    word: str
    queue: str = ""
    words: int = 1


CLEAR = RecordKind(0, "clear", 12, "clr", words=2)
INSERT = RecordKind(1, "insert", 124, "ins", "ins")
INSERT_ACK = RecordKind(2, "insert acknowledgement", 12, "iack", "iack")
UPDATE = RecordKind(3, "update", 124, "upd", "upd")
SHORT_UPDATE = RecordKind(4, "short update", 44, "updc", "updc")
UPDATE_REQUEST = RecordKind(5, "update request", 12, "req")
DELETE = RecordKind(6, "delete", 124, "del")
SHORT_DELETE = RecordKind(7, "short delete", 12, "delc", "del")
BULK_STATUS = RecordKind(10, "bulk status", 8, "bus")
_KINDS = (CLEAR, INSERT, INSERT_ACK, UPDATE, SHORT_UPDATE, UPDATE_REQUEST, DELETE, SHORT_DELETE, BULK_STATUS)
KINDS: Dict[int, RecordKind] = {kind.number: kind for kind in _KINDS}
BY_WORD: Dict[str, RecordKind] = {kind.word: kind for kind in _KINDS}
QUEUES: Dict[str, str] = {kind.queue: kind.name for kind in KINDS.values() if kind.queue}
