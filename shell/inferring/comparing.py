"""Frames of the laboratory held against the captured ones, record by record."""
from __future__ import annotations

import re
from dataclasses import dataclass, field
from typing import Counter, Dict, Iterator, List, Optional, Sequence, Tuple

from ..captures.decoding import Record
from ..captures.pairing import Sent
from ..captures.wording import timeout_class
from ..language.names import Name
from ..language.packets import Key
from ..language.records import BULK_STATUS, CLEAR, DELETE, SHORT_DELETE, RecordKind
from ..model.frames import Carried, Changes, Frame, Record as OwnRecord
from ..model.states import End
from ..shows.words import counted
from .causes import end_of
from .night import Night, is_about_state
from .setting import Setting
from .ways import keyed

# A record: its kind, and the captured name of its state; empty where it is about none.
Kind = Tuple[str, str]
_NUMBER = re.compile(r"@(\d+)")


LEVELS, CLASS, NUMBERS, WINDOWS, KEYS, RULE = FIELDS = ("levels", "class", "lo and hi", "windows and scales", "keys", "rule")
# The protocols whose states have no levels in pf; the second is ICMPv6, which has no classes of its own in the laboratory.
_WITHOUT_LEVELS = ("icmp", "58")


@dataclass
class Agreement:
    """In how many frames the records are those of the captured ones; how many records of these tell of both ends; and for each field in
    how many records it was compared, and in how many it is the same."""

    frames: int = 0
    same: int = 0
    records: int = 0
    compared: Counter[str] = field(default_factory=Counter)
    agree: Counter[str] = field(default_factory=Counter)
    # Where the first frame parts, or the first record in one that does not.
    first: str = ""

    def take(self, what: str, is_same: bool) -> bool:
        """Counts a field of a record; returns whether it parts."""
        self.compared[what] += 1
        self.agree[what] += is_same
        return not is_same


class Comparing:
    """Holds frames against captured ones, and counts."""

    def __init__(self, night: Night, captured: Dict[Name, str], setting: Setting):
        self.night, self.captured, self.setting = night, captured, setting
        self.has_numbers = any(_NUMBER.search(it.origin) for its in setting.setup.rules.values() for it in its)
        self.found = Agreement()

    def compare(self, sent: Sent, frame: Optional[Frame]) -> List[str]:
        """In what a frame that was sent, or should have been, parts from the captured one."""
        found = self.found
        found.frames += 1
        theirs = Counter(_kind(record) for record in sent.message.records)
        ours = Counter(self._own(record) for record in frame.records if self._is_compared(record)) if frame else Counter()
        lines: List[str] = []
        if frame is None:
            lines.append("parts: nothing is pending here, so no frame is sent")
        elif ours != theirs:
            parts = [f"{word} {_listed(its)}" for word, its in (("without", theirs - ours), ("also with", ours - theirs)) if its]
            lines.append(f"parts: {', and '.join(parts)}")
        else:
            found.same += 1
            lines += self._records(sent, frame)
        if lines and not found.first:
            found.first = f"frame {sent.number} of {sent.node} at {self.night.times.at(sent.time)} {lines[0]}"
        return lines

    def _is_compared(self, record: OwnRecord) -> bool:
        """Whether a record is held against the captured ones: how far a bulk update is goes with all of its states."""
        return record.kind is not BULK_STATUS or not self.night.part.addresses

    def _own(self, record: OwnRecord) -> Kind:
        if record.kind in (CLEAR, BULK_STATUS):
            return _word(record.kind), "" if record.kind is CLEAR else record.about[0]
        if record.about == ("0.0",):
            return _word(record.kind), "of all states"
        return _word(record.kind), self.captured.get(record.name, f"{record.name} of the laboratory")

    def _records(self, sent: Sent, frame: Frame) -> Iterator[str]:
        """Where the records of a frame with the same kinds and states part."""
        own = {self._own(it): it for it in frame.records}
        for record in sent.message.records:
            state = own[_kind(record)].state
            if record.source is not None and record.destination is not None and state is not None:
                parts = [*self._parts(sent.node, record, state)]
                if parts:
                    yield f"parts: {record.name}: {'; '.join(parts)}"

    def _parts(self, node: str, record: Record, state: object) -> Iterator[str]:
        """In what a record parts. Windows and scales count, and are no parting."""
        assert isinstance(state, (Carried, Changes)) and record.source and record.destination
        protocol = self.night.flows[record.name].protocol
        theirs = end_of(protocol, record.source), end_of(protocol, record.destination)
        ours, found = (state.source, state.destination), self.found
        found.records += 1
        has_levels = protocol not in _WITHOUT_LEVELS or any(end.level for end in theirs)
        levels = [f"{one.level}:{other.level}" for one, other in (theirs, ours)]
        if has_levels and found.take(LEVELS, levels[0] == levels[1]):
            yield f"levels {levels[0]} captured, {levels[1]} here"
        its_class = timeout_class(record.timeout)
        if (has_levels or protocol == "icmp") and found.take(CLASS, its_class == state.timeout_class):
            yield f"{its_class} captured, {state.timeout_class} here"
        if protocol == "tcp":
            if found.take(NUMBERS, _spans(theirs) == _spans(ours)):
                yield f"{_spans(theirs)} captured, {_spans(ours)} here"
            found.take(WINDOWS, _windows(theirs) == _windows(ours))
        if isinstance(state, Carried):
            yield from self._keys(record, state)
            if self.setting.has_rules and record.rule is not None:
                yield from self._rule(node, record.rule, state)

    def _keys(self, record: Record, state: Carried) -> Iterator[str]:
        """Where a whole state parts in its flow."""
        flow = record.flow
        theirs = flow.direction, keyed(flow.protocol, flow.wire), keyed(flow.protocol, flow.stack)
        is_same = flow.protocol == state.protocol and theirs == (state.direction, state.wire, state.stack)
        if self.found.take(KEYS, is_same):
            ours = f"{state.direction} {_key(state.wire)} {_key(state.stack)}"
            yield f"{flow.direction} {_key(theirs[1])} {_key(theirs[2])} captured, {ours} here"

    def _rule(self, node: str, number: int, state: Carried) -> Iterator[str]:
        """Where a state parts in its rule. One that is only here, for a translation, is not compared."""
        if state.rule is not None and state.rule < self.setting.added[node]:
            return
        ours = self._number(node, state.rule)
        if self.found.take(RULE, ours == number):
            yield f"rule {number} captured, {'none' if ours is None else f'rule {ours}'} here"

    def _number(self, node: str, number: Optional[int]) -> Optional[int]:
        """The number that pf gives a rule of the setup, as the comment above it says; without such comments its own."""
        rule = self.setting.setup.rule(node, number)
        if rule is None or number is None:
            return None
        found = _NUMBER.search(rule.origin)
        return int(found[1]) if found else None if self.has_numbers else number - self.setting.added[node]


def _kind(record: Record) -> Kind:
    if record.kind is CLEAR:
        return _word(record.kind), ""
    if record.kind is BULK_STATUS:
        return _word(record.kind), str(record.status)
    return _word(record.kind), record.name if is_about_state(record) else "of all states"


def _word(kind: RecordKind) -> str:
    """A kind of records; one that deletes may have the whole state or its name."""
    return SHORT_DELETE.name if kind is DELETE else kind.name


def _listed(kinds: Counter[Kind]) -> str:
    """Records in words, at most a few of them."""
    names = [f"{kind} {name}".strip() for kind, name in sorted(kinds.elements())]
    return ", ".join(names[:4]) + (f" and {counted(len(names) - 4, 'record')} more" if len(names) > 4 else "")


def _key(key: Key) -> str:
    return f"{key.far}, {key.near}"


def _windows(ends: Sequence[End]) -> List[Tuple[int, Optional[int]]]:
    return [(end.window, end.scale) for end in ends]


def _spans(ends: Sequence[End]) -> str:
    return " ".join(f"[{end.lo} + {(end.hi - end.lo) % 2**32}]" for end in ends)
