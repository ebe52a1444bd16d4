"""Times, names, flows and records of captures in words: those of the laboratory, with the names that pfctl(8) prints."""
from __future__ import annotations

from datetime import datetime
from ipaddress import IPv6Address
from typing import Iterable, List, Optional, Sequence

from ..language.names import Name
from ..language.packets import Key
from ..language.records import BULK_STATUS, CLEAR, SHORT_UPDATE
from ..language.setups import CLASSES
from ..model.frames import Carried, Changes, kinds_counted
from ..model.states import End, Flow
from ..shows.records import changes_words, state_words
from ..shows.words import bulk_status, flow
from .decoding import Peer, Record, flow_of
from .files import NANOSECONDS

OTHER = {"a": "b", "b": "a"}
UNKNOWN_FLOW = "(its flow is not known here)"
_NO_END = End(0, None, 0, 0, 0)
_NO_NAME = Name(0, 0)
_NOTHING = Peer(0, 0, 0, 0, 0, None)
_LAST_TIME = 253402214400


class Times:
    """Prints times in the zone of this machine, with their days where there are several."""

    def __init__(self, first: int, last: int):
        self.first = _local(first).astimezone()
        self._has_days = self.first.date() != _local(last).date()

    @property
    def zone(self) -> str:
        return self.first.tzname() or "local time"

    def at(self, time: int) -> str:
        """A time to the microsecond."""
        form = "%Y-%m-%d %H:%M:%S" if self._has_days else "%H:%M:%S"
        return f"{_local(time).strftime(form)}.{time % NANOSECONDS // 1000:06}"

    def to_second(self, time: int) -> str:
        """A time to the second."""
        return self.at(time).rpartition(".")[0]


def _local(time: int) -> datetime:
    """A time in the zone of this machine; one that no clock shows is the first or the last one that it can."""
    return datetime.fromtimestamp(min(max(time // NANOSECONDS, 0), _LAST_TIME))


def lasting(nanoseconds: int) -> str:
    """How long something took."""
    if nanoseconds < NANOSECONDS:
        return f"{nanoseconds / 1e6:.3f} ms"
    return f"{nanoseconds / 1e9:,.3f} s"


def summary(records: Iterable[Record]) -> str:
    """What a frame carries: `2 inserts, 1 bulk status`."""
    return kinds_counted(record.kind for record in records)


def some(words: Sequence[str], number: Optional[int] = None, most: int = 3) -> str:
    """The first of some words, and how many more there are."""
    rest = (len(words) if number is None else number) - len(words[:most])
    return ", ".join(words[:most]) + (f" and {rest} more" if rest > 0 else "")


# ---- flows


def flow_words(keys: bytes) -> str:
    """A flow as pfctl prints it."""
    its = flow_of(keys)
    return flow(Flow(_NO_NAME, its.protocol, its.direction, _short(its.wire), _short(its.stack), _NO_END, _NO_END, "-"))


def _short(key: Key) -> Key:
    return Key(_compressed(key.far), _compressed(key.near))


def _compressed(end: str) -> str:
    """An end with its IPv6 address as it is usually written."""
    if not end.startswith("["):
        return end
    address, _, port = end[1:].rpartition("]")
    return f"[{IPv6Address(address)}]{port}"


# ---- records


def as_end(peer: Optional[Peer]) -> End:
    """An end of a record as the laboratory has it."""
    its = peer or _NOTHING
    return End(its.level, its.scale, its.window, its.lo, its.hi)


def timeout_class(number: int) -> str:
    return CLASSES[number].word if number < len(CLASSES) else f"class {number}"


def as_carried(record: Record) -> Carried:
    """A whole state as the laboratory's records carry it, without its name."""
    its, ends = record.flow, (as_end(record.source), as_end(record.destination))
    keys = _short(its.wire), _short(its.stack)
    state = (its.protocol, its.direction, *keys, *ends, timeout_class(record.timeout))
    return Carried(_NO_NAME, *state, record.remaining, record.rule, record.asks_for_acknowledgement)


def record_words(record: Record, keys: Optional[bytes]) -> str:
    """A record, with the flow that its state is known to have."""
    kind = record.kind
    if record.is_whole:
        said = f"{record.name}  {state_words(as_carried(record))}"
    elif kind is CLEAR:
        said = cleared(record)
    elif kind is BULK_STATUS:
        said = bulk_status(record.status)
    elif record.asks_for_all:
        said = "for all states"
    else:
        said = f"{record.name}  {flow_words(keys) if keys else UNKNOWN_FLOW}"
    if kind is SHORT_UPDATE:
        ends = as_end(record.source), as_end(record.destination)
        said += f"  {changes_words(Changes(*ends, timeout_class(record.timeout), record.remaining))}"
    return f"{kind.name} {said}"


def cleared(record: Record) -> str:
    """What a clear is about."""
    return f"of all states made by {record.creator:08x}" + (f" on {record.interface}" if record.interface else "")


def listed(lines: List[str], number: int, noun: str, is_all: bool) -> List[str]:
    """Lines, and how many more there are."""
    rest = number - len(lines)
    return lines + ([f"  and {rest:,} more {noun}; --all lists them"] if rest > 0 and not is_all else [])
