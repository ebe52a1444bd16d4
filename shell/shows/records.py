"""The records of a frame, one a line, as `tcpdump -i pfsync0 -vv` prints them."""
from __future__ import annotations

from ..language.names import level_name
from ..language.records import BULK_STATUS, CLEAR, UPDATE_REQUEST
from ..model.frames import Carried, Changes, Record
from ..model.pair import Cleared
from ..model.states import End
from .words import bulk_status, cleared, flow, levels, near_and_far, request, rule_number, sequence


def _end(protocol: str, end: End) -> str:
    numbers = f" {sequence(end)}" if protocol == "tcp" else ""
    return level_name(protocol, end.level) + numbers


def state_words(state: Carried) -> str:
    """A state that a record carries, after its name."""
    parts = [f"{flow(state)}  {levels(state)}"]
    if state.protocol == "tcp":
        parts.append("  ".join(map(sequence, near_and_far(state))))
    parts.append(f"{state.remaining} s left of {state.timeout_class}, {rule_number(state.rule)}")
    if state.asks_for_acknowledgement:
        parts[-1] += ", asks for an acknowledgement"
    return "  ".join(parts)


def changes_words(changes: Changes) -> str:
    """What a short update carries, after the name of its state."""
    # A short update has no protocol; the levels are TCP's if the class is.
    protocol = changes.timeout_class.partition(".")[0]
    ends = f"source {_end(protocol, changes.source)}, destination {_end(protocol, changes.destination)}"
    return f"{ends}  {changes.remaining} s left of {changes.timeout_class}"


def record_line(record: Record) -> str:
    """A record after its kind."""
    if isinstance(record.state, Carried):
        said = f"{record.name}  {state_words(record.state)}"
    elif isinstance(record.state, Changes):
        said = f"{record.name}  {changes_words(record.state)}"
    elif record.kind is CLEAR:
        said = cleared(Cleared(*map(int, record.about)))
    elif record.kind is BULK_STATUS:
        said = bulk_status(int(record.about[0]))
    else:
        said = request(record.name) if record.kind is UPDATE_REQUEST else str(record.name)
    return f"{record.kind.name} {said}"
