"""What differs between two pairs, field by field: between before and after an event, or between two branches."""
from __future__ import annotations

from dataclasses import dataclass, replace
from difflib import SequenceMatcher
from typing import Dict, List, Sequence, Tuple

from ..language.names import ALL_STATES, COUNTERS, NODES, Name
from ..language.records import BULK_STATUS, CLEAR, QUEUES
from ..model.frames import Frame
from ..model.pair import Node, Pair
from ..model.states import State
from .records import record_line
from .words import (
    bulk_client,
    bulk_server,
    bulk_status,
    cleared,
    counted,
    flow,
    levels,
    seconds,
    state_fields,
)


@dataclass(frozen=True)
class Difference:
    """A difference: at a node or on the link, in what, of which subject and part. A text is empty if there is nothing."""

    where: str
    what: str
    subject: str
    before: str
    after: str
    part: str = ""

    @property
    def is_new(self) -> bool:
        return not self.before

    @property
    def is_gone(self) -> bool:
        return not self.after

    @property
    def of(self) -> str:
        """What differs, in words: `state 1.1 source level`."""
        return " ".join(it for it in (self.what, self.subject, self.part) if it)

    def __str__(self) -> str:
        if self.is_new:
            return f"{self.where}: {self.of} new: {self.after}"
        if self.is_gone:
            return f"{self.where}: {self.of} gone: {self.before}"
        return f"{self.where}: {self.of}: {self.before} -> {self.after}"


# A subject with its text.
Item = Tuple[str, str]


def _changed(where: str, what: str, before: Dict[str, str], after: Dict[str, str]) -> List[Difference]:
    """What differs between two sets of subjects, each with its text."""
    subjects = [*before, *(it for it in after if it not in before)]
    both = ((subject, before.get(subject, ""), after.get(subject, "")) for subject in subjects)
    return [Difference(where, what, it, old, new) for it, old, new in both if old != new]


def _moved(where: str, what: str, before: Sequence[Item], after: Sequence[Item]) -> List[Difference]:
    """What differs between two lists, whose order counts: an entry that moved is both gone and new."""
    found: List[Difference] = []
    if before == after:
        return found
    for tag, first, end, other_first, other_end in SequenceMatcher(None, before, after, autojunk=False).get_opcodes():
        if tag != "equal":
            found += [Difference(where, what, it, text, "") for it, text in before[first:end]]
            found += [Difference(where, what, it, "", text) for it, text in after[other_first:other_end]]
    return found


# ---- states


def state_differences(where: str, before: State, after: State) -> List[Difference]:
    """What differs between two states of one name, field by field."""
    old, new = state_fields(before), state_fields(after)
    subject = str(before.name)
    return [Difference(where, "state", subject, old[part], new[part], part) for part in old if old[part] != new[part]]


def _state_text(state: State) -> str:
    return f"{flow(state)}  {levels(state)}  {state.timeout_class}"


def _of_states(where: str, before: Node, after: Node) -> List[Difference]:
    found: List[Difference] = []
    for name in sorted({*before.states, *after.states}):
        old, new = before.states.get(name), after.states.get(name)
        if old and new:
            found += state_differences(where, old, new)
        elif old:
            found.append(Difference(where, "state", str(name), _state_text(old), ""))
        elif new:
            found.append(Difference(where, "state", str(name), "", _state_text(new)))
    return found


# ---- nodes


def node_numbers(node: Node) -> Dict[str, str]:
    """What a node has apart from its tables and lists, each with its name."""
    return {
        "clock": seconds(node.clock),
        "boot": str(node.boot),
        "next id": str(node.next_id),
        "next queueing number": str(node.next_number),
        "push": "asked" if node.push else "not asked",
        "bulk server": bulk_server(node.serve),
        "bulk client": bulk_client(node.sync),
    }


def _counters(node: Node) -> Dict[str, str]:
    return {counter.counts: str(node.counters[counter.name]) for counter in COUNTERS}


def _queue(node: Node) -> Dict[str, str]:
    return {str(it.name): f"{QUEUES[it.kind]}, number {it.number}" for it in node.queue}


def _request(name: Name) -> Item:
    return str(name), "asks for all states" if name == ALL_STATES else "asks for the state"


def _held(node: Node) -> List[Item]:
    packets = ((it, f"{it.packet}, " if it.packet else "") for it in node.held)
    return [(str(it.name), f"{packet}since {seconds(it.since)}") for it, packet in packets]


def _of_node(where: str, before: Node, after: Node) -> List[Difference]:
    if before == after:
        return []
    old, new = node_numbers(before), node_numbers(after)
    found = [Difference(where, what, "", old[what], new[what]) for what in old if old[what] != new[what]]
    found += _changed(where, "counter", _counters(before), _counters(after))
    found += _of_states(where, before, after)
    found += _changed(where, "queue", _queue(before), _queue(after))
    found += _moved(where, "request", [_request(ask) for ask in before.asks], [_request(ask) for ask in after.asks])
    statuses, later_statuses = ([("", bulk_status(status)) for status in node.statuses] for node in (before, after))
    found += _moved(where, BULK_STATUS.name, statuses, later_statuses)
    clears, later_clears = ([("", cleared(clear)) for clear in node.clears] for node in (before, after))
    found += _moved(where, CLEAR.name, clears, later_clears)
    return found + _moved(where, "held packet", _held(before), _held(after))


# ---- the link


def _frame_text(frame: Frame) -> str:
    return f"to {frame.to}, {counted(len(frame.data), 'byte')}: {frame.summary}"


def _of_records(before: Frame, after: Frame) -> List[Difference]:
    """The records that differ; if one of the frames cannot be read, only what it is."""
    subject = str(before.ticket)
    if before.broken or after.broken:
        old, new = before.summary, after.summary
        return [Difference("link", "frame", subject, old, new, "content")] if old != new else []
    old_records, new_records = ([(subject, record_line(record)) for record in frame.records] for frame in (before, after))
    moved = _moved("link", "frame", old_records, new_records)
    return [replace(it, part="record") for it in moved]


def _of_frame(before: Frame, after: Frame) -> List[Difference]:
    """What differs between two frames with one ticket; their bytes, if nothing that the bytes say differs."""
    subject = str(before.ticket)
    parts = {
        "receiver": (before.to, after.to),
        "size": (counted(len(before.data), "byte"), counted(len(after.data), "byte")),
        "checksum": (before.checksum or "none", after.checksum or "none"),
    }
    found = [Difference("link", "frame", subject, old, new, part) for part, (old, new) in parts.items() if old != new]
    found += _of_records(before, after)
    return found or [Difference("link", "frame", subject, before.data.hex(), after.data.hex(), "bytes")]


def _of_link(before: Pair, after: Pair) -> List[Difference]:
    numbers = {
        "next ticket": (before.next_ticket, after.next_ticket),
        "next boot": (before.next_boot, after.next_boot),
    }
    found = [Difference("link", what, "", str(old), str(new)) for what, (old, new) in numbers.items() if old != new]
    for ticket in sorted({*before.frames, *after.frames}):
        old, new = before.frames.get(ticket), after.frames.get(ticket)
        if old and new:
            found += _of_frame(old, new) if old != new else []
        elif old:
            found.append(Difference("link", "frame", str(ticket), _frame_text(old), ""))
        elif new:
            found.append(Difference("link", "frame", str(ticket), "", _frame_text(new)))
    return found


def differences(before: Pair, after: Pair) -> List[Difference]:
    """Everything that differs between two pairs: both nodes and the link, but not how many events a branch has."""
    found: List[Difference] = []
    for node in NODES:
        found += _of_node(node, before.nodes[node], after.nodes[node])
    return found + _of_link(before, after)
