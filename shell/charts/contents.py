"""What a chart says about frames: their records in words, and what deliveries did besides what their outcomes say."""
from __future__ import annotations

from typing import List, Sequence, Tuple

from ..language.names import ALL_STATES
from ..language.records import BULK_STATUS, CLEAR, INSERT_ACK
from ..model.explanations import TakenRecord
from ..model.frames import Carried, Record
from ..shows.words import bulk_status, counted

# A space where lines are not broken.
KEPT = "\u00a0"


def besides(records: Sequence[TakenRecord]) -> str:
    """What a delivery did besides taking all records."""
    bad, stale = sum(record.is_bad for record in records), sum(bool(record.stale) for record in records)
    freed = sum(record.fate[0] == "acknowledged" for record in records)
    asked = [record.about[0] for record in records if record.fate[0] == "asked"]
    counts = ((bad, "bad"), (stale, "stale"), (freed, "held released"))
    parts = [f"{number} {words}" for number, words in counts if number]
    return ", ".join(parts + ([f"asks for {_names(asked)}"] if asked else []))


def record_words(records: Sequence[Record]) -> Tuple[str, ...]:
    """The records of a frame in words; consecutive records of one kind together."""
    groups: List[List[Record]] = []
    for record in records:
        if groups and groups[-1][0].kind is record.kind and record.kind not in (BULK_STATUS, CLEAR):
            groups[-1].append(record)
        else:
            groups.append([record])
    return tuple(_group_words(group) for group in groups)


def _group_words(records: Sequence[Record]) -> str:
    kind, about = records[0].kind, records[0].about
    if kind is BULK_STATUS:
        return f"bulk {bulk_status(int(about[0]))}"
    if kind is CLEAR:
        return f"clear boot {about[0]} up to {'.'.join(about)}"
    wanted = all(isinstance(record.state, Carried) and record.state.asks_for_acknowledgement for record in records)
    names = [str(record.name) for record in records]
    # (tcpdump(8) has a shorter word than the message's name)
    what = "insert ack" if kind is INSERT_ACK else kind.name
    if len(records) == 1:
        return f"{what} {'0.0 (all)' if names == [str(ALL_STATES)] else names[0]}{f' (wants{KEPT}ack)' if wanted else ''}"
    said = f"{what}s {', '.join(names)}" if len(records) == 2 else f"{len(records)} {what}s"
    return f"{said}{f' (want{KEPT}ack)' if wanted else ''}"


def _names(names: Sequence[str]) -> str:
    return ", ".join(names) if len(names) <= 3 else counted(len(names), "state")
