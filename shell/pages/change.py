"""A branch as pages show it already, and what has changed in it since."""
from __future__ import annotations

from typing import Any, Dict, List, NamedTuple, Optional, Sequence

from ..model.branches import Branch
from .record import Record

Data = Dict[str, Any]


class Shown(NamedTuple):
    """A branch as pages have it: who stepped each event, and its chart."""

    branch: Branch
    names: Sequence[str]
    chart: Data


def change(old: Optional[Shown], new: Shown, record: Record, keep: int) -> Data:
    """The change of a branch whose first moments pages keep; for a new branch, all of it."""
    sheets = new.chart["sheets"]
    chart = {**new.chart, "count": len(sheets), "sheets": _sheets(old.chart["sheets"] if old else [], sheets)}
    its: Data = {"name": record.name, "keep": keep, "undone": record.undone, "moments": record.moments_as_data(keep)}
    its["chart"] = chart
    return its if old else {**its, "opening": record.opening, "notes": list(record.notes.get(0, ()))}


def _sheets(old: List[Data], new: List[Data]) -> Dict[str, Data]:
    """The sheets of a chart that have changed, by their places."""
    return {str(at): sheet for at, sheet in enumerate(new) if at >= len(old) or sheet != old[at]}
