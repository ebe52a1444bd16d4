"""`why`: the reason for what the program replied, and of an event what other rules than those of the setup would have made of it."""
from __future__ import annotations

from typing import List, Optional

from ..console.colours import Paint
from ..link.laboratory import Laboratory
from ..model.branches import Branch
from ..reasons.explained import explained_ahead, explained_event, explained_last
from .dependence import explain_dependence


def why_event(lab: Laboratory, branch: Branch, number: int, paint: Paint) -> List[str]:
    """Why an event of a branch, by its place from 1 on, had its outcome."""
    return explained_event(lab, branch, number, paint, explain_dependence)


def why_ahead(lab: Laboratory, name: str, event: str, paint: Paint) -> List[str]:
    """What would come of an event where a branch stands, and why."""
    return explained_ahead(lab, name, event, paint, explain_dependence)


def why_last(lab: Laboratory, paint: Paint, columns: Optional[int] = None) -> List[str]:
    """The reason for the newest reply; a faulty line is shown in rows of at most this many columns."""
    return explained_last(lab, paint, columns, explain_dependence)
