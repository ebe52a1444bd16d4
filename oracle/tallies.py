"""Counts of what was seen."""
from __future__ import annotations

from typing import Counter, Tuple


class Seen(Counter[Tuple[str, str]]):
    """How often each kind of event, command or line had each result."""


def show(seen: Seen) -> None:
    for kind in dict.fromkeys(kind for kind, _ in seen):
        print(f"{kind}:", ", ".join(f"{many} {how}" for (it, how), many in sorted(seen.items()) if it == kind))
