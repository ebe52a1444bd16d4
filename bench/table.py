"""The table of costs: a row for each kind of command, with its figures for each number of states."""
from __future__ import annotations

import sys
from typing import Callable, Dict, List, Optional, Sequence, Tuple

from laboratory import Cost
from loads import STATES_OF


def figure(value: float) -> str:
    """About three significant digits."""
    places = 4 if value < 0.0995 else 2 if value < 9.995 else 1 if value < 99.95 else 0
    return f"{value:,.{places}f}"


class Table:
    """What each kind of command took, by the number of states, in the order of measurement."""

    def __init__(self, states: Sequence[int]):
        self.states = states
        self.rows: Dict[Tuple[str, str], Dict[int, Cost]] = {}

    def put(self, load: str, what: str, states: int, cost: Cost) -> None:
        self.rows.setdefault((load, what), {})[states] = cost
        figures = f"{self.each(cost)} µs, {self.all(cost)} s, {self.most(cost)} MB, {self.kept(cost)} bytes kept"
        print(f"bench: {load} at {states:,}: {what}: {cost.commands:,} at {figures}", file=sys.stderr, flush=True)

    def text(self) -> str:
        many = [f"{state:,}" for state in self.states]
        heads = [f"{what} {it}" for what in ("µs a command at", "seconds at", "MB at") for it in many]
        lines = [self.line("Load", "Command", *heads, f"bytes kept at {many[-1]}"), "|---" * (len(heads) + 3) + "|"]
        for (load, what), costs in self.rows.items():
            if load not in STATES_OF:
                cells = [self.cell(show, costs.get(state)) for show in (self.each, self.all, self.most) for state in self.states]
                lines.append(self.line(load, what, *cells, self.cell(self.kept, costs.get(self.states[-1]))))
        return "\n".join(lines + self.alone()) + "\n"

    def alone(self) -> List[str]:
        """The loads with only one number of states, in a table of their own."""
        rows = [
            self.line(load, what, f"{states:,}", self.each(cost), self.most(cost), self.kept(cost))
            for (load, what), costs in self.rows.items()
            if load in STATES_OF
            for states, cost in costs.items()
        ]
        return ["", self.line("Load", "Command", "States", "µs a command", "MB", "bytes kept"), "|---" * 6 + "|", *rows] if rows else []

    @staticmethod
    def line(*cells: str) -> str:
        return f"| {' | '.join(cells)} |"

    @staticmethod
    def cell(show: Callable[[Cost], str], cost: Optional[Cost]) -> str:
        return "–" if cost is None else show(cost)

    @staticmethod
    def each(cost: Cost) -> str:
        return ("> " if cost.is_late else "") + figure(cost.seconds * 1e6 / max(1, cost.commands))

    @staticmethod
    def all(cost: Cost) -> str:
        return ("> " if cost.is_late else "") + figure(cost.seconds)

    @staticmethod
    def most(cost: Cost) -> str:
        return figure(cost.most / 1e6)

    @staticmethod
    def kept(cost: Cost) -> str:
        return f"{max(0, cost.kept) // max(1, cost.commands):,}"
