"""What a chart has: rows with marks at the lanes, and the frames on their way between the lanes."""
from __future__ import annotations

import re
from dataclasses import dataclass, field
from typing import Callable, Dict, List, Optional, Sequence, Tuple

from ..language.events import CUT, FLUSH, REPEAT
from ..model.flights import Flight
from ..shows.words import counted
from .contents import record_words
from .marks import Mark
from .windows import Window


@dataclass(frozen=True)
class Row:
    """One event, or a few that belong together; and the frame that begins, changes or ends in it."""

    first: int
    last: int
    kind: str
    marks: Tuple[Mark, ...] = ()
    ticket: Optional[int] = None

    @property
    def times(self) -> int:
        """How many events in it say the same."""
        return self.last - self.first + 1 if self.ticket is None and len(self.marks) == 1 else 1

    def numbers(self, dash: str) -> str:
        """The numbers of its events."""
        return f"{self.first}{dash}{self.last}" if self.last > self.first else str(self.first)


@dataclass
class Chart:
    """A branch to be drawn, or a part of it."""

    branch: str
    events: int
    undone: int
    window: Window
    # Which rules are the kernel's; nothing where all are the profile's.
    by: str = ""
    rows: List[Row] = field(default_factory=list)
    # For each event the place of its row, from 0 on.
    places: Dict[int, int] = field(default_factory=dict)
    flights: Dict[int, Flight] = field(default_factory=dict)
    # The boots of the nodes before the first row; and by the places of restarts, which node begins which boot there.
    boots: Dict[str, int] = field(default_factory=lambda: {"a": 1, "b": 2})
    restarts: Dict[int, Tuple[str, int]] = field(default_factory=dict)
    # What is above the row of a place, or below the last one: paragraphs, and names of branches that begin there.
    notes: Dict[int, List[str]] = field(default_factory=dict)
    forks: Dict[int, List[str]] = field(default_factory=dict)

    def sent(self, flight: Flight) -> Optional[int]:
        """The place of the row where a frame is sent, if that is drawn."""
        return self.places.get(flight.sent.number)

    def ended(self, flight: Flight) -> Optional[int]:
        """The place of the row where a frame's way ends, if it does and that is drawn."""
        return self.places.get(flight.ended.number) if flight.ended else None

    @property
    def entering(self) -> List[Flight]:
        """The frames that were sent before the first event."""
        return [flight for flight in self.flights.values() if self.sent(flight) is None]

    @property
    def leaving(self) -> List[Flight]:
        """The frames that do not end in what is drawn."""
        return [flight for flight in self.flights.values() if self.ended(flight) is None]

    @property
    def sent_before(self) -> str:
        """The words for the frames that enter."""
        return f"sent before event {self.window.first}:"

    @property
    def left(self) -> List[Tuple[str, List[Flight]]]:
        """The words for the frames that leave, and those frames."""
        parts = (("still in flight:", False), (f"under way after event {self.window.last}:", True))
        said = [(words, [it for it in self.leaving if bool(it.ended) is has_ended]) for words, has_ended in parts]
        return [it for it in said if it[1]]

    def heads(self, place: int) -> Dict[str, str]:
        """The boots of the nodes before the row of a place, in words."""
        later = dict(boot for at, boot in self.restarts.items() if at < place)
        return {node: f"boot {later.get(node, boot)}" for node, boot in self.boots.items()}

    def frame_words(self, row: Row, flight: Flight) -> Tuple[str, Tuple[str, ...]]:
        """The words at the link for a frame in a row: which frame it is, and what it has or what happens to it."""
        frame = f"#{flight.ticket}"
        if row.kind == FLUSH.word:
            records = record_words(flight.frame.records)
            return f"{frame}:", tuple(f"{record}{',' * (record != records[-1])}" for record in records)
        if row.kind == REPEAT.word:
            return f"{frame}:", (f"copy of #{flight.origin}",)
        if row.kind == CUT.word:
            return f"{frame}:", (f"cut to {next(it.outcome[1] for it in flight.cuts if it.number == row.first)} bytes",)
        return frame, ()

    @property
    def heading(self) -> str:
        first, last, flow = self.window
        is_whole = (first, last) == (1, self.events)
        events = counted(self.events, "event") if is_whole else f"{_span(first, last or first)} of {self.events}"
        about = f", what is about {flow}" if flow else ""
        undone = f", {self.undone} undone and not drawn" if self.undone else ""
        # Frames are named by their tickets alone: 80 columns have no room for the word.
        legend = "; #N is frame N" if self.flights else ""
        by = f", {self.by}" if self.by else ""
        return f"{self.branch}, {events}{about}{by}{undone}{legend}"


def _span(first: int, last: int) -> str:
    return f"event {first}" if first == last else f"events {first} to {last}"


def begins_here(names: Sequence[str]) -> Tuple[str, List[str], str]:
    """The words for branches that begin at a place, in three parts: the names are the second."""
    named = [f"{name}{',' * (name != names[-1])}" for name in names]
    return ("branch", named, "begins here") if len(names) == 1 else ("branches", named, "begin here")


def broken(text: str, fits: Callable[[str], bool]) -> List[str]:
    """A text in parts that fit, broken at spaces and after colons."""
    parts: List[str] = [""]
    for word in re.findall(r"[^ :]*[ :]|[^ :]+", text):
        if parts[-1] and not fits((parts[-1] + word).rstrip()):
            parts.append("")
        parts[-1] += word
    return [part.strip() for part in parts]
