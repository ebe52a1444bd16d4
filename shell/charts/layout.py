"""Where the rows of a chart lie in a drawing, what is in them, and the lines of its frames."""
from __future__ import annotations

from itertools import accumulate
from typing import Dict, List, Optional, Sequence, Tuple

from ..language.events import CUT, DELIVER, LOSE, REPEAT
from ..model.flights import Flight
from .elements import BAD, BOLDER, FRAME, INK, NOTE, Point, Span, in_lines, text_width
from .geometry import OUTWARDS, Geometry
from .marks import Mark
from .rows import Chart, Row, begins_here

# What happens to a frame on its way.
FRAME_TONES = {REPEAT.word: NOTE, CUT.word: BAD}
# The room above the first row and below the last one, if frames are under way there.
UNDER_WAY = 30
# How many rows there are before the heads of the lanes are repeated; how high heads are, and how far they are from a row.
ROWS, HEAD, BELOW_HEAD = 40, 34, 12
# The width of a note, and the distance from its edges to its words.
NOTE_WIDTH, NOTE_EDGE = 800, 12


class Layout:
    """A chart laid out to the measures of a drawing."""

    def __init__(self, chart: Chart, geometry: Geometry):
        self.chart, self.geometry = chart, geometry
        self.beside: Dict[Tuple[int, str], List[List[Span]]] = {}
        self.labels: Dict[int, List[List[Span]]] = {}
        self.tops: List[float] = []
        self.middles: List[float] = []
        self.bottoms: List[float] = []
        self.bottom = float(geometry.top)
        # What is above the row of a place: branches that begin there and notes, each with its top; and the tops of heads.
        self.forks: Dict[int, Tuple[float, List[List[Span]]]] = {}
        self.notes: Dict[int, Tuple[float, List[List[Span]]]] = {}
        self.heads: Dict[int, float] = {}
        self.entering, self.leaving = _ordered(chart.entering), _ordered(chart.leaving)
        self.said_above = self._said([(chart.sent_before, self.entering)])
        # Where the lines of frames that enter begin.
        self.begin = self.bottom + geometry.leading * len(self.said_above) + 10
        self.bottom = self.begin + UNDER_WAY if self.entering else self.bottom
        self._rows()
        self.end = self.bottom + UNDER_WAY if self.leaving else self.bottom
        self.said_below = self._said([(words, _ordered(flights)) for words, flights in chart.left])
        self.height = self.end + (16 + geometry.leading * len(self.said_below) if self.leaving else 14)
        self.ways: Dict[int, List[Point]] = {}
        self._entries, self._exits = self._shares(self.entering), self._shares(self.leaving)
        for flight in chart.flights.values():
            self.ways[flight.ticket] = self._way(flight)

    def _rows(self) -> None:
        crossed = self._crossed()
        for place, row in enumerate(self.chart.rows):
            self._above(place)
            self._place(place, row, crossed[place])
        self._above(len(self.chart.rows))

    # ---- rows

    def _place(self, place: int, row: Row, is_crossed: bool) -> None:
        measures = self.geometry
        for mark in row.marks:
            room = measures.side(mark.node) - self.gutter(mark) - (self._numbers_room(row) if mark.node == "a" else 0)
            self.beside[place, mark.node] = in_lines(_mark_spans(row, mark), room, measures.size)
        above, below = 15.0, 13.0
        if row.ticket is not None:
            self.labels[place] = self._label(place, row, is_crossed)
            above = 12.0 + measures.leading * len(self.labels[place])
        for mark in row.marks:
            half = measures.leading * len(self.beside[place, mark.node]) / 2 + 5
            above, below = max(above, half), max(below, half)
        self.tops.append(self.bottom)
        self.middles.append(self.bottom + above)
        self.bottom += above + below
        self.bottoms.append(self.bottom)

    def _numbers_room(self, row: Row) -> float:
        """Room for the numbers of a row's events, at the left."""
        widest = f"{row.numbers('–')}–" if self.geometry.is_page else f"{self.chart.events}–{self.chart.events}"
        return text_width(widest, self.geometry.small)

    def gutter(self, mark: Mark) -> int:
        """The distance between a lane and the words of a mark."""
        return self.geometry.gutter if mark.is_packet else self.geometry.beside

    def _label(self, place: int, row: Row, is_crossed: bool) -> List[List[Span]]:
        """The words within the link: for the frame where it is sent, and for what happens to it on its way."""
        if row.kind == LOSE.word:
            return [[]]
        flight, size = self.chart.flights[row.ticket or 0], self.geometry.size
        frame, words = self.chart.frame_words(row, flight)
        room = self.geometry.zone - 16 if is_crossed else self.geometry.lost if flight.is_lost else self.geometry.label
        room -= text_width(f"{frame} ", size) * BOLDER
        lines = in_lines([Span(word, FRAME_TONES.get(row.kind, FRAME)) for word in words], room, size)
        return [[Span(frame, FRAME, True), *(lines[0] if lines else [])], *lines[1:]]

    def _above(self, place: int) -> None:
        """Makes room above a row for what is there."""
        measures, forks, notes = self.geometry, self.chart.forks.get(place), self.chart.notes.get(place)
        if forks:
            before, names, after = begins_here(forks)
            spans = [Span(before, NOTE), *(Span(name, NOTE, True) for name in names), Span(after, NOTE)]
            self.forks[place] = self.bottom, in_lines(spans, measures.side("a") - 20, measures.small)
            self.bottom += measures.leading * len(self.forks[place][1]) + 4
        if measures.is_page:
            return
        if place and place % ROWS == 0 and place < len(self.chart.rows):
            self.heads[place] = self.bottom + BELOW_HEAD
            self.bottom += HEAD + 2 * BELOW_HEAD
        if notes:
            lines: List[List[Span]] = []
            for paragraph in notes:
                lines += [[]] * bool(lines)
                lines += in_lines([Span(paragraph, INK)], NOTE_WIDTH - 2 * NOTE_EDGE, measures.size)
            self.notes[place] = self.bottom + 6, lines
            self.bottom += measures.leading * len(lines) + 2 * NOTE_EDGE + 8

    def _crossed(self) -> List[bool]:
        """For each row, whether it has a sloped line, or is crossed by one."""
        changes = [0] * (len(self.chart.rows) + 1)
        for flight in self.chart.flights.values():
            sent, ended = self.chart.sent(flight), self.chart.ended(flight)
            if sent is None or sent != ended:
                changes[sent or 0] += 1
                changes[len(self.chart.rows) if ended is None else ended + 1] -= 1
        return [it > 0 for it in accumulate(changes)]

    # ---- frames

    def _said(self, parts: Sequence[Tuple[str, Sequence[Flight]]]) -> List[List[Span]]:
        """The words about frames that enter or leave."""
        lines: List[List[Span]] = []
        for words, flights in parts:
            tickets = ", ".join(f"#{flight.ticket}" for flight in flights)
            room = self.geometry.lanes["b"] - self.geometry.lanes["a"]
            lines += in_lines([Span(words, FRAME), Span(tickets, FRAME, True)], room, self.geometry.size) if tickets else []
        return lines

    def _shares(self, flights: Sequence[Flight]) -> Dict[int, float]:
        """Where frames enter or leave, by ticket."""
        left, right = self.geometry.inner("a"), self.geometry.inner("b")
        return {it.ticket: left + at / (len(flights) + 1) * (right - left) for at, it in enumerate(flights, 1)}

    def _way(self, flight: Flight) -> List[Point]:
        """The line of a frame: sloped only in the middle, so it meets no words."""
        lanes, inner, way = self.geometry.lanes, self.geometry.inner, -OUTWARDS[flight.source]
        sent, ended = self.chart.sent(flight), self.chart.ended(flight)
        points = self._start(flight, sent)
        if ended is None:
            return [*points, (self._exits[flight.ticket], self.end)]
        end_y = self.middles[ended]
        if ended == sent:
            return [points[0], (lanes[flight.to] if flight.is_delivered else inner(flight.to) - way * 16, end_y)]
        if flight.is_lost:
            return [*points, (inner(flight.to) - way * 16, end_y)]
        return [*points, (inner(flight.to), end_y), (lanes[flight.to], end_y)]

    def _start(self, flight: Flight, sent: Optional[int]) -> List[Point]:
        """How the line of a frame begins: from above, on the line of the frame that it is a copy of, or at its sender."""
        if sent is None:
            return [(self._entries[flight.ticket], self.begin)]
        if flight.origin is not None:
            return [self.at(self.chart.flights[flight.origin], sent)]
        start = self.middles[sent]
        return [(self.geometry.lanes[flight.source], start), (self.geometry.inner(flight.source), start)]

    def at(self, flight: Flight, place: int) -> Point:
        """Where a frame that is under way is at a row. (Its way is known, since it was sent before its copies.)"""
        points, y = self.ways[flight.ticket], self.middles[place]
        for (x1, y1), (x2, y2) in zip(points, points[1:]):
            if y1 <= y <= y2 and y1 != y2:
                return x1 + (x2 - x1) * (y - y1) / (y2 - y1), y
        return points[-1]


def _ordered(flights: Sequence[Flight]) -> List[Flight]:
    """Frames under way, from lane a to lane b: the older frames of a node are farther along, and those from a are to the left of
    those from b, so that few of their lines cross."""
    return [flight for flight in reversed(flights) if flight.source == "a"] + [flight for flight in flights if flight.source == "b"]


def _mark_spans(row: Row, mark: Mark) -> List[Span]:
    """The words next to a lane."""
    spans = [Span(word.replace("->", "→"), INK) for word in mark.words]
    tone = mark.tone or INK
    if mark.kind == DELIVER.word and len(spans) > 1:
        spans[-1] = spans[-1]._replace(tone=tone)
    spans += [Span(mark.fate, tone, True)] if mark.fate else []
    return [*spans, Span(f"x{row.times}", INK, True)] if row.times > 1 else spans
