"""What is drawn on a sheet: the backgrounds of rows, the lanes, the frames, and what happens at the lanes."""
from __future__ import annotations

from typing import Iterable, Sequence

from ..language.events import DELIVER, LOSE, RESTART
from ..model.flights import Flight
from .elements import BAD, BAND, FAINT, FRAME, INK, NOTE, PAPER, Point, Sheet, Span
from .geometry import OUTWARDS
from .layout import HEAD, NOTE_EDGE, NOTE_WIDTH, Layout
from .marks import Mark
from .rows import Row


class Painter:
    """Draws some rows of a layout on a sheet that has room for them."""

    def __init__(self, layout: Layout, sheet: Sheet, places: range):
        self.layout, self.sheet, self.places = layout, sheet, places
        self.chart, self.measures = layout.chart, layout.geometry

    # ---- backgrounds and lanes

    def bands(self) -> None:
        """The backgrounds of every second row."""
        for place in self.places:
            if place % 2 == 0:
                self.sheet.band(self.layout.tops[place], self.layout.bottoms[place], self.measures.width, BAND)

    def lanes(self, top: float) -> None:
        """The lanes, from a height on; a restart breaks one."""
        for node, x in self.measures.lanes.items():
            begin = top
            for place in self.places:
                if any(mark.kind == RESTART.word and mark.node == node for mark in self.chart.rows[place].marks):
                    y = self.layout.middles[place]
                    self.sheet.line([(x, begin), (x, y - 5)], INK, 3)
                    for bar in (y - 5, y + 5):
                        self.sheet.line([(x - 13, bar), (x + 13, bar)], INK, 3)
                    begin = y + 5
            self.sheet.line([(x, begin), (x, self.layout.end)], INK, 3)

    def heads(self, top: float, place: int) -> None:
        """The heads of the lanes at a height, above the row of a place."""
        boots = self.chart.heads(place)
        for node, x in self.measures.lanes.items():
            self.sheet.box(x, top, (124, HEAD), INK)
            words = [Span(f"node {node}", INK, True), Span(boots[node], FAINT)]
            self.sheet.text((x, top + 22), words, self.measures.size, "middle")

    def contents(self, flights: Iterable[Flight]) -> None:
        """The frames that cross the sheet, and all that its rows have."""
        for flight in flights:
            self._flight(flight)
        for place in self.places:
            self._row(place, self.chart.rows[place])
        if self.places.start == 0:
            self._above(0)
            self._said(self.measures.top, self.layout.said_above)
        for place in self.places:
            self._above(place + 1)
        if self.places.stop == len(self.chart.rows):
            self._said(self.layout.end + 10, self.layout.said_below)

    # ---- frames

    def _flight(self, flight: Flight) -> None:
        points, way = self.layout.ways[flight.ticket], -OUTWARDS[flight.source]
        tone = BAD if flight.is_lost else FRAME
        dash = "9 5" if flight.is_lost else "" if flight.is_delivered else "2 5"
        self.sheet.line(points, tone, 2, dash)
        if flight.origin is not None and self.chart.sent(flight) is not None:
            self._leader(flight.source, points[0], NOTE)
        for cut in (it for it in flight.cuts if it.number in self.chart.places):
            at = self.layout.at(flight, self.chart.places[cut.number])
            self._leader(flight.source, at, BAD)
            self.sheet.line([(at[0] - 7, at[1] + 6), (at[0] + 7, at[1] - 6)], BAD, 3)
        if self.chart.sent(flight) is None and self.sheet.holds(points[0][1]):
            self.sheet.circle(points[0], 5, PAPER, tone)
        x, y = points[-1]
        if not self.sheet.holds(y):
            return
        if self.chart.ended(flight) is None:
            self.sheet.circle((x, y), 5, PAPER, tone)
        elif flight.is_lost:
            self.sheet.cross((x, y), BAD)
        else:
            self.sheet.head((x - 2 * way, y), way, FRAME)

    def _leader(self, node: str, at: Point, tone: str) -> None:
        """A thin line from the words next to a lane to the place on a frame's way that they are about."""
        if self.sheet.holds(at[1]):
            self.sheet.line([(self.measures.lanes[node] - OUTWARDS[node] * 12, at[1]), at], tone, 1, "1 3")
            self.sheet.circle(at, 4, tone)

    def _said(self, top: float, lines: Sequence[Sequence[Span]]) -> None:
        """The words about frames that enter or leave."""
        for line, spans in enumerate(lines):
            y = top + 14 + self.measures.leading * line
            self.sheet.text((self.measures.middle, y), spans, self.measures.size, "middle")

    # ---- rows

    def _row(self, place: int, row: Row) -> None:
        y, size = self.layout.middles[place], self.measures.size
        self.sheet.text((self.measures.margin, y + 4), [Span(row.numbers("–"), FAINT)], self.measures.small)
        for mark in row.marks:
            self._mark(mark, y, self.layout.beside[place, mark.node])
        if row.ticket is None:
            return
        flight = self.chart.flights[row.ticket]
        if flight.is_lost and self.chart.ended(flight) == place:
            spans = [Span(f"#{flight.ticket}", FRAME, True)] if row.kind == LOSE.word else []
            x, anchor = self.measures.inner(flight.to) - OUTWARDS[flight.source] * 2, "start" if flight.source == "a" else "end"
            self.sheet.text((x, y + 5), [*spans, Span("lost", BAD, True)], size, anchor)
        node = flight.to if row.kind == DELIVER.word else flight.source
        x, anchor = self.measures.lanes[node] - OUTWARDS[node] * 12, "start" if node == "a" else "end"
        for line, words in enumerate(reversed(self.layout.labels[place])):
            if words:
                self.sheet.text((x, y - 7 - self.measures.leading * line), words, size, anchor)

    # ---- above a row

    def _above(self, place: int) -> None:
        if place in self.layout.forks:
            self._forks(*self.layout.forks[place])
        if place in self.layout.heads:
            self.heads(self.layout.heads[place], place)
        if place in self.layout.notes:
            self._note(*self.layout.notes[place])

    def _forks(self, top: float, lines: Sequence[Sequence[Span]]) -> None:
        """The names of the branches that begin here, and a line across."""
        for line, spans in enumerate(lines):
            self.sheet.text((self.measures.margin, top + self.measures.leading * (line + 0.8)), spans, self.measures.small)
        y, right = top + self.measures.leading / 2 + 2, self.measures.width - self.measures.margin
        self.sheet.line([(self.measures.lanes["a"] - 12, y), (right, y)], NOTE, 1, "1 4")

    def _note(self, top: float, lines: Sequence[Sequence[Span]]) -> None:
        """A paragraph of the story, across the lanes."""
        height = self.measures.leading * len(lines) + 2 * NOTE_EDGE - 4
        self.sheet.box(self.measures.middle, top, (NOTE_WIDTH, height), FAINT, 1)
        x, first = self.measures.middle - NOTE_WIDTH / 2 + NOTE_EDGE, top + NOTE_EDGE + 11
        for line, spans in enumerate(lines):
            if spans:
                self.sheet.text((x, first + self.measures.leading * line), spans, self.measures.size)

    # ---- at a lane

    def _mark(self, mark: Mark, y: float, lines: Sequence[Sequence[Span]]) -> None:
        lane, way = self.measures.lanes[mark.node], OUTWARDS[mark.node]
        if mark.is_packet:
            self._packet(mark, y)
        elif mark.kind not in (DELIVER.word, RESTART.word):
            self.sheet.circle((lane, y), 5, PAPER, INK)
        x, anchor = lane + way * self.layout.gutter(mark), "end" if mark.node == "a" else "start"
        first = y + 5 - self.measures.leading * (len(lines) - 1) / 2
        for line, spans in enumerate(lines):
            self.sheet.text((x, first + self.measures.leading * line), spans, self.measures.size, anchor)

    def _packet(self, mark: Mark, y: float) -> None:
        """The arrow of a packet, to its lane or from it; it ends halfway if the packet is dropped or held."""
        lane, way, tone = self.measures.lanes[mark.node], OUTWARDS[mark.node], mark.tone or INK
        near, far = lane + way * 4, lane + way * (self.measures.gutter - 8)
        start, end = (near, far) if mark.kind == "out" else (far, near)
        middle = (start + end) / 2
        self.sheet.line([(start, y), (end if mark.tone == "good" else middle, y)], tone, 2)
        if mark.tone == "bad":
            self.sheet.cross((middle, y), BAD)
        elif mark.tone == "note":
            self._pause(middle, y)
        else:
            self.sheet.head((end, y), way if mark.kind == "out" else -way, tone)

    def _pause(self, x: float, y: float) -> None:
        """Two bars: the packet waits."""
        for bar in (x - 4, x + 4):
            self.sheet.line([(bar, y - 7), (bar, y + 7)], NOTE, 4)
