"""A chart as a picture of its own, with the same bytes for the same chart, and as the drawing within a page, in sheets."""
from __future__ import annotations

from typing import Dict, List, NamedTuple, Sequence, Tuple

from ..console.characters import legible
from ..model.flights import Flight
from .elements import FAINT, INK, PAPER, Element, Point, Sheet, Span
from .geometry import PAGE, PICTURE
from .layout import BELOW_HEAD, HEAD, Layout
from .painter import Painter
from .rows import Chart
from .svg import svg

# How many rows a sheet of a page has at most.
ROWS = 100


class PageSheet(NamedTuple):
    """A piece of a tall drawing. Its rows are [first event, last event, top, bottom], and its ways are the lines of frames by
    ticket, as far as they cross it, source end first. All heights are counted from its own top."""

    top: float
    height: float
    rows: List[Tuple[int, int, float, float]]
    elements: List[Element]
    ways: List[Tuple[int, List[Point]]]

    def plain(self) -> Dict[str, object]:
        """The sheet as lists and dictionaries, with coordinates to a tenth."""
        return {
            "top": round(self.top, 1),
            "height": round(self.height, 1),
            "rows": [[first, last, round(top, 1), round(bottom, 1)] for first, last, top, bottom in self.rows],
            "elements": [element.plain() for element in self.elements],
            "ways": [[ticket, [[round(x, 1), round(y, 1)] for x, y in points]] for ticket, points in self.ways],
        }


class PageChart(NamedTuple):
    """A chart for a page: its width and height, where its lanes are and what is at their heads, and its sheets from the top down."""

    width: int
    height: float
    lanes: Dict[str, float]
    heads: Dict[str, str]
    sheets: List[PageSheet]

    def plain(self) -> Dict[str, object]:
        """The chart as lists and dictionaries, for JSON."""
        return _plain(self, [sheet.plain() for sheet in self.sheets])


def _plain(page: PageChart, its_sheets: Sequence[Dict[str, object]]) -> Dict[str, object]:
    height = round(page.height, 1)
    return {"width": page.width, "height": height, "lanes": page.lanes, "heads": page.heads, "sheets": [*its_sheets]}


def draw(chart: Chart, title: str) -> str:
    """The chart as an SVG of its own."""
    sheet = picture(chart, legible(title))
    return svg(sheet.elements, PICTURE.width, sheet.bottom, legible(title))


def picture(chart: Chart, title: str) -> Sheet:
    """The chart with a title and the heads of its lanes."""
    layout = Layout(chart, PICTURE)
    sheet = Sheet(0, layout.height)
    sheet.add("rect", {"width": PICTURE.width, "height": layout.height, "fill": PAPER})
    painter = Painter(layout, sheet, range(len(chart.rows)))
    painter.bands()
    sheet.text((PICTURE.margin, 34), [Span(title, INK, True)], 22)
    sheet.text((PICTURE.margin, 58), [Span(chart.heading, FAINT)], PICTURE.size)
    painter.lanes(PICTURE.top - BELOW_HEAD)
    painter.heads(PICTURE.top - BELOW_HEAD - HEAD, 0)
    painter.contents(chart.flights.values())
    return sheet


class Part(NamedTuple):
    """What is drawn on a sheet of a page: the rows of some places, and the frames that cross them."""

    layout: Layout
    sheet: Sheet
    places: range
    flights: Sequence[Flight]

    @property
    def key(self) -> Tuple[object, ...]:
        """Everything that the drawing of the sheet depends on: if this is the same, so is the drawing."""
        layout, first, end = self.layout, self.places.start, self.places.stop
        heights = [its[first:end] for its in (layout.tops, layout.middles, layout.bottoms)]
        labels = [layout.labels.get(place) for place in self.places]
        forks = [layout.forks.get(it) for it in range(first, end + 1)]
        ways = [layout.ways[flight.ticket] for flight in self.flights]
        said = (layout.end, layout.said_below) if end == len(layout.chart.rows) else ()
        rows = layout.chart.rows[first:end]
        return self.sheet.top, self.sheet.bottom, rows, heights, labels, forks, self.flights, ways, layout.said_above, said

    def drawn(self) -> PageSheet:
        """The sheet with its drawing."""
        layout, sheet = self.layout, self.sheet
        painter = Painter(layout, sheet, self.places)
        painter.bands()
        painter.lanes(sheet.top)
        painter.contents(self.flights)
        numbered = [(layout.chart.rows[place], layout.tops[place] - sheet.top, layout.bottoms[place] - sheet.top) for place in self.places]
        rows = [(row.first, row.last, top, bottom) for row, top, bottom in numbered]
        ways = [(flight.ticket, sheet.cut(layout.ways[flight.ticket])) for flight in self.flights]
        return PageSheet(sheet.top, sheet.bottom - sheet.top, rows, sheet.elements, ways)


def _parts(chart: Chart) -> Tuple[PageChart, List[Part]]:
    """The chart for a page without its sheets, and what is to be drawn on them."""
    layout = Layout(chart, PAGE)
    starts = range(0, max(len(chart.rows), 1), ROWS)
    flights: List[List[Flight]] = [[] for _ in starts]
    for flight in chart.flights.values():
        ended = chart.ended(flight)
        last = len(chart.rows) - 1 if ended is None else ended
        for at in range((chart.sent(flight) or 0) // ROWS, max(last, 0) // ROWS + 1):
            flights[at].append(flight)
    edges = [0.0, *(layout.tops[start] for start in starts[1:]), layout.height]
    its_sheets = [Sheet(*ends) for ends in zip(edges, edges[1:])]
    places = [range(start, min(start + ROWS, len(chart.rows))) for start in starts]
    heads = {node: f"node {node}, {boot}" for node, boot in chart.heads(0).items()}
    parts = [Part(layout, *its) for its in zip(its_sheets, places, flights)]
    return PageChart(PAGE.width, layout.height, dict(PAGE.lanes), heads, []), parts


def sheets(chart: Chart) -> PageChart:
    """The chart for a page, without a title and without the heads of its lanes."""
    page, parts = _parts(chart)
    return page._replace(sheets=[part.drawn() for part in parts])


class Drawing:
    """The chart of a branch for its page; sheets that have not changed are not drawn again."""

    def __init__(self) -> None:
        self._sheets: List[Tuple[Tuple[object, ...], Dict[str, object]]] = []

    def plain(self, chart: Chart) -> Dict[str, object]:
        """The chart as it is now, as lists and dictionaries."""
        page, parts = _parts(chart)
        before = dict(enumerate(self._sheets))
        self._sheets = []
        for at, part in enumerate(parts):
            key, (old, drawing) = part.key, before.get(at, ((), {}))
            self._sheets.append((old, drawing) if old == key else (key, part.drawn().plain()))
        return _plain(page, [drawing for _, drawing in self._sheets])
