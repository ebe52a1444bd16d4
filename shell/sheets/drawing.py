"""The chart of a branch in pieces that a page of paper has room for, each with the heads of its lanes."""
from __future__ import annotations

from typing import List, NamedTuple, Tuple

from ..charts.elements import Sheet
from ..charts.geometry import PAGE
from ..charts.layout import HEAD, Layout
from ..charts.painter import Painter
from ..charts.rows import Chart
from ..charts.svg import svg

# How high a piece is at most, in the units of its width, unless a single row is higher: A4 and Letter have room for it below a heading.
TALLEST = 800.0
ABOVE, BELOW = 2, 6


class Piece(NamedTuple):
    """A piece of a chart: its first and last event, and its pictures, which go below one another: the heads of the lanes and the rows."""

    first: int
    last: int
    pictures: Tuple[str, str]


def pieces(chart: Chart) -> List[Piece]:
    """A chart from the top down; nothing if it has no rows."""
    layout = Layout(chart, PAGE)
    starts = [0][: len(chart.rows)]
    for place, bottom in enumerate(layout.bottoms):
        if place > starts[-1] and bottom - layout.tops[starts[-1]] > TALLEST:
            starts.append(place)
    edges = [0.0, *(layout.tops[start] for start in starts[1:]), layout.height]
    ends = [*starts[1:], len(chart.rows)]
    return [_piece(layout, range(*places), Sheet(*heights)) for places, heights in zip(zip(starts, ends), zip(edges, edges[1:]))]


def _piece(layout: Layout, places: range, sheet: Sheet) -> Piece:
    heads = Sheet(0, ABOVE + HEAD + BELOW)
    painter = Painter(layout, heads, places)
    painter.heads(ABOVE, places.start)
    painter.sheet = sheet
    painter.bands()
    painter.lanes(sheet.top)
    painter.contents(layout.chart.flights.values())
    first, last = layout.chart.rows[places.start].first, layout.chart.rows[places.stop - 1].last
    words = f"{layout.chart.branch}, events {first} to {last}"
    its = (svg(it.elements, PAGE.width, it.bottom - it.top, words).rstrip("\n") for it in (heads, sheet))
    return Piece(first, last, (next(its), next(its)))
