"""The elements of a drawing as values: names, attributes, and words with their tones; and how wide words may be."""
from __future__ import annotations

from functools import lru_cache
from typing import Dict, List, NamedTuple, Sequence, Tuple, Union

from .contents import KEPT
from .rows import broken

# How much wider bold letters are.
BOLDER = 1.1
# The names of the colours: of words and lines, of side notes, of every second row, of frames, of what is good, bad or deserves a look,
# and of the paper.
TONES = ("ink", "faint", "band", "frame", "good", "bad", "note", "paper")
INK, FAINT, BAND, FRAME, GOOD, BAD, NOTE, PAPER = TONES
NONE = "none"

Point = Tuple[float, float]
Value = Union[str, int, float]


class Span(NamedTuple):
    """Words of one tone, and whether they are bold."""

    words: str
    tone: str
    is_bold: bool = False


class Element(NamedTuple):
    """An element of SVG; `fill` and `stroke` are names of tones."""

    name: str
    attributes: Dict[str, Value]
    spans: Tuple[Span, ...] = ()

    def plain(self) -> List[object]:
        """The element as lists, with coordinates to a tenth."""
        attributes = {key: round(it, 1) if isinstance(it, float) else it for key, it in self.attributes.items()}
        return [self.name, attributes, *([[list(span) for span in self.spans]] if self.spans else [])]


_NARROW, _WIDE = f"ijlt.,:;'|!fr()[] {KEPT}", "mwMWGOQ@%→"


def _letter_width(letter: str) -> float:
    return 0.42 if letter in _NARROW else 0.96 if letter in _WIDE else 0.76 if letter.isupper() else 0.65


@lru_cache(maxsize=65536)
def _width(text: str) -> float:
    return sum(map(_letter_width, text))


def text_width(text: str, size: float) -> float:
    """How wide a text is at most in the usual sans-serif fonts, the widest of which are DejaVu Sans and Verdana."""
    return _width(text) * size


def in_lines(spans: Sequence[Span], room: float, size: float) -> List[List[Span]]:
    """Spans in lines no wider than the room; only a span that is wider is broken."""
    lines: List[List[Span]] = []
    used = 0.0
    for span in spans:
        bolder = BOLDER if span.is_bold else 1
        for part in broken(span.words, lambda it: text_width(it, size) * bolder <= room):
            wide = text_width(f"{part} ", size) * bolder
            if lines and used + wide <= room:
                lines[-1].append(span._replace(words=part))
                used += wide
            else:
                lines.append([span._replace(words=part)])
                used = wide
    return lines


class Sheet:
    """The elements of a drawing between two heights, in drawing order. What is drawn is given in heights of the whole drawing; the
    elements have heights of the sheet. Lines are cut off at its edges."""

    def __init__(self, top: float, bottom: float) -> None:
        self.top, self.bottom = top, bottom
        self.elements: List[Element] = []

    def holds(self, y: float) -> bool:
        """Whether a height is on the sheet."""
        return self.top <= y < self.bottom

    def cut(self, points: Sequence[Point]) -> List[Point]:
        """The part of a line on the sheet, in the sheet's heights; a line leaves the sheet at most once."""
        kept: List[Point] = []
        for one, two in zip(points, points[1:]):
            if min(one[1], two[1]) <= self.bottom and max(one[1], two[1]) >= self.top:
                begin, end = self._within(one, two), self._within(two, one)
                kept += [begin] * (begin not in kept[-1:]) + [end] * (end != begin)
        return [(x, y - self.top) for x, y in kept]

    def _within(self, end: Point, other: Point) -> Point:
        """An end of a line, or the point where the line to it leaves the sheet."""
        y = min(max(end[1], self.top), self.bottom)
        return end if y == end[1] else (end[0] + (other[0] - end[0]) * (y - end[1]) / (other[1] - end[1]), y)

    def add(self, name: str, attributes: Dict[str, Value], spans: Sequence[Span] = ()) -> None:
        self.elements.append(Element(name, attributes, tuple(spans)))

    def line(self, points: Sequence[Point], tone: str, width: int = 2, dash: str = "") -> None:
        kept = self.cut(points)
        if len(kept) > 1:
            attributes: Dict[str, Value] = {"points": written_points(kept), "fill": NONE, "stroke": tone, "stroke-width": width}
            self.add("polyline", {**attributes, "stroke-linejoin": "round", **({"stroke-dasharray": dash} if dash else {})})

    def head(self, tip: Point, way: int, tone: str) -> None:
        """The head of an arrow to the right (1) or to the left (-1)."""
        x, y = tip[0], tip[1] - self.top
        self.add("polygon", {"points": written_points([(x, y), (x - 11 * way, y - 5), (x - 11 * way, y + 5)]), "fill": tone})

    def cross(self, at: Point, tone: str) -> None:
        x, y = at
        for way in (-1, 1):
            self.line([(x - 7, y - 7 * way), (x + 7, y + 7 * way)], tone, 3)

    def circle(self, at: Point, radius: int, fill: str, stroke: str = "") -> None:
        attributes: Dict[str, Value] = {"cx": at[0], "cy": at[1] - self.top, "r": radius, "fill": fill}
        self.add("circle", {**attributes, "stroke": stroke, "stroke-width": 2} if stroke else attributes)

    def band(self, top: float, bottom: float, width: int, tone: str) -> None:
        """A background across the whole width."""
        self.add("rect", {"y": top - self.top, "width": width, "height": bottom - top, "fill": tone})

    def box(self, middle: float, top: float, size: Point, stroke: str, width: int = 2) -> None:
        """A box with round corners, by its middle and its top."""
        look: Dict[str, Value] = {"rx": 6, "fill": PAPER, "stroke": stroke, "stroke-width": width}
        self.add("rect", {"x": middle - size[0] / 2, "y": top - self.top, "width": size[0], "height": size[1], **look})

    def text(self, at: Point, spans: Sequence[Span], size: int, anchor: str = "start") -> None:
        said = [span._replace(words=span.words.replace(KEPT, " ")) if KEPT in span.words else span for span in spans]
        self.add("text", {"x": at[0], "y": at[1] - self.top, "font-size": size, "text-anchor": anchor}, said)


def written_points(points: Sequence[Point]) -> str:
    """Points in the form of a polyline."""
    return " ".join(f"{written(x)},{written(y)}" for x, y in points)


def written(value: Value) -> str:
    """A value of an attribute as text; a coordinate to a tenth."""
    return f"{value:.1f}".rstrip("0").rstrip(".") if isinstance(value, float) else str(value)
