"""Elements as the text of an SVG, which needs no fonts and no script."""
from __future__ import annotations

from html import escape
from typing import Sequence

from .elements import BAD, BAND, FAINT, FRAME, GOOD, INK, NONE, NOTE, PAPER, Element, Span, written

COLOURS = {
    INK: "#1c2733", FAINT: "#66727f", BAND: "#f4f6f8", FRAME: "#1f5fa8", GOOD: "#1b6e3a", BAD: "#c41e1e", NOTE: "#8a5200",
    PAPER: "#ffffff", NONE: "none",
}
_OF_COLOUR = ("fill", "stroke")


def svg(elements: Sequence[Element], width: float, height: float, title: str) -> str:
    """A whole picture."""
    size = f'viewBox="0 0 {written(width)} {written(height)}" width="{written(width)}" height="{written(height)}"'
    head = f'<svg xmlns="http://www.w3.org/2000/svg" {size} font-family="sans-serif">'
    return "\n".join([head, f"<title>{escape(title, False)}</title>", *map(_element, elements), "</svg>", ""])


def _element(element: Element) -> str:
    attributes = "".join(f' {key}="{_value(key, written(value))}"' for key, value in element.attributes.items())
    spans = " ".join(map(_span, element.spans))
    return f"<{element.name}{attributes}>{spans}</{element.name}>" if spans else f"<{element.name}{attributes}/>"


def _value(key: str, value: str) -> str:
    return COLOURS[value] if key in _OF_COLOUR else escape(value, False).replace('"', "&quot;")


def _span(span: Span) -> str:
    bold = ' font-weight="bold"' if span.is_bold else ""
    return f'<tspan fill="{COLOURS[span.tone]}"{bold}>{escape(span.words, False)}</tspan>'
