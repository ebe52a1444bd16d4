"""The measures of a drawing: where its lanes are, and how much room its words have."""
from __future__ import annotations

from dataclasses import dataclass
from typing import Mapping

# Outwards from a lane to its side of the drawing.
OUTWARDS = {"a": -1, "b": 1}


@dataclass(frozen=True)
class Geometry:
    """Measures of a drawing, in the units of its width."""

    width: int
    lanes: Mapping[str, float]
    margin: int
    # Between a lane and the words at its side, for marks with the arrow of a packet; and for marks without one.
    gutter: int
    beside: int
    # Within the link, next to each lane: room for words, where no line is sloped.
    zone: int
    # The most room for words within the link, where nothing crosses them.
    label: int
    # The size of letters, of small letters, and from one line of words to the next.
    size: int
    small: int
    leading: int
    # Above the first row.
    top: int
    # Whether the drawing is within a page, which has the heads of the lanes and the notes next to it, and shows it again as it grows:
    # what is already there then stays in its place.
    is_page: bool = False

    def inner(self, node: str) -> float:
        """Where the sloped part of the link begins, next to a lane."""
        return self.lanes[node] - OUTWARDS[node] * self.zone

    def side(self, node: str) -> float:
        """The room between a lane and the margin at its side."""
        return (self.lanes["a"] if node == "a" else self.width - self.lanes["b"]) - self.margin

    @property
    def lost(self) -> float:
        """The most room for words within the link above the line of a lost frame, which ends with the word for that."""
        return min(self.label, self.lanes["b"] - self.lanes["a"] - self.zone - 16)

    @property
    def middle(self) -> float:
        """The middle of the link."""
        return (self.lanes["a"] + self.lanes["b"]) / 2


# A picture of its own, with a title; and the drawing within a page.
PICTURE = Geometry(1280, {"a": 368.0, "b": 948.0}, 14, 44, 18, 220, 400, 14, 12, 18, 118)
PAGE = Geometry(760, {"a": 240.0, "b": 554.0}, 8, 34, 16, 132, 286, 13, 11, 17, 8, True)
