"""A chart as text: two lanes, time downwards; in box-drawing characters, or in ASCII if those cannot be written."""
from __future__ import annotations

import sys
from typing import Dict, List, NamedTuple, Optional, Sequence, Tuple

from ..console.colours import Paint
from ..language.events import CUT, DELIVER, REPEAT, RESTART
from ..model.flights import Flight
from .contents import KEPT
from .marks import Mark
from .rows import Chart, Row, begins_here, broken


class Glyphs(NamedTuple):
    """The characters that lines are made of."""

    lane: str
    from_left: str
    from_right: str
    line: str
    right: str
    left: str
    lost: str
    dots: str
    point: str
    wait: str
    stop: str
    begin: str
    to: str


BOXES = Glyphs("│", "┤", "├", "─", "▶", "◀", "╳", "┄", "●", "‖", "╧", "╤", "→")
ASCII = Glyphs("|", "|", "|", "-", ">", "<", "X", ".", "*", "=", "^", "v", "->")

# Words of one colour; the colour is the name of a method of Paint.
Piece = Tuple[str, str]
# The width of the events' numbers at the left, for up to 99 events.
NUMBERS = 6
NARROWEST, WIDEST = 72, 100
# What happens to a frame on its way.
FRAME_STYLES = {REPEAT.word: "note", CUT.word: "bad"}
# Between a lane and the words at its side: an arrow and a space.
GUTTER = 4
# How many rows there are before the heads of the lanes are repeated.
ROWS = 40


def glyphs_of(encoding: Optional[str]) -> Glyphs:
    """The characters that an encoding can write."""
    try:
        "".join(BOXES).encode(encoding or "ascii")
        return BOXES
    except (UnicodeEncodeError, LookupError):
        return ASCII


def wrapped(pieces: Sequence[Piece], room: int) -> List[List[Piece]]:
    """Pieces in lines of at most this many characters; a longer piece is broken."""
    lines: List[List[Piece]] = []
    used = 0
    for text, style in pieces:
        for number, part in enumerate(broken(text, lambda it: len(it) <= room)):
            if lines and not number and used + 1 + len(part) <= room:
                lines[-1].append((part, style))
                used += 1 + len(part)
            else:
                lines.append([(part, style)])
                used = len(part)
    return lines


def _length(pieces: Sequence[Piece]) -> int:
    return sum(len(text) for text, _ in pieces) + max(0, len(pieces) - 1)


class _Line:
    """A line of characters, each with its colour."""

    def __init__(self, width: int):
        self.characters = [" "] * width
        self.styles = [""] * width

    def put(self, at: int, text: str, style: str = "") -> None:
        for place, character in enumerate(text.replace(KEPT, " "), at):
            if 0 <= place < len(self.characters):
                self.characters[place], self.styles[place] = character, style

    def put_pieces(self, at: int, pieces: Sequence[Piece]) -> None:
        for text, style in pieces:
            self.put(at, text, style)
            at += len(text) + 1

    def printed(self, paint: Paint) -> str:
        length = len("".join(self.characters).rstrip())
        printed, start = "", 0
        for place in range(1, length + 1):
            if place == length or self.styles[place] != self.styles[start]:
                part = "".join(self.characters[start:place])
                printed += getattr(paint, self.styles[start])(part) if self.styles[start] else part
                start = place
        return printed


class _Drawing:
    """A chart that becomes lines, row by row."""

    def __init__(self, chart: Chart, width: int, glyphs: Glyphs):
        self.chart, self.width, self.glyphs = chart, width, glyphs
        self.numbers = max(NUMBERS, len(f"{chart.events}-{chart.events}") + 1)
        room = width - self.numbers - 2 - 2 * GUTTER
        self.link = max(26, room * 36 // 100)
        self.side = (room - self.link) // 2
        left = self.numbers + self.side + GUTTER
        self.lanes: Dict[str, int] = {"a": left, "b": left + 1 + self.link}
        self.lines: List[_Line] = []

    def drawn(self) -> List[_Line]:
        self._lines(0, [(word, "head") for word in self.chart.heading.split()])
        self._said(self.chart.sent_before, self.chart.entering)
        self._heads(0)
        for place, row in enumerate(self.chart.rows):
            self._above(place)
            self._row(place, row)
        self._above(len(self.chart.rows))
        for words, flights in self.chart.left:
            self._said(words, flights)
        return self.lines

    def _said(self, words: str, flights: Sequence[Flight]) -> None:
        """The words about frames that enter or leave."""
        if flights:
            said = [*words.split(), *", ".join(f"#{flight.ticket} to {flight.to}" for flight in flights).split()]
            self._lines(0, [(it, "note") for it in said])

    def _lines(self, at: int, pieces: Sequence[Piece]) -> None:
        """Words on lines of their own, from a column on."""
        for line in wrapped(pieces, self.width - at):
            self._new_line(False).put_pieces(at, line)

    def _heads(self, place: int) -> None:
        """The heads of the lanes, above the row of a place."""
        line = self._new_line(False)
        for node, boot in self.chart.heads(place).items():
            words = f"{node} ({boot})"
            line.put(self.lanes[node] - len(words) // 2, words, "head")

    def _above(self, place: int) -> None:
        """What is above a row: branches that begin there, the heads of the lanes again, and the story."""
        if place in self.chart.forks:
            before, names, after = begins_here(self.chart.forks[place])
            self._lines(self.numbers, [(it, "note") for it in (before, *names, after)])
        if place and place % ROWS == 0 and place < len(self.chart.rows):
            self._heads(place)
        for paragraph in self.chart.notes.get(place, []):
            said = paragraph.encode("ascii", "replace").decode() if self.glyphs is ASCII else paragraph
            self._new_line(False)
            self._lines(self.numbers, [(word, "dim") for word in said.split()])
        if place in self.chart.notes:
            self._new_line(False)

    def _new_line(self, with_lanes: bool = True) -> _Line:
        self.lines.append(_Line(self.width))
        for at in self.lanes.values() if with_lanes else ():
            self.lines[-1].put(at, self.glyphs.lane)
        return self.lines[-1]

    def _row(self, place: int, row: Row) -> None:
        labels: List[List[Piece]] = [[]]
        if row.ticket is not None:
            labels = self._labels(place, row, self.chart.flights[row.ticket])
        sides = {mark.node: wrapped(self._mark_pieces(row, mark), self.side) for mark in row.marks}
        first = len(self.lines) + len(labels) - 1
        for _ in range(len(labels) - 1 + max([1, *map(len, sides.values())])):
            self._new_line()
        self.lines[first].put(0, f"{row.numbers('-'):>{self.numbers - 1}}", "dim")
        if row.ticket is not None:
            self._link(place, first, labels, self.chart.flights[row.ticket])
        for mark in row.marks:
            self._mark(first, mark, sides[mark.node])

    # ---- at a lane

    def _mark_pieces(self, row: Row, mark: Mark) -> List[Piece]:
        pieces = [(word.replace("->", self.glyphs.to), "") for word in mark.words]
        if mark.kind == DELIVER.word and len(pieces) > 1:
            pieces[-1] = (pieces[-1][0], mark.tone)
        pieces += [(mark.fate, mark.tone)] if mark.fate else []
        return [*pieces, (f"x{row.times}", "head")] if row.times > 1 else pieces

    def _mark(self, first: int, mark: Mark, words: Sequence[Sequence[Piece]]) -> None:
        at = self.lanes[mark.node]
        for number, pieces in enumerate(words, first):
            begin = at - GUTTER - _length(pieces) if mark.node == "a" else at + GUTTER + 1
            self.lines[number].put_pieces(begin, pieces)
        line = self.lines[first]
        if mark.kind in ("in", "out"):
            self._packet(line, mark)
        elif mark.kind == RESTART.word:
            line.put(at, self.glyphs.stop, mark.tone)
            if len(words) == 1:
                self._new_line()
            self.lines[first + 1].put(at, self.glyphs.begin, mark.tone)
        elif mark.kind != DELIVER.word:
            line.put(at, self.glyphs.point)

    def _packet(self, line: _Line, mark: Mark) -> None:
        """The arrow of a packet, to its lane or from it; it ends at a cross if the packet is dropped."""
        shapes, at = self.glyphs, self.lanes[mark.node]
        to_right = (mark.node == "a") == (mark.kind == "in")
        head = {"bad": shapes.lost, "note": shapes.wait}.get(mark.tone, shapes.right if to_right else shapes.left)
        arrow = shapes.line * 2 + head if to_right else head + shapes.line * 2
        line.put(at - 3 if mark.node == "a" else at + 1, arrow, mark.tone)

    # ---- on the link

    def _labels(self, place: int, row: Row, flight: Flight) -> List[List[Piece]]:
        """The words of a frame: within its line, or above it if they are too long."""
        label = self._label(row, flight)
        tail, tip = self._ends(place, flight)
        if len(tail) + _length(label) + 3 + len(tip[0]) <= self.link:
            return [label]
        return [*wrapped(label, self.link - 3), []]

    def _label(self, row: Row, flight: Flight) -> List[Piece]:
        frame, words = self.chart.frame_words(row, flight)
        return [(frame, "head"), *((word, FRAME_STYLES.get(row.kind, "")) for word in words)]

    def _ends(self, place: int, flight: Flight) -> Tuple[str, Piece]:
        """How a frame's line begins and ends in a row: at a lane, with its loss, or farther on its way."""
        shapes, to_right = self.glyphs, flight.to == "b"
        tail = shapes.line if self._leaves(place, flight) else shapes.dots * 2
        if self.chart.ended(flight) != place:
            # A space keeps what was just sent away from the other lane, which it has not reached.
            space = " " * self._leaves(place, flight)
            return tail, (shapes.dots * 2 + space if to_right else space + shapes.dots * 2, "")
        if flight.is_delivered:
            return tail, (shapes.right if to_right else shapes.left, "")
        return tail, (f"{shapes.lost} lost" if to_right else f"lost {shapes.lost}", "bad")

    def _leaves(self, place: int, flight: Flight) -> bool:
        """Whether a node sends the frame in this row."""
        return self.chart.sent(flight) == place and flight.origin is None

    def _link(self, place: int, last: int, labels: Sequence[Sequence[Piece]], flight: Flight) -> None:
        """Draws a frame: its words, and its line in the last line of them."""
        leaves, to_right = self._leaves(place, flight), flight.to == "b"
        tail, tip = self._ends(place, flight)
        words = [(" ", ""), *_spaced(labels[-1]), (" ", "")] if labels[-1] else []
        spare = self.link - len(tail) - sum(len(it) for it, _ in words) - len(tip[0])
        ends = self.chart.ended(flight) == place
        line = self.glyphs.line * (spare if leaves and ends and flight.is_delivered else min(spare, 3 if words else self.link // 2))
        shift = 0 if leaves else spare - len(line) if ends else (spare - len(line)) // 2
        parts: List[Piece] = [(tail, ""), *words, (line, ""), tip]
        at = self.lanes["a"] + 1 + shift
        if not to_right:
            parts = [tip, (line, ""), *words, (tail, "")]
            at = self.lanes["b"] - shift - sum(len(it) for it, _ in parts)
        for part, style in parts:
            self.lines[last].put(at, part, style)
            at += len(part)
        for above, pieces in enumerate(labels[:-1], last - len(labels) + 1):
            self.lines[above].put_pieces(self.lanes["a"] + 2 if to_right else self.lanes["b"] - 1 - _length(pieces), pieces)
        if leaves:
            shapes = self.glyphs
            self.lines[last].put(self.lanes[flight.source], shapes.from_right if to_right else shapes.from_left)


def _spaced(pieces: Sequence[Piece]) -> List[Piece]:
    """Pieces with the spaces between them."""
    return [it for piece in pieces for it in ((" ", ""), piece)][1:]


def text(chart: Chart, paint: Paint, width: int = WIDEST, encoding: Optional[str] = None) -> List[str]:
    """The chart as lines of at most this width, unless it is too narrow; for standard output if no encoding is given."""
    glyphs = glyphs_of(encoding or getattr(sys.stdout, "encoding", None))
    return [it.printed(paint) for it in _Drawing(chart, max(width, NARROWEST), glyphs).drawn()]
