"""A branch as a chart: a lane for each node, time downwards, and the frames on their way between the lanes.

What was undone is not drawn. A chart shows one run, in which each frame ends once: drawn below, an undone loss would show a
frame that is in flight as lost. The heading says how many events were undone, and `log` lists them."""
from __future__ import annotations

from bisect import bisect_left
from dataclasses import replace
from itertools import accumulate
from typing import Container, Iterator, Mapping, Optional, Sequence, Tuple

from ..language.events import CUT, DELIVER, FLUSH, LOSE, OF_FRAME, PACKET, REPEAT, RESTART, TICK
from ..link.laboratory import Laboratory
from ..model.branches import Branch, Happened
from ..model.explanations import Explanation, read_explanation
from ..model.flights import Flight, read_flight
from .marks import Mark, PacketMarks, delivery_mark, node_mark
from .rows import Chart, Row
from .windows import WHOLE, Concern, Window

# Texts by the number of events before their place: paragraphs of a story, or names of branches that begin there.
Texts = Mapping[int, Sequence[str]]
NO_TEXTS: Texts = {}
# An event, and the frame that it sent, if it did.
Step = Tuple[Explanation, Optional[Flight]]


def chart(lab: Laboratory, branch: Branch, notes: Texts = NO_TEXTS, forks: Texts = NO_TEXTS, window: Window = WHOLE) -> Chart:
    """The chart of the events of a branch that stand, or of some of them."""
    window.within(branch.name, branch.cursor)
    its = drawn(branch.name, [*explained(lab, branch)], len(branch.events) - branch.cursor, notes, forks, window)
    return its if lab.setup.kernel.is_profile else replace(its, by=lab.setup.kernel.by)


def drawn(
    name: str,
    events: Sequence[Step],
    undone: int,
    notes: Texts = NO_TEXTS,
    forks: Texts = NO_TEXTS,
    window: Window = WHOLE,
) -> Chart:
    """The chart of a branch, from the events that stand, each explained and with the frame that it sent, if any, and how many were
    undone. What happened to a frame is taken from these events alone. Events with texts between them have rows of their own."""
    part = window.within(name, len(events))
    concern = Concern(name, part.flow, [it for it, _ in events]) if part.flow else None
    growing = _Growing(Chart(name, len(events), undone, part), concern, {*notes, *forks})
    for it, flight in events:
        growing.event(it, flight)
    growing.leave_out()
    growing.put(notes, forks)
    return growing.chart


def explained(lab: Laboratory, branch: Branch) -> Iterator[Step]:
    """Each event that stands, explained, and the frame that it sent, if any: tickets are counted from 1."""
    events = branch.events[: branch.cursor]
    sends = [event.split()[0] in (FLUSH.word, REPEAT.word) for event in events]
    tickets = [*accumulate(map(int, sends))]
    if not lab.knows_setup:
        for number, (ticket, is_sent) in enumerate(zip(tickets, sends), 1):
            yield lab.explanation(branch.name, number), lab.flight(branch.name, ticket) if is_sent else None
        return
    # One run that asks about each event just after it happens is faster: the program then has no long way back.
    asked = enumerate(zip(events, tickets, sends), 1)
    lines = [(f"step main {it}", f"why main {at}", f"frame main {ticket}")[: 2 + is_sent] for at, (it, ticket, is_sent) in asked]
    replies = iter(lab.run([line for it in lines for line in it]))
    for is_sent in sends:
        next(replies)
        yield read_explanation(next(replies)), read_flight(next(replies)) if is_sent else None


class _Growing:
    """A chart that grows event by event. Events with a break between them are not drawn as one."""

    def __init__(self, chart: Chart, concern: Optional[Concern], breaks: Container[int]):
        self.chart, self.concern, self.breaks = chart, concern, breaks
        self.packets = PacketMarks()
        # The newest event that is drawn.
        self.newest: Optional[Happened] = None

    def event(self, explained: Explanation, flight: Optional[Flight]) -> None:
        event, (first, last, _) = explained.event, self.chart.window
        is_meant = self.concern is None or self.concern.has(explained, flight)
        if flight and is_meant:
            # (what happens to the frame follows, if that stands)
            self.chart.flights[flight.ticket] = replace(flight, later=[])
        if event.words[0] in OF_FRAME and int(event.words[1]) in self.chart.flights:
            self.chart.flights[int(event.words[1])].later.append(event)
        if event.number < first and event.kind is RESTART:
            self.chart.boots[event.words[1]] = int(event.outcome[1])
        elif is_meant and first <= event.number <= (last or 0):
            self._draw(explained)
            self.newest = event

    def leave_out(self) -> None:
        """Leaves out the frames that do not appear."""
        first, last, _ = self.chart.window
        for ticket, flight in [*self.chart.flights.items()]:
            if flight.sent.number > (last or 0) or (flight.ended and flight.ended.number < first):
                del self.chart.flights[ticket]

    def put(self, notes: Texts, forks: Texts) -> None:
        """Puts texts above the rows where they belong."""
        chart, (first, last, _) = self.chart, self.chart.window
        firsts = [row.first for row in chart.rows]
        for stand in sorted(notes):
            if stand + 1 in chart.places or stand == last == chart.events:
                chart.notes[bisect_left(firsts, stand + 1)] = [*notes[stand]]
        for stand in sorted(fork for fork in forks if first - 1 <= fork <= (last or 0)):
            chart.forks.setdefault(bisect_left(firsts, stand + 1), []).extend(forks[stand])

    # ---- rows

    def _draw(self, explained: Explanation) -> None:
        event = explained.event
        if event.kind in (DELIVER, LOSE):
            self._end(explained, self.chart.flights[int(event.words[1])])
        elif event.kind is PACKET:
            self._at_node(event, self.packets.mark(explained))
        elif event.kind in (FLUSH, REPEAT):
            self._row(event, (), int(event.outcome[1]))
        elif event.kind is CUT:
            self._row(event, (), int(event.words[1]))
        else:
            self._at_node(event, node_mark(event))

    def _row(self, event: Happened, marks: Sequence[Mark], ticket: Optional[int] = None) -> None:
        if event.kind is RESTART:
            self.chart.restarts[len(self.chart.rows)] = event.words[1], int(event.outcome[1])
        self.chart.places[event.number] = len(self.chart.rows)
        self.chart.rows.append(Row(event.number, event.number, event.kind.word, tuple(marks), ticket))

    def _grow(self, event: Happened, marks: Sequence[Mark]) -> None:
        """Adds an event to the newest row."""
        self.chart.places[event.number] = len(self.chart.rows) - 1
        self.chart.rows[-1] = replace(self.chart.rows[-1], last=event.number, marks=tuple(marks))

    def _before(self, event: Happened) -> Optional[Row]:
        """The row that an event may share: the newest one, if nothing lies between."""
        row = self.chart.rows[-1] if self.chart.rows else None
        return row if row and row.last == event.number - 1 and row.last not in self.breaks else None

    def _at_node(self, event: Happened, mark: Mark) -> None:
        """An event of one node. A repetition shares its row, and so does the same tick of the other node."""
        row, newest = self._before(event), self.newest
        if row and newest and row.ticket is None and len(row.marks) == 1:
            one = row.marks[0]
            if one == mark or (newest.line, newest.came) == (event.line, event.came):
                self._grow(event, row.marks)
                return
            if event.kind is TICK and row.kind == TICK.word and row.times == 1 and one.node != mark.node and one.words == mark.words:
                self._grow(event, (one, mark))
                return
        self._row(event, (mark,))

    def _end(self, explained: Explanation, flight: Flight) -> None:
        """A frame is delivered or lost, in the row where it was sent if nothing lies between."""
        event, marks = explained.event, () if flight.is_lost else (delivery_mark(explained, flight),)
        if self._before(event) and self.chart.sent(flight) == len(self.chart.rows) - 1:
            self._grow(event, marks)
        else:
            self._row(event, marks, flight.ticket)
