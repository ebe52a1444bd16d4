"""Bulk updates: who asks for all states, what comes of it, and which of its frames are missing."""
from __future__ import annotations

from typing import Callable, Dict, List, Optional

from ..language.names import BULK_END, BULK_START
from ..shows.words import counted
from .decoding import Record
from .findings import Findings, Kind
from .known import Frame
from .wording import OTHER, lasting, some

_MOST_NUMBERS = 10
_MARKS = {BULK_START: "its start", BULK_END: "its end"}


class Update:
    """A bulk update: from the first request to its end."""

    def __init__(self, server: str):
        self.server, self.asker = server, OTHER[server]
        self.tries = 0
        self.asked: Optional[Frame] = None
        self.asked_last: Optional[Frame] = None
        self.starts = 0
        self.start: Optional[Frame] = None
        self.end: Optional[Frame] = None
        # How many whole updates there are, and how many more answer requests for single states.
        self.updates = self.answers = 0
        # How many requests came, and how many are not in the capture of the node that answers.
        self.came = self.lost = 0
        self.missing: List[str] = []
        self.missing_frames = self.missing_states = 0
        self.missing_marks: Dict[int, str] = {}
        self.missing_last: Optional[Frame] = None

    def said(self, last: int, is_heard: bool) -> str:
        """What came of it until the captures end."""
        parts = [self._asked()] if self.asked else [f"{self.server} begins a bulk update without a request here"]
        if not self.start:
            assert self.asked_last
            waited = f"{self.server} does not begin in the {lasting(last - self.asked_last.time)} until the captures end"
            return "; ".join([*parts, f"{waited}: {self._why_not(is_heard)}"])
        after = f" after {lasting(self.start.time - self.asked.time)}" if self.asked else ""
        again = f", and {counted(self.starts - 1, 'time')} more" if self.starts > 1 else ""
        parts.append(f"{self.server} begins in frame {self.start.number}{after}{again}")
        updates = counted(self.updates, "whole update")
        if self.answers:
            updates += f" and {self.answers} more that {'answers a request' if self.answers == 1 else 'answer requests'}"
        if self.end:
            parts.append(f"it ends in frame {self.end.number}: {updates} in {lasting(self.end.time - self.start.time)}")
        else:
            parts.append(f"no end of it is here: {updates} until the captures end")
        return "; ".join(parts + self._missing())

    def _asked(self) -> str:
        assert self.asked and self.asked_last
        tries = f" ({self.tries} tries, the last in frame {self.asked_last.number})" if self.tries > 1 else ""
        return f"{self.asker} asks for all states in frame {self.asked.number}{tries}"

    def _why_not(self, is_heard: bool) -> str:
        """Why no answer may be here."""
        if not is_heard:
            return f"no capture has what {self.server} sends"
        if self.lost == self.tries:
            return f"{'no request' if self.tries > 1 else 'the request'} is {'not ' * (self.tries == 1)}in the capture of {self.server}"
        if self.came:
            return f"{'a' if self.tries > 1 else 'the'} request came, and {self.server} does not answer it here"
        return f"the request was lost, or {self.server} does not answer it"

    def _missing(self) -> List[str]:
        if not self.missing_frames:
            return []
        numbers = some(self.missing, self.missing_frames, _MOST_NUMBERS)
        frames = f"frame{'s' * (self.missing_frames > 1)} {numbers} of it {'are' if self.missing_frames > 1 else 'is'}"
        parts = [its for _, its in sorted(self.missing_marks.items())]
        parts += [counted(self.missing_states, "state")] * bool(self.missing_states)
        return [f"{frames} not in the capture of {self.asker}, with {' and '.join(filter(None, (', '.join(parts[:-1]), parts[-1])))}"]

    def miss(self, frame: Frame, states: int, mark: int = 0) -> None:
        """A frame of it may be missing, with some states, or with its start or its end."""
        if frame.arrived is not False:
            return
        self.missing_states += states
        if mark:
            self.missing_marks[mark] = _MARKS[mark]
        if self.missing_last is not frame:
            self.missing_last = frame
            self.missing_frames += 1
            self.missing += [str(frame.number)] * (len(self.missing) < _MOST_NUMBERS)


class Bulk:
    """The bulk updates of both nodes."""

    def __init__(self, findings: Findings, is_selected: Callable[[int], bool], hears: Callable[[str], bool]):
        self._findings, self._is_selected, self._hears = findings, is_selected, hears
        # By the node that answers; and when the last frame was sent.
        self._open: Dict[str, Update] = {}
        self.last = 0

    def is_open(self, server: str) -> bool:
        """Whether a node is answering a request for all states."""
        its = self._open.get(server)
        return its is not None and its.start is not None

    def asks(self, frame: Frame) -> None:
        """A node asks for all states."""
        its = self._of(OTHER[frame.node], frame)
        its.tries += 1
        its.came += frame.arrived is True
        its.lost += frame.arrived is False
        its.asked, its.asked_last = its.asked or frame, frame

    def status(self, frame: Frame, record: Record) -> None:
        """A node says that a bulk update begins or ends."""
        if record.status == BULK_START:
            its = self._of(frame.node, frame)
            its.starts += 1
            its.start = its.start or frame
            its.miss(frame, 0, BULK_START)
        elif record.status == BULK_END and self.is_open(frame.node):
            its = self._open.pop(frame.node)
            its.end = frame
            its.miss(frame, 0, BULK_END)

    def updates(self, frame: Frame, number: int, answers: int) -> None:
        """A frame has so many whole updates, and so many more of states that were asked for."""
        its = self._open.get(frame.node)
        if not its or not its.start or not number + answers:
            return
        its.updates += number
        its.answers += answers
        its.miss(frame, number + answers)

    def _of(self, server: str, frame: Frame) -> Update:
        """The bulk update of a node, which may be new."""
        its = self._open.get(server)
        if not its:
            its = self._open[server] = Update(server)
            if self._is_selected(frame.time) and self._findings.count(Kind.BULK):
                update = its
                self._findings.keep(Kind.BULK, frame.time, lambda: update.said(self.last, self._hears(server)))
        return its
