"""Why a node could not read a frame, and what cut it."""
from __future__ import annotations

from typing import List

from ..language.faults import FRAME_FAULTS
from .questions import Question


def explain_broken(question: Question) -> List[str]:
    """Which fault the frame has, with the event that cut it."""
    ticket = int(question.words[1])
    frame = question.history.flight(ticket).now
    fault = f"{FRAME_FAULTS[int(question.outcome[1]) - 1]}: {frame.broken}"
    return [fault, *_cuts(question, ticket), f"node {frame.to} counts it as broken, and takes none of it"]


def _cuts(question: Question, ticket: int) -> List[str]:
    """The events that made the frame shorter, the newest first: its own, and those of the frame that it is a copy of."""
    lines: List[str] = []
    copied = question.place + 1
    while True:
        flight = question.history.flight(ticket)
        size, own = len(flight.frame.data), []
        for cut in (it for it in flight.cuts if it.number < copied):
            was, size = size, int(cut.outcome[1])
            own += [f"event {cut.number} cut frame {ticket} from {was} bytes to {size}"] * (size < was)
        lines += reversed(own)
        if flight.origin is None:
            return lines
        copied = flight.sent.number
        lines.append(f"frame {ticket} is a copy of frame {flight.origin} (event {copied})")
        ticket = flight.origin
