"""`capture`: captures of the sync interface, read and laid over one another."""
from __future__ import annotations

import gc
from contextlib import contextmanager
from typing import Callable, Iterator, List, NamedTuple

from ..console.colours import Paint
from ..console.endings import TROUBLE, NotDone
from .asked import CaptureOptions, Selection
from .files import BadCapture
from .pairing import Overlay
from .report import Shown, report
from .sides import NoSuchSender
from .story import Story
from .timeline import Timeline
from .wording import Times

NOTHING, SOMETHING = 0, 1


# How many objects there are more before Python looks for unused ones among them: what is made of messages goes without that.
_COLLECTED = 200_000


class NotRead(NotDone):
    """No capture could be read."""


class Answer(NamedTuple):
    """What is printed, and the status; the captures, what of them was looked at, and the form of times."""

    lines: List[str]
    status: int
    overlay: Overlay
    selection: Selection
    times: Times


@contextmanager
def few_collections() -> Iterator[None]:
    """Has Python look for unused objects seldom, which takes a sixth of the time otherwise."""
    former = gc.get_threshold()
    gc.set_threshold(_COLLECTED, *former[1:])
    try:
        yield
    finally:
        gc.set_threshold(*former)


def captured(options: CaptureOptions, paint: Paint, say: Callable[[object], None]) -> Answer:
    """Reads one capture or two, and reports where one cannot be read to its end."""
    if len(options.captures) > 2:
        raise NotRead("at most two captures: one of node a, and one of node b")
    try:
        overlay = Overlay(options.captures, options.address_of_a)
    except (BadCapture, NoSuchSender) as why:
        raise NotRead(str(why)) from why
    for fault in overlay.faults:
        say(fault)
    times = _times(overlay)
    selection = Selection.of(options, overlay.surveys[0].first or overlay.surveys[-1].first)
    story = Story(selection, options.all, overlay.hears)
    timeline = Timeline(options.all, options.shows_states)
    has_flow, has_time = selection.flow is not None, selection.has_time
    with few_collections():
        for sent in overlay.sent():
            frame, states = story.take(sent)
            if has_time(frame.time):
                timeline.take(frame, sent.message, states, has_flow)
    story.end()
    how = Shown(paint, options.all, options.shows_states, not selection.is_all)
    lines = report(overlay, story, timeline, times, how)
    status = TROUBLE if overlay.faults else SOMETHING if story.findings.number else NOTHING
    return Answer(lines, status, overlay, selection, times)


def _times(overlay: Overlay) -> Times:
    """The form of times, by when the captures begin and end."""
    return Times(min(begin for begin, _ in overlay.covered), max(end for _, end in overlay.covered))
