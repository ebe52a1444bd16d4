"""What captures come to, in words: the verdict, whose they are, what calls for a look, and the frames."""
from __future__ import annotations

from itertools import chain
from typing import List, NamedTuple

from ..console.colours import Paint
from ..language.names import NODES
from ..shows.words import counted
from .files import NANOSECONDS
from .findings import Kind, Part
from .pairing import WINDOW, Overlay
from .story import Story
from .timeline import Timeline
from .wording import OTHER, Times, lasting

_UNKNOWN = "what no frame says: which packets a node saw, what it did with a frame that came, and what it had not sent yet (docs/FIELD.md)"
# A difference of the clocks that is not worth a word.
_SAME = NANOSECONDS // 10000


class Shown(NamedTuple):
    """The form of a report: colours, whether all is listed, whether states are shown, and whether only some of it is looked at."""

    paint: Paint
    lists_all: bool
    with_states: bool
    is_selection: bool


def report(overlay: Overlay, story: Story, timeline: Timeline, times: Times, how: Shown) -> List[str]:
    """The whole report."""
    parts = [
        [_verdict(story, timeline, how)],
        _head(overlay, story, times, how.paint),
        *(_part(kind, part, story, times, how) for kind, part in story.findings.parts.items()),
        [_UNKNOWN],
        ["", how.paint.head("frames"), *timeline.frames(times, how.paint)],
        ["", how.paint.head("states"), *timeline.histories(times, how.paint)] if how.with_states else [],
    ]
    return [*chain.from_iterable(parts)]


def _verdict(story: Story, timeline: Timeline, how: Shown) -> str:
    """How much was found of each kind."""
    where = " among what is asked for" if how.is_selection else ""
    findings = story.findings
    said = [_counted(kind, part) for kind, part in findings.parts.items() if part.count]
    if not timeline.number:
        none = how.paint.bad(f"none of {counted(_frames(story), 'frame')} has what is asked for")
        return none + (f"; of all flows: {', '.join(said)}" if said else "")
    if not said:
        return how.paint.good(f"nothing found{where}") + f" in {counted(_frames(story), 'frame')}"
    return how.paint.bad(f"found{where}: ") + ", ".join(said)


def _counted(kind: Kind, part: Part) -> str:
    return f"{part.count:,} {kind.value.one if part.count == 1 else kind.value.many}"


def _frames(story: Story) -> int:
    return sum(sum(its.values()) for its in story.came.values())


# ---- the head


def _head(overlay: Overlay, story: Story, times: Times, paint: Paint) -> List[str]:
    sides = overlay.sides
    lines = [paint.note(sides.said()) if sides.is_guess else sides.said()]
    if sides.exchanged:
        lines.append(paint.bad(f"but the first capture seems to be that of {sides.exchanged}"))
    for node, survey, (begin, end) in zip(NODES, overlay.surveys, overlay.covered):
        period = f"from {times.to_second(begin)} to {times.to_second(end)}"
        lines.append(f"{node}: {counted(survey.messages, 'message')} in {survey.name}, {period}")
    lines += [paint.note(f"{fault}; what comes before that counts") for fault in overlay.faults]
    lines += [_way(node, story, overlay) for node in NODES if sum(story.came[node].values())]
    lines += _oddities(overlay)
    return [*lines, f"times are in {times.zone}" + _clocks(overlay, times)]


def _way(node: str, story: Story, overlay: Overlay) -> str:
    """The frames of a node, and what came of them."""
    came, shown = story.came[node], story.shown[node]
    parts = [f"{came[True]:,} came"] * bool(came[True])
    parts += [f"{came[False]:,} not in the capture of {OTHER[node]}"] * bool(came[False])
    if came[None]:
        by_later = [f"{shown[True]:,} came"] * bool(shown[True])
        what = "it" if shown[False] == 1 else "each"
        by_later += [f"{shown[False]:,} did not come in time, or a state of {what} was not kept"] * bool(shown[False])
        later = f" (later frames show that {' and '.join(by_later)})" if by_later else ""
        parts.append(f"no capture says whether {came[None]:,} came{later}")
    return f"{node} -> {OTHER[node]}: {counted(sum(came.values()), 'frame')}: {', '.join(parts)}"


def _oddities(overlay: Overlay) -> List[str]:
    """What is in the captures besides."""
    within = f"within {lasting(WINDOW)}"
    lines = [
        f"{counted(number, 'frame')} of {node} came, and the capture of {node} does not have {'it' if number == 1 else 'them'} {within}"
        for node, number in overlay.not_captured.items()
        if number
    ]
    lines += [
        f"{counted(number, 'frame')} of {node} came once more than sent: repeated on the way, or captured twice"
        for node, number in overlay.repeated.items()
        if number
    ]
    lines += [
        f"{counted(number, 'frame')} of {node} {'is' if number == 1 else 'are'} in the capture twice within a millisecond, and counted once"
        for node, number in overlay.doubled.items()
        if number
    ]
    lines += [
        f"{counted(number, 'frame')} of {node} came with fewer bytes than {'its header says' if number == 1 else 'their headers say'}: "
        f"the kernel drops {'it' if number == 1 else 'them'} whole, and here {'it counts' if number == 1 else 'they count'} as not captured"
        for node, number in overlay.cut.items()
        if number
    ]
    others = [f"{counted(number, 'message')} of {sender}" for sender, number in overlay.others.items()]
    return lines + ([f"not looked at: {', '.join(others)}"] if others else [])


def _clocks(overlay: Overlay, times: Times) -> str:
    """The difference of the clocks of the nodes."""
    if len(overlay.surveys) < 2:
        return ""
    clocks = overlay.sides.clocks
    if not clocks.is_known:
        return "; no frame is in both captures, so the clocks of a and b are taken to agree"
    said = f"; {_apart(clocks.first)}"
    if abs(clocks.last - clocks.first) > _SAME:
        said += f" at the beginning, and {_apart(clocks.last).replace('the clock of b is ', '')} at the end"
    was_set = clocks.was_set
    if was_set is not None:
        said += f" (one was set at about {times.to_second(was_set)}: a frame near that may be taken as not captured)"
    way = "as long one way as the other" if overlay.sides.latency else "no time"
    return f"{said}, if frames take {way}; all times are those of a"


def _apart(difference: int) -> str:
    if abs(difference) < _SAME:
        return "the clock of b is that of a"
    return f"the clock of b is {lasting(abs(difference))} {'ahead' if difference > 0 else 'behind'}"


# ---- what is found


def _part(kind: Kind, part: Part, story: Story, times: Times, how: Shown) -> List[str]:
    """A part: what it counts and is a sign of, and the first ones."""
    if not part.count:
        return []
    head = how.paint.bad(_counted(kind, part)) + f"{_further(kind, story)}; {kind.value.sign}"
    first = sorted(part.first, key=lambda it: it.time)
    lines = [f"  {times.at(it.time)}  {it.said()}" for it in first]
    rest = part.count - len(lines)
    return [head, *lines, *([f"  and {rest:,} more; --all lists them"] if rest else [])]


def _further(kind: Kind, story: Story) -> str:
    """What is counted besides."""
    if kind is Kind.LOST and story.lost_states:
        records = counted(story.lost_states, "record of a state", "records of states")
        return f", with {records}, {story.sent_again:,} of which {'was' if story.sent_again == 1 else 'were'} sent again"
    if kind is Kind.REQUESTS:
        return f", {story.answered:,} answered"
    return ""
