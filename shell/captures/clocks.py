"""The difference of the clocks of two nodes, by the messages that the captures of both have."""
from __future__ import annotations

from bisect import bisect_right
from itertools import chain, combinations
from statistics import median, median_low
from typing import Dict, Iterable, List, NamedTuple, Optional, Sequence, Tuple

from .files import NANOSECONDS

# The messages that are compared are in groups of this many or more, and there are at most so many groups.
_LEAST_OF_GROUP, _MOST_GROUPS = 16, 64
# Clocks that drift apart by more than this were set: nanoseconds, and parts of the time between two groups.
_SET = NANOSECONDS // 10
_DRIFT = 1e-3
# A drift is measured over this time or more: the times of the way are not alike. From fewer pairs than these it may be any usual one.
_LEAST_TIME, _LEAST_SLOPES = NANOSECONDS, 3
_USUAL_DRIFT = 1e-4
# The share of the messages of a group that take the least time, and how far from the others they may be.
_SHARE, _NEAR = 8, NANOSECONDS // 2
# The standard error of a median by the median of what is apart from it.
_ERROR = 1.2533 * 1.4826


class Both(NamedTuple):
    """A message that both captures have once: its sender, and when each has it, each by its own clock."""

    sender: str
    a: int
    b: int

    @property
    def apart(self) -> int:
        return self.b - self.a


class Clocks:
    """What the clock of b shows beyond that of a, as it changes with time."""

    def __init__(self, points: Sequence[Tuple[int, int]] = (), slope: float = 0.0):
        # When by the clock of b, and the difference; a line leads from each to the next, or a step where the clock was set.
        self.points = [*points]
        # The same by the clock of a: where a clock was set back, b has some times twice.
        self._by_a = sorted((time - apart, apart) for time, apart in points)
        # How much they drift apart, where there is one point alone.
        self._slope = slope
        self._times = [time for time, _ in self.points]
        # The line that was last used: from when to when, where it begins, its difference there, and its slope.
        self._line: Tuple[float, float, int, int, float] = (0, 0, 0, 0, 0.0)

    @property
    def is_known(self) -> bool:
        return bool(self.points)

    @property
    def first(self) -> int:
        """The difference at the beginning, in nanoseconds."""
        return self._by_a[0][1] if self.points else 0

    @property
    def last(self) -> int:
        """The difference at the end."""
        return self._by_a[-1][1] if self.points else 0

    @property
    def was_set(self) -> Optional[int]:
        """About when a clock was set, by the clock of a; None if they ran evenly."""
        for one, two in zip(self._by_a, self._by_a[1:]):
            if _is_step(one, two):
                return (one[0] + two[0]) // 2
        return None

    def to_a(self, time: int) -> int:
        """A time of the clock of b by the clock of a."""
        begin, end, at, apart, slope = self._line
        if not begin <= time < end:
            self._line = begin, end, at, apart, slope = self._line_at(time)
        return time - apart - int((time - at) * slope)

    def _line_at(self, time: int) -> Tuple[float, float, int, int, float]:
        """The line at a time, from when to when."""
        never, ever = float("-inf"), float("inf")
        if not self.points:
            return never, ever, 0, 0, 0.0
        if len(self.points) == 1:
            return (never, ever, *self.points[0], self._slope)
        place = min(max(bisect_right(self._times, time), 1), len(self.points) - 1)
        one, two = self.points[place - 1], self.points[place]
        begin = never if place == 1 else one[0]
        end = ever if place == len(self.points) - 1 else two[0]
        if not _is_step(one, two):
            return begin, end, one[0], one[1], (two[1] - one[1]) / (two[0] - one[0])
        middle = (one[0] + two[0]) // 2
        return (begin, middle, one[0], one[1], 0.0) if time < middle else (middle, end, two[0], two[1], 0.0)


def _is_step(one: Tuple[int, int], two: Tuple[int, int]) -> bool:
    return abs(two[1] - one[1]) > _SET + _DRIFT * (two[0] - one[0])


class Measured(NamedTuple):
    """The clocks; how much longer after a than the others the messages of each sender are at b (a median, in nanoseconds), which is twice
    the time of the way, above 0 for the messages of a; and the standard error of that. Nothing where only one sender has messages in
    both captures."""

    clocks: Clocks
    later: Dict[str, int]
    error: float


def measured(them: Iterable[Both]) -> Measured:
    """The clocks by the messages of both captures. A frame is seen at its sender first: so the messages of a are further apart than the
    difference of the clocks, and those of b less."""
    ordered = sorted(them, key=lambda it: it.a)
    groups = _groups(ordered)
    # (of a few messages each counts by itself)
    drift = _slope([_middles(it, 0.0, "") for it in (groups if len(ordered) > _MOST_GROUPS else [[it] for it in ordered])])
    later, error = _later(ordered, drift)
    first = next((sender for sender, its in later.items() if its > 0), "")
    middles = [_middles(group, drift.slope, first) for group in groups]
    # (what is least late says most of the clocks)
    apart = [it[first].apart - its.apart for it in middles if len(it) == 2 and first in it for sender, its in it.items() if sender != first]
    ways = {it: (1 if it == first else -1) * (median_low(apart) if apart else 0) for it in later} if first else {}
    points: Dict[int, int] = {}
    for middle in middles:
        apart_here = [it.apart - ways.get(sender, 0) // 2 for sender, it in middle.items()]
        # (all of a group are at the time of its middle)
        time, difference = next(iter(middle.values())).time, sum(apart_here) // len(apart_here)
        points[time + difference] = difference
    return Measured(Clocks(sorted(points.items()), drift.slope), later, error)


class _Drift(NamedTuple):
    """How much the clocks drift apart, and by how much that may be wrong."""

    slope: float
    error: float


def _later(ordered: Sequence[Both], drift: _Drift) -> Tuple[Dict[str, int], float]:
    """How much later after a than those of the other sender the messages of each are at b, and the standard error: by messages of both that
    follow one another, without what the clocks drift apart between them."""
    senders = sorted({it.sender for it in ordered})
    if len(senders) != 2:
        return {}, 0.0
    apart, gaps = [], []
    former: Optional[Both] = None
    for both in ordered:
        if former is None or former.sender == both.sender:
            former = both
            continue
        one, two = (former, both) if former.sender == senders[0] else (both, former)
        apart.append(one.apart - two.apart - int((one.a - two.a) * drift.slope))
        gaps.append(both.a - former.a)
        former = None
    later = median_low(apart)
    spread = median([abs(it - later) for it in apart])
    return {senders[0]: later, senders[1]: -later}, _ERROR * spread / len(apart) ** 0.5 + drift.error * median_low(gaps)


class _Middle(NamedTuple):
    """How far apart the messages of a sender are at a time by the clock of a."""

    time: int
    apart: int


def _groups(them: List[Both]) -> List[List[Both]]:
    """The messages in groups, in the order of time."""
    number = max(1, min(_MOST_GROUPS, len(them) // _LEAST_OF_GROUP))
    bounds = [len(them) * nth // number for nth in range(number + 1)]
    return [them[begin:end] for begin, end in zip(bounds, bounds[1:])] if them else []


def _middles(them: List[Both], slope: float, first: str) -> Dict[str, _Middle]:
    """By sender, how far apart its messages are at the two nodes, at the time of the middle one of all, where the clocks drift apart by
    this much: a median, or if it is known whose are seen at the first node first, by those that took the least time."""
    middle = them[len(them) // 2].a
    by_sender: Dict[str, List[int]] = {}
    for it in them:
        by_sender.setdefault(it.sender, []).append(it.apart - int((it.a - middle) * slope))
    return {sender: _Middle(middle, _least(its, sender == first) if first else median_low(its)) for sender, its in by_sender.items()}


def _least(apart: List[int], is_first: bool) -> int:
    """How far apart those messages are that took the least time, without any that are far from the others."""
    usual = median_low(apart)
    near = sorted((it for it in apart if abs(it - usual) <= _NEAR), reverse=not is_first)
    return near[len(near) // _SHARE]


def _slope(middles: Sequence[Dict[str, _Middle]]) -> _Drift:
    """How much the clocks drift apart: the median of what each two groups say of a sender."""
    slopes: List[float] = []
    for sender in {*chain.from_iterable(middles)}:
        its = [middle[sender] for middle in middles if sender in middle]
        apart = [(two.apart - one.apart, two.time - one.time) for one, two in combinations(its, 2)]
        # (those of more are across a moment when a clock was set)
        slopes += [difference / time for difference, time in apart if time >= _LEAST_TIME and abs(difference) < _DRIFT * time]
    found = median(slopes) if slopes else 0.0
    if len(slopes) < _LEAST_SLOPES:
        return _Drift(found, _USUAL_DRIFT)
    return _Drift(found, _ERROR * median([abs(slope - found) for slope in slopes]) / len(middles) ** 0.5)
