"""Two captures laid over one another: what each node sent, when, and whether the capture of the other node has it."""
from __future__ import annotations

import filecmp
import os
import shutil
import tempfile
from bisect import bisect_left
from collections import deque
from itertools import islice
from typing import IO, Deque, Dict, Iterable, Iterator, List, NamedTuple, Optional, Sequence, Set, Tuple, Union

from ..language.names import NODES
from .decoding import Decoded, decoded, is_cut
from .files import NANOSECONDS, BadCapture, looks_like_one
from .sides import sides
from .surveys import AT_ONCE, LEAST_COMPARED, WHOLE, Survey, read_again, surveyed

# How far apart a message is looked for at the other node, once the clocks are compared.
WINDOW = NANOSECONDS // 2
# How many messages, and how many of their bytes, wait at most until that has passed twice; and how many of the same bytes are compared.
_MOST_WAITING, _MOST_BYTES, _MOST_ALIKE = 1 << 17, 1 << 26, 256
# How many of the same bytes on either side of where a message is expected are looked at.
_BESIDE = 3
# How far a message that was captured out of order is put back.
_MOST_STEPS = 64
# How many cut messages are kept, until those that were sent are looked at.
_MOST_CUT = 64

# What a message is known by: its sender's node, its length, and its bytes.
_Key = Tuple[str, int, bytes]


class Sent(NamedTuple):
    """A message: its number in the order of time; when it was sent, and by which node; when it came, if the capture of the other node has
    it; and whether it did: False if that capture covers the moment and does not have it, None if no capture can say. Times are in
    nanoseconds since 1970, by the clock of a."""

    number: int
    time: int
    node: str
    came: Optional[int]
    arrived: Optional[bool]
    message: Decoded


class Overlay:
    """One or two captures of a pair: the first is of node a, the second of node b."""

    def __init__(self, paths: Sequence[str], a: Optional[str] = None):
        # (a pipe can be read only once)
        self._copies: List[IO[bytes]] = []
        files = [path if os.path.isfile(path) else self._copied(path) for path in paths]
        _refuse_the_same(files, paths)
        self.surveys = [surveyed(file, path) for file, path in zip(files, paths)]
        shortest = min(it.shortest for it in self.surveys)
        if shortest < WHOLE and len(paths) == 2:
            self.surveys = [surveyed(file, path, max(shortest, LEAST_COMPARED)) for file, path in zip(files, paths)]
        for survey in self.surveys:
            if not survey.messages:
                alone = "; if it is, its node sent and heard nothing: give the other capture alone" * (len(paths) == 2)
                raise BadCapture(survey.fault or f"{survey.name} has no message of pfsync: is it a capture of the sync interface?{alone}")
        self.sides = sides(self.surveys, a)
        # From when to when each capture is, by the clock of a.
        self.covered = [self._period(which, it) for which, it in enumerate(self.surveys)]
        # How many messages of each node came to the other one, and are not in the capture of their own; and how many came once more.
        self.not_captured: Dict[str, int] = dict.fromkeys(NODES, 0)
        self.repeated: Dict[str, int] = dict.fromkeys(NODES, 0)
        # How many a capture has twice, as where two interfaces of a node are captured.
        self.doubled: Dict[str, int] = dict.fromkeys(NODES, 0)
        # How many came with fewer bytes than their headers say: each is no frame besides the one that was sent.
        self.cut: Dict[str, int] = dict.fromkeys(NODES, 0)

    def _period(self, which: int, survey: Survey) -> Tuple[int, int]:
        """From when to when a capture is, by the clock of a. (Where a clock was set back, it does not begin with its earliest time.)"""
        times = survey.first, survey.last, survey.begun, survey.ended
        by_a = [self.sides.clocks.to_a(time) for time in times] if which else times
        return min(by_a), max(by_a)

    def _copied(self, path: str) -> str:
        """A copy of what a pipe gives."""
        copy = tempfile.NamedTemporaryFile()
        with open(path, "rb") as pipe:
            begin = pipe.read(4)
            copy.write(begin)
            # (a device may have no end)
            if looks_like_one(begin):
                shutil.copyfileobj(pipe, copy)
        copy.flush()
        self._copies.append(copy)
        return copy.name

    @property
    def faults(self) -> List[str]:
        """Where the files could not be read on."""
        return [survey.fault for survey in self.surveys if survey.fault]

    @property
    def others(self) -> Dict[str, int]:
        """How many messages there are of senders that are neither node."""
        numbers: Dict[str, int] = {}
        for survey in self.surveys:
            for sender, number in survey.senders.items():
                if sender and sender not in self.sides.nodes:
                    numbers[sender] = numbers.get(sender, 0) + number
            if survey.more_senders:
                numbers["further senders"] = numbers.get("further senders", 0) + survey.more_senders
        return numbers

    def hears(self, node: str) -> bool:
        """Whether a capture would have what the node sends."""
        if node in self.sides.nodes.values():
            return True
        return len(self.surveys) == 2 or not self.surveys[0].is_own

    def covers(self, which: int, time: int) -> bool:
        """Whether a capture of the link covers a moment by the clock of a, so that it would have a message that was sent then."""
        survey, (first, last) = self.surveys[which], self.covered[which]
        return survey.packets > 0 and not survey.is_own and first <= time and time + self.sides.latency <= last

    def sent(self) -> Iterator[Sent]:
        """The messages of both nodes in the order of time. Memory does not grow with their number."""
        self.not_captured, self.repeated, self.doubled, self.cut = (dict.fromkeys(NODES, 0) for _ in range(4))
        if len(self.surveys) == 1:
            for number, entry in enumerate(self._entries(0), 1):
                is_own = self.surveys[0].is_own or entry.node == NODES[0]
                came = None if is_own else entry.time
                yield Sent(number, entry.time, entry.node, came, None if is_own else True, decoded(entry.payload, entry.length))
            return
        number = 0
        for entry in _Waiting(self._compared(), self.sides.latency).resolved(_by_time(self._entries(0), self._entries(1))):
            if entry.is_copy:
                continue
            its = self._of(entry)
            if its:
                number += 1
                yield tuple.__new__(Sent, (number, entry.time, entry.node, *its, decoded(entry.bytes, entry.length)))

    def _compared(self) -> int:
        return min(survey.compared for survey in self.surveys)

    def _entries(self, which: int) -> Iterator[_Entry]:
        """The messages of a capture, by the clock of a. Where it has most of them twice, each is one; but what comes from the other node
        may be repeated on the way, which the other capture tells apart."""
        survey, nodes, to_a = self.surveys[which], self.sides.nodes, self.sides.clocks.to_a
        is_own, is_alone, is_doubled = survey.is_own, len(self.surveys) == 1, survey.is_doubled
        before, before_time, before_node = b"", 0, ""
        for time, sender, _, length, payload in read_again(survey):
            node = NODES[which] if is_own else nodes.get(sender)
            if not node:
                continue
            if is_doubled and (is_alone or node == NODES[which]):
                is_double = payload == before and node == before_node and 0 <= time - before_time <= AT_ONCE
                before, before_time, before_node = payload, time, node
                if is_double:
                    self.doubled[node] += 1
                    continue
            yield _Entry(to_a(time) if which else time, which, node, length, payload)

    def _of(self, entry: _Entry) -> Optional[Tuple[Optional[int], Optional[bool]]]:
        """When a message came and whether it did; None of what is no other message than one before."""
        if entry.partner:
            return max(entry.partner.time, entry.time), True
        if NODES[entry.which] == entry.node:
            return None, False if entry.is_cut or self.covers(1 - entry.which, entry.time) else None
        if entry.is_again:
            self.repeated[entry.node] += 1
            return None
        if is_cut(entry.payload, entry.length):
            self.cut[entry.node] += 1
            return None
        self.not_captured[entry.node] += 1
        return entry.time, True


def _refuse_the_same(files: Sequence[str], paths: Sequence[str]) -> None:
    """Refuses one capture that is given twice, as one file or as two of the same bytes."""
    if len(files) == 2 and (os.path.samefile(files[0], files[1]) or filecmp.cmp(files[0], files[1], shallow=False)):
        raise BadCapture(f"{paths[0]} and {paths[1]} are the same capture: one of node a and one of node b are compared")


class _Entry:
    """A message of a capture, which waits for the same one in the other. At its sender it has a partner then, and that one is a copy."""

    __slots__ = ("time", "which", "node", "length", "payload", "key", "partner", "is_copy", "is_open", "is_again", "is_cut")

    def __init__(self, time: int, which: int, node: str, length: int, payload: bytes):
        self.time, self.which, self.node, self.length, self.payload = time, which, node, length, payload
        self.key: _Key = ("", 0, b"")
        self.partner: Optional[_Entry] = None
        self.is_open = True
        self.is_copy = self.is_again = False
        # Whether it came with fewer bytes than were sent.
        self.is_cut = False

    @property
    def bytes(self) -> bytes:
        """What was captured of it at the node that has more of it."""
        other = self.partner.payload if self.partner else b""
        return other if len(other) > len(self.payload) else self.payload

    def meet(self, other: _Entry) -> None:
        """Takes the same message of the other capture as its partner, or as what it is a copy of."""
        sent, came = (self, other) if NODES[self.which] == self.node else (other, self)
        sent.partner, came.is_copy = came, True
        sent.is_open = came.is_open = False


def _by_time(one: Iterator[_Entry], two: Iterator[_Entry]) -> Iterator[_Entry]:
    """The messages of two captures in the order of time."""
    first, second = next(one, None), next(two, None)
    while first and second:
        if first.time <= second.time:
            yield first
            first = next(one, None)
        else:
            yield second
            second = next(two, None)
    for last, rest in ((first, one), (second, two)):
        if last:
            yield last
            yield from rest


class _Waiting:
    """Messages that wait until the other capture would have them, and whatever is as near to that one."""

    def __init__(self, compared: int, latency: int):
        self._compared, self._latency = compared if compared < WHOLE else None, latency
        self._entries: Deque[_Entry] = deque()
        # (nearly always one message, or one of each capture)
        self._alike: Dict[_Key, Union[List[_Entry], _Crowd]] = {}
        # The last ones that came with fewer bytes than their headers say.
        self._cut: Deque[_Entry] = deque(maxlen=_MOST_CUT)

    def resolved(self, entries: Iterator[_Entry]) -> Iterator[_Entry]:
        """The messages in order, once it is known which of the other capture is the same."""
        waiting, alike, compared = self._entries, self._alike, self._compared
        size = 0
        for entry in entries:
            payload = entry.payload
            key = entry.key = (entry.node, entry.length, payload if compared is None else payload[:compared])
            if NODES[entry.which] != entry.node and is_cut(payload, entry.length):
                self._cut.append(entry)
            its = alike.get(key)
            if its is None:
                alike[key] = [entry]
            else:
                its.append(entry)
            if waiting and waiting[-1].time > entry.time:
                self._put_back(entry)
            else:
                waiting.append(entry)
            size += len(payload)
            latest = entry.time - 2 * WINDOW
            while waiting and (waiting[0].time < latest or len(waiting) > _MOST_WAITING or size > _MOST_BYTES):
                head = waiting.popleft()
                size -= len(head.payload)
                if head.is_open:
                    self._resolve(head)
                yield head
        for head in waiting:
            if head.is_open:
                self._resolve(head)
            yield head

    def _find_cut(self, head: _Entry) -> None:
        """Marks a message of which fewer bytes came."""
        for cut in self._cut:
            if cut.node == head.node and 0 <= cut.time - head.time <= WINDOW and head.payload.startswith(cut.payload):
                head.is_cut = True
                self._cut.remove(cut)
                return

    def _put_back(self, entry: _Entry) -> None:
        """Puts an entry in its place among those that were captured later."""
        waiting, steps = self._entries, 1
        while steps < min(_MOST_STEPS, len(waiting)) and waiting[-1 - steps].time > entry.time:
            steps += 1
        waiting.insert(len(waiting) - steps, entry)

    def _resolve(self, head: _Entry) -> None:
        """Pairs the oldest entry with the one of the same bytes that is nearest to it, if none is nearer to that."""
        alike = self._alike[head.key]
        if isinstance(alike, list):
            if len(alike) == 1:
                del self._alike[head.key]
                head.is_open = False
                if self._cut and NODES[head.which] == head.node:
                    self._find_cut(head)
                return
            if len(alike) == 2 and alike[0].which != alike[1].which and abs(alike[0].time - alike[1].time) <= WINDOW:
                alike[0].meet(alike[1])
                del self._alike[head.key]
                return
            alike = self._alike[head.key] = _Crowd(alike, self._latency)
        alike.resolve(head)
        if alike.is_empty:
            del self._alike[head.key]


class _Crowd:
    """Messages of the same bytes, by their captures, in the order of time."""

    def __init__(self, them: Iterable[_Entry], latency: int):
        self._latency = latency
        self._its: Tuple[Deque[_Entry], Deque[_Entry]] = (deque(), deque())
        # When the last one was that has a partner.
        self._met: Optional[int] = None
        for it in them:
            self.append(it)

    def append(self, entry: _Entry) -> None:
        self._its[entry.which].append(entry)

    @property
    def is_empty(self) -> bool:
        return not any(self._its)

    def resolve(self, head: _Entry) -> None:
        """Pairs the first ones, the nearest in time first. Those beyond a window after the oldest one belong together so far, and wait on.
        What came once more than it was sent was repeated on the way."""
        self._drop()
        ones, twos = self._first()
        last = head.time + WINDOW
        taken: Tuple[Set[int], Set[int]] = (set(), set())
        for _, nth, at in self._near(ones, twos):
            if nth in taken[0] or at in taken[1]:
                continue
            taken[0].add(nth)
            taken[1].add(at)
            one, two = ones[nth], twos[at]
            if min(one.time, two.time) <= last:
                one.meet(two)
                self._met = max(one.time, self._met or 0)
        if head.is_open:
            is_copy = NODES[head.which] != head.node
            head.is_again = is_copy and self._met is not None and abs(head.time - self._met) <= WINDOW
            head.is_open = False
        self._drop()

    def _first(self) -> Tuple[List[_Entry], List[_Entry]]:
        """The first ones of both captures. Where there are more of one, those of the other beyond them are left out, which may belong to
        these."""
        ones, twos = ([*islice(its, _MOST_ALIKE)] for its in self._its)
        ends = [its[-1].time for its in (ones, twos) if len(its) == _MOST_ALIKE]
        first = [[it for it in its if it.is_open and not (ends and it.time > min(ends))] for its in (ones, twos)]
        return first[0], first[1]

    def _near(self, ones: List[_Entry], twos: List[_Entry]) -> List[Tuple[int, int, int]]:
        """Which of the one capture are near to which of the other, and by how much that is other than what a message takes on its way."""
        times = [it.time for it in twos]
        near: List[Tuple[int, int, int]] = []
        for nth, one in enumerate(ones):
            wanted = one.time + (self._latency if one.node == NODES[0] else -self._latency)
            place = bisect_left(times, wanted)
            for at in range(max(place - _BESIDE, 0), min(place + _BESIDE, len(twos))):
                apart = abs(times[at] - wanted)
                if apart <= WINDOW:
                    near.append((apart, nth, at))
        return sorted(near)

    def _drop(self) -> None:
        """Drops those that have a partner, or are alone."""
        for its in self._its:
            while its and not its[0].is_open:
                its.popleft()
