"""A dump read line by line: states as they come, counters of pfsync(4), and what was not understood."""
from __future__ import annotations

import re
from sys import intern
from typing import Callable, Dict, Iterator, Match, Optional, Tuple

from .files import Faults, Say, blocks
from .forms import HEAD, LIKE_A_HEAD, RECORD, ROUTE, WINDOWS, Marks, kind_of_route, marks_of, name_of, named, routes, seconds, times
from .states import NO_MARKS, Dumped
from .statistics import COUNT, SECTION, title

_SECTION = re.compile(r"[\w-]+:", re.ASCII)


class Growing:
    """A state whose first line was read; its other lines add to it."""

    __slots__ = ("head", "windows", "age", "expires", "marks", "name", "routes")

    def __init__(self, line: int, interface: str, flow: str, levels: str):
        self.head = line, interface, flow, levels
        self.windows = ""
        self.age: Optional[int] = None
        self.expires: Optional[int] = None
        self.marks: Marks = NO_MARKS
        self.name: Optional[str] = None
        self.routes: Tuple[str, ...] = ()

    @classmethod
    def read(cls, line: int, text: str) -> Optional["Growing"]:
        """The state whose first line this is, if it is one."""
        found = HEAD.fullmatch(text)
        if not found:
            return None
        interface, protocol, near, hidden_near, arrow, far, hidden_far, levels = found.groups()
        near = f"{near} ({hidden_near})" if hidden_near else near
        far = f"{far} ({hidden_far})" if hidden_far else far
        return cls(line, intern(interface), f"{protocol} {near} {arrow} {far}", intern(levels))

    def take(self, text: str) -> bool:
        """Takes a line that may follow those that were read; returns whether it is such a line, and in order."""
        taker = _TAKERS.get(text[0])
        return taker is not None and taker(self, text)

    def take_windows(self, text: str) -> bool:
        is_next = not self.windows and self.age is None and self.name is None and bool(WINDOWS.fullmatch(text))
        if is_next:
            self.windows = text
        return is_next

    def take_times(self, text: str) -> bool:
        found = times(text) if self.age is None and self.name is None else None
        if found:
            self.age, self.expires, self.marks = found
        return found is not None

    def take_name(self, text: str) -> bool:
        found = named(text) if self.name is None else None
        if found:
            self.name, self.routes = found
        return found is not None

    def take_routes(self, text: str) -> bool:
        found = routes(text) if ROUTE.match(text) else None
        if found is None or {*map(kind_of_route, found)} & {*map(kind_of_route, self.routes)}:
            return False
        self.routes += found
        return True

    def ended(self) -> Dumped:
        """The whole state."""
        return Dumped(*self.head, self.windows, self.age, self.expires, self.marks, self.name, self.routes)


def whole_of(line: int, found: Match[str]) -> Optional[Dumped]:
    """The state that RECORD has found at a line, if all of it is understood."""
    interface, flow, levels, windows, age, expires, rest, identity, creator, after = found.groups()
    marks, said = marks_of(rest) if rest else NO_MARKS, routes(after) if after else ()
    if marks is None or said is None:
        return None
    name = name_of(identity, creator) if identity else None
    times_of_it = (seconds(age), seconds(expires)) if age else (None, None)
    return Dumped(line, intern(interface), flow, intern(levels), windows or "", *times_of_it, marks, name, said)


# By the first character of a line.
_TAKERS: Dict[str, Callable[[Growing, str], bool]] = {
    "[": Growing.take_windows,
    "a": Growing.take_times,
    "i": Growing.take_name,
    **{it: Growing.take_routes for it in "gor"},
}


class Dump:
    """A file with a capture of a node's state table, of its pfsync counters, or of both."""

    def __init__(self, path: str, say: Say):
        self.path = path
        self.faults = Faults(path, say)
        self.counters: Dict[str, int] = {}
        self._lines = 0
        self._state: Optional[Growing] = None
        self._is_counting = False

    def states(self) -> Iterator[Dumped]:
        """The states in the order of the file; the counters are known after the last one."""
        for text in blocks(self.path):
            yield from self._of_block(text)
        if self._state:
            yield self._state.ended()
        self.faults.end()

    def _of_block(self, text: str) -> Iterator[Dumped]:
        """The states that end in these lines. Whatever is not a whole state in its usual form is read line by line."""
        at = 0
        while at < len(text):
            record = RECORD.match(text, at)
            whole = whole_of(self._lines + 1, record) if record else None
            end = record.end() if record and whole else text.find("\n", at) + 1 or len(text)
            before = self._state
            if whole:
                self._state, self._is_counting = None, False
            else:
                self._take_line(text[at:end])
            if before and before is not self._state:
                yield before.ended()
            if whole:
                yield whole
            self._lines += text.count("\n", at, end)
            at = end

    def _take_line(self, line: str) -> None:
        """Takes a line by itself."""
        text = line.strip()
        if not text or self._state and self._state.take(text):
            return
        if not self._take(self._lines + 1, line, text):
            self.faults.add(self._lines + 1, text)
            self._state = None if LIKE_A_HEAD.match(text) else self._state

    def _take(self, number: int, line: str, text: str) -> bool:
        """Takes a line that does not belong to the state before it; returns whether it was understood."""
        if self._is_counting and self._count(text):
            return True
        began = Growing.read(number, text)
        if began:
            self._state, self._is_counting = began, False
            return True
        if _SECTION.fullmatch(text) and not line[0].isspace():
            self._is_counting = text == SECTION
            return self._is_counting
        return False

    def _count(self, text: str) -> bool:
        """Takes a counter; the first one with a name counts."""
        found = COUNT.fullmatch(text)
        if found:
            self.counters.setdefault(title(found[2]), int(found[1]))
        return bool(found)
