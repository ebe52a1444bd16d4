"""Notes of what other sessions of a server do: a line for each of their commands except looks, or one line for many."""
from __future__ import annotations

import time
from collections import deque
from typing import Callable, Deque, List, NamedTuple, Optional, Sequence, Set, Tuple

from ..console.colours import Paint
from ..language.commands import STEP
from ..link.laboratory import Names, outcome_of
from ..link.mirror import Entry, Shared

# How many notes are shown one by one before there is a pause of some seconds.
MOST = 10
PAUSE = 0.5
# How long a note waits for the name of who gave its command, in seconds.
PATIENCE = 2.0


class Held(NamedTuple):
    """A command of another session, and what the mirror replied, if there is a mirror."""

    entry: Entry
    reply: Optional[List[str]]


class Notes:
    """The notes of a session, held until they are shown."""

    def __init__(self, shared: Shared, show: Callable[[Sequence[str]], None], paint: Paint, names: Optional[Names] = None):
        self.shared, self.show_lines, self.paint = shared, show, paint
        self.names = names
        self.is_on = True
        # The newest notes that are held, how many there are, and who gave the commands of those before.
        self._held: Deque[Held] = deque()
        self._count = 0
        self._others: Set[Tuple[str, int]] = set()
        # How many came since the last pause, and when the newest did.
        self._since_pause, self._newest = 0, 0.0
        shared.heard = self._hear
        shared.say = lambda text: self.show_lines([self.paint.bad(text)])

    def _hear(self, entry: Entry, reply: Optional[List[str]]) -> None:
        if self.is_on:
            now = time.monotonic()
            self._since_pause = 1 if now - self._newest >= PAUSE else self._since_pause + 1
            self._newest = now
            self._held.append(Held(entry, reply))
            self._count += 1
            if len(self._held) > MOST:
                self._others.add(self._who(self._held.popleft().entry))

    def _who(self, entry: Entry) -> Tuple[str, int]:
        """Who gave a command: a name, or else the number of a session."""
        name = entry.who or (self.names.name(entry) if self.names else "")
        return (name, 0) if name else ("", entry.session)

    def _knows_names(self, seconds: float) -> bool:
        """Whether it is known who gave the held commands, or has been waited for long enough."""
        return self.names is None or not self._held or self.names.knows(self._held[-1].entry, seconds)

    @property
    def are_due(self) -> bool:
        """Whether it is time to show the held notes: a few at once, more than that in the next pause."""
        is_pause = not self.shared.is_behind and time.monotonic() - self._newest >= PAUSE
        is_due = bool(self._held) and (self._since_pause <= MOST or is_pause)
        return is_due and (self._knows_names(0) or time.monotonic() - self._newest >= PATIENCE)

    def show(self) -> None:
        """Shows the notes that have come: each, or how many there are."""
        self.shared.hear()
        self._knows_names(PATIENCE - min(PATIENCE, time.monotonic() - self._newest))
        lines = [note(it, self._who(it.entry)) for it in self._held]
        if self._count > MOST:
            others = {*self._others, *(self._who(it.entry) for it in self._held)}
            lines = [f"{self._count} commands of {all_of(others)}; the newest: {lines[-1]}"]
        self._forget()
        self.show_lines([self.paint.note(line) for line in lines])

    def turn(self, is_on: bool) -> None:
        """Turns notes on or off; those that are held are no longer shown."""
        self.is_on = is_on
        self._forget()

    def _forget(self) -> None:
        self._held.clear()
        self._others.clear()
        self._count = 0


def note(held: Held, who: Tuple[str, int]) -> str:
    """A command of another session, who gave it, and what the mirror replied."""
    return f"[{all_of({who})}] {held.entry.command}" + ("" if held.reply is None else f" -> {in_short(held.reply[0])}")


def all_of(people: Set[Tuple[str, int]]) -> str:
    """Those with names, and then sessions by their numbers."""
    names = sorted(name for name, _ in people if name)
    sessions = sorted(session for name, session in people if not name)
    return ", ".join([*names, *[f"session{'s' * (len(sessions) > 1)} {', '.join(map(str, sessions))}"] * bool(sessions)])


def in_short(reply: str) -> str:
    """A reply; for a step the outcome, and how many undone events it discarded, if any."""
    words = reply.split()
    discards = words[0] == STEP.word and words[-1] != "0"
    return outcome_of(reply) + f" dropped {words[-1]}" * discards
