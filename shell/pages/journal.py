"""The journal of a live page: the commands of all who step its pair, each with who gave it, as far as that is known."""
from __future__ import annotations

import threading
from collections import OrderedDict
from typing import Dict, List, NamedTuple, Optional

from ..language.commands import COMMANDS, EVENT, LOG
from ..language.events import plain_event

# How many commands come in one message at most, and how many sessions may be about to give their names.
MOST_TOLD = 500
MOST_CLAIMS = 64


class Told(NamedTuple):
    """A command: its number at the server, its session there (0 for the page's own), who gave it, and its line."""

    number: int
    session: int
    who: str
    command: str


def plain(command: str) -> str:
    """A command in the form in which a server's journal has it."""
    words = command.split()
    values = COMMANDS[words[0]].values_of(words)
    parts = [it.plain(word) for it, word in zip(values, words[1:]) if it is not EVENT]
    return " ".join([words[0], *parts, *([plain_event(words[len(parts) + 1 :])] if EVENT in values else [])])


class Journal:
    """The commands that change the pair or are refused, for any number of readers, each at its own place."""

    def __init__(self) -> None:
        self._changed = threading.Condition()
        self._told: List[Told] = []
        self._has_ended = False

    def __len__(self) -> int:
        return len(self._told)

    def add(self, told: Told) -> None:
        with self._changed:
            self._told.append(told)
            self._changed.notify_all()

    def end(self) -> None:
        """Wakes those who wait: nothing more will come."""
        with self._changed:
            self._has_ended = True
            self._changed.notify_all()

    def after(self, place: int, seconds: float) -> List[Told]:
        """The commands after the first ones, at most as many as one message has; if there are none, waits at most this many seconds."""
        with self._changed:
            self._changed.wait_for(lambda: len(self._told) > place or self._has_ended, seconds)
            return self._told[place : place + MOST_TOLD]


class Names:
    """The names of the sessions of a server. A session gives its own: it says a sign, which it has told the page before, in a command
    that looks. So nobody can name a session of somebody else."""

    def __init__(self) -> None:
        self._of: Dict[int, str] = {}
        # The names that are claimed, by their signs, the newest last; and the sessions that have said their signs.
        self._claimed: "OrderedDict[str, str]" = OrderedDict()
        self._signed: Dict[str, int] = {}

    def claim(self, sign: str, name: str) -> Optional[int]:
        """Takes a name, for the session that says a sign after this; returns that session, if it has said it."""
        if sign not in self._signed:
            self._claimed[sign] = name
            while len(self._claimed) > MOST_CLAIMS:
                self._claimed.popitem(last=False)
        return self._signed.get(sign)

    def hear(self, session: int, command: str) -> None:
        """Takes a command that looks: with a sign it names its session."""
        word, _, sign = command.partition(" ")
        if word == LOG.word and sign in self._claimed:
            self._of[session] = self._claimed.pop(sign)
            self._signed[sign] = session

    def of(self, session: int) -> str:
        """The name of a session; empty if it has none."""
        return self._of.get(session, "")
