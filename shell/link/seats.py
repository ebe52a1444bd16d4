"""A shell at a served page: a session by way of the page's bridge, or one of the page's server that learns names there."""
from __future__ import annotations

import contextlib
import secrets
import string
import time
from typing import Callable, Dict, List, NamedTuple, Optional, Sequence

from ..language.commands import CHANGING, LOG
from ..model.setups import Setup
from .laboratory import Laboratory, Unknown
from .mirror import Entry, Shared
from .programs import ENTRY, VIEW, Ended, Session, check_setup
from .visits import NOT_A_PAGE, Data, Page, Refused, cleaned, printable

# How long to wait for the first message of a page, in seconds.
PATIENCE = 60.0
# How many names of commands are kept.
MOST_NAMES = 1000
WATCH = "watch"
NO_NAMES = "names are not exchanged"


class Told(NamedTuple):
    """A command as a page has it: its number at the server, its session there, who gave it, and its line."""

    number: int
    session: int
    who: str
    command: str

    @classmethod
    def read(cls, message: object) -> "Told":
        if not isinstance(message, list) or [*map(type, message)] != [int, int, str, str]:
            raise Ended(NOT_A_PAGE)
        if not message[3].isprintable() or not message[3].split():
            raise Ended(NOT_A_PAGE)
        return cls(message[0], message[1], cleaned(message[2]), message[3])


class Journal:
    """The commands of a page's pair as they come, with its setup, and what its address allows."""

    def __init__(self, page: Page):
        self.messages = page.follow("journal?after=0")
        self._ended = ""
        try:
            first, *self._came = self.messages.messages(PATIENCE) or [{}]
            self.setup = _setup(first)
        except BaseException:
            self.close()
            raise
        self.is_for_watching = first.get("may") == WATCH

    def come(self, seconds: float = 0) -> List[Told]:
        """The commands that have come; if there are none, waits at most this many seconds."""
        if self._ended:
            raise Ended(self._ended)
        came, self._came = self._came or self.messages.messages(seconds), []
        told = [Told.read(one) for it in came for one in _list(it.get("told", []))]
        self._ended = "".join(printable(str(it["ended"])) for it in came if "ended" in it)
        return told or (self.come() if self._ended else [])

    def close(self) -> None:
        self.messages.close()


def _list(value: object) -> List[object]:
    if not isinstance(value, list):
        raise Ended(NOT_A_PAGE)
    return value


def _setup(message: Data) -> Sequence[str]:
    """The lines of the setup in the first message of a page."""
    lines = _list(message.get("setup"))
    if not all(isinstance(line, str) and "\n" not in line for line in lines):
        raise Ended(NOT_A_PAGE)
    return [str(line) for line in lines]


class Guest(Session):
    """A session of a page, which is to a shell what one of a server is: it takes commands, and shows the entries of its journal."""

    def __init__(self, page: Page, name: str):
        self._page, self._name = page, name
        self.journal = Journal(page)
        # How many entries it has shown; who gave those that were not taken yet; and the entry of the newest command of its own.
        self._shown = 0
        self.who: Dict[int, str] = {}
        self.placed: Optional[int] = None

    def follow(self) -> None:
        """It shows the entries anyway."""

    def watch(self, seconds: float) -> None:
        """Waits until something comes, at most this many seconds."""
        with contextlib.suppress(OSError, ValueError):
            self.journal.messages.is_there(seconds)

    def come(self, seconds: float = 0) -> List[str]:
        """The lines of entries that came, as a server shows them."""
        lines = []
        for told in self.journal.come(seconds):
            self._shown += 1
            self.who[self._shown] = told.who
            lines.append(f"{ENTRY}{self._shown} {told.session} {told.command}")
        return lines

    def _ask(self, lines: Sequence[str]) -> List[List[str]]:
        return [self._answer(line) for line in lines]

    def _answer(self, line: str) -> List[str]:
        """The reply to a command that changes the pair, or to `view`, of which only the number of entries is known."""
        if line == VIEW:
            return [f"{VIEW} {self._level()}"]
        answer = self._page.post("do", {"name": self._name, "line": line})
        reply, place = answer.get("reply"), answer.get("entry")
        if not isinstance(reply, list) or not reply or not isinstance(place, (int, type(None))):
            raise Ended(NOT_A_PAGE)
        self.placed = place
        return [printable(str(it)) for it in reply]

    def _level(self) -> int:
        try:
            return int(self._page.get("level")["entries"])
        except Refused as why:
            raise Ended(f"{why}") from why
        except (KeyError, TypeError, ValueError):
            raise Ended(NOT_A_PAGE) from None

    def close(self) -> None:
        self.journal.close()


class Seat(Shared):
    """A session by way of a page, with a mirror, which answers all looks."""

    def __init__(self, guest: Guest, program: str):
        self._guest = guest
        # The replies to commands of its own whose entries have not come yet.
        self._own: Dict[int, List[str]] = {}
        super().__init__(guest, program, guest.journal.setup)

    def _answer(self, line: str) -> List[str]:
        return self._change(line) if line.split()[0] in CHANGING else self._look(line)

    def _change(self, line: str) -> List[str]:
        self.is_level = False
        reply, place = self._guest.ask(line), self._guest.placed
        if place is not None:
            self._own[place] = reply
            self._reach(place)
            self.is_level = True
        return reply

    def _read(self, line: str) -> Entry:
        entry = super()._read(line)
        return entry._replace(who=self._guest.who.pop(entry.number, ""))

    def _reply_to(self, entry: Entry) -> Optional[List[str]]:
        return self._own.pop(entry.number, None)

    def _give_up(self, why: str) -> None:
        raise Ended(f"the mirror of the page's pair cannot be used: {why}")


class People:
    """Who gives the commands of a server, as a page of that server knows it."""

    def __init__(self, journal: Journal):
        self._journal = journal
        # The names of those who gave commands, by the numbers of these, and the newest name of each session.
        self._who: Dict[int, str] = {}
        self._sessions: Dict[int, str] = {}
        # The number of the newest command that the page has reported, and whether more can come.
        self._reached, self._is_there = 0, True

    def hear(self, seconds: float = 0) -> None:
        """Takes what the page has reported; if there is nothing, waits at most this many seconds."""
        try:
            for told in self._journal.come(seconds) if self._is_there else ():
                self._reached = told.number
                self._who[told.number] = told.who
                if told.session:
                    self._sessions[told.session] = told.who
        except Ended:
            self._is_there = False
        for number in [*self._who][:-MOST_NAMES]:
            del self._who[number]

    def knows(self, entry: Entry, seconds: float = 0) -> bool:
        """Whether all is known about who gave a command that can be known; waits for that at most this many seconds."""
        until = time.monotonic() + seconds
        self.hear()
        while self._is_there and self._reached < entry.number and time.monotonic() < until:
            self.hear(until - time.monotonic())
        return not self._is_there or self._reached >= entry.number

    def name(self, entry: Entry) -> str:
        """Who gave a command; empty if that is not known."""
        return self._who.get(entry.number, "") or self._sessions.get(entry.session, "")

    def close(self) -> None:
        self._journal.close()


def seated(program: str, page: Page, name: str, say: Callable[[str], None]) -> Laboratory:
    """A laboratory whose pair is that of a page, as it is now."""
    guest = Guest(page, name)
    try:
        fault = check_setup(program, guest.journal.setup)
        if fault:
            raise Unknown(f"the program here does not take the setup of the page's pair: {fault.words}")
        seat = Seat(guest, program)
    except BaseException:
        guest.close()
        raise
    lab = Laboratory(program)
    lab.sit(seat, Setup.of(guest.journal.setup))
    try:
        seat.level()
    except BaseException:
        lab.close()
        raise
    how = f"; this address is for watching, not for stepping{', and nobody sees your name' * bool(name)}"
    number = f"{seat.entries} command{'s' * (seat.entries != 1)} so far"
    say(f"connected to the page: {number}{how * guest.journal.is_for_watching}")
    return lab


def introduced(lab: Laboratory, page: Optional[Page], name: str, command: str) -> str:
    """Gives the name of a session to a page of the same server, and learns the names of others there; returns what there is to say."""
    if page is None:
        there = f"a page of it does (`{command} page --serve`), by --page URL"
        return f"the name {name} stays here: the server takes no names; {there}" if name else ""
    if lab.shared is None:
        return f"{NO_NAMES}: the server does not report its journal"
    try:
        if not _claims(lab.shared, page, name):
            return f"{NO_NAMES}: the page does not follow this server"
        lab.people = People(Journal(page))
    except (Refused, Ended) as why:
        return f"{NO_NAMES}: {why}"
    return ""


def _claims(shared: Shared, page: Page, name: str) -> bool:
    """Has the session say a sign that the page knows, so that the name is that of this session; returns whether the page heard it."""
    letters = string.ascii_lowercase + string.digits
    sign = secrets.choice(string.ascii_lowercase) + "".join(secrets.choice(letters) for _ in range(15))
    claim: Data = {"name": name, "sign": sign}
    page.post("name", claim)
    shared.client.ask(f"{LOG.word} {sign}")
    return page.post("name", claim).get("session") is not None
