"""A session that follows its server: a run of the program carries out the commands of the server's journal, and answers all looks.

The server keeps all that it is asked until it ends, and a look is long. So it is asked only for what changes the pair, and for `view`."""
from __future__ import annotations

import contextlib
import sys
from collections import deque
from typing import Callable, Deque, Iterator, List, NamedTuple, Optional, Protocol, Sequence, Tuple, Union

from ..language.commands import CHANGING, LOOKING, OPEN
from ..language.searches import SEARCH
from ..model.setups import Setup
from .programs import ENTRY, FULL, SETUP_WORD, TOO_LONG, VIEW, Client, Ended, Run, Session, check_setup, commands_of, uninterrupted

# How many seconds to wait for an entry that the server has.
PATIENCE = 30.0


class Entry(NamedTuple):
    """A command of a server's journal: its number, counted from 1, the session that gave it, its line, and who gave it, if that is known.
    Of a command of one's own the session can be 0."""

    number: int
    session: int
    command: str
    who: str = ""

    @classmethod
    def read(cls, line: str) -> "Entry":
        _, number, session, command = line.split(" ", 3)
        return cls(int(number), int(session), command)

    @property
    def changes(self) -> bool:
        """Whether it changes the pair, or is refused; all others look."""
        return self.command.split()[0] in CHANGING


class Taken(NamedTuple):
    """An entry that was taken, and the reply to it; empty if it looks, or if the reply is not known."""

    entry: Entry
    reply: Sequence[str]


class Given(NamedTuple):
    """A command of this session whose entry has not come yet: how many entries there were at least before it, and after it, and its
    reply."""

    before: int
    after: int
    reply: List[str]

    @property
    def is_alone(self) -> bool:
        """Whether no other entry is in between, so that the number of its own is known."""
        return self.after == self.before + 1



class Source(Protocol):
    """A session of a server, or of a page of one, which shows the entries of a journal from the first on once it is asked to follow it."""

    def ask(self, line: str) -> List[str]: ...

    def follow(self) -> None: ...

    def come(self, seconds: float = 0) -> List[str]: ...

    def watch(self, seconds: float) -> None: ...

    def close(self) -> None: ...


# Takes an entry of another session that is not a look, with the reply of the mirror, if there is one.
Heard = Callable[[Entry, Optional[List[str]]], None]


class Shared(Session):
    """A session that follows its server with a mirror."""

    def __init__(self, client: Source, program: str, setup: Sequence[str]):
        self.client = client
        # The number of this session, once an entry of its own is known.
        self.number: Optional[int] = None
        # How many entries of the journal the mirror has taken, and how many there were when the server last reported being behind.
        self.entries = self.behind = 0
        self.heard: Heard = lambda entry, reply: None
        self.say: Callable[[str], None] = lambda text: print(text, file=sys.stderr)
        # The lines of the setup without `open`, comments among them.
        self.setup = setup
        # All entries that were taken.
        self.taken: List[Taken] = []
        self._mirror: Optional[Run] = Run(program, setup)
        self._given: Deque[Given] = deque()
        # Whether the mirror has taken all that the server had at the newest `view`, or command of this session.
        self.is_level = self._is_one_moment = False
        client.follow()

    @property
    def has_mirror(self) -> bool:
        return self._mirror is not None

    @property
    def journal(self) -> List[Tuple[str, Sequence[str]]]:
        """The lines of the setup, then all commands that the mirror carried out, with their replies."""
        opening: List[Tuple[str, Sequence[str]]] = [(it, ()) for it in (*self.setup, OPEN.word)]
        return [*opening, *((entry.command, reply) for entry, reply in self.taken if entry.changes)]

    @property
    def is_behind(self) -> bool:
        """Whether the server reported that it has many more entries than it has sent."""
        return self.entries < self.behind

    def close(self) -> None:
        self.client.close()
        if self._mirror:
            self._mirror.close()

    # ---- looks

    @contextlib.contextmanager
    def one_moment(self) -> Iterator[None]:
        """Makes the looks within show the pair at one moment, which only commands of this session end."""
        before, self._is_one_moment, self.is_level = self._is_one_moment, True, False
        try:
            yield
        finally:
            self._is_one_moment = before

    def level(self) -> None:
        """Waits until the mirror has taken all the entries that the server has now."""
        self._reach(self._commands())
        self.is_level = True

    def _commands(self) -> int:
        return commands_of(self.client.ask(VIEW)[0])

    def _reach(self, number: int) -> None:
        """Waits until the mirror has taken the first entries."""
        self.hear()
        while self.entries < number and self.hear(PATIENCE):
            pass
        if self.entries < number:
            self._give_up(f"the server has {number} entries, but sent none after entry {self.entries} in {PATIENCE:.0f} seconds")

    def catch_up(self) -> None:
        """Levels the mirror, unless it was levelled already in the moment that questions are about."""
        if not (self._is_one_moment and self.is_level):
            self.level()

    def _look(self, line: str) -> List[str]:
        if self._mirror:
            self.catch_up()
        reply = self._mirrored(line)
        return self.client.ask(line) if reply is None else reply

    def _mirrored(self, line: str) -> Optional[List[str]]:
        """The reply of the mirror, as long as there is one."""
        try:
            return self._mirror.ask(line) if self._mirror else None
        except Ended as why:
            self._give_up(f"{why}")
            return None

    def _give_up(self, why: str) -> None:
        if self._mirror:
            self._mirror.kill()
            self._mirror = None
            self.say(f"the mirror of the server's pair is no longer used, and the server answers questions: {why}")

    # ---- lines

    def _ask(self, lines: Sequence[str]) -> List[List[str]]:
        return [self._answer(line) for line in lines]

    def _answer(self, line: str) -> List[str]:
        word = "".join(line.split()[:1])
        if word in CHANGING:
            return self._change(line)
        return self._look(line) if word in (*LOOKING, SEARCH) else self.client.ask(line)

    def _change(self, line: str) -> List[str]:
        """The server's reply to a command that changes the pair. The mirror takes it at once if no other came in between."""
        self.is_level = False
        # (until it is known which session this is, only a window without other commands shows which entry is its own)
        before = self.entries if self.number else self._commands()
        reply, after = self.client.ask(line), self._commands()
        if reply[0].split()[0] in ("bad", FULL):
            return reply
        given = Given(before, after, reply)
        self._given.append(given)
        self.hear()
        if given.is_alone and self.entries == given.before:
            self._given.pop()
            self._take(Entry(given.after, 0, line), reply)
            self.is_level = True
        return reply

    # ---- entries

    def hear(self, seconds: float = 0) -> bool:
        """Takes the entries that have come; if there are none, waits at most this many seconds. Returns whether something came."""
        with uninterrupted():
            came = self.client.come(seconds)
            for line in came:
                if line.startswith(ENTRY):
                    self._hear(self._read(line))
                else:
                    self.behind = int(line.split()[-1])
        return bool(came)

    def _read(self, line: str) -> Entry:
        return Entry.read(line)

    def _hear(self, entry: Entry) -> None:
        if entry.number <= self.entries:
            # (the mirror took it before it came)
            self.number = entry.session
            return
        if entry.number > self.entries + 1:
            self._give_up(f"after entry {self.entries} the server sent entry {entry.number}")
        self._take(entry, self._reply_to(entry))

    def _reply_to(self, entry: Entry) -> Optional[List[str]]:
        """The server's reply to an entry, if it is one of this session."""
        while self._given and self._given[0].after < entry.number:
            self._given.popleft()
        if not self._given or not entry.changes:
            return None
        first = self._given[0]
        is_own = entry.session == self.number if self.number else first.is_alone and entry.number == first.after
        if not is_own:
            return None
        self.number = entry.session
        return self._given.popleft().reply

    def _take(self, entry: Entry, reply: Optional[List[str]]) -> None:
        """Takes the next entry, with the server's reply if it is one of this session."""
        self.entries = entry.number
        if not entry.changes:
            self.taken.append(Taken(entry, ()))
            return
        its = self._mirrored(entry.command)
        self.taken.append(Taken(entry, its or reply or ()))
        if reply is None:
            self.heard(entry, its)
        elif its not in (None, reply):
            self._give_up(f"to entry {entry.number}, `{entry.command}`, it replied `{its[0] if its else ''}`, but the server `{reply[0]}`")


class Joined(NamedTuple):
    """A session that joined a server, the setup as far as it is known, and what there is to say about it."""

    session: Union[Client, Shared]
    setup: Optional[Setup]
    said: str = ""


def joined(client: Client, program: str, given: Optional[Setup]) -> Joined:
    """Follows a server that reports its setup. A server of an older release does not, nor does one whose setup is too long; then the
    setup is the given one, if any."""
    *lines, last = client.ask(SETUP_WORD)
    if last.startswith("bad "):
        return Joined(client, given)
    if last == TOO_LONG:
        rest = "the setup is that of --setup" if given else "what needs the setup needs --setup FILE, the file that it read"
        return Joined(client, given, f"the server's setup is too long for it to send; the server answers questions, and {rest}")
    fault = check_setup(program, lines)
    if fault:
        return Joined(client, given, f"the program here does not take the server's setup: {fault.words}; the server answers questions")
    setup = Setup.of(lines)
    said = "" if given is None or _is_same(setup, given) else "the server's setup differs from the file of --setup, and is used"
    return Joined(Shared(client, program, lines), setup, said)


def _is_same(one: Setup, two: Setup) -> bool:
    """Whether two setups say the same, including the comments of an import."""
    return _content(one) == _content(two)


def _content(setup: Setup) -> Tuple[object, object]:
    return [line.split() for line in setup.lines], setup.rules
