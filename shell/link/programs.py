"""The proved program, as the shell talks to it: a run of its own over a pipe, or a session of a server."""
from __future__ import annotations

import contextlib
import re
import select
import signal
import socket
import subprocess
import time
from collections import deque
from typing import IO, Deque, Iterable, Iterator, List, Optional, Sequence

from ..console.endings import NotDone
from ..language.commands import COMMANDS, OPEN
from ..language.faults import LIMIT_FAULTS, LINE_FAULTS, RULE_FAULTS
from ..language.lines import lines_of, opens
from ..language.searches import FOUND

# The first words of replies that end with a line `end`.
MANY_LINES = frozenset((*(command.replies[0].split()[0] for command in COMMANDS.values() if command.is_long), FOUND))
# What a session asks a server besides commands: for the lines of its setup, for the entries of its journal until the session's next
# line comes, and for a few numbers.
SETUP_WORD, FOLLOW, VIEW = "setup", "follow", "view"
# How the lines of entries begin, and the lines before and after them.
SENT = (ENTRY, BEHIND) = ("entry ", "behind ")
FOLLOWING, FOLLOWED = "following ", "followed "
# The answer of a server to each further command once it has taken all that it can.
FULL = "full"
# The answer of a server to `setup` if it has not kept the lines, because they are too many.
TOO_LONG = f"{SETUP_WORD} too long"


class Ended(NotDone):
    """The program ended, or the server went away: no reply came."""


class SetupFault(NotDone):
    """A line of the setup is faulty: its number, counted from 1 over the given lines, and the fault."""

    def __init__(self, line: int, fault: str):
        super().__init__(fault)
        self.line, self.fault = line, fault

    @property
    def words(self) -> str:
        """The fault, with the list of docs/FORMATS.md that its number belongs to."""
        kind, _, rest = self.fault.partition(" ")
        return f"{_LISTS[kind]} {rest}" if kind in _LISTS else self.fault

    @property
    def told(self) -> str:
        return f"setup line {self.line}: {self.words}"


_FAULTS = {"line": LINE_FAULTS, "rule": RULE_FAULTS, "world": LIMIT_FAULTS}
_LISTS = {"line": "bad", "rule": "rules", "world": "limits"}


def read_reply(lines: Iterator[str]) -> List[str]:
    """The next whole reply, without line ends; empty if none comes."""
    first = next(lines, None)
    if first is None:
        return []
    reply = [first.rstrip("\n")]
    if reply[0].partition(" ")[0] in MANY_LINES:
        for line in lines:
            reply.append(line[:-1] if line.endswith("\n") else line)
            if reply[-1] == "end":
                break
    return reply


@contextlib.contextmanager
def uninterrupted() -> Iterator[None]:
    """Makes an interrupt wait: between a line and its reply, it would leave the reply for the next line."""
    before = signal.pthread_sigmask(signal.SIG_BLOCK, {signal.SIGINT})
    try:
        yield
    finally:
        signal.pthread_sigmask(signal.SIG_SETMASK, before)


class Session:
    """What answers one line after another."""

    def ask(self, line: str) -> List[str]:
        """The reply to a line that has one."""
        with uninterrupted():
            return self.ask_freely(line)

    def ask_freely(self, line: str) -> List[str]:
        """The reply to a line that has one; an interrupt leaves the session useless."""
        return self._ask([line])[0]

    def ask_together(self, lines: Sequence[str]) -> List[List[str]]:
        """The replies to a few lines that have one, sent together, which is faster than one by one."""
        with uninterrupted():
            return self._ask(lines)

    def _ask(self, lines: Sequence[str]) -> List[List[str]]:
        raise NotImplementedError

    def close(self) -> None:
        raise NotImplementedError


class Stream(Session):
    """A program that reads lines and writes replies."""

    gone = "the program has ended"

    def __init__(self, to: IO[str], replies: Iterator[str]):
        self._to, self._replies = to, replies

    def _ask(self, lines: Sequence[str]) -> List[List[str]]:
        try:
            self._to.write("".join(f"{line}\n" for line in lines))
            self._to.flush()
            replies = [self._reply(line) for line in lines]
        except OSError as error:
            raise Ended(self.gone) from error
        if not all(replies):
            raise Ended(self.gone)
        return replies

    def _reply(self, line: str) -> List[str]:
        """The reply to a line that was sent; empty if none comes."""
        return read_reply(self._replies)

    def close(self) -> None:
        try:
            self._to.close()
        except OSError:
            pass


class Run(Stream):
    """A run of the program over a pipe, after its setup."""

    def __init__(self, program: str, setup: Sequence[str]):
        self.process = subprocess.Popen(
            [program, "run"],
            stdin=subprocess.PIPE,
            stdout=subprocess.PIPE,
            encoding="utf-8",
            errors="surrogateescape",
            # An interrupt at the terminal gives up the typed line, and not the pair.
            start_new_session=True,
        )
        assert self.process.stdin and self.process.stdout
        super().__init__(self.process.stdin, iter(self.process.stdout))
        for line in (*setup, OPEN.word):
            self.process.stdin.write(f"{line}\n")

    def kill(self) -> None:
        """Ends it at once, whatever it is doing."""
        self.process.kill()
        self.close()

    def close(self) -> None:
        super().close()
        self.process.wait()
        if self.process.stdout:
            self.process.stdout.close()


class Incoming:
    """The lines that come over a connection: those of replies in turn, and those of entries, which are set aside."""

    def __init__(self, connection: socket.socket):
        self._connection = connection
        self._rest = b""
        self._lines: Deque[str] = deque()
        # The lines of entries that came and were not taken yet; and the entry at which the server stopped showing them.
        self.aside: Deque[str] = deque()
        self.followed = 0
        self.has_ended = False

    def __iter__(self) -> Iterator[str]:
        return self

    def __next__(self) -> str:
        """The next line of a reply; waits for it."""
        while True:
            self._put_aside()
            if self._lines:
                return self._lines.popleft()
            if not self._receive(0):
                raise StopIteration

    def take(self, seconds: float = 0) -> None:
        """Takes what has come; if no entry has, waits for one at most this many seconds."""
        until = time.monotonic() + seconds
        self._put_aside()
        while not self.has_ended and self.is_there(0 if self.aside else max(0.0, until - time.monotonic())):
            with contextlib.suppress(BlockingIOError):
                self._receive(socket.MSG_DONTWAIT)
            self._put_aside()

    def is_there(self, seconds: float) -> bool:
        """Whether something, or the end, comes within this many seconds."""
        poll = select.poll()
        poll.register(self._connection, select.POLLIN)
        return bool(poll.poll(1000 * seconds))

    def _put_aside(self) -> None:
        while self._lines and self._lines[0].startswith((*SENT, FOLLOWING, FOLLOWED)):
            line = self._lines.popleft()
            if line.startswith(SENT):
                self.aside.append(line)
            elif line.startswith(FOLLOWED):
                self.followed = int(line.split()[1])

    def _receive(self, flags: int) -> bool:
        """Takes a part of what comes; returns whether there was any. A line whose end never comes is no line."""
        part = self._connection.recv(1 << 16, flags)
        *lines, self._rest = (self._rest + part).split(b"\n")
        self._lines.extend(line.decode(errors="surrogateescape") for line in lines)
        self.has_ended = not part
        return bool(part)


class Client(Stream):
    """A session of a server that listens on a port of this machine."""

    gone = "the server has ended, or has ended this session"

    def __init__(self, port: int):
        self.connection = socket.create_connection(("127.0.0.1", port))
        self.incoming = Incoming(self.connection)
        self._follows = False
        super().__init__(self.connection.makefile("w", encoding="utf-8", errors="surrogateescape", newline="\n"), self.incoming)

    def wait(self) -> None:
        """Waits until the server answers, which it does once all its sessions are connected; an interrupt ends the wait.
        A `view` is no command, so the server keeps nothing of it."""
        self._ask([VIEW])

    def follow(self) -> None:
        """Makes the server show the entries of its journal from the first on: those that exist, and each new one as it is made."""
        self._follows = True
        self._follow_on()

    def _follow_on(self) -> None:
        """Follows on after the last entry shown. The server shows entries until the next line comes, so this comes after each line."""
        try:
            self._to.write(f"{FOLLOW} {self.incoming.followed}\n")
            self._to.flush()
        except OSError as error:
            raise Ended(self.gone) from error

    def _ask(self, lines: Sequence[str]) -> List[List[str]]:
        replies = super()._ask(lines)
        if self._follows:
            self._follow_on()
        return replies

    def watch(self, seconds: float) -> None:
        """Waits until something comes, at most this many seconds."""
        with contextlib.suppress(OSError, ValueError):
            self.incoming.is_there(seconds)

    def come(self, seconds: float = 0) -> List[str]:
        """The lines of entries that the server has shown, in order; if there are none, waits at most this many seconds."""
        try:
            self.incoming.take(seconds)
        except (OSError, ValueError) as error:
            raise Ended(self.gone) from error
        if self.incoming.has_ended and not self.incoming.aside:
            raise Ended(self.gone)
        came, self.incoming.aside = [*self.incoming.aside], deque()
        return came

    def _reply(self, line: str) -> List[str]:
        reply = super()._reply(line)
        if line.split() == [SETUP_WORD] and reply and begins_setup(reply[0]):
            while not opens(reply[-1]):
                more = super()._reply(line)
                if not more:
                    return []
                reply += more
        return reply

    def close(self) -> None:
        super().close()
        self.connection.close()


def begins_setup(line: str) -> bool:
    """Whether an answer to `setup` that begins with this line is the setup, and ends with its line `open`. Otherwise it is this line, which
    no setup has: it would be faulty there."""
    return line != TOO_LONG and not line.startswith("bad ")


def commands_of(view: str) -> int:
    """How many commands a server had taken when it answered this to `view`, or more."""
    kind, *numbers = view.split()
    return int(numbers[0 if kind == VIEW else -1])


class Result:
    """The output of a run of the program over given lines, and its status."""

    def __init__(self, replies: List[List[str]], faults: List[str], status: int):
        self.replies, self.faults, self.status = replies, faults, status


def run_lines(program: str, lines: Iterable[str], mode: str = "run") -> Result:
    """Runs the program once over all the lines."""
    text = "".join(f"{line}\n" for line in lines)
    ran = subprocess.run([program, mode], input=text, capture_output=True, encoding="utf-8", errors="surrogateescape")
    came = iter(lines_of(ran.stdout))
    replies = iter(lambda: read_reply(came), [])
    return Result(list(replies), lines_of(ran.stderr), ran.returncode)


def setup_fault(faults: Sequence[str]) -> Optional[SetupFault]:
    """The fault of a setup that the program reported on standard error."""
    for line in faults:
        found = re.search(r"setup line (\d+): (line|rule|world) (\d+)$", line)
        if found:
            names = _FAULTS[found[2]]
            return SetupFault(int(found[1]), f"{found[2]} {found[3]} {names[int(found[3]) - 1]}")
        found = re.search(r"setup line (\d+): no open$", line)
        if found:
            return SetupFault(int(found[1]), "no open")
    return None


def check_setup(program: str, lines: Sequence[str]) -> Optional[SetupFault]:
    """The first fault of a setup, if it has one; nothing is made."""
    return setup_fault(run_lines(program, (*lines, OPEN.word), "check").faults)
