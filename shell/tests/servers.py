"""A server for tests over one `run` of the program, which answers `setup` and `follow` too and notes what it was asked; and the proved
one. As a script it is a program whose word `serve` is such a server, and whose other words are those of the program that it is given."""
from __future__ import annotations

import contextlib
import os
import socket
import subprocess
import sys
import threading
import time
from typing import IO, Dict, Iterator, List, NamedTuple, Optional, Sequence, Tuple

from ..language.commands import COMMANDS, EVENT
from ..language.events import plain_event
from ..language.lines import LONGEST_LINE, has_word, opens
from ..link.programs import FOLLOW, SETUP_WORD, TOO_LONG, VIEW, Run
from ..model.pair import read_shown
from ..pages.server import free_port
from . import program
from .children import bounded

RULES = ["rule a pass any", "rule b pass any", "open"]
# How long an entry takes, in seconds, and how many are to come where the server says that it is behind.
DELAY = 0.03
MANY = 100
# How many bytes the lines of a setup before `open` may have for a server to keep them; a setup that has as many; and one that has more.
LONGEST_TEXT = 1 << 24
LONGEST = ["#" * 512] * 32704 + ["#" * 31, *RULES]
TOO_LONG_BY_ONE = ["#" * 32 if len(it) == 31 else it for it in LONGEST]


def plain(line: str) -> str:
    """A command in the form in which a journal has it."""
    words = line.split()
    values = COMMANDS[words[0]].values_of(words)
    parts = [it.plain(word) for it, word in zip(values, words[1:]) if it is not EVENT]
    return " ".join([words[0], *parts, *([plain_event(words[len(parts) + 1 :])] if EVENT in values else [])])


class Server:
    """A pair, its journal, and its sessions."""

    def __init__(self, path: str, setup: Sequence[str], sessions: int, port: int = 0, knows: bool = True):
        """One that does not know the two words is of an older release."""
        lines = [it.encode(errors="surrogateescape").removesuffix(b"\r")[:LONGEST_LINE] + b"\n" for it in setup]
        # What it answers to `setup`.
        self.setup = f"{TOO_LONG}\n".encode() if sum(map(len, lines[:-1])) > LONGEST_TEXT else b"".join(lines)
        self.knows = knows
        self.run = Run(path, [it for it in setup if has_word(it) and not opens(it)])
        self.entries: List[Tuple[int, str]] = []
        self._view, self._viewed = "", -1
        self.visits: List[Visit] = []
        # What each session asked; to follow once, since that is asked again after each answer.
        self.asked: Dict[int, List[str]] = {it + 1: [] for it in range(sessions)}
        self.changed = threading.Condition()
        self.listener = socket.create_server(("127.0.0.1", port))
        self.port: int = self.listener.getsockname()[1]

    def serve(self) -> None:
        """Serves the sessions once all are there, until each has ended."""
        self.visits = [Visit(self, it, self.listener.accept()[0]) for it in self.asked]
        threads = [threading.Thread(target=visit.serve, daemon=True) for visit in self.visits]
        for it in threads:
            it.start()
        for it in threads:
            it.join()
        self.run.close()
        self.listener.close()

    def take(self, session: int, line: str) -> List[str]:
        with self.changed:
            reply = self.run.ask(line)
            if not reply[0].startswith("bad "):
                self.entries.append((session, plain(line)))
                self.changed.notify_all()
            return reply

    def view(self) -> str:
        with self.changed:
            if self._viewed != len(self.entries):
                self._view, self._viewed = " ".join(map(str, self._numbers())), len(self.entries)
            return f"{VIEW} {len(self.entries)} {self._view}"

    def _numbers(self) -> List[int]:
        """What the branches show together."""
        pairs = [read_shown(self.run.ask(f"show {word}")) for word in self.run.ask("names")[0].split()[1:]]
        nodes = [(pair.nodes["a"], pair.nodes["b"]) for pair in pairs]
        counts = [len(pairs), sum(pair.events for pair in pairs), sum(pair.cursor for pair in pairs)]
        counts += [sum(len(two[at].states) for two in nodes) for at in range(2)]
        return [*counts, sum(len(pair.frames) for pair in pairs), sum(it.pending for two in nodes for it in two)]


class Visit:
    """A session of the stand-in."""

    def __init__(self, server: Server, number: int, connection: socket.socket):
        self.server, self.number, self.connection = server, number, connection
        connection.setsockopt(socket.IPPROTO_TCP, socket.TCP_NODELAY, 1)
        self.writing = threading.Lock()
        self.is_over = False
        # Up to which entry it has been shown the journal, while it follows it.
        self.shown: Optional[int] = None
        self.has_followed = False

    def serve(self) -> None:
        lines = self.connection.makefile("r", encoding="utf-8", errors="surrogateescape", newline="\n")
        with contextlib.suppress(OSError):
            for line in map(str.strip, lines):
                if has_word(line):
                    follows = line.startswith(FOLLOW)
                    if not (follows and self.has_followed):
                        self.server.asked[self.number].append(line)
                    self.has_followed = self.has_followed or follows
                    with self.writing:
                        if self.shown is not None:
                            self._send([f"followed {self.shown}"])
                            self.shown = None
                        self._answer(line)
        self.is_over = True
        with self.server.changed:
            self.server.changed.notify_all()
        lines.close()
        self.connection.close()

    def _answer(self, line: str) -> None:
        words = line.split()
        if words == [VIEW]:
            self._send([self.server.view()])
        elif self.server.knows and words == [SETUP_WORD]:
            self.connection.sendall(self.server.setup)
        elif self.server.knows and words[0] == FOLLOW:
            now = len(self.server.entries)
            at = min(int(words[1]), now) if words[1:] else now
            self._send([f"following {at}"])
            self.shown = at
            self._show()
            threading.Thread(target=self._follow, daemon=True).start()
        else:
            self._send(self.server.take(self.number, line))

    def _send(self, lines: Sequence[str]) -> None:
        self.connection.sendall("".join(f"{line}\n" for line in lines).encode())

    def _follow(self) -> None:
        """Shows entries as they are made, until the session's next line comes."""
        its, shown = self.server, self.shown
        while not self.is_over and self.shown is not None and self.shown == shown:
            with its.changed:
                its.changed.wait_for(lambda: len(its.entries) != self.shown or self.is_over, DELAY)
            time.sleep(DELAY)
            with self.writing, contextlib.suppress(OSError):
                if self.shown == shown:
                    shown = self._show()

    def _show(self) -> int:
        """Shows the entries that there are: how many."""
        assert self.shown is not None
        entries = self.server.entries
        now = len(entries)
        for number, (session, line) in enumerate(entries[self.shown : now], self.shown + 1):
            late = [f"behind {number} {now}"] * (number % MANY == 0 and now - number >= MANY)
            self._send([f"entry {number} {session} {line}", *late])
        self.shown = now
        return now


@contextlib.contextmanager
def standin_server(sessions: int, setup: Sequence[str] = RULES, knows: bool = True) -> Iterator[Server]:
    """A stand-in in this process."""
    server = Server(program(), setup, sessions, knows=knows)
    threading.Thread(target=server.serve, daemon=True).start()
    yield server


class Proved(NamedTuple):
    """The program's own server."""

    process: "subprocess.Popen[str]"
    port: int


@contextlib.contextmanager
def proved_server(sessions: int, setup: Sequence[str] = RULES, faults: int = subprocess.DEVNULL, port: int = 0) -> Iterator[Proved]:
    """The program's own server, once it listens, at this port or at a free one. What it reports on standard error is lost, or can be read
    where that is a pipe."""
    port = port or free_port()
    words = [program(), "serve", "--sessions", str(sessions), "--port", str(port)]
    with subprocess.Popen(words, stdin=subprocess.PIPE, stdout=subprocess.PIPE, stderr=faults, text=True) as its:
        assert its.stdin and its.stdout
        its.stdin.write("".join(f"{line}\n" for line in setup))
        its.stdin.close()
        with bounded(its):
            its.stdout.readline()
        try:
            yield Proved(its, port)
        finally:
            its.kill()


def main(path: str, words: Sequence[str], given: IO[str]) -> None:
    """Carries out the words of a program that has this server in place of its own."""
    if words[:1] != ["serve"] or "--help" in words:
        os.execv(path, [path, *words])
    port, sessions = (int(words[words.index(it) + 1]) for it in ("--port", "--sessions"))
    lines = [it.rstrip("\n") for it in given]
    server = Server(path, lines[: [*map(opens, lines)].index(True) + 1], sessions, port)
    print(f"listening 127.0.0.1:{port}", flush=True)
    server.serve()
    print(f"closed {len(server.entries)}", flush=True)


if __name__ == "__main__":
    main(sys.argv[1], sys.argv[2:], sys.stdin)
