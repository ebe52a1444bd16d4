"""Tests over the program's own server, whose end is looked at: what it has written, what it has reported, and its status."""
from __future__ import annotations

import socket
import subprocess
from typing import Iterable, List, NamedTuple, Sequence

from .followers import Followers
from .servers import RULES, Proved, proved_server

# In how many seconds something is there that takes some milliseconds: the machine may do other work.
PROMPT = 10.0


class End(NamedTuple):
    """The end of a server: what it wrote after it listened, what it reported, and its status."""

    written: List[str]
    reported: List[str]
    status: int

    @classmethod
    def after(cls, commands: int) -> "End":
        """That of a server that took so many commands, and had no fault."""
        return cls([f"closed {commands}"], [], 0)


class Caller:
    """A session that says a text, and hears what it is answered, byte for byte."""

    def __init__(self, port: int):
        self.connection = socket.create_connection(("127.0.0.1", port), PROMPT)

    def send(self, text: str) -> None:
        self.connection.sendall(text.encode())

    def say(self, text: str) -> None:
        """Says a text, and nothing after it."""
        self.send(text)
        self.connection.shutdown(socket.SHUT_WR)

    def hear(self, count: int) -> str:
        """The next bytes that come, as many as these, or fewer at the end."""
        came = b""
        while len(came) < count:
            more = self.connection.recv(count - len(came))
            if not more:
                break
            came += more
        return came.decode()

    def rest(self) -> str:
        """All that comes up to the end."""
        return b"".join(iter(lambda: self.connection.recv(1 << 16), b"")).decode()

    def close(self) -> None:
        self.connection.close()


class Served(Followers):
    """Tests over the program's own server."""

    proved: Proved

    def serve(self, sessions: int = 2, setup: Sequence[str] = RULES, port: int = 0) -> int:
        self.proved = self.ends.enter_context(proved_server(sessions, setup, subprocess.PIPE, port))
        self.proved.process.stdin = None
        return self.proved.port

    def caller(self, port: int) -> Caller:
        caller = Caller(port)
        self.ends.callback(caller.close)
        return caller

    def callers(self, port: int, number: int) -> List[Caller]:
        return [self.caller(port) for _ in range(number)]

    def end(self) -> End:
        """The end of the server, whose sessions have ended."""
        out, faults = self.proved.process.communicate(timeout=PROMPT)
        return End(out.splitlines(), faults.splitlines(), self.proved.process.returncode)

    def assert_heard(self, caller: Caller, lines: Iterable[str]) -> None:
        """That these lines come next."""
        text = "".join(f"{line}\n" for line in lines)
        self.assertEqual(caller.hear(len(text)), text)
