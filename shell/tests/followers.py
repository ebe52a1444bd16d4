"""Sessions of one server for tests, over the stand-in or over the proved one; and a server that sends what it is given."""
from __future__ import annotations

import contextlib
import io
import socket
import threading
import unittest
from typing import List, Optional, Sequence

from ..console.colours import PLAIN
from ..dialogue.shell import Shell
from ..link.laboratory import Laboratory
from ..link.mirror import Shared
from ..link.programs import Client
from ..model.setups import Setup
from . import program
from .children import SECONDS
from .servers import RULES, Proved, Server, proved_server, standin_server

QUERY = "packet a out udp 10.0.0.1:1000 192.0.2.9:53 40"
STEP = f"step main {QUERY}"


class Followers(unittest.TestCase):
    """Tests over the stand-in."""

    server: Server

    def setUp(self) -> None:
        self.ends = contextlib.ExitStack()
        self.addCleanup(self.ends.close)

    def serve(self, sessions: int, setup: Sequence[str] = RULES) -> int:
        """Begins a server: its port."""
        self.server = self.ends.enter_context(standin_server(sessions, setup))
        return self.server.port

    def scripted(self, *texts: str, ends: bool = False) -> "Scripted":
        scripted = Scripted(texts, ends)
        self.ends.callback(scripted.end)
        return scripted

    def client(self, port: int) -> Client:
        client = Client(port)
        self.ends.callback(client.close)
        return client

    def laboratory(self, port: int, setup: Optional[Setup] = None) -> Laboratory:
        """One that has not joined its server yet."""
        lab = Laboratory(program(), port, setup)
        self.ends.callback(lab.close)
        return lab

    def shells(self, port: int, number: int, is_typed: bool = True) -> List[Shell]:
        """Shells that follow a server, which all its sessions have to be for."""
        labs = [self.laboratory(port) for _ in range(number)]
        self.assertEqual([lab.join() for lab in labs], [""] * number)
        return [Shell(lab, io.StringIO(), PLAIN, is_typed=is_typed) for lab in labs]

    def said(self, shell: Shell, *lines: str) -> List[str]:
        """What a shell says to typed lines, and before the next prompt."""
        shell.out = io.StringIO()
        for line in lines:
            shell.postcmd(shell.onecmd(line), line)
        return shell.out.getvalue().splitlines()


class ProvedFollowers(Followers):
    """Tests over the program's own server."""

    proved: Proved

    def serve(self, sessions: int, setup: Sequence[str] = RULES) -> int:
        self.proved = self.ends.enter_context(proved_server(sessions, setup))
        return self.proved.port


def shared(lab: Laboratory) -> Shared:
    """The session of a laboratory that follows its server."""
    assert lab.shared
    return lab.shared


class Scripted:
    """A server of one session, which answers each line with the next of some texts, and then ends, or only when its session does."""

    def __init__(self, texts: Sequence[str], ends: bool):
        self.asked: List[str] = []
        self._ends = ends
        self._listener = socket.create_server(("127.0.0.1", 0))
        self._listener.settimeout(SECONDS)
        self.port: int = self._listener.getsockname()[1]
        self._thread = threading.Thread(target=self._serve, args=(texts,), daemon=True)
        self._thread.start()

    def _serve(self, texts: Sequence[str]) -> None:
        connection = self._listener.accept()[0]
        connection.settimeout(SECONDS)
        with contextlib.suppress(ConnectionError), self._listener, connection, connection.makefile("r") as lines:
            for text, line in zip(texts, lines):
                self.asked.append(line.rstrip("\n"))
                connection.sendall(text.encode())
            while not self._ends and lines.readline():
                pass

    def end(self) -> None:
        self._thread.join(SECONDS)
