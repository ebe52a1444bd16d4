"""Clients that neither read nor close: each holds up its own session and nobody else's, and the server keeps nothing for it."""
from __future__ import annotations

import re
import select
import socket
import time
import unittest
from typing import Iterable, Iterator

from ..link.programs import FOLLOW, VIEW, Client, commands_of
from .followers import ProvedFollowers

COMMANDS = 50_000
BATCH = 500
# What an entry takes, and what a server may take in any case, in bytes: blocks of the journal, buffers, the allocator's own.
ENTRY = 120
SLACK = 8_000_000


class Silent:
    """A client that sends lines and reads only when it is told to."""

    def __init__(self, port: int):
        self.connection = socket.socket()
        # So that what the machine keeps of replies is soon full.
        self.connection.setsockopt(socket.SOL_SOCKET, socket.SO_RCVBUF, 4096)
        self.connection.connect(("127.0.0.1", port))

    def close(self) -> None:
        self.connection.close()

    def fill(self, line: str) -> None:
        """Sends a line again and again until the server takes none for a second."""
        text = f"{line}\n".encode() * 1000
        self.connection.setblocking(False)
        while select.select([], [self.connection], [], 1.0)[1]:
            sent = self.connection.send(text)
            text = text[sent:] + text[:sent]
        self.connection.setblocking(True)

    def send(self, line: str) -> None:
        self.connection.sendall(f"{line}\n".encode())

    def lines(self) -> Iterator[str]:
        return (it.rstrip("\n") for it in self.connection.makefile("r", encoding="ascii", newline="\n"))


class SilentClients(ProvedFollowers):
    def silent(self, port: int) -> Silent:
        client = Silent(port)
        self.ends.callback(client.close)
        return client

    def bytes_of_server(self) -> int:
        with open(f"/proc/{self.proved.process.pid}/status", encoding="ascii") as status:
            found = re.search(r"VmRSS:\s+(\d+) kB", status.read())
        assert found
        return 1024 * int(found.group(1))

    def step(self, session: Client, commands: int) -> None:
        """Ticks and their undoing, each of which has to be answered: only the first tick cuts no other that had been undone."""
        lines = ["step main tick a 1", "back main 1"] * (BATCH // 2)
        replies = [it[0] for _ in range(commands // BATCH) for it in session.ask_together(lines)]
        again = ["step clock 1 dropped 1", "at 0"] * (commands // 2)
        self.assertEqual(replies, ["step clock 1 dropped 0", *again[1:]])

    def taken(self, session: Client) -> int:
        return commands_of(session.ask(VIEW)[0])

    def assert_goes_on(self, session: Client) -> None:
        """That this session's commands are carried out, that the journal has no others, and that nothing else is kept."""
        before, took = self.taken(session), self.bytes_of_server()
        began = time.monotonic()
        self.step(session, COMMANDS)
        self.assertLess(time.monotonic() - began, 30)
        self.assertEqual(self.taken(session), before + COMMANDS)
        # (a journal that grows has twice its room)
        self.assertLess(self.bytes_of_server() - took, 2 * ENTRY * (before + COMMANDS) + SLACK)

    def test_replies_that_nobody_reads(self) -> None:
        port = self.serve(2)
        silent, other = self.silent(port), self.client(port)
        forks = [f"fork main 0 a-long-branch-{number:02}" for number in range(15)]
        self.assertEqual(other.ask_together(forks), [["forked"]] * len(forks))
        silent.fill("names")
        self.assertGreater(self.taken(other), len(forks))
        self.assert_goes_on(other)

    def test_entries_that_nobody_reads(self) -> None:
        port = self.serve(2)
        silent, other = self.silent(port), self.client(port)
        silent.send(f"{FOLLOW} 0")
        self.assert_goes_on(other)
        self.assertEqual([*entries(silent.lines(), COMMANDS)], [*range(1, COMMANDS + 1)])


def entries(lines: Iterable[str], most: int) -> Iterator[int]:
    """The numbers of the entries that are shown, up to one."""
    for line in lines:
        if line.startswith("entry "):
            number = int(line.split()[1])
            yield number
            if number == most:
                return


if __name__ == "__main__":
    unittest.main()
