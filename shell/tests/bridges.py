"""Live pages for tests, with those who look at them: a page is its data as JSON here."""
from __future__ import annotations

import contextlib
import http.client
import json
import socket
import threading
import time
import unittest
from typing import Any, Dict, List, NamedTuple, Union
from unittest import mock

from ..link.programs import Client, Ended
from ..pages.bridge import Bridge
from ..pages.door import Door
from ..pages.live import OPENING, Served, begun, live, watch
from ..pages.session import Branches
from . import program

PACKET = "step main packet a out udp 10.0.0.1:1000 192.0.2.9:53 40"
# In how many seconds something is there that takes some milliseconds: the machine may do other work.
PROMPT = 5
SECONDS = 15.0
Data = Dict[str, Any]


class Answer(NamedTuple):
    """What came to a request."""

    status: int
    headers: Dict[str, str]
    body: str

    @property
    def data(self) -> Data:
        its: Data = json.loads(self.body)
        return its


class Watcher:
    """A stream of events, as a browser reads it."""

    def __init__(self, door: Door, after: int = 0):
        self.connection = socket.create_connection(("127.0.0.1", door.port), SECONDS)
        target = f"/{door.tokens.watch}/events?after={after}"
        self.connection.sendall(f"GET {target} HTTP/1.1\r\nHost: 127.0.0.1:{door.port}\r\n\r\n".encode())
        self.lines = self.connection.makefile("r", encoding="utf-8", newline="\n")
        self.status = int(self.lines.readline().split()[1])
        while self.lines.readline().strip():
            pass

    def next(self) -> Data:
        """The next message; an empty one at the end."""
        for line in self.lines:
            if line.startswith("data: "):
                its: Data = json.loads(line[len("data: ") :])
                return its
        return {}

    def update(self) -> Data:
        """The next message that is not about people."""
        its = self.next()
        return self.update() if [*its] == ["people"] else its

    def close(self) -> None:
        self.lines.close()
        self.connection.close()


class Bridged(unittest.TestCase):
    def setUp(self) -> None:
        patch = mock.patch("shell.pages.bridge.page", lambda data, served: json.dumps(data))
        patch.start()
        self.addCleanup(patch.stop)
        self.ends = contextlib.ExitStack()

    def live(self, *lines: str) -> Door:
        """A live page after these commands."""
        return self.served(begun(program(), [*OPENING, *lines], "A pair"))

    def served(self, pair: Served) -> Door:
        door = self.ends.enter_context(live(program(), 0, pair))
        thread = threading.Thread(target=watched, args=(door.bridge,), daemon=True)
        thread.start()
        # (which ends with the session)
        self.addCleanup(thread.join, SECONDS)
        self.addCleanup(self.ends.close)
        return door

    def watcher(self, door: Door, after: int = 0) -> Watcher:
        watcher = Watcher(door, after)
        self.addCleanup(watcher.close)
        return watcher

    def session(self, port: int) -> Client:
        """A session of a server that a page uses too."""
        client = Client(port)
        self.addCleanup(client.close)
        return client

    def order(self, watcher: Watcher, wanted: List[str]) -> List[str]:
        """The branches as the updates leave them, which are read until they are the wanted ones, or for some seconds."""
        order: List[str] = []
        end = time.monotonic() + PROMPT
        while order != wanted and time.monotonic() < end:
            order = watcher.update()["order"]
        return order

    def assert_known(self, own: Branches, line: str) -> None:
        """That the branches are known after a command: to read them anew changes nothing."""
        own.look()
        own.ask(line)
        by_name = dict(own.by_name)
        own.read()
        self.assertEqual(own.by_name, by_name, line)

    def step(self, door: Door, line: str, name: str = "Ann") -> Data:
        """The answer to a line that is sent."""
        return self.asked(door, "POST", f"/{door.tokens.step}/do", json.dumps({"name": name, "line": line})).data

    def page(self, door: Door) -> Data:
        """The data of the page as it is now."""
        return self.asked(door, "GET", f"/{door.tokens.watch}/").data

    def asked(self, door: Door, method: str, target: str, body: Union[str, bytes, None] = None, **headers: str) -> Answer:
        """What comes to a request; headers are written with lines for dashes."""
        connection = http.client.HTTPConnection("127.0.0.1", door.port, timeout=SECONDS)
        with contextlib.closing(connection):
            kind = {"Content-Type": "application/json"} if body is not None else {}
            connection.request(method, target, body, {**kind, **{name.replace("_", "-"): value for name, value in headers.items()}})
            came = connection.getresponse()
            return Answer(came.status, dict(came.getheaders()), came.read().decode())


def watched(bridge: Bridge) -> None:
    with contextlib.suppress(Ended):
        watch(bridge)
