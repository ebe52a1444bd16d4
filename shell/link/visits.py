"""A served page of this machine, as a shell uses it over HTTP."""
from __future__ import annotations

import contextlib
import http.client
import json
import re
import socket
from typing import Any, Dict, Iterator, List, NamedTuple, Optional

from .laboratory import Unknown
from .programs import Ended, Incoming

HERE = "127.0.0.1"
# How long to wait for an answer, in seconds: longer than a bridge does for its server.
PATIENCE = 70.0
DATA = "data: "
NOT_A_PAGE = "what answers at the address is not a page of this release"
LONGEST_NAME = 40
GONE = "the page is no longer served, or the connection to it was lost"
_ADDRESS = re.compile(rf"http://(?:{re.escape(HERE)}|localhost):([0-9]{{1,5}})/([A-Za-z0-9_-]{{1,64}})/?(?:#.*)?")

Data = Dict[str, Any]


class Address(NamedTuple):
    """The address of a page of this machine: its port, and the token in it."""

    port: int
    token: str

    @classmethod
    def read(cls, text: str) -> Optional["Address"]:
        """The address in a text. One of another machine is none: its bridge would refuse it, and the token would go over the network."""
        found = _ADDRESS.fullmatch(text.strip())
        return cls(int(found[1]), found[2]) if found and 0 < int(found[1]) < 65536 else None


# In place of an address that is asked for; and what is said of what is none.
ASKED_FOR = Address(0, "")
NO_ADDRESS = "URL is an address that a page of this machine printed, such as http://127.0.0.1:8080/TOKEN/"


class Refused(Unknown):
    """The page does not do what it was asked for, with the reason."""


class Page:
    """The page at an address."""

    def __init__(self, address: Address):
        self._address = address

    def get(self, path: str) -> Data:
        return self._asked("GET", path)

    def post(self, path: str, content: Data) -> Data:
        return self._asked("POST", path, json.dumps(content))

    def follow(self, path: str) -> "Messages":
        """What the page sends as it comes."""
        with self._reached():
            connection = socket.create_connection((HERE, self._address.port), PATIENCE)
        with contextlib.ExitStack() as ends, self._reached():
            ends.enter_context(connection)
            connection.sendall(f"GET {self._target(path)} HTTP/1.1\r\nHost: {HERE}:{self._address.port}\r\n\r\n".encode())
            its = Messages(connection)
            its.open()
            ends.pop_all()
        return its

    def _target(self, path: str) -> str:
        return f"/{self._address.token}/{path}"

    def _asked(self, method: str, path: str, body: Optional[str] = None) -> Data:
        with self._reached():
            connection = http.client.HTTPConnection(HERE, self._address.port, timeout=PATIENCE)
            with contextlib.closing(connection):
                connection.request(method, self._target(path), body, {"Content-Type": "application/json"} if body else {})
                answer = connection.getresponse()
                text = answer.read().decode(errors="replace")
        if answer.status != 200:
            raise Refused(why(answer.status, text))
        return object_of(text)

    @contextlib.contextmanager
    def _reached(self) -> Iterator[None]:
        """Names a fault of the network, or of what answers there."""
        try:
            yield
        except ConnectionRefusedError as error:
            raise Ended(f"nobody serves a page at {HERE}:{self._address.port}: its bridge has ended, or was never begun") from error
        except (OSError, http.client.HTTPException) as error:
            raise Ended(GONE) from error


class Messages(Incoming):
    """The messages of a text/event-stream."""

    def __init__(self, connection: socket.socket):
        super().__init__(connection)
        self._is_open = False

    def open(self) -> None:
        """Reads the head of the answer."""
        head = [*iter(lambda: next(self, "").rstrip("\r"), "")]
        status = int(head[0].split()[1]) if head and re.match(r"HTTP/1\.1 [0-9]{3}\b", head[0]) else 0
        if not status:
            raise Ended(NOT_A_PAGE)
        if status != 200:
            raise Refused(why(status, "\n".join(self)))
        self._is_open = True

    def messages(self, seconds: float = 0) -> List[Data]:
        """What has come; if there is nothing, waits at most this many seconds."""
        try:
            self.take(seconds)
        except OSError as error:
            raise Ended(GONE) from error
        came = [object_of(it[len(DATA) :]) for it in self.aside]
        self.aside.clear()
        if not came and self.has_ended:
            raise Ended(GONE)
        return came

    def close(self) -> None:
        self._connection.close()

    def _put_aside(self) -> None:
        """Sets messages aside; between them are empty lines, and signs of life."""
        if self._is_open:
            self.aside.extend(line for line in self._lines if line.startswith(DATA))
            self._lines.clear()


def why(status: int, text: str) -> str:
    """Why a page did not do something: its own words, if it said some."""
    if status == 404:
        return "the page does not know this address: it may be one of a page that has ended"
    said = printable(text)
    return f"the page answers: {said[:500]}" if said else f"the page answers with status {status}"


def object_of(text: str) -> Data:
    """An object of JSON."""
    try:
        value = json.loads(text)
    except (ValueError, RecursionError):
        value = None
    if not isinstance(value, dict):
        raise Ended(NOT_A_PAGE)
    return value


def printable(text: str) -> str:
    """A text that leaves a terminal as it is."""
    return "".join(it if it.isprintable() else " " for it in text).strip()


def cleaned(name: str) -> str:
    """A name as it is shown, without what does not print or reverses the direction of writing."""
    return "".join(it for it in name if it.isprintable())[:LONGEST_NAME].strip()
