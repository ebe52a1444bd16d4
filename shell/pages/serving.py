"""The live page over HTTP: the answers to requests, and to those of strangers."""
from __future__ import annotations

import io
import json
import re
import select
import socket
import time
from http import HTTPStatus
from http.server import BaseHTTPRequestHandler
from itertools import takewhile
from typing import Callable, Dict, Iterator, List, Optional, Tuple, TypeVar, Union

from ..link.programs import Ended
from .bridge import NO_JOURNAL, STEP, Overtaken
from .door import Door, Within
from .news import Stream
from .typed import NotTaken, read_claim, read_typed, read_wanted

# The seconds within which a request has to arrive, those within which each piece of what is sent has to be taken, and those between
# signs of life.
READ_SECONDS = WRITE_SECONDS = BEAT = 10.0
PIECE = 64 << 10
# How soon a stream notices that its watcher is gone.
LOOK = 1.0
MOST_BODY = 64 << 10
BEATS = b": beat\n\n"
HTML, JSON, TEXT, EVENTS = "text/html; charset=utf-8", "application/json", "text/plain; charset=utf-8", "text/event-stream"
HEADERS = {
    "Cache-Control": "no-store",
    "Referrer-Policy": "no-referrer",
    "X-Content-Type-Options": "nosniff",
    "X-Frame-Options": "DENY",
    "Cross-Origin-Resource-Policy": "same-origin",
    "Cross-Origin-Opener-Policy": "same-origin",
    "Connection": "close",
}
# The page itself says in a <meta> which script and which style it has; only a header can say who may frame it.
POLICY = "frame-ancestors 'none'; base-uri 'none'; form-action 'none'"
METHODS = {"": "GET", "events": "GET", "offers": "GET", "journal": "GET", "level": "GET", "do": "POST", "name": "POST"}
NOT_BEGUN = "the page has not begun: it begins once its script is played, or all sessions of its server are connected; try again then"
# After how many seconds a browser asks again.
AGAIN = "2"

A = TypeVar("A")
T = TypeVar("T")
_TARGET = re.compile(r"/([^/?]*)/([^/?]*)(?:\?(.*))?")


class Refused(Exception):
    """A request does not get what it asks for, with the reason."""

    def __init__(self, status: HTTPStatus, why: str = ""):
        super().__init__(why or status.phrase)
        self.status = status


class NotBegun(Refused):
    """The bridge is not there yet. A browser asks again by itself."""

    def __init__(self) -> None:
        super().__init__(HTTPStatus.SERVICE_UNAVAILABLE, NOT_BEGUN)


class Visit(BaseHTTPRequestHandler):
    """A connection, for one request."""

    server: Door
    # (a request with an unknown version gets a whole answer, too, with all headers)
    protocol_version = default_request_version = "HTTP/1.1"
    disable_nagle_algorithm = True

    # ---- what differs from the standard library

    def setup(self) -> None:
        super().setup()
        self.rfile.close()
        self.rfile = io.BufferedReader(Within(self.connection, READ_SECONDS))

    def version_string(self) -> str:
        return "pfl_lab"

    def log_message(self, format: str, *words: object) -> None:
        """Logs nothing."""

    def send_error(self, code: int, message: Optional[str] = None, explain: Optional[str] = None) -> None:
        """Answers what is not a request, or has an unknown method."""
        status = HTTPStatus.METHOD_NOT_ALLOWED if code == HTTPStatus.NOT_IMPLEMENTED else HTTPStatus(code)
        self._answer(status, TEXT, status.phrase)

    # ---- requests

    def do_GET(self) -> None:
        self._carry_out(self._get)

    def do_POST(self) -> None:
        self._carry_out(self._post)

    def _carry_out(self, method: Callable[[], None]) -> None:
        try:
            method()
        except NotBegun as why:
            self._answer(why.status, TEXT, str(why), {"Refresh": AGAIN})
        except Refused as why:
            self._answer(why.status, TEXT, str(why))
        except Ended as why:
            self._answer(HTTPStatus.SERVICE_UNAVAILABLE, TEXT, str(why))
        except Overtaken as why:
            self._answer(HTTPStatus.CONFLICT, TEXT, str(why))

    def _get(self) -> None:
        may, path, query = self._target()
        if path == "events":
            self._events(query)
        elif path in ("journal", "level"):
            if not self.server.bridge.has_journal:
                raise Refused(HTTPStatus.NOT_IMPLEMENTED, NO_JOURNAL)
            if path == "journal":
                self._journal(may, query)
            else:
                self._answer(HTTPStatus.OK, JSON, json.dumps({"entries": self.server.bridge.level()}))
        elif path:
            self._check_may_step(may)
            wanted = self._read(read_wanted, query)
            self._answer(HTTPStatus.OK, JSON, json.dumps(self.server.bridge.offers(wanted)))
        else:
            self._answer(HTTPStatus.OK, HTML, self.server.bridge.page_for(may))

    def _post(self) -> None:
        # (a small body is read before anything is refused: a connection closed before that loses its answer)
        body = self._body()
        may, path, _ = self._target()
        self._check_sender()
        self._check_may_step(may)
        bridge = self.server.bridge
        answer = bridge.do(self._read(read_typed, body)) if path == "do" else bridge.claim(self._read(read_claim, body))
        self._answer(HTTPStatus.OK, JSON, json.dumps(answer))

    # ---- what a request must have

    def _check_may_step(self, may: str) -> None:
        if may != STEP:
            raise Refused(HTTPStatus.FORBIDDEN, "this address is for watching, not for stepping")

    def _read(self, reader: Callable[[A], T], text: A) -> T:
        """What a text of the request says, or the answer that it is not taken."""
        try:
            return reader(text)
        except NotTaken as why:
            raise Refused(HTTPStatus.BAD_REQUEST, str(why)) from why

    def _target(self) -> Tuple[str, str, str]:
        """What the sender may do, the path after the token, and the query; the method must be that of the path."""
        if self.headers.get_all("Host", []) not in [[host] for host in self.server.hosts]:
            raise Refused(HTTPStatus.FORBIDDEN, "this host is not known here")
        found = _TARGET.fullmatch(self.path)
        may = self.server.tokens.may(found[1]) if found else None
        if not found or not may or found[2] not in METHODS:
            raise Refused(HTTPStatus.NOT_FOUND)
        if METHODS[found[2]] != self.command:
            raise Refused(HTTPStatus.METHOD_NOT_ALLOWED)
        if not self.server.is_open(READ_SECONDS):
            raise NotBegun()
        return may, found[2], found[3] or ""

    def _body(self) -> bytes:
        lengths: List[str] = self.headers.get_all("Content-Length", [])
        if len(lengths) != 1 or "Transfer-Encoding" in self.headers:
            raise Refused(HTTPStatus.LENGTH_REQUIRED)
        if not re.fullmatch("[0-9]{1,18}", lengths[0]):
            raise Refused(HTTPStatus.BAD_REQUEST)
        if int(lengths[0]) > MOST_BODY:
            raise Refused(HTTPStatus.REQUEST_ENTITY_TOO_LARGE)
        body = self.rfile.read(int(lengths[0]))
        if len(body) < int(lengths[0]):
            raise Refused(HTTPStatus.BAD_REQUEST, "the body ends before its length")
        return body

    def _check_sender(self) -> None:
        """Checks that the page sent this, and not a form or a script from another place."""
        origins: List[str] = self.headers.get_all("Origin", [])
        is_own = origins in [[f"http://{host}"] for host in self.server.hosts]
        if not is_own and (origins or self.headers.get("Sec-Fetch-Site", "same-origin") != "same-origin"):
            raise Refused(HTTPStatus.FORBIDDEN, "this was not sent by the page")
        if self.headers.get_content_type() != JSON:
            raise Refused(HTTPStatus.UNSUPPORTED_MEDIA_TYPE, f"the body has to be {JSON}")

    # ---- answers

    def _answer(self, status: HTTPStatus, kind: str, said: Union[str, bytes], more: Optional[Dict[str, str]] = None) -> None:
        body = said if isinstance(said, bytes) else f"{said}\n".encode()
        self._begin(status, kind, {"Content-Length": str(len(body)), **(more or {})})
        if self.command != "HEAD":
            self._send(body)

    def _send(self, content: bytes) -> None:
        """Sends what may be long to a reader who may be slow."""
        for at in range(0, len(content), PIECE):
            self.wfile.write(content[at : at + PIECE])

    def _begin(self, status: HTTPStatus, kind: str, more: Dict[str, str]) -> None:
        """Sends the head of an answer."""
        self.connection.settimeout(WRITE_SECONDS)
        self.send_response(status)
        allowed = {"Allow": ", ".join(sorted({*METHODS.values()}))} if status is HTTPStatus.METHOD_NOT_ALLOWED else {}
        policy = POLICY if kind == HTML else f"default-src 'none'; {POLICY}"
        for name, value in {**HEADERS, "Content-Type": kind, "Content-Security-Policy": policy, **allowed, **more}.items():
            self.send_header(name, value)
        self.end_headers()

    # ---- events

    def _events(self, query: str) -> None:
        self._stream(self.server.bridge.news.all_for(Stream(self._place(query, "events?after=VERSION")), LOOK))

    def _journal(self, may: str, query: str) -> None:
        self._stream(self.server.bridge.told(may, self._place(query, "journal?after=NUMBER"), LOOK))

    def _place(self, query: str, wanted: str) -> int:
        """The place after which a watcher wants what comes."""
        after = re.fullmatch("after=([0-9]{1,15})", query)
        if not after:
            raise Refused(HTTPStatus.BAD_REQUEST, f"{wanted} is expected")
        return int(after[1])

    def _stream(self, messages: Iterator[List[bytes]]) -> None:
        """Sends what a watcher lacks as it comes, and signs of life. A watcher who does not read holds up only this thread."""
        if not self.server.bridge.news.come():
            raise Refused(HTTPStatus.SERVICE_UNAVAILABLE, "too many people are watching")
        try:
            self._send_all(messages)
        finally:
            self.server.bridge.news.go()

    def _send_all(self, messages: Iterator[List[bytes]]) -> None:
        self._begin(HTTPStatus.OK, EVENTS, {})
        sent = time.monotonic()
        for came in takewhile(lambda it: not self._is_left(), messages):
            for message in came or [BEATS] * (time.monotonic() >= sent + BEAT):
                self._send(message)
                sent = time.monotonic()

    def _is_left(self) -> bool:
        """Whether the watcher has closed the connection."""
        poll = select.poll()
        poll.register(self.connection, select.POLLIN)
        return bool(poll.poll(0)) and not self.connection.recv(1, socket.MSG_PEEK)
