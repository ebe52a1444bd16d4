"""The port of a live page: who may come in, and how many."""
from __future__ import annotations

import hmac
import io
import resource
import secrets
import socket
import socketserver
import sys
import threading
import time
from typing import Any, Callable, NamedTuple, Optional, Tuple, Union

from .bridge import STEP, WATCH, Bridge
from .news import MOST_STREAMS

HERE = "127.0.0.1"
MOST_CONNECTIONS = MOST_STREAMS + 100
# How much may be open at once: the connections, and what the runs of the branches and the rest of the process need.
MOST_FILES = MOST_CONNECTIONS + 200
# (as in socketserver, whose other servers have datagrams)
Request = Union[socket.socket, Tuple[bytes, socket.socket]]


def make_room() -> None:
    """Allows enough open files, as far as the system permits: with none left, no branch can begin."""
    now, most = resource.getrlimit(resource.RLIMIT_NOFILE)
    wanted = MOST_FILES if most == resource.RLIM_INFINITY else min(MOST_FILES, most)
    if now != resource.RLIM_INFINITY and now < wanted:
        resource.setrlimit(resource.RLIMIT_NOFILE, (wanted, most))


class Tokens(NamedTuple):
    """The tokens in addresses, for stepping and for watching only."""

    step: str
    watch: str

    @classmethod
    def new(cls) -> "Tokens":
        return cls(secrets.token_urlsafe(16), secrets.token_urlsafe(16))

    def may(self, token: str) -> Optional[str]:
        """What someone with a token may do. How long this takes reveals nothing about the tokens."""
        steps, watches = (hmac.compare_digest(token.encode(errors="replace"), it.encode()) for it in self)
        return STEP if steps else WATCH if watches else None


class Door(socketserver.ThreadingTCPServer):
    """A port of this machine only. Each connection has a thread of its own, up to a limit."""

    daemon_threads = allow_reuse_address = True
    request_queue_size = 128
    bridge: Bridge

    def __init__(self, port: int, visit: Callable[..., socketserver.BaseRequestHandler]):
        self.tokens = Tokens.new()
        self._room = threading.Semaphore(MOST_CONNECTIONS)
        self._has_bridge = threading.Event()
        super().__init__((HERE, port), visit)

    @property
    def port(self) -> int:
        return int(self.server_address[1])

    @property
    def hosts(self) -> Tuple[str, str]:
        """What browsers on this machine call this place. If another name leads here, somebody else made it do so."""
        return f"{HERE}:{self.port}", f"localhost:{self.port}"

    def address(self, token: str) -> str:
        return f"http://{HERE}:{self.port}/{token}/"

    @property
    def tunnel(self) -> str:
        """The command that brings this port to another machine, under the same number, so that its addresses are right there too."""
        return f"ssh -L {self.port}:{HERE}:{self.port} HOST"

    def open(self, bridge: Bridge) -> None:
        """Lets requests come to the bridge, which is there."""
        self.bridge = bridge
        self._has_bridge.set()

    def is_open(self, seconds: float) -> bool:
        """Waits for the bridge at most this many seconds; returns whether it is there."""
        return self._has_bridge.wait(seconds)

    def process_request(self, request: Request, client_address: object) -> None:
        if not self._room.acquire(blocking=False):
            self.shutdown_request(request)
            return
        try:
            super().process_request(request, client_address)
        except BaseException:
            # (no thread was begun)
            self._room.release()
            raise

    def process_request_thread(self, request: Request, client_address: object) -> None:
        try:
            super().process_request_thread(request, client_address)
        finally:
            self._room.release()

    def handle_error(self, request: Request, client_address: object) -> None:
        # (someone who goes away, or does not read, is not a fault)
        if not isinstance(sys.exc_info()[1], (ConnectionError, socket.timeout)):
            super().handle_error(request, client_address)


class Within(io.RawIOBase):
    """What comes over a connection within some seconds in total, however slowly."""

    def __init__(self, connection: socket.socket, seconds: float):
        self._connection, self._end = connection, time.monotonic() + seconds

    def readable(self) -> bool:
        return True

    def readinto(self, buffer: Any) -> int:
        self._connection.settimeout(max(0.001, self._end - time.monotonic()))
        return self._connection.recv_into(buffer)
