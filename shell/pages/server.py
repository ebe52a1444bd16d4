"""The server that is started for a live page."""
from __future__ import annotations

import socket
import subprocess
from typing import Sequence

from ..language.commands import OPEN
from ..link.programs import Ended

# How often to look for a free port: another program can take one in the meantime.
TRIES = 5


class Server:
    """The program as a server with one session, at a port that was free."""

    def __init__(self, program: str, setup: Sequence[str]):
        self.port = free_port()
        self.process = subprocess.Popen(
            [program, "serve", "--port", str(self.port), "--sessions", "1"],
            stdin=subprocess.PIPE,
            stdout=subprocess.PIPE,
            stderr=subprocess.PIPE,
            encoding="utf-8",
            errors="surrogateescape",
            # An interrupt at the terminal ends the page, which ends the server.
            start_new_session=True,
        )
        assert self.process.stdin and self.process.stdout
        try:
            with self.process.stdin as it:
                it.write("".join(f"{line}\n" for line in (*setup, OPEN.word)))
        except BrokenPipeError:
            pass  # (it has ended, and has reported why)
        self.process.stdin = None
        try:
            self.is_listening = bool(self.process.stdout.readline())
        except BaseException:
            self.process.kill()
            raise

    def close(self) -> str:
        """Waits until it has ended, which it does with its session, and kills it if it does not; returns the faults that it reported."""
        try:
            _, said = self.process.communicate(timeout=2)
        except subprocess.TimeoutExpired:
            self.process.kill()
            _, said = self.process.communicate()
        return said.strip()


def free_port() -> int:
    with socket.socket() as listening:
        listening.bind(("127.0.0.1", 0))
        port: int = listening.getsockname()[1]
        return port


def started(program: str, setup: Sequence[str]) -> Server:
    """A server that listens."""
    for _ in range(TRIES):
        server = Server(program, setup)
        if server.is_listening:
            return server
        said = server.close()
    raise Ended(f"the server did not start: {said or f'status {server.process.returncode}'}")
