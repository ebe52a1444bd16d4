"""Runs of the program over a whole script, as bytes."""
from __future__ import annotations

import random
import socket
import subprocess
import tempfile
from typing import Iterator, NamedTuple

from oracle.subject import Differs

# A piece is read at once: the program takes this many bytes at a time.
LONGEST_PIECE = 65536
# This many pieces take no longer than the run itself.
MOST_PIECES = 2000


class Ran(NamedTuple):
    """The output of a run, the faults that it reported, and its status, which is negative if a signal ended it."""

    out: str
    errors: str
    status: int


def ran(program: str, word: str, script: str, seconds: float) -> Ran:
    """A run over a script that is all there at once."""
    try:
        done = subprocess.run([program, word], input=script.encode("latin-1"), capture_output=True, timeout=seconds)
    except subprocess.TimeoutExpired as error:
        raise Differs(f"{word}: it had not ended after {seconds:g} seconds") from error
    return Ran(done.stdout.decode("latin-1"), done.stderr.decode("latin-1"), done.returncode)


def ran_in_pieces(program: str, word: str, script: str, seconds: float, chance: random.Random) -> Ran:
    """A run to which the script comes in pieces: each call of read takes one message of a socket."""
    ours, its = socket.socketpair(socket.AF_UNIX, socket.SOCK_SEQPACKET)
    with ours, tempfile.TemporaryFile() as out, tempfile.TemporaryFile() as errors:
        with its:
            run = subprocess.Popen([program, word], stdin=its.fileno(), stdout=out, stderr=errors)
        ours.settimeout(seconds)
        try:
            _send(ours, pieces(script.encode("latin-1"), chance))
            run.wait(seconds)
        except subprocess.TimeoutExpired as error:
            raise Differs(f"{word}, in pieces: it had not ended after {seconds:g} seconds") from error
        finally:
            run.kill()
            run.wait()
        for it in (out, errors):
            it.seek(0)
        return Ran(out.read().decode("latin-1"), errors.read().decode("latin-1"), run.returncode)


def _send(to: socket.socket, parts: Iterator[bytes]) -> None:
    try:
        for part in parts:
            to.send(part)
    except OSError:
        # (if a setup has a fault the run ends before it has read everything; if it hangs, we wait for its end)
        pass
    to.close()


def pieces(script: bytes, chance: random.Random) -> Iterator[bytes]:
    """Cuts a script into pieces, some so small that lines, and a CR and its line feed, come apart."""
    most = max(chance.choice((1, 2, 7, 60, 600, LONGEST_PIECE)), -(-2 * len(script) // MOST_PIECES))
    at = 0
    while at < len(script):
        end = at + min(LONGEST_PIECE, chance.randint(1, most))
        yield script[at:end]
        at = end
