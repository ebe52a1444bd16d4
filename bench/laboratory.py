"""A run of the program that gets a load part by part, and what each part costs it. Linux only."""
from __future__ import annotations

import array
import fcntl
import os
import re
import subprocess
import termios
import time
from typing import Sequence

PIPE_BYTES = 1 << 20
LONGEST_NAP = 0.02


class Wrong(Exception):
    """A reply is not what it must be, or the program has ended."""


class Late(Exception):
    """The load has used up its time."""

    def __init__(self, cost: Cost):
        super().__init__("given up")
        self.cost = cost


class Cost:
    """What commands took: processor seconds, the most memory of the run so far, and how much more memory is kept."""

    def __init__(self, commands: int, seconds: float, most: int, kept: int, is_late: bool = False):
        self.commands, self.seconds, self.most, self.kept, self.is_late = commands, seconds, most, kept, is_late

    def and_then(self, later: Cost) -> Cost:
        commands, seconds, kept = self.commands + later.commands, self.seconds + later.seconds, self.kept + later.kept
        return Cost(commands, seconds, later.most, kept, later.is_late)


class MeasuredRun:
    """The program reads from a pipe and writes to a file in memory, so that no reply wakes any process."""

    def __init__(self, program: str, seconds: float):
        self.end = time.monotonic() + seconds
        self.replies = os.memfd_create("replies")
        self.run = subprocess.Popen([program, "run"], bufsize=0, stdin=subprocess.PIPE, stdout=self.replies, stderr=subprocess.PIPE)
        assert self.run.stdin and self.run.stderr
        self.pipe, self.faults = self.run.stdin, self.run.stderr
        # (the number of the clock for the processor time of another process)
        self.clock = ~self.run.pid << 3 | 2
        self.input = self.pipe.fileno()
        fcntl.fcntl(self.input, fcntl.F_SETPIPE_SZ, PIPE_BYTES)
        os.set_blocking(self.input, False)
        self.seen = 0

    def send(self, lines: Sequence[str], wanted: Sequence[str], commands: int) -> Cost:
        """Sends lines and waits for the replies, which must be those wanted; returns what that took, for this many commands."""
        left = memoryview("".join(f"{line}\n" for line in lines).encode())
        before, nap = self.taken(0), 0.0005
        while left or not self.waits():
            left = left[self.give(left) :]
            if time.monotonic() > self.end:
                answered = self.written().count(b"\n") * len(lines) // max(1, len(wanted))
                raise Late(self.since(before, answered, is_late=True))
            time.sleep(nap)
            nap = min(2 * nap, LONGEST_NAP)
        took = self.since(before, commands)
        self.compare("".join(f"{it}\n" for it in wanted).encode())
        return took

    def give(self, left: memoryview) -> int:
        """Writes as many of the bytes as there is room for."""
        try:
            return os.write(self.input, left) if left else 0
        except BlockingIOError:
            return 0
        except BrokenPipeError:
            raise self.ended() from None

    def waits(self) -> bool:
        """Whether the program has read all that it was given, and waits for more."""
        if self.run.poll() is not None:
            raise self.ended()
        unread = array.array("i", [0])
        fcntl.ioctl(self.input, termios.FIONREAD, unread)
        with open(f"/proc/{self.run.pid}/stat", encoding="utf-8", errors="replace") as it:
            state = it.read().rpartition(")")[2].split()[0]
        return unread[0] == 0 and state == "S"

    def ended(self) -> Wrong:
        return Wrong(f"the program ended with {self.run.wait()}: {self.faults.read().decode().strip()}")

    def written(self) -> bytes:
        """What the program has written since the last look."""
        return os.pread(self.replies, os.fstat(self.replies).st_size - self.seen, self.seen)

    def compare(self, wanted: bytes) -> None:
        written = self.written()
        if written != wanted:
            pairs = enumerate(zip(written.split(b"\n"), wanted.split(b"\n")), 1)
            line, (reply, other) = next(pair for pair in pairs if pair[1][0] != pair[1][1])
            raise Wrong(f"line {line} of the replies is {reply.decode()!r}, not {other.decode()!r}")
        self.seen += len(written)

    def taken(self, commands: int) -> Cost:
        """What the program has cost since its start."""
        return Cost(commands, time.clock_gettime(self.clock), self.memory("VmHWM"), self.memory("VmRSS"))

    def since(self, before: Cost, commands: int, is_late: bool = False) -> Cost:
        now = self.taken(commands)
        return Cost(commands, now.seconds - before.seconds, now.most, now.kept - before.kept, is_late)

    def memory(self, field: str) -> int:
        """Bytes, from a field of the program's status in /proc."""
        with open(f"/proc/{self.run.pid}/status", encoding="utf-8") as it:
            found = re.search(rf"^{field}:\s+(\d+) kB", it.read(), re.M)
        return 1024 * int(found[1]) if found else 0

    def close(self) -> None:
        self.run.kill()
        self.run.wait()
        self.pipe.close()
        self.faults.close()
        os.close(self.replies)
