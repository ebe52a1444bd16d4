"""Children that tests start: signals end them whoever runs the tests, and no test waits for them without end."""
from __future__ import annotations

import contextlib
import shutil
import signal
import subprocess
import threading
import unittest
from typing import Any, Callable, Iterator, TypeVar

# In how many seconds a child has done what takes it a second or two: the machine may do other work.
SECONDS = 60.0
Test = TypeVar("Test", bound=Callable[..., object])


def needs(name: str) -> Callable[[Test], Test]:
    """Has a test skipped where a command is not there that Debian has in a package of the same name."""
    return unittest.skipUnless(shutil.which(name), f"there is no {name} on the path: apt-get install {name}")


def take_signals() -> None:
    """In a child, before it becomes its program: has it take the signals that end one. Those that are ignored stay so in children, and nohup
    has SIGHUP ignored, as a shell has SIGINT in what it starts in the background."""
    for it in (signal.SIGHUP, signal.SIGINT, signal.SIGTERM):
        signal.signal(it, signal.SIG_DFL)


def take_interrupts(test: unittest.TestCase) -> None:
    """Has an interrupt of the tests themselves raise KeyboardInterrupt until a test ends."""
    test.addCleanup(signal.signal, signal.SIGINT, signal.signal(signal.SIGINT, signal.default_int_handler))


@contextlib.contextmanager
def bounded(child: "subprocess.Popen[Any]", seconds: float = SECONDS) -> Iterator[None]:
    """Kills a child whose output a test waits for too long: then the output ends."""
    timer = threading.Timer(seconds, child.kill)
    timer.start()
    try:
        yield
    finally:
        timer.cancel()
