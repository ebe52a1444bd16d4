"""Long output at a terminal goes through a pager, as that of git does."""
from __future__ import annotations

import os
import shutil
import signal
import subprocess
from contextlib import contextmanager
from typing import IO, Iterator, Sequence

# Terminals that do not know the control sequences of a VT100.
PLAIN_TERMINALS = ("", "dumb", "unknown")
# What less is to do if LESS does not say it: end at once if everything fits, show colours, and leave what it showed.
_OPTIONS = {"LESS": "FRX", "LV": "-c"}
# The status of a shell that cannot run a command.
_NOT_RUN = (126, 127)


def paged(lines: Sequence[str], out: IO[str]) -> bool:
    """Shows lines in a pager if the terminal has no room for them all; returns whether it did."""
    pager = pager_for(lines, out)
    if not pager:
        return False
    out.flush()
    text = "".join(f"{line}\n" for line in lines).encode(getattr(out, "encoding", None) or "utf-8", "replace")
    with _without_interrupts():
        ran = subprocess.run(pager, shell=True, input=text, stdout=out, env={**_OPTIONS, **os.environ})
    return ran.returncode not in _NOT_RUN


def pager_for(lines: Sequence[str], out: IO[str]) -> str:
    """The pager for lines: PAGER, or less if that is not set; empty if they need none."""
    if not out.isatty() or os.environ.get("TERM", "") in PLAIN_TERMINALS or len(lines) < shutil.get_terminal_size().lines:
        return ""
    pager = os.environ.get("PAGER", "less" if shutil.which("less") else "")
    return "" if pager.strip() == "cat" else pager.strip()


@contextmanager
def _without_interrupts() -> Iterator[None]:
    """Leaves interrupts to the pager, which would not get them if they were ignored here."""
    before = signal.signal(signal.SIGINT, lambda *_: None)
    try:
        yield
    finally:
        signal.signal(signal.SIGINT, before)
