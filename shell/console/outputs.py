"""Standard output where it cannot be written, as on a full device."""
from __future__ import annotations

import os
import sys


def discard_output() -> None:
    """What is left to write goes nowhere, since it would fail again at the end."""
    os.dup2(os.open(os.devnull, os.O_WRONLY), sys.stdout.fileno())


def print_help(text: str, name: str) -> int:
    """Prints help, and returns the status: 1 where it could not be written, which the command of this name reports."""
    try:
        print(text, flush=True)
    except OSError as fault:
        discard_output()
        if not isinstance(fault, BrokenPipeError):
            print(f"{name}: help could not be written: {fault.strerror}", file=sys.stderr)
        return 1
    return 0
