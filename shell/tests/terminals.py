"""A terminal for tests: a program runs at it, keys are typed, and its screen is read. It knows what readline sends to a VT100."""
from __future__ import annotations

import fcntl
import os
import pty
import re
import select
import struct
import subprocess
import sys
import termios
import time
from typing import Callable, List, Mapping, Sequence

from .children import take_signals

SECONDS = 30.0
# Makes standard input the terminal of the session, from which interrupts come, and then becomes another program.
IN_FRONT = "import fcntl, os, sys, termios; fcntl.ioctl(0, termios.TIOCSCTTY, 0); os.execv(sys.argv[1], sys.argv[1:])"
_SEQUENCE = re.compile("\033(?:\\[([?0-9;]*)([A-Za-z@])|([78DME=>]))")


class Screen:
    """Rows of characters, and the cursor."""

    def __init__(self, columns: int, rows: int):
        self.columns, self.height = columns, rows
        self.rows: List[List[str]] = [[] for _ in range(rows)]
        self.row = self.column = 0
        self.saved = (0, 0)
        # What was scrolled out.
        self.before: List[str] = []

    @property
    def text(self) -> List[str]:
        """All rows up to the cursor's, those too that were scrolled out."""
        return [*self.before, *("".join(row).rstrip() for row in self.rows[: self.row + 1])]

    def take(self, text: str) -> str:
        """Takes what is sent: the rest, which is a sequence that has not ended."""
        at = 0
        while at < len(text):
            found = _SEQUENCE.match(text, at) if text[at] == "\033" else None
            if text[at] == "\033" and not found:
                return text[at:]
            if found:
                self._sequence(found[1] or "", found[2] or found[3])
            else:
                self._character(text[at])
            at = found.end() if found else at + 1
        return ""

    def _character(self, character: str) -> None:
        if character == "\n":
            self._down(1)
        elif character == "\r":
            self.column = 0
        elif character == "\b":
            self.column = max(0, self.column - 1)
        elif character >= " ":
            if self.column == self.columns:
                self.column = 0
                self._down(1)
            row = self.rows[self.row]
            row.extend(" " * (self.column + 1 - len(row)))
            row[self.column] = character
            self.column += 1

    def _down(self, rows: int) -> None:
        for _ in range(rows):
            if self.row == self.height - 1:
                self.before.append("".join(self.rows.pop(0)).rstrip())
                self.rows.append([])
            else:
                self.row += 1

    def _sequence(self, words: str, letter: str) -> None:
        number = int(words) if words.isdecimal() else 1
        row = self.rows[self.row]
        if letter in "ABCD" and (words or letter != "D"):
            self.row = min(self.height - 1, max(0, self.row + {"A": -number, "B": number}.get(letter, 0)))
            self.column = min(self.columns - 1, max(0, self.column + {"C": number, "D": -number}.get(letter, 0)))
        elif letter == "D":
            self._down(1)
        elif letter == "L":
            self.rows[self.row : self.row] = [[] for _ in range(number)]
            del self.rows[self.height :]
        elif letter == "P":
            del row[self.column : self.column + number]
        elif letter == "@":
            row[self.column : self.column] = [" "] * number
        elif letter == "K":
            del row[self.column :]
        elif letter == "7":
            self.saved = self.row, self.column
        elif letter == "8":
            self.row, self.column = self.saved


class Terminal:
    """A program at a terminal."""

    def __init__(self, words: Sequence[str], more: Mapping[str, str], columns: int = 100, rows: int = 12):
        self.screen, self._rest = Screen(columns, rows), ""
        self.file, its = pty.openpty()
        fcntl.ioctl(its, termios.TIOCSWINSZ, struct.pack("HHHH", rows, columns, 0, 0))
        words = [sys.executable, "-c", IN_FRONT, *words]
        environment = {**os.environ, "TERM": "xterm", "PAGER": "", **more}
        self.process = subprocess.Popen(
            words, stdin=its, stdout=its, stderr=its, env=environment, start_new_session=True, preexec_fn=take_signals
        )
        os.close(its)

    def type(self, keys: str) -> None:
        os.write(self.file, keys.encode())

    def wait(self, is_there: Callable[[List[str]], bool]) -> List[str]:
        """The screen once something is on it."""
        end = time.monotonic() + SECONDS
        while not is_there(self.screen.text):
            left = end - time.monotonic()
            if left < 0 or not self._read(left):
                raise AssertionError("\n".join(["this did not come to the screen:", *self.screen.text]))
        return self.screen.text

    def wait_for(self, last: str) -> List[str]:
        """The screen once its last row is this."""
        return self.wait(lambda rows: rows[-1] == last)

    def _read(self, seconds: float) -> bool:
        if not select.select([self.file], [], [], seconds)[0]:
            return False
        try:
            came = os.read(self.file, 1 << 16)
        except OSError:
            # (the program has ended)
            came = b""
        self._rest = self.screen.take(self._rest + came.decode(errors="replace"))
        return bool(came)

    def close(self) -> None:
        self.process.kill()
        self.process.wait(SECONDS)
        os.close(self.file)
