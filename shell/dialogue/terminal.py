"""Notes above the line being typed at a terminal: the line stays as it is, and so does the place of the cursor in it."""
from __future__ import annotations

import os
import threading
from typing import IO, Callable, Optional, Sequence

from ..console.fitting import fitted, length_of
from ..console.paging import PLAIN_TERMINALS
from ..link.programs import Ended, uninterrupted
from .notes import Notes

# How often, in seconds, to look whether notes have become due.
PERIOD = 0.1


def above(lines: Sequence[str], columns: int) -> str:
    """What makes a terminal show lines above the line with the cursor. That line has one row, and stays where it is."""
    rows = sum(max(1, -(-length_of(line) // columns)) for line in lines)
    # (rows are made below, where the terminal may have to scroll, and inserted here; then the cursor returns to its column, and down)
    text = "\r\n".join(lines)
    return "\033D" * rows + f"\033[{rows}A\0337\r\033[{rows}L{text}\0338\033[{rows}B"


class Watch(threading.Thread):
    """Shows notes as they become due while a line is typed."""

    def __init__(self, notes: Notes, out: IO[str], typed: Callable[[], str]):
        """The function returns all that is in the line, including the prompt."""
        super().__init__(name="notes", daemon=True)
        self._notes, self._out, self._typed = notes, out, typed
        # Whoever holds this may ask the session; and whether a line is being typed.
        self.turn = threading.RLock()
        self._is_typing = threading.Event()

    def begin(self) -> None:
        # (an interrupt is for the person typing, and goes to the main thread)
        with uninterrupted():
            self.start()

    def typing(self, is_typing: bool) -> None:
        with self.turn:
            (self._is_typing.set if is_typing else self._is_typing.clear)()

    def run(self) -> None:
        while self._is_typing.wait():
            self._notes.shared.client.watch(PERIOD)
            with self.turn:
                if self._is_typing.is_set() and not self._look():
                    return

    def _look(self) -> bool:
        """Shows what is due; returns whether the server is there."""
        before, self._notes.show_lines = self._notes.show_lines, self._show
        try:
            self._notes.shared.hear()
            if self._notes.are_due and self._has_one_row():
                self._notes.show()
        except Ended as why:
            self._show([f"{why}"])
            return False
        finally:
            self._notes.show_lines = before
        return True

    def _has_one_row(self) -> bool:
        """Whether what is being typed fits in one row of the terminal, as far as that is known."""
        typed = self._typed()
        return typed.isascii() and typed.isprintable() and len(typed) < self._columns()

    def _columns(self) -> int:
        return os.get_terminal_size(self._out.fileno()).columns or 80

    def _show(self, lines: Sequence[str]) -> None:
        if lines:
            self._out.write(above(fitted(lines, self._columns()), self._columns()))
            self._out.flush()


def watch(notes: Notes, out: IO[str], prompt: Callable[[], str]) -> Optional[Watch]:
    """Begins to watch, if lines are typed with readline at a terminal that can insert lines."""
    try:
        import readline
    except ImportError:
        return None
    if not out.isatty() or os.environ.get("TERM", "") in PLAIN_TERMINALS:
        return None
    watching = Watch(notes, out, lambda: prompt() + readline.get_line_buffer())
    watching.begin()
    return watching
