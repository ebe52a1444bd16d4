"""The loop of a dialogue: lines from a terminal or a file, its prompt, the key that completes words, and notes of other sessions."""
from __future__ import annotations

import cmd
import contextlib
from typing import IO, Any, List, Optional, Sequence

from ..console.colours import Paint
from ..console.fitting import columns_of, fitted
from ..console.paging import paged
from ..link.laboratory import Laboratory, Unknown
from ..link.programs import Ended
from .notes import Notes
from .terminal import Watch, watch


class Loop(cmd.Cmd):
    """A dialogue over a laboratory; a subclass has the words."""

    def __init__(self, lab: Laboratory, out: IO[str], paint: Paint, is_typed: bool):
        super().__init__(stdout=out)
        self.lab, self.out, self.paint = lab, out, paint
        self.is_typed = self.use_rawinput = is_typed
        # Only on a server that is followed, at a terminal.
        self.notes: Optional[Notes] = Notes(lab.shared, self.show, paint, lab.people) if lab.shared and is_typed else None
        self._watch: Optional[Watch] = None
        self.set_prompt()

    @property
    def columns(self) -> Optional[int]:
        """The columns of the terminal that the output goes to, if it goes to one."""
        return columns_of(self.out)

    def show(self, lines: Sequence[str]) -> None:
        """Prints lines for people, fitted to the terminal."""
        self.show_whole(fitted(lines, self.columns))

    def answer(self, lines: Sequence[str]) -> None:
        """Prints the answer to a question. At a terminal a long one goes through a pager."""
        self.answer_whole(fitted(lines, self.columns))

    def answer_whole(self, lines: Sequence[str]) -> None:
        """Prints an answer whose lines must not be broken."""
        if not self.is_typed or not paged(lines, self.out):
            self.show_whole(lines)

    def show_whole(self, lines: Sequence[str]) -> None:
        """Prints lines as they are, such as lines of the language, which people may copy."""
        for line in lines:
            print(line, file=self.out, flush=self.is_typed)

    # ---- prompts

    def watch(self) -> None:
        """Shows notes above the prompt while a line is being typed, if the terminal can do that."""
        if self.notes:
            self._watch = watch(self.notes, self.out, lambda: self.prompt)

    def set_prompt(self) -> None:
        self.prompt = f"{self.where()}> " if self.is_typed else ""

    def where(self) -> str:
        """The branch in use, how many of its events stand, and which rules are the kernel's, if any are."""
        if not self.lab.is_open:
            return "setup"
        kernel = self.lab.setup.kernel
        return self._branch() if kernel.is_profile else f"{self._branch()} ({kernel.short})"

    def _branch(self) -> str:
        """The branch in use, and how many of its events stand."""
        # (a server keeps every command that it gets, so a prompt asks it nothing)
        if self.lab.has_free_looks:
            with contextlib.suppress(Unknown):
                branch = self.lab.branch(self.lab.in_use)
                return f"{branch.name} {branch.cursor}/{len(branch.events)}"
        return self.lab.in_use

    def preloop(self) -> None:
        self._type(False)
        self._prompt()

    def precmd(self, line: str) -> str:
        self._type(False)
        return line

    def postcmd(self, stop: bool, line: str) -> bool:
        if not stop:
            self._prompt()
        return stop

    def _prompt(self) -> None:
        """Prepares the next prompt, with the notes above it."""
        self.set_prompt()
        if self.notes:
            self.notes.show()
        self._type(True)

    def _type(self, is_typing: bool) -> None:
        if self._watch:
            self._watch.typing(is_typing)

    def emptyline(self) -> bool:
        return False

    # ---- completed words

    def complete(self, text: str, state: int) -> Optional[List[str]]:
        if not self._watch:
            return super().complete(text, state)
        with self._watch.turn:
            return super().complete(text, state)

    def completenames(self, text: str, *ignored: object) -> List[str]:
        from .completion import candidates

        return spaced(candidates(self.lab, (), text))

    # (Any, as in cmd.Cmd)
    def completedefault(self, *words: Any) -> List[str]:
        from .completion import candidates

        text, line, begun, _ = words
        try:
            return spaced(candidates(self.lab, line[:begun].split(), text))
        except (Unknown, Ended, OSError):
            return []

    def complete_help(self, *words: Any) -> List[str]:
        return self.completedefault(*words)


def spaced(words: List[str]) -> List[str]:
    """The words with the space that ends each, which readline leaves to the completer; the path of a folder gets none."""
    return [word if word.endswith("/") else f"{word} " for word in words]
