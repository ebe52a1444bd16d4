"""The tokens of a pf.conf(5), as pfctl(8) reads them: words, quoted strings and marks, with macros expanded."""
from __future__ import annotations

import re
import string
from enum import Enum
from typing import Dict, List, NamedTuple, Optional, Pattern

_BEGINS_WORD = f"{string.ascii_letters}{string.digits}:_"
_NOT_IN_WORDS = "(){}<>!=/#,"
_OF_MACRO = f"{string.ascii_letters}{string.digits}_"
MOST_UNENDED = 16
_WORD, _COMMENT, _QUOTED = (re.compile(it) for it in (r"[$-&*+.0-;?-\[\]-z|~-]*", r"[^\\\n]*", r"[^\\\n\"']*"))
_PAIRS = ("!=", "<>", "<=", "><", ">=", "->")


class Kind(Enum):
    """What a token is."""

    WORD = 1
    QUOTED = 2
    MARK = 3
    LINE_END = 4


class Token(NamedTuple):
    """A token, by its text, and the line where it begins."""

    kind: Kind
    text: str
    line: int = 0

    def __str__(self) -> str:
        return "the end of the line" if self.kind is Kind.LINE_END else f"`{self.text[:40]}`"


class NotRead(Exception):
    """Why a statement is not understood; pfctl(8) would refuse most of these, too."""


class NotEnded(NotRead):
    """A quote or a brace has no end."""


class Statement(NamedTuple):
    """A statement of a file: its tokens, its first and its last line, and why it is not understood, if it is not."""

    tokens: List[Token]
    first: int
    last: int
    fault: str = ""


class Lexer:
    """Reads the statements of a file, one after another, since each may define a macro for the next."""

    def __init__(self, text: str, macros: Dict[str, str]):
        self._text, self._at, self._line = text.replace("\r\n", "\n"), 0, 1
        self._macros = macros
        self._unended = 0
        # A macro that is being read instead of the file, and how much of it has been read.
        self._macro, self._macro_at = "", 0

    def statement(self) -> Optional[Statement]:
        """The next statement; None at the end of the file. Within braces it continues over line ends."""
        first = self._skip_blank()
        if first is None:
            return None
        at, line = self._at, self._line
        tokens: List[Token] = []
        try:
            fault = self._read(tokens)
            return Statement(tokens, line, max(line, self._line - self._is_after_line), fault)
        except NotEnded as why:
            # The rest of the file would be part of it: what follows its first line is read, unless there are many of these.
            self._unended += 1
            self._macro_at, self._at, self._line = len(self._macro), at, line
            self._pass_over_line()
            if self._unended > MOST_UNENDED:
                self._at = len(self._text)
                return Statement(tokens[:1], line, line, f"{why}, and the rest of the file is not read: there are too many of these")
            return Statement(tokens[:1], line, line, str(why))

    def _skip_blank(self) -> Optional[str]:
        """The character that begins the next statement."""
        while self._peek() and self._peek() in " \t\n#":
            if self._peek() == "#":
                self._comment()
            else:
                self._take()
        return self._peek() or None

    def _read(self, tokens: List[Token]) -> str:
        """Takes the tokens up to the end of a line, or of the line where braces end; returns the first fault, if any."""
        depth, fault = 0, ""
        while True:
            try:
                token = self._token()
            except NotEnded:
                if depth <= 0:
                    raise
                break
            except NotRead as why:
                fault = fault or str(why)
                continue
            if token is None or (token.kind is Kind.LINE_END and depth <= 0):
                break
            depth += {"{": 1, "}": -1}.get(token.text, 0) if token.kind is Kind.MARK else 0
            tokens.append(token)
        if depth > 0:
            raise NotEnded("a `{` has no `}`")
        return fault

    @property
    def _is_after_line(self) -> bool:
        """Whether the last character read ends a line."""
        return self._text[self._at - 1 : self._at] == "\n"

    def _token(self) -> Optional[Token]:
        """The next token; None at the end of the file."""
        while self._peek() in (" ", "\t", "$", "#"):
            if self._peek() == "#":
                self._comment()
            elif self._peek() == "$" and not self._in_macro:
                self._begin_macro()
            elif self._take() == "$":
                raise NotRead("a macro has `$` in its quotes, where pfctl expands no macro: end the quotes before it")
        line, character = self._line, self._take()
        if character == "\n":
            return Token(Kind.LINE_END, "\n", line)
        if character and character in "\"'":
            return Token(Kind.QUOTED, self._quoted(character), line)
        if character and character in _BEGINS_WORD:
            return Token(Kind.WORD, self._word(character), line)
        if not character:
            return None
        if character + self._peek() in _PAIRS:
            character += self._take()
        return Token(Kind.MARK, character, line)

    def _word(self, word: str) -> str:
        while "!" <= self._peek() <= "~" and self._peek() not in _NOT_IN_WORDS:
            word += self._take_run(_WORD) or self._take()
        return word

    def _quoted(self, quote: str) -> str:
        """What is in quotes, where line feeds count as nothing."""
        found = ""
        while True:
            character = self._take()
            if not character:
                raise NotEnded(f"a quote {quote} has no end")
            if character == quote:
                return found
            if character == "\\" and self._peek() in (quote, " ", "\t"):
                character = self._take()
            found += ("" if character == "\n" else character) + self._take_run(_QUOTED)

    def _begin_macro(self) -> None:
        self._take()
        name = ""
        while self._peek() and self._peek() in _OF_MACRO:
            name += self._take()
        if name not in self._macros:
            raise NotRead(f"there is no macro `${name}` above it")
        self._macro, self._macro_at = self._macros[name], 0

    def _comment(self) -> None:
        """Passes over a comment, up to the end of its line; as in pfctl, a backslash there takes in the next line."""
        while self._peek() not in ("", "\n"):
            if not self._take_run(_COMMENT):
                self._take()

    def _pass_over_line(self) -> None:
        self._comment()
        self._take()

    @property
    def _in_macro(self) -> bool:
        return self._macro_at < len(self._macro)

    def _peek(self) -> str:
        """The next character; empty at the end of the file."""
        if self._in_macro:
            return self._macro[self._macro_at]
        while self._text.startswith("\\\n", self._at):
            self._at, self._line = self._at + 2, self._line + 1
        return self._text[self._at : self._at + 1]

    def _take_run(self, pattern: Pattern[str]) -> str:
        """Takes characters that need no look one by one: none of them ends or continues a line."""
        found = pattern.match(*((self._macro, self._macro_at) if self._in_macro else (self._text, self._at)))
        run = found[0] if found else ""
        if self._in_macro:
            self._macro_at += len(run)
        else:
            self._at += len(run)
        return run

    def _take(self) -> str:
        character = self._peek()
        if self._in_macro:
            self._macro_at += 1
        elif character:
            self._at, self._line = self._at + 1, self._line + (character == "\n")
        return character
