"""The texts of scripts, in files: read, written, their titles, and rules for a setup."""
from __future__ import annotations

import errno
import re
from itertools import takewhile
from typing import IO, List, Sequence

from ..console.endings import NotDone
from ..language.lines import lines_of, opens
from ..link.programs import check_setup
from .kinds import ENOUGH, SCRIPT, refuse_other

LONGEST_TITLE = 120


class FaultyRules(NotDone):
    """A file of rules has a fault."""


def title_of(script: Sequence[str]) -> str:
    """The first sentence of the comment at the start of a script, if there is one, and it is short enough for a title."""
    begin = takewhile(lambda line: line.startswith("#") and line.strip("# \t\r"), script)
    text = " ".join(line.strip("# \t\r") for line in begin)
    title = re.split(r"(?<=[.?!]) ", text)[0].rstrip(".").replace("`", "")
    return title if len(title) <= LONGEST_TITLE else ""


def read(path: str) -> str:
    """The text of a script, whatever bytes it has; a file that looks like one of another kind is refused."""
    with opened(path, "r") as it:
        text = it.read()
    refuse_other(path, text[:ENOUGH].encode("utf-8", "surrogateescape"), SCRIPT)
    return text


def opened(path: str, mode: str) -> IO[str]:
    """A script that is opened."""
    try:
        return open(path, mode, encoding="utf-8", errors="surrogateescape", newline="")
    except ValueError as error:
        # (open raises this for a NUL, and for characters that it cannot encode)
        raise OSError(errno.EINVAL, "no file can have this name", repr(path)) from error


def rules_of(program: str, path: str) -> List[str]:
    """The lines of a setup in a file, up to `open` if that is there, comments among them; raises the first fault of them."""
    lines = [*takewhile(lambda line: not opens(line), lines_of(read(path)))]
    fault = check_setup(program, lines)
    if fault:
        raise FaultyRules(f"{path}:{fault.line}: {fault.words}; --rules takes a setup, such as `import --unopened` writes")
    return lines


def write(path: str, text: str) -> None:
    """Writes a script, whatever bytes it has. A fault names the file, even one after it was opened, such as a full disk."""
    try:
        with opened(path, "w") as it:
            it.write(text)
    except OSError as error:
        raise OSError(error.errno, error.strerror, error.filename or path) from error
