"""What a file looks like by its contents, for whoever gives it to the wrong command: a capture, a dump, a pf.conf(5) or a script."""
from __future__ import annotations

import os
import re
import zlib
from codecs import BOM_UTF16_BE, BOM_UTF16_LE
from typing import Dict, NamedTuple, Optional, Tuple

from ..console.endings import NotDone
from ..language.commands import COMMANDS, SET, SETUP
from ..language.events import EVENTS
from ..language.searches import SEARCH
from ..language.setups import LIMITS, TIMEOUT


class Kind(NamedTuple):
    """A kind of files: what one is called, and what reads it."""

    called: str
    reader: str

    def __str__(self) -> str:
        return f"this looks like {self.called}; {self.reader}"


CAPTURE = Kind("a capture of packets", "the command `capture` reads those of the sync interface")
DUMP = Kind("the output of pfctl or netstat", "the command `compare` reads two of them")
PF_CONF = Kind("a pf.conf", "the command `import` makes a setup of it")
SCRIPT = Kind("a script of the laboratory", "commands such as `shell`, `verify` and `page` read it")
PACKED = Kind("a file packed by gzip", "`gunzip` unpacks it")

# How many bytes of a file say what it looks like.
ENOUGH = 1 << 13
GZIP = b"\x1f\x8b"
SECTION = b"\x0a\x0d\x0d\x0a"
# The byte order of a pcap, and the units of a second that its packets count.
PCAP: Dict[bytes, Tuple[str, int]] = {
    b"\xd4\xc3\xb2\xa1": ("<", 10**6),
    b"\xa1\xb2\xc3\xd4": (">", 10**6),
    b"\x4d\x3c\xb2\xa1": ("<", 10**9),
    b"\xa1\xb2\x3c\x4d": (">", 10**9),
}

# The lines of a state, `pfsync:`, and a counter.
_PLACE = r"[\w.:%?/\[\]-]+(?: +\([\w.:%?/\[\]-]+\))?"
_OF_DUMP = re.compile(
    rf"[\w.:@-]+ +[\w.+-]+ +{_PLACE} +(?:->|<-) +{_PLACE} +[A-Z_0-9]+:[A-Z_0-9]+$"
    r"|\[\d+ ?\+ ?\d+\]|age +\d+:\d\d:\d\d,|id: +[0-9a-f]{16}\b|pfsync:$|\d+ [a-z]",
    re.ASCII,
)
_TRANSLATIONS = ("nat", "rdr", "binat")
# The words that begin a statement of a pf.conf, each with what may follow it as a regular expression. `set` is not among them: it begins a
# line of a script, too.
STATEMENTS = {
    **dict.fromkeys(("pass", "block", "match", "scrub", "antispoof", "anchor", "altq", "queue"), ""),
    **{f"{word}{anchor}": "" for word in _TRANSLATIONS for anchor in ("", "-anchor")},
    "no": "|".join(_TRANSLATIONS),
    "load": "anchor",
    "table": "<",
    "include": '"',
}
# What is in files of several kinds: comments, a macro of a pf.conf, and a timeout.
_OF_SEVERAL = re.compile(rf"#|\w+[ \t]*=|{SET.word} +{TIMEOUT.word} +[^ {{]")
_OF_SCRIPT = {*SETUP, *COMMANDS, *EVENTS, SEARCH} - {SET.word}


class OtherFile(NotDone):
    """A file is of another kind than its command reads."""


def refuse_other(path: str, begin: bytes, wanted: Kind) -> None:
    """Refuses a file whose beginning looks like that of another kind."""
    other = other_kind(begin, wanted)
    if other:
        raise OtherFile(f"{path}: {other}")


def refuse_other_input(number: int) -> None:
    """Refuses a script on an open file of this number that looks like a file of another kind. Nothing of it is taken, so a pipe is not
    looked at."""
    try:
        begin = os.pread(number, ENOUGH, os.lseek(number, 0, os.SEEK_CUR))
    except OSError:
        return
    refuse_other("standard input", begin, SCRIPT)


def other_kind(begin: bytes, wanted: Kind) -> Optional[Kind]:
    """The kind that a file looks like, where it is not the one that is wanted."""
    found = kind_of(begin[:ENOUGH])
    return None if found == wanted else found


def kind_of(begin: bytes) -> Optional[Kind]:
    """What a file looks like that begins with these bytes; None where they do not say it clearly, as of a file with faults."""
    if looks_like_capture(begin):
        return CAPTURE
    if begin.startswith(GZIP):
        return CAPTURE if looks_like_capture(_unpacked(begin)) else PACKED
    is_wide = begin.startswith((BOM_UTF16_LE, BOM_UTF16_BE))
    text = begin.decode("utf-16" if is_wide else "utf-8-sig", "replace").replace("\\\n", " ")
    # (the last line may be cut)
    lines = [it.strip() for it in text.split("\n")[: -1 if len(begin) >= ENOUGH else None]]
    read = [line for line in lines if line and not _OF_SEVERAL.match(line)]
    known = [it for it in map(_kind_of_line, read) if it]
    return known[0] if len({*known}) == 1 and 2 * len(known) >= len(read) else None


def looks_like_capture(begin: bytes) -> bool:
    """Whether a file that begins with these bytes is meant as a pcap or a pcapng."""
    return begin[:4] == SECTION or begin[:4] in PCAP


def _unpacked(begin: bytes) -> bytes:
    try:
        return zlib.decompressobj(31).decompress(begin, len(SECTION))
    except zlib.error:
        return b""


def _kind_of_line(line: str) -> Optional[Kind]:
    """The kind of files that such a line is of; None if it may be of several, or is of none."""
    if _OF_DUMP.match(line):
        return DUMP
    word, *others = line.split()
    if word in _OF_SCRIPT:
        return SCRIPT
    if word == SET.word and others:
        return SCRIPT if others[0] in LIMITS else PF_CONF
    return PF_CONF if word in STATEMENTS and re.match(STATEMENTS[word], " ".join(others)) else None
