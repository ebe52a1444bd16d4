"""Text between a person and the program: IPv6 addresses in the program's form, and text that is safe at a terminal."""
from __future__ import annotations

import ipaddress
import re

# An IPv6 address in brackets, or before the length of a network.
_ADDRESS = re.compile(r"(?<=\[)[0-9A-Fa-f:.]*:[0-9A-Fa-f:.]*(?=\])|(?<!\S)[0-9A-Fa-f:.]*:[0-9A-Fa-f:.]*(?=/[0-9]+(?!\S))")
# What a terminal takes as more than a character, but for the tab; and bytes that are no text, which it may take so.
_CONTROL = re.compile("[\x00-\x08\x0a-\x1f\x7f-\x9f\ud800-\udfff]")
MARK = "\ufeff"


def written_out(line: str) -> str:
    """A line with its IPv6 addresses as the program reads them: eight groups of four digits, in small letters."""
    return _ADDRESS.sub(lambda it: _exploded(it[0]), line)


def _exploded(address: str) -> str:
    try:
        return ipaddress.IPv6Address(address).exploded
    except ValueError:
        return address


def shown_safely(text: str) -> str:
    """A text with U+FFFD for each control character."""
    return _CONTROL.sub("\ufffd", text)


def legible(text: str) -> str:
    """A text with single spaces, and with U+FFFD for anything that cannot be shown: a line may have any bytes."""
    return "".join(it if it.isprintable() else "\ufffd" for it in " ".join(text.split()))


def without_mark(text: str) -> str:
    """The text of a file without the mark of UTF-8 at its beginning."""
    return text[len(MARK) :] if text.startswith(MARK) else text
