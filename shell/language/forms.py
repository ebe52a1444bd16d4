"""The forms of single words in lines: what a word may be, what is wrong with any other, and how the program prints it."""
from __future__ import annotations

import re
from dataclasses import dataclass, replace
from difflib import get_close_matches
from typing import Callable, Dict, Iterable, Optional, Tuple

from .names import NODES

GREATEST = 4294967295
GREATEST_LONG = 18446744073709551615
FLAG_LETTERS = "FSRPAU"
PROTOCOLS: Dict[int, str] = {1: "icmp", 6: "tcp", 17: "udp"}


@dataclass(frozen=True)
class Form:
    """A form: its name, what has it, what is wrong with a word that does not, which says all that there is to say, and how a word that
    does is printed. If the words of a form can be listed, they are."""

    name: str
    what: str
    wrong: Callable[[str], Optional[str]]
    plain: Callable[[str], str] = str
    words: Tuple[str, ...] = ()
    is_optional: bool = False

    def __str__(self) -> str:
        return f"[{self.name}]" if self.is_optional else self.name

    @property
    def missing(self) -> str:
        """The message if there is no word."""
        return f"expected {self.what}, found nothing" if self.words else f"{self.name} is missing: {self.what}"

    def fault(self, word: str, meant: str = "") -> Optional[str]:
        """The message about a word without the form, and what to write instead if that is known."""
        wrong = self.wrong(word)
        if wrong is None:
            return None
        if self.words:
            return f"expected {self.what}, found `{word}`" + (f": {meant}" if meant else nearest(word, self.words))
        return f"`{word}` is no {self.name}: {meant}" if meant else f"`{word}` {wrong}"

    def named(self, name: str) -> "Form":
        """The same form under another name."""
        return replace(self, name=name)


def nearest(word: str, words: Iterable[str]) -> str:
    """The word that was probably meant, as a question that ends a sentence."""
    near = get_close_matches(word.lower(), list(words), n=1, cutoff=0.6)
    return f" (did you mean `{near[0]}`?)" if near else ""


def one_of(words: Iterable[str]) -> str:
    """Words, one of which is expected: `a`, `a or b`, `a, b or c`."""
    *others, last = words
    return f"{', '.join(others)} or {last}" if others else last


def quoted(words: Iterable[str]) -> str:
    """Words, one of which is expected, as they are typed: `a` or `b`, each with its marks."""
    return one_of(f"`{word}`" for word in words)


def plain_number(word: str) -> str:
    return str(int(word))


def number(name: str, most: int) -> Form:
    """A decimal number up to the greatest."""

    def wrong(word: str) -> Optional[str]:
        if not re.fullmatch("[0-9]+", word):
            return "is not a number of decimal digits"
        return f"is above {most}" if int(word) > most else None

    return Form(name, f"a number from 0 to {most}", wrong, plain_number)


def choice(name: str, words: Tuple[str, ...]) -> Form:
    """One of some words."""

    def wrong(word: str) -> Optional[str]:
        return None if word in words else f"is no {name}"

    return Form(name, quoted(words), wrong, words=words)


def _v4_wrong(word: str) -> Optional[str]:
    parts = word.split(".")
    if len(parts) != 4 or not all(re.fullmatch("[0-9]+", part) for part in parts):
        return "has no address of four numbers joined by dots"
    above = [part for part in parts if int(part) > 255]
    return f"has {above[0]} in its address, above 255" if above else None


def _v6_wrong(word: str) -> Optional[str]:
    if re.fullmatch("[0-9a-f]{4}(:[0-9a-f]{4}){7}", word):
        return None
    return "has no IPv6 address of eight groups, each exactly four digits 0 to 9 or a to f (no `::`, no capital letters)"


def _port_wrong(word: str) -> Optional[str]:
    if not re.fullmatch("[0-9]+", word):
        return "has no port number after its last colon"
    return f"has port {word}, above 65535" if int(word) > 65535 else None


def _end_wrong(word: str) -> Optional[str]:
    if word.startswith("["):
        return _bracketed_wrong(word, "PORT", _port_wrong)
    address, colon, port = word.partition(":")
    if not colon:
        return f"does not have the form {END.what}" if _v4_wrong(address) else "has no port: ADDRESS:PORT (0 for a protocol without ports)"
    if word.count(":") > 1:
        return "looks like IPv6, which is written in brackets: [ADDRESS]:PORT"
    return _v4_wrong(address) or _port_wrong(port)


def _bracketed_wrong(word: str, name: str, after_wrong: Callable[[str], Optional[str]]) -> Optional[str]:
    """What is wrong with an IPv6 address in brackets, or with what follows its colon, which has this name."""
    address, bracket, after = word[1:].partition("]:")
    if not bracket:
        return f"has no `]:{name}` after its address"
    return _v6_wrong(address) or after_wrong(after)


def _ports_wrong(word: str) -> Optional[str]:
    first, colon, last = word.partition(":")
    if not all(re.fullmatch("[0-9]+", it) for it in (first, *[last] * bool(colon))):
        return "does not have the form N or LO:HI, in decimal digits"
    above = [it for it in (first, last or first) if int(it) > 65535]
    if above:
        return f"has port {above[0]}, above 65535"
    return f"has {first} before {last}: the lower port comes first" if colon and int(first) > int(last) else None


def _pool_wrong(word: str) -> Optional[str]:
    if word.startswith("["):
        return _bracketed_wrong(word, "PORTS", _ports_wrong)
    address, colon, ports = word.partition(":")
    if not colon:
        return f"does not have the form {POOL.what}" if _v4_wrong(address) else "has no port: ADDRESS:PORTS"
    if word.count(":") > 2 or word.startswith("::"):
        is_v6 = "." not in address
        return "looks like IPv6, which is written in brackets: [ADDRESS]:PORTS" if is_v6 else "has more than two ports: ADDRESS:LO:HI"
    return _v4_wrong(address) or _ports_wrong(ports)


def _net_wrong(word: str) -> Optional[str]:
    address, slash, length = word.partition("/")
    if not slash:
        return "has no length after a slash: a single IPv4 address is ADDRESS/32"
    is_v6 = ":" in address
    wrong = _v6_wrong(address) if is_v6 else _v4_wrong(address)
    most = 128 if is_v6 else 32
    if wrong is None and not re.fullmatch("[0-9]+", length):
        return "has no number after its slash"
    if wrong is None and int(length) > most:
        return f"has the length {length}, above {most}"
    return wrong


def _flags_wrong(word: str) -> Optional[str]:
    if word == "-":
        return None
    unknown = [it for it in word if it not in FLAG_LETTERS]
    if unknown:
        return f"has `{unknown[0]}`, which is not a flag: flags are letters of {FLAG_LETTERS} in this order, or `-` for none"
    ordered = "".join(letter for letter in FLAG_LETTERS if letter in word)
    return None if word == ordered else f"has flags in another order or twice: write `{ordered}`"


def _name_wrong(word: str) -> Optional[str]:
    creator, dot, number_there = word.partition(".")
    if not dot or not re.fullmatch("[0-9]+", creator) or not re.fullmatch("[0-9]+", number_there):
        return "is not the name of a state, CREATOR.ID: two numbers with one dot between them"
    if int(creator) > GREATEST:
        return f"has the creator {creator}, above {GREATEST}"
    return f"has the id {number_there}, above {GREATEST_LONG}" if int(number_there) > GREATEST_LONG else None


def _protocol_wrong(word: str) -> Optional[str]:
    if word in PROTOCOLS.values() or re.fullmatch("[0-9]+", word) and int(word) <= 255:
        return None
    return "is not a protocol"


def _branch_wrong(word: str) -> Optional[str]:
    # A line with a name of up to 32 characters is read, and the name answered with NoBranch or BadName.
    return f"has {len(word)} characters, and a name has at most 16" if len(word) > 32 else None


def _protocol_plain(word: str) -> str:
    return PROTOCOLS.get(int(word), plain_number(word)) if word.isdigit() else word


def _dotted_plain(word: str) -> str:
    """An IPv4 address or the name of a state; an IPv6 address is read only in the form in which it is printed."""
    return word if ":" in word else ".".join(map(plain_number, word.split(".")))


def _plain_around(mark: str) -> Callable[[str], str]:
    """How an address is printed, a mark, and the number after it."""

    def plain(word: str) -> str:
        address, _, number_there = word.rpartition(mark)
        return f"{_dotted_plain(address)}{mark}{plain_number(number_there)}"

    return plain


def _ports_plain(word: str) -> str:
    """The first and the last port, or one if they are the same."""
    first, _, last = word.partition(":")
    return ":".join(dict.fromkeys(map(plain_number, (first, last or first))))


def _pool_plain(word: str) -> str:
    address, bracket, ports = word.rpartition("]:")
    if not bracket:
        address, _, ports = word.partition(":")
    return f"{_dotted_plain(address)}{bracket or ':'}{_ports_plain(ports)}"


_END = "ADDRESS:PORT or for IPv6 [ADDRESS]:PORT"
BRANCH = Form("BRANCH", "a letter from a to z and at most 15 more of a to z, 0 to 9 and `-`", _branch_wrong)
NODE = choice("NODE", NODES)
DIRECTION = choice("in|out", ("in", "out"))
RULE_DIRECTION = choice("in|out|any", ("in", "out", "any"))
ACTION = choice("pass|block", ("pass", "block"))
ANY = choice("any", ("any",))
PROTOCOL = Form(
    "PROTO", "`tcp`, `udp`, `icmp` or a number from 0 to 255", _protocol_wrong, _protocol_plain, ("tcp", "udp", "icmp")
)
END = Form("END", _END, _end_wrong, _plain_around(":"))
SOURCE = replace(END, name="SRC", what=f"the source, {_END}")
DESTINATION = replace(END, name="DST", what=f"the destination, {_END}")
NET = Form("NET", "ADDRESS/LENGTH", _net_wrong, _plain_around("/"))
PORTS = Form("PORTS", "a port, or LO:HI for those from LO to HI, numbers from 0 to 65535", _ports_wrong, _ports_plain)
POOL = Form("POOL", "ADDRESS:PORTS or for IPv6 [ADDRESS]:PORTS, where PORTS is a port or LO:HI", _pool_wrong, _pool_plain)
FLAGS = Form("FLAGS", f"`-` for no flag, or letters of {FLAG_LETTERS} in that order", _flags_wrong)
NAME = Form("NAME", "a state's name, CREATOR.ID", _name_wrong, _dotted_plain)
N, K, TICKET = (number(it, GREATEST) for it in ("N", "K", "TICKET"))
MS = number("MS", GREATEST_LONG)


def is_tcp(word: str) -> bool:
    """Whether the word for a protocol is TCP's."""
    return _protocol_plain(word) == "tcp"
