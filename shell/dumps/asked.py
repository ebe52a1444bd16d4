"""What a `compare` asks for besides the comparison: a script that opens a pair with the states of both dumps."""
from __future__ import annotations

import argparse
import ipaddress
import re
from typing import NamedTuple, Optional

OUT = "--out"
_PLACE = re.compile(r"\[(?P<v6>[^\]]*)\](?::(?P<port6>[0-9]{1,5}))?|(?P<v4>[^:]*):(?P<port4>[0-9]{1,5})|(?P<alone>.*)", re.ASCII)


class About(NamedTuple):
    """An address, and a port of it; none for all its ports."""

    address: str
    port: Optional[int]

    @classmethod
    def read(cls, word: str) -> "About":
        """An address, with a port if one is named, of IPv6 in brackets then."""
        found = _PLACE.fullmatch(word)
        try:
            if not found:
                raise ValueError
            number, written = found["port6"] or found["port4"], found["v6"] or found["v4"] or found["alone"] or ""
            address = ipaddress.ip_address(written)
            if number and int(number) > 65535 or found["v6"] is not None and address.version == 4:
                raise ValueError
        except ValueError as error:
            what = "ADDRESS[:PORT], such as 192.0.2.80, 192.0.2.80:443 or [2001:db8::80]:443"
            raise argparse.ArgumentTypeError(f"{word} is not {what}") from error
        return cls(in_words(address), int(number) if number else None)

    def has(self, end: str) -> bool:
        """Whether an end as the laboratory prints it is at this address, and at this port."""
        address, _, port = end.rpartition(":")
        return address == self.address and self.port in (None, int(port))

    def __str__(self) -> str:
        return self.address if self.port is None else f"{self.address}:{self.port}"


def in_words(address: object) -> str:
    """An address as the laboratory prints it at an end: of IPv6 in brackets, with all its digits."""
    return f"[{address.exploded}]" if isinstance(address, ipaddress.IPv6Address) else str(address)


def add_options(words: argparse.ArgumentParser) -> None:
    """The options of a script."""
    words.add_argument(
        OUT, metavar="PAIR.pfl", help="writes a script after which node a has the states of the first file, and node b those of the second"
    )
    words.add_argument("--rules", metavar="SETUP.pfl", help=f"with {OUT}: the rules of the pair, as `import --unopened` writes them")
    words.add_argument(
        "--flow",
        dest="of_flow",
        type=About.read,
        metavar="ADDRESS[:PORT]",
        help=f"with {OUT}: only the states that have this address, and this port, at an end",
    )
