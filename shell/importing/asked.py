"""What an `import` is asked for: whose rules, by which addresses, and what of them is written."""
from __future__ import annotations

import argparse
import ipaddress
import re
from typing import List, Optional, Tuple

from .about import ENDS, Wanted
from .firewall import Own


class ImportOptions(argparse.Namespace):
    """The words of the command line."""

    conf: str
    on: str
    address: Optional[List[Tuple[str, Own]]]
    about: Optional[Wanted]
    group: Optional[List[Tuple[str, str]]]
    node: str
    rc: Optional[str]
    strict: bool
    output: Optional[str]
    unopened: bool


def add_options(words: argparse.ArgumentParser) -> None:
    words.add_argument("conf", metavar="PF.CONF", help="the file")
    words.add_argument("--on", required=True, type=interface, metavar="IF", help="the interface whose rules are imported")
    words.add_argument(
        "--address",
        action="append",
        type=own_address,
        metavar="[IF=]ADDRESS/LENGTH",
        help="an address of the interface, or of IF; may be given several times",
    )
    words.add_argument(
        "--about",
        type=wanted,
        metavar="[END=]ADDRESS[:PORT]",
        help="writes only the rules for packets with this address, and this port, at an end: near, far or either",
    )
    words.add_argument("--group", action="append", type=group, metavar="GROUP=IF", help="IF is in this group, such as egress=em0")
    words.add_argument("--node", default="both", choices=("a", "b", "both"), help="the node that gets the rules; the default is both")
    words.add_argument("--rc", metavar="FILE", help="takes `maxupd` and `defer` of pfsync0 from this rc.conf(5)")
    words.add_argument("--strict", action="store_true", help="writes nothing if a statement is left out, and exits with status 4")
    words.add_argument("-o", "--output", metavar="FILE", help="the setup's file; without it the setup goes to standard output")
    words.add_argument("--unopened", action="store_true", help="leaves out the last line, `open`, so that more of the setup can follow")


def interface(word: str) -> str:
    """The name of an interface or of a group."""
    if not word or not word.isprintable() or " " in word:
        raise argparse.ArgumentTypeError(f"{word!r} is not the name of an interface")
    return word


def own_address(word: str) -> Tuple[str, Own]:
    """An address with its length, after the interface that has it, if that is named."""
    name, _, address = word.rpartition("=")
    try:
        if "/" not in address:
            raise ValueError
        return name, ipaddress.ip_interface(address)
    except ValueError as error:
        raise argparse.ArgumentTypeError(f"{word} is not [IF=]ADDRESS/LENGTH, such as 192.0.2.1/24 or em1=10.0.0.1/8") from error


def wanted(word: str) -> Wanted:
    """An address, with a port if one is named, of IPv6 in brackets then; and the end that has it."""
    end, _, text = word.rpartition("=")
    found = re.fullmatch(r"\[(?P<v6>[^\]]*)\](?::(?P<port6>[0-9]{1,5}))?|(?P<v4>[^:]*):(?P<port4>[0-9]{1,5})|(?P<alone>.*)", text)
    try:
        if not found or end not in ("", *ENDS):
            raise ValueError
        number = found["port6"] or found["port4"]
        address = ipaddress.ip_address(found["v6"] or found["v4"] or found["alone"] or "")
        if number and int(number) > 65535 or found["v6"] and address.version == 4:
            raise ValueError
        return Wanted(address, int(number) if number else None, end)
    except ValueError as error:
        what = "[END=]ADDRESS[:PORT], such as 192.0.2.80, near=192.0.2.80:443 or [2001:db8::80]:443; END is near, far or either"
        raise argparse.ArgumentTypeError(f"{word} is not {what}") from error


def group(word: str) -> Tuple[str, str]:
    """A group, and an interface in it."""
    name, _, member = word.partition("=")
    if not name or not member:
        raise argparse.ArgumentTypeError(f"{word} is not GROUP=IF, such as egress=em0")
    return name, member
