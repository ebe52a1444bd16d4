"""A state of a dump as it is to be in the laboratory, or why it cannot be there."""
from __future__ import annotations

import ipaddress
from dataclasses import replace
from typing import NamedTuple, Optional, Tuple, Union

from ..importing.services import ICMP, TCP, UDP, protocol_number
from ..inferring.ways import Wanted, keyed
from ..language.names import OTHER_LEVELS, TCP_LEVELS
from ..language.packets import Key
from ..model.states import End
from .asked import in_words
from .forms import windows
from .states import Dumped, as_state, ends

_NAMES = {TCP: "tcp", UDP: "udp", ICMP: "icmp"}
# The numbers of ends whose dump has none (`pfctl -ss`), and how far each may send.
_NUMBERS, _SPAN = (1000001, 2000001), 65535

NAMED_HOST = "an end is a name, or not an address and a port"
FAMILIES = "one end is of IPv4, and the other of IPv6"
CUT = "the name is missing, as where a file breaks off"
PROXIED = "pf itself shakes hands with an end (synproxy)"
UNKNOWN_LEVELS = "levels or a protocol that are not known here"


class Known(NamedTuple):
    """What a dump says of a state, in the laboratory's form, and whether it has numbers of TCP."""

    dumped: Dumped
    wanted: Wanted
    has_numbers: bool

    @property
    def is_tcp(self) -> bool:
        return self.wanted.protocol == "tcp"

    def with_numbers_of(self, other: "Known") -> "Known":
        """With the numbers of the other node's state, if its own dump has none."""
        if self.has_numbers or not (self.is_tcp and other.has_numbers):
            return self
        source, destination = (
            replace(two, level=one.level)
            for one, two in ((self.wanted.source, other.wanted.source), (self.wanted.destination, other.wanted.destination))
        )
        return self._replace(wanted=self.wanted._replace(source=source, destination=destination))


def known(dumped: Dumped, has_names: bool) -> Union[Known, str]:
    """A state of a dump, which has names or not; or why it is left out."""
    if has_names and dumped.name is None:
        return CUT
    its = ends(dumped.flow)
    number = protocol_number(its.protocol)
    levels = _levels(dumped.levels, number)
    if number is None or isinstance(levels, str):
        return levels if isinstance(levels, str) else UNKNOWN_LEVELS
    protocol = _NAMES.get(number, str(number))
    try:
        wire, stack = _key(protocol, its.wire), _key(protocol, its.stack)
    except ValueError:
        return NAMED_HOST
    if len({end.startswith("[") for key in (wire, stack) for end in (key.far, key.near)}) > 1:
        return FAMILIES
    near, far = levels
    source, destination = (near, far) if its.direction == "out" else (far, near)
    has_numbers = number == TCP and bool(dumped.windows)
    return Known(dumped, Wanted(protocol, its.direction, wire, stack, *_ends(dumped, number, source, destination)), has_numbers)


def _levels(text: str, number: Optional[int]) -> Union[Tuple[int, int], str]:
    """The levels of the near and the far end, as their names or numbers stand in a dump."""
    if text.startswith("PROXY"):
        return PROXIED
    names = TCP_LEVELS if number == TCP else OTHER_LEVELS
    words = text.split(":")
    if len(words) != 2 or not all(word in names or word.isdecimal() and int(word) < len(names) for word in words):
        return UNKNOWN_LEVELS
    near, far = (names.index(word) if word in names else int(word) for word in words)
    return near, far


def _key(protocol: str, key: Key) -> Key:
    """A key as packets have it; raises ValueError if an end has no address."""
    places = [_place(it) for it in (key.far, key.near)]
    far, near = (f"{address}:{port}" for address, port in places)
    if protocol == "icmp" and places[1][1]:
        # (an identifier is one of the near end's where a translation gives the other end another one)
        far = f"{places[0][0]}:{places[1][1]}"
    return keyed(protocol, Key(far, near))


def _place(host: str) -> Tuple[str, int]:
    """The address and the port of an end, as pfctl prints it."""
    if host.endswith("]"):
        address, _, port = host[:-1].partition("[")
    else:
        address, _, port = host.partition(":") if host.count(":") == 1 else (host, "", "0")
    if int(port) > 65535:
        raise ValueError(port)
    return in_words(ipaddress.ip_address(address.partition("%")[0])), int(port)


def _ends(dumped: Dumped, protocol: int, source: int, destination: int) -> Tuple[End, End]:
    if protocol == TCP and dumped.windows:
        its = as_state(dumped, True)
        return replace(its.source, level=source), replace(its.destination, level=destination)
    if protocol != TCP:
        return End(source, None, 0, 0, 0), End(destination, None, 0, 0, 0)
    first, second = (End(level, None, 0, lo, lo + _SPAN) for level, lo in zip((source, destination), _NUMBERS))
    return first, second if destination else End(0, None, 0, 0, 0)


def added(dumped: Dumped) -> bool:
    """Whether pf adds something to the numbers of an end (`modulate state`)."""
    return bool(dumped.windows) and any(window.added for window in windows(dumped.windows))
