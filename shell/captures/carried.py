"""The packets that an interface of a node carried, as tcpdump(1) captured them: what the laboratory's event `packet` has of each."""
from __future__ import annotations

import struct
from typing import Iterable, Iterator, NamedTuple, Optional, Tuple, Union

from ..language.forms import FLAG_LETTERS, PROTOCOLS
from .files import Packet
from .links import datagram

# The longest packet of the laboratory, as an event has it.
MOST_LENGTH = 65495
_ICMP, _TCP, _UDP = 1, 6, 17
# The types of ICMP that have an identifier of their own: an echo and its answer.
_ECHO = (8, 0)
# Headers of IPv6 that may stand before what a packet carries, that of a fragment, and one whose length counts words of 4 bytes.
_EXTENSIONS, _FRAGMENT, _AUTHENTICATION = (0, 43, 60, 51), 44, 51
_TCP_HEADER = struct.Struct(">HHIIBBH")
_SCALE_OPTION, _NO_OPERATION, _END_OF_OPTIONS = 3, 1, 0
_MOST_SCALE = 14


class IpPacket(NamedTuple):
    """A packet as the laboratory has it: its protocol and ends; its bytes without headers; and of TCP what its header says."""

    protocol: str
    source: str
    destination: str
    length: int
    flags: str = "-"
    seq: int = 0
    ack: int = 0
    window: int = 0
    scale: Optional[int] = None

    @property
    def ends(self) -> Tuple[str, str]:
        """Its source and its destination."""
        return self.source, self.destination

    @property
    def words(self) -> str:
        """What follows its ends in an event."""
        if self.protocol != "tcp":
            return str(self.length)
        scale = "" if self.scale is None else f" {self.scale}"
        return f"{self.flags} {self.seq} {self.ack} {self.window} {self.length}{scale}"


class Unread(NamedTuple):
    """Why there is no event for a packet, as a noun with its article."""

    why: str


class Carried(NamedTuple):
    """A packet of an interface: when it was there, in nanoseconds since 1970."""

    time: int
    packet: IpPacket


def carried(packets: Iterable[Packet]) -> Iterator[Union[Carried, Unread]]:
    """The packets of IP among those of a capture."""
    for packet in packets:
        its = datagram(packet)
        if its is None:
            continue
        found = ip_packet(its, packet.length - (len(packet.data) - len(its)))
        yield found if isinstance(found, Unread) else Carried(packet.time, found)


def ip_packet(its: bytes, length: int) -> Union[IpPacket, Unread]:
    """A packet of IP, of which these bytes were captured of this many."""
    return _v4(its, length) if its[:1] and its[0] >> 4 == 4 else _v6(its, length)


def _v4(its: bytes, length: int) -> Union[IpPacket, Unread]:
    size = (its[0] & 15) * 4
    if len(its) < 20 or size < 20:
        return _SHORT
    if int.from_bytes(its[6:8], "big") & 0x1FFF:
        return _LATER
    source, destination = ("%d.%d.%d.%d" % (*its[at : at + 4],) for at in (12, 16))
    # (a card that cuts large packets itself leaves the length to be filled in)
    total = int.from_bytes(its[2:4], "big") or length
    return _inside(its[9], source, destination, its[size:], total - size)


def _v6(its: bytes, length: int) -> Union[IpPacket, Unread]:
    if len(its) < 40 or its[0] >> 4 != 6:
        return _SHORT
    source, destination = (f"[{its[at:at + 16].hex(':', 2)}]" for at in (8, 24))
    kind, at, end = its[6], 40, (int.from_bytes(its[4:6], "big") + 40) if its[4:6] != b"\0\0" else length
    while kind == _FRAGMENT or kind in _EXTENSIONS:
        if at + 8 > len(its):
            return _SHORT
        if kind == _FRAGMENT and int.from_bytes(its[at + 2 : at + 4], "big") & 0xFFF8:
            return _LATER
        units = its[at + 1]
        size = 8 if kind == _FRAGMENT else (units + 2) * 4 if kind == _AUTHENTICATION else (units + 1) * 8
        kind, at = its[at], at + size
    return _inside(kind, source, destination, its[at:], end - at)


def _inside(number: int, source: str, destination: str, rest: bytes, length: int) -> Union[IpPacket, Unread]:
    """What a packet of a protocol carries: the rest was captured of this many bytes."""
    protocol = PROTOCOLS.get(number, str(number))
    if number == _TCP:
        return _segment(source, destination, rest, length)
    if number == _UDP:
        if len(rest) < 4:
            return _SHORT
        first, second = struct.unpack_from(">HH", rest)
        return IpPacket(protocol, f"{source}:{first}", f"{destination}:{second}", _bounded(length - 8))
    if number == _ICMP:
        if len(rest) < 6:
            return _SHORT
        if rest[0] not in _ECHO:
            return _NO_ECHO
        identifier = int.from_bytes(rest[4:6], "big")
        return IpPacket(protocol, f"{source}:{identifier}", f"{destination}:{identifier}", _bounded(length - 8))
    return IpPacket(protocol, f"{source}:0", f"{destination}:0", _bounded(length))


def _segment(source: str, destination: str, rest: bytes, length: int) -> Union[IpPacket, Unread]:
    if len(rest) < _TCP_HEADER.size:
        return _SHORT
    first, second, seq, ack, offset, bits, window = _TCP_HEADER.unpack_from(rest)
    size = (offset >> 4) * 4
    flags = "".join(letter for bit, letter in enumerate(FLAG_LETTERS) if bits >> bit & 1) or "-"
    scale = _scale(rest[20:size]) if "S" in flags else None
    ends = f"{source}:{first}", f"{destination}:{second}"
    return IpPacket("tcp", *ends, _bounded(length - size), flags, seq, ack if "A" in flags else 0, window, scale)


def _scale(options: bytes) -> Optional[int]:
    """The scale of windows that the options of a SYN offer; the greatest counts as 14 (RFC 7323)."""
    at = 0
    while at < len(options) and options[at] != _END_OF_OPTIONS:
        if options[at] == _NO_OPERATION:
            at += 1
            continue
        size = options[at + 1] if at + 1 < len(options) else 0
        if size < 2:
            break
        if options[at] == _SCALE_OPTION and size == 3 and at + 2 < len(options):
            return min(options[at + 2], _MOST_SCALE)
        at += size
    return None


def _bounded(length: int) -> int:
    return max(0, min(length, MOST_LENGTH))


_SHORT = Unread("a packet that was captured too short: use tcpdump -s 0")
_LATER = Unread("a later fragment")
_NO_ECHO = Unread("a message of ICMP that is no echo")
