"""What stands around a message of pfsync(4) in a captured packet: the link, VLAN tags, IP."""
from __future__ import annotations

import struct
from ipaddress import IPv6Address
from typing import Dict, Iterable, Iterator, NamedTuple, Optional, Tuple

from .files import Packet
from .layout import PROTOCOL

# LINKTYPE_PFSYNC; and DLT_PFSYNC of FreeBSD and of OpenBSD, which old systems wrote into files.
PFSYNC_LINKS = (246, 121, 18)
NULL, ETHERNET, RAW, LOOP, COOKED, COOKED_2 = 0, 1, 101, 108, 113, 276
# The IP packet alone: LINKTYPE_RAW, DLT_RAW of several systems, LINKTYPE_IPV4 and LINKTYPE_IPV6.
_ALONE = frozenset((RAW, 12, 14, 228, 229))
# Where the links that name the protocol of the packet have that, and where the packet begins.
_NAMED: Dict[int, Tuple[int, int]] = {ETHERNET: (12, 14), COOKED: (14, 16), COOKED_2: (0, 20)}
_IP_TYPES = (b"\x08\x00", b"\x86\xdd")
_TAGS = (b"\x81\x00", b"\x88\xa8", b"\x91\x00")
# Headers of IPv6 that may stand before the message, and that of a fragment.
_EXTENSIONS = (0, 43, 60)
_FRAGMENT = 44
# The type of IPv4 with the first byte of a header without options, and the protocol.
_PLAIN, _PROTOCOL = b"\x08\x00\x45", bytes((PROTOCOL,))
# The length of an IPv4 packet and its place among fragments.
_LENGTH_AND_FRAGMENT, _LATER = struct.Struct(">H2xH"), 0x1FFF
# How many pairs of addresses are kept as text.
_MOST_ADDRESSES = 1024


class Message(NamedTuple):
    """A message: when it was seen, the IP addresses (empty where the link is pfsync itself), its bytes as sent, and those captured."""

    time: int
    sender: str
    receiver: str
    length: int
    payload: bytes


def messages(packets: Iterable[Packet]) -> Iterator[Message]:
    """The messages of pfsync among packets; later fragments are no messages."""
    addresses: Dict[bytes, Tuple[str, str]] = {}
    read, new = _LENGTH_AND_FRAGMENT.unpack_from, tuple.__new__
    for packet in packets:
        time, link, length, data = packet
        # (nearly all are plain Ethernet and IPv4, and this is three times as fast for them)
        if link == ETHERNET and data[12:15] == _PLAIN and data[23:24] == _PROTOCOL and len(data) >= 34:
            total, fragment = read(data, 16)
            if not fragment & _LATER and total >= 20:
                ends = data[26:34]
                its = addresses.get(ends)
                if its is None:
                    if len(addresses) >= _MOST_ADDRESSES:
                        addresses.clear()
                    its = addresses[ends] = _v4_address(ends[:4]), _v4_address(ends[4:])
                yield new(Message, (time, *its, total - 20, data[34 : 14 + total]))
        elif link in PFSYNC_LINKS:
            yield Message(time, "", "", length, data)
        else:
            whole = datagram(packet)
            if whole:
                found = _v4(time, whole) if whole[0] >> 4 == 4 else _v6(time, whole)
                if found:
                    yield found


def datagram(packet: Packet) -> Optional[bytes]:
    """The IP packet in a packet of any link type; None if it has none."""
    data = packet.data
    named = _NAMED.get(packet.link)
    if named:
        kind, begin = data[named[0] : named[0] + 2], named[1]
        while kind in _TAGS:
            kind, begin = data[begin + 2 : begin + 4], begin + 4
        its = data[begin:] if kind in _IP_TYPES else b""
    elif packet.link in (NULL, LOOP):
        its = data[4:]
    else:
        its = data if packet.link in _ALONE else b""
    return its if its and its[0] >> 4 in (4, 6) else None


def _v4_address(its: bytes) -> str:
    return "%d.%d.%d.%d" % (*its,)


def _v4(time: int, its: bytes) -> Optional[Message]:
    if len(its) < 20 or its[9] != PROTOCOL:
        return None
    size, (total, fragment) = (its[0] & 15) * 4, _LENGTH_AND_FRAGMENT.unpack_from(its, 2)
    if size < 20 or total < size or fragment & _LATER:
        return None
    return Message(time, _v4_address(its[12:16]), _v4_address(its[16:20]), total - size, its[size:total])


def _v6(time: int, its: bytes) -> Optional[Message]:
    if len(its) < 40:
        return None
    kind, begin, end = its[6], 40, 40 + int.from_bytes(its[4:6], "big")
    while kind != PROTOCOL:
        is_fragment = kind == _FRAGMENT
        if not is_fragment and kind not in _EXTENSIONS or begin + 8 > min(end, len(its)):
            return None
        if is_fragment and int.from_bytes(its[begin + 2 : begin + 4], "big") & 0xFFF8:
            return None
        kind, begin = its[begin], begin + (8 if is_fragment else its[begin + 1] * 8 + 8)
    if begin > end:
        return None
    return Message(time, str(IPv6Address(its[8:24])), str(IPv6Address(its[24:40])), end - begin, its[begin:end])
