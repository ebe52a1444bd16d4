"""Captures in the form of pcap with nanoseconds, and the packets in them: pfsync messages on Ethernet, as at the interface that two nodes
share (`syncdev`)."""
from __future__ import annotations

import struct
from ipaddress import IPv4Address
from typing import Iterable, NamedTuple

from .layout import PROTOCOL

# The types of links, as files have them (LINKTYPE_*).
LINK_ETHERNET, LINK_PFSYNC = 1, 246
# Where a node without a `syncpeer` sends its messages, and the address of that group on Ethernet.
GROUP = IPv4Address("224.0.0.240")
_GROUP_ON_ETHERNET = bytes.fromhex("01005e0000f0")
# An address that no maker of cards has given out; the last 4 bytes are those of the sender's address.
_OWN_ON_ETHERNET = bytes.fromhex("0200")
_IPV4_ON_ETHERNET = bytes.fromhex("0800")
# A pcap whose times are in nanoseconds, of version 2.4, and how many bytes of a packet it would keep.
_NANOSECONDS, _VERSION, _LONGEST = 0xA1B23C4D, (2, 4), 262144
_SECOND = 10**9
# The header of IP without options: low delay, not to be fragmented, and as far from its sender as no packet of another network can be.
_VERSION_AND_WORDS, _LOW_DELAY, _WHOLE, _NO_HOP = 0x45, 0x10, 0x4000, 255
_IP_HEADER = struct.Struct(">BBHHHBBH4s4s")


class Written(NamedTuple):
    """A packet for a file: when it passed, in nanoseconds since 1970, and its bytes."""

    time: int
    data: bytes


def pcap(packets: Iterable[Written], link: int) -> bytes:
    """The bytes of a file with these packets, all of one type of link."""
    head = struct.pack("<IHHIIII", _NANOSECONDS, *_VERSION, 0, 0, _LONGEST, link)
    return head + b"".join(struct.pack("<IIII", *divmod(it.time, _SECOND), len(it.data), len(it.data)) + it.data for it in packets)


def on_ethernet(message: bytes, sender: IPv4Address) -> bytes:
    """A message as its sender puts it on Ethernet: in a packet of IPv4 for all nodes of the pair."""
    return _GROUP_ON_ETHERNET + _OWN_ON_ETHERNET + sender.packed + _IPV4_ON_ETHERNET + _in_ip(message, sender)


def _in_ip(message: bytes, sender: IPv4Address) -> bytes:
    size = _IP_HEADER.size + len(message)
    fields = (_VERSION_AND_WORDS, _LOW_DELAY, size, 0, _WHOLE, _NO_HOP, PROTOCOL)
    without = _IP_HEADER.pack(*fields, 0, sender.packed, GROUP.packed)
    return _IP_HEADER.pack(*fields, _checksum(without), sender.packed, GROUP.packed) + message


def _checksum(header: bytes) -> int:
    """The checksum of the Internet (RFC 1071) of an even number of bytes."""
    total = sum(int.from_bytes(header[at : at + 2], "big") for at in range(0, len(header), 2))
    while total >> 16:
        total = (total & 0xFFFF) + (total >> 16)
    return ~total & 0xFFFF
