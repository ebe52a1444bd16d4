"""What pf logged: captures of pflog0 as FreeBSD 12 and 13 write them (`sys/net/if_pflog.h`, from memory). Each packet has a header that
says what became of it."""
from __future__ import annotations

import struct
from typing import Iterable, Iterator, NamedTuple, Optional, Union

from .carried import IpPacket, Unread, ip_packet
from .files import BadCapture, Packet
from .layout import Field, Layout

# The type of these captures (LINKTYPE_PFLOG).
LINK = 117
HEADER = Layout(
    "pfloghdr",
    (
        Field("length", 1, 97, "bytes of the header, the last pad not counted: 61; FreeBSD 14 has 69"),
        Field("af", 1, 97, "2 for IPv4, 28 for IPv6"),
        Field("action", 1, 97, "0 pass, 1 drop"),
        Field("reason", 1, 95, "why: a number of PFRES_NAMES"),
        Field("ifname", 16, 97, "the interface"),
        Field("ruleset", 16, 95, "the anchor of the rule; empty if it is in none"),
        Field("rulenr", 4, 97, "the number of the rule in the main rules"),
        Field("subrulenr", 4, 95, "its number in the anchor, or all ones"),
        Field("uid", 4, 90),
        Field("pid", 4, 90),
        Field("rule_uid", 4, 90),
        Field("rule_pid", 4, 90),
        Field("dir", 1, 97, "1 in, 2 out"),
    ),
)
# The reasons in the order of their numbers (PFRES_NAMES of pfvar.h); the last one is of FreeBSD 13 (80 % sure, the others 95 %).
REASONS = (
    *("match", "bad-offset", "fragment", "short", "normalize", "memory", "bad-timestamp", "congestion", "ip-option", "proto-cksum"),
    *("state-mismatch", "state-insert", "state-limit", "src-limit", "synproxy", "map-failed"),
)
MATCH, MISMATCH = "match", "state-mismatch"
_DROPPED, _PASSED = 1, 0
_DIRECTIONS = {1: "in", 2: "out"}
_NONE = 2**32 - 1
_FORMS = {1: "B", 4: "I", 16: "16s"}
_HEADER = struct.Struct(">" + "".join(_FORMS[field.size] for field in HEADER.fields))
# What follows the header begins at a multiple of this many bytes.
_ALIGNED = 4


class Logged(NamedTuple):
    """A packet that pf blocked: when, in nanoseconds since 1970, by which rule, where, and why."""

    time: int
    packet: IpPacket
    direction: str
    interface: str
    rule: str
    reason: str


class Passed(NamedTuple):
    """A packet that pf logged and did not block."""

    time: int


def logged(packets: Iterable[Packet], path: str) -> Iterator[Union[Logged, Passed, Unread]]:
    """The packets of a log."""
    for packet in packets:
        if packet.link != LINK:
            other = "one of another interface goes with --data-a or --data-b"
            raise BadCapture(f"{path}: its link type is {packet.link}, and that of a capture of pflog0 is {LINK}; {other}")
        found = _read(packet)
        if found:
            yield found


def _read(captured: Packet) -> Union[Logged, Passed, Unread, None]:
    if len(captured.data) < HEADER.size:
        return Unread("a packet whose header was captured short: use tcpdump -s 0")
    size, _, action, reason, interface, anchor, number, inner, *_, direction = _HEADER.unpack_from(captured.data)
    if size < HEADER.size or direction not in _DIRECTIONS:
        return Unread("a packet whose header is not that of FreeBSD 12 or 13")
    if action != _DROPPED:
        return Passed(captured.time) if action == _PASSED else Unread("a packet that was neither passed nor blocked")
    begin = (size + _ALIGNED - 1) // _ALIGNED * _ALIGNED
    packet = ip_packet(captured.data[begin:], captured.length - begin)
    if isinstance(packet, Unread):
        return packet
    why = REASONS[reason] if reason < len(REASONS) else f"reason {reason}"
    return Logged(captured.time, packet, _DIRECTIONS[direction], _text(interface), _rule(number, inner, _text(anchor)), why)


def _rule(number: int, inner: int, anchor: str) -> str:
    """A rule as tcpdump prints it: `3`, or `3.anchor.0` of one in an anchor."""
    return f"{number}.{anchor}.{inner}" if anchor and inner != _NONE else str(number)


def _text(data: bytes) -> str:
    return data.split(b"\0")[0].decode("ascii", "backslashreplace")


def rule_number(rule: str) -> Optional[int]:
    """The number of a rule in the main rules."""
    number = int(rule.split(".")[0])
    return None if number == _NONE else number
