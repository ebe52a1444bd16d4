"""Captures for tests, built from numbers: messages of pfsync(4) as FreeBSD 13 lays them out, packets around them, pcap and pcapng."""
from __future__ import annotations

import struct
from ipaddress import ip_address
from typing import Iterable, List, Optional, Sequence, Tuple

# The kinds of records, by their numbers.
CLR, INS, INS_ACK, UPD, UPD_C, UPD_REQ, DEL, DEL_C = range(8)
BUS, TDB, EOF = 10, 11, 12
ETHERNET, PFSYNC = 1, 246
SECOND = 10**9
# Noon of a day in winter.
NOON = 1_767_960_000 * SECOND
A, B = "192.0.2.1", "192.0.2.2"
RULES, OTHER_RULES = bytes(range(16)), bytes(range(16, 32))

# An address with its port.
End = Tuple[str, int]
# A packet: when it was seen, and its bytes.
Timed = Tuple[int, bytes]


def peer(level: int = 0, lo: int = 0, hi: int = 0, window: int = 0, scale: Optional[int] = None, added: int = 0) -> bytes:
    """An end of a connection."""
    return struct.pack(">8xIIIHHBB6x", lo, hi, added, window, 0, level, 0 if scale is None else 0x80 | scale)


SILENT = peer()


def state(
    number: int,
    creator: int = 0xA,
    wire: Tuple[End, End] = (("192.0.2.9", 53), ("10.0.0.1", 1000)),
    stack: Optional[Tuple[End, End]] = None,
    protocol: int = 17,
    direction: int = 2,
    source: bytes = peer(1),
    destination: bytes = SILENT,
    left: int = 60,
    timeout: int = 6,
    rule: int = 0xFFFFFFFF,
    age: int = 0,
    flags: int = 0,
    interface: str = "all",
) -> bytes:
    """A state record of 242 bytes; keys are far and near."""
    out = struct.pack(">Q16s", number, interface.encode())
    for far, near in (wire, stack or wire):
        out += b"".join(ip_address(it).packed.ljust(16, b"\0") for it, _ in (far, near)) + struct.pack(">HH", far[1], near[1])
    out += source + destination + bytes(16) + struct.pack(">IIIII", rule, 0xFFFFFFFF, 0xFFFFFFFF, age, left) + bytes(32)
    family = 2 if ip_address(wire[0][0]).version == 4 else 28
    out += struct.pack(">IBBB2xBBBBB", creator, family, protocol, direction, 0, flags, timeout, 0, 0)
    assert len(out) == 242
    return out


def short(number: int, source: bytes, destination: bytes, creator: int = 0xA, left: int = 60, timeout: int = 8) -> bytes:
    """A short update of 84 bytes."""
    return struct.pack(">Q32s32sIIB3x", number, source, destination, creator, left, timeout)


def name(number: int, creator: int = 0xA) -> bytes:
    """What an acknowledgement, a request or a short deletion has."""
    return struct.pack(">QI", number, creator)


def clear(creator: int, interface: str = "") -> bytes:
    return struct.pack(">16sI", interface.encode(), creator)


def status(number: int, creator: int = 0xA, end: int = 0) -> bytes:
    return struct.pack(">IIB3x", creator, end, number)


def group(action: int, *records: bytes) -> bytes:
    return struct.pack(">BBH", action, 0, len(records)) + b"".join(records)


def message(*groups: bytes, checksum: bytes = RULES, version: int = 5) -> bytes:
    """A message with its last group, of kind EOF."""
    body = b"".join(groups) + struct.pack(">BBH", EOF, 0, 1)
    return struct.pack(">BBH", version, 0, 20 + len(body)) + checksum + body


def ip(sender: str, payload: bytes, receiver: str = "224.0.0.240", protocol: int = 240, offset: int = 0x4000) -> bytes:
    """An IP packet, of IPv4 or of IPv6."""
    ends = ip_address(sender).packed + ip_address(receiver).packed
    if len(ends) == 32:
        return struct.pack(">IHBB", 6 << 28, len(payload), protocol, 255) + ends + payload
    return struct.pack(">BBHHHBBH", 0x45, 0x10, 20 + len(payload), 0, offset, 255, protocol, 0) + ends + payload


def ethernet(packet: bytes, tags: bytes = b"") -> bytes:
    return bytes.fromhex("01005e0000f0 020000000001") + tags + (b"\x08\x00" if packet[0] >> 4 == 4 else b"\x86\xdd") + packet


def pcap(packets: Iterable[Timed], link: int = ETHERNET, order: str = "<", nanoseconds: bool = False, kept: int = 65535) -> bytes:
    """A pcap; of each packet only the first bytes are kept."""
    units = SECOND if nanoseconds else 10**6
    out = [struct.pack(f"{order}IHHiIII", 0xA1B23C4D if nanoseconds else 0xA1B2C3D4, 2, 4, 0, 0, kept, link)]
    for time, data in packets:
        seconds, part = divmod(time, SECOND)
        out.append(struct.pack(f"{order}IIII", seconds, part * units // SECOND, min(kept, len(data)), len(data)) + data[:kept])
    return b"".join(out)


def block(kind: int, body: bytes, order: str = "<") -> bytes:
    """A block of a pcapng."""
    body = body.ljust((len(body) + 3) // 4 * 4, b"\0")
    length = struct.pack(f"{order}I", len(body) + 12)
    return struct.pack(f"{order}I", kind) + length + body + length


def section(order: str = "<") -> bytes:
    return block(0x0A0D0D0A, struct.pack(f"{order}IHHq", 0x1A2B3C4D, 1, 0, -1), order)


def interface(link: int, order: str = "<", options: bytes = b"", kept: int = 0) -> bytes:
    return block(1, struct.pack(f"{order}HHI", link, 0, kept) + options, order)


def enhanced(units: int, data: bytes, which: int = 0, order: str = "<") -> bytes:
    """A packet with its time in the units of its interface."""
    return block(6, struct.pack(f"{order}IIIII", which, units >> 32, units & 0xFFFFFFFF, len(data), len(data)) + data, order)


def pcapng(packets: Iterable[Timed], link: int = ETHERNET) -> bytes:
    """A pcapng of one section and one interface, with times in microseconds."""
    return b"".join([section(), interface(link), *(enhanced(time // 1000, data) for time, data in packets)])


def sent(sender: str, *packets: Tuple[int, bytes]) -> List[Timed]:
    """Messages of a sender as Ethernet frames."""
    return [(time, ethernet(ip(sender, payload))) for time, payload in packets]


def merged(*parts: Sequence[Timed]) -> List[Timed]:
    """Packets in the order of their times."""
    return sorted((it for part in parts for it in part), key=lambda it: it[0])
