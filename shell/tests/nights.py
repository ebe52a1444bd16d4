"""What the machines of a run would have captured beside its frames: the packets at each node's interface, and what pf logged. The bytes are
written here anew, apart from what reads them."""
from __future__ import annotations

import ipaddress
import struct
from typing import Dict, Iterator, List, NamedTuple, Sequence, Tuple

from ..captures.runs import Clocks
from ..language.events import read_packet
from ..language.packets import PacketEvent
from ..link.laboratory import Laboratory
from ..model.branches import Branch

NUMBERS = {"tcp": 6, "udp": 17, "icmp": 1}
# The names of pf's reasons, by the outcomes of the laboratory.
REASONS = {"block": 0, "window": 10, "max": 12, "full": 12, "key": 11}


class Captured(NamedTuple):
    """A packet in a file: when in nanoseconds, and its bytes."""

    time: int
    data: bytes


def pcap(packets: Sequence[Captured], link: int) -> bytes:
    """A file of a little-endian machine, with microseconds as tcpdump writes them, or with nanoseconds where these count."""
    head = struct.pack("<IHHiIII", 0xA1B23C4D, 2, 4, 0, 0, 262144, link)
    return head + b"".join(
        struct.pack("<IIII", packet.time // 10**9, packet.time % 10**9, len(packet.data), len(packet.data)) + packet.data
        for packet in packets
    )


def on_ethernet(data: bytes) -> bytes:
    kind = b"\x08\x00" if data[0] >> 4 == 4 else b"\x86\xdd"
    return bytes(12) + kind + data


def ip(packet: PacketEvent, source: str = "", destination: str = "") -> bytes:
    """A packet as bytes, with other ends than its own if these are given."""
    (src, sport), (dst, dport) = (_end(it) for it in (source or packet.source, destination or packet.destination))
    number = NUMBERS.get(packet.protocol) or int(packet.protocol)
    body = _body(packet, number, sport, dport)
    if ":" in src:
        ends = ipaddress.ip_address(src).packed + ipaddress.ip_address(dst).packed
        return struct.pack(">IHBB", 6 << 28, len(body), number, 64) + ends + body
    ends = ipaddress.ip_address(src).packed + ipaddress.ip_address(dst).packed
    return struct.pack(">BBHHHBBH", 0x45, 0, 20 + len(body), 0, 0, 64, number, 0) + ends + body


def _body(packet: PacketEvent, number: int, sport: int, dport: int) -> bytes:
    if number == 6:
        bits = sum(1 << "FSRPAU".index(it) for it in packet.flags.replace("-", ""))
        options = b"" if packet.scale is None else bytes((1, 3, 3, packet.scale))
        offset = (20 + len(options)) // 4 << 4
        head = struct.pack(">HHIIBBHHH", sport, dport, packet.seq, packet.ack, offset, bits, packet.window, 0, 0)
        return head + options + bytes(packet.length)
    if number == 17:
        return struct.pack(">HHHH", sport, dport, 8 + packet.length, 0) + bytes(packet.length)
    if number == 1:
        return struct.pack(">BBHHH", 8, 0, 0, sport, 1) + bytes(packet.length)
    return bytes(packet.length)


def _end(end: str) -> Tuple[str, int]:
    address, _, port = end.rpartition(":")
    return address.strip("[]"), int(port)


class Happened(NamedTuple):
    """A packet of a run: the place of its event, the packet, and the words of its outcome."""

    place: int
    packet: PacketEvent
    outcome: List[str]


def packets_of(lab: Laboratory, branch: Branch) -> Iterator[Happened]:
    """The packets of the events that stand."""
    events = branch.events[: branch.cursor]
    for place, (event, outcome) in enumerate(zip(events, lab.outcomes(events)), 1):
        if event.startswith("packet "):
            yield Happened(place, read_packet(event), outcome.split())


def data_captures(lab: Laboratory, branch: Branch) -> Dict[str, bytes]:
    """What tcpdump would have captured at each node's interface: all that came in, and what left, with the addresses of the wire. A packet
    that was held left when it was let go."""
    clocks, found = Clocks(branch.events[: branch.cursor]), {"a": [], "b": []}  # type: ignore[var-annotated]
    for come in packets_of(lab, branch):
        node, place, source = come.packet.node, come.place, ""
        if come.packet.direction == "out":
            if come.outcome[0] == "held":
                place = _released(lab, branch, come)
            elif come.outcome[0] != "pass":
                continue
            if not place:
                continue
            states = {str(name): one for name, one in lab.past(branch.name, come.place).nodes[node].states.items()}
            source = states[come.outcome[1]].wire.near if come.outcome[1] in states else ""
        found[node].append(Captured(clocks.time(node, place), on_ethernet(ip(come.packet, source))))
    return {node: pcap(sorted(its), 1) for node, its in found.items()}


def _released(lab: Laboratory, branch: Branch, come: Happened) -> int:
    """The place of the event that let a held packet go; 0 if none did."""
    node, before = come.packet.node, lab.past(branch.name, come.place)
    for place in range(come.place + 1, branch.cursor + 1):
        now = lab.past(branch.name, place)
        names = [str(one.name) for one in now.nodes[node].held]
        if come.outcome[1] not in names:
            is_let_go = now.nodes[node].counters["freed"] > before.nodes[node].counters["freed"]
            return place if is_let_go else 0
        before = now
    return 0


def log_captures(lab: Laboratory, branch: Branch) -> Dict[str, bytes]:
    """What each node's pflog0 would have had, if its rules logged what they block."""
    clocks, found = Clocks(branch.events[: branch.cursor]), {"a": [], "b": []}  # type: ignore[var-annotated]
    for come in packets_of(lab, branch):
        if come.outcome[0] == "drop":
            node = come.packet.node
            data = logged(come.packet, REASONS[come.outcome[1]])
            found[node].append(Captured(clocks.time(node, come.place), data))
    return {node: pcap(its, 117) for node, its in found.items()}


def logged(packet: PacketEvent, reason: int, rule: int = 0, action: int = 1) -> bytes:
    """A packet as pflog0 shows it: a header of 61 bytes, three more, and the packet."""
    family = 28 if packet.source.startswith("[") else 2
    direction = 1 if packet.direction == "in" else 2
    numbers = (rule, 0xFFFFFFFF, 0, 0, 0, 0)
    return struct.pack(">BBBB16s16s6IB3x", 61, family, action, reason, b"em0", b"", *numbers, direction) + ip(packet)
