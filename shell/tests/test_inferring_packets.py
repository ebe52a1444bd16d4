"""Packets of an interface and of pflog0, as bytes worked out by hand, and what tcpdump(1) says of a log."""
from __future__ import annotations

import os
import struct
import subprocess
import tempfile
import unittest
from typing import List, Union

from ..captures.carried import Carried, IpPacket, Unread, carried, ip_packet
from ..captures.files import BadCapture, Packet
from ..captures.pflog import HEADER, Logged, Passed, logged
from ..language.packets import PacketEvent
from .children import needs
from .nights import Captured, logged as logged_bytes, on_ethernet, pcap

# A SYN of 198.51.100.7:40000 to 192.0.2.80:443 with the number 1000, a window of 64240, and options: MSS 1460, NOP, scale 7.
SYN = bytes.fromhex(
    "4500003000004000400600 00 c6336407 c0000250".replace(" ", "")
    + "9c40 01bb 000003e8 00000000 7002 faf0 0000 0000".replace(" ", "")
    + "020405b4 01 030307".replace(" ", "")
)
# 40 bytes of data after an acknowledgement of 77, PSH and ACK.
DATA = bytes.fromhex(
    "45000050000040004006 0000 c0000250 c6336407".replace(" ", "")
    + "01bb 9c40 000003e9 0000004d 5018 01f6 0000 0000".replace(" ", "")
    + "00" * 40
)


class IpPackets(unittest.TestCase):
    def read(self, data: bytes) -> Union[IpPacket, Unread]:
        return ip_packet(data, len(data))

    def test_segments(self) -> None:
        self.assertEqual(IpPacket("tcp", "198.51.100.7:40000", "192.0.2.80:443", 0, "S", 1000, 0, 64240, 7), self.read(SYN))
        self.assertEqual(IpPacket("tcp", "192.0.2.80:443", "198.51.100.7:40000", 40, "PA", 1001, 77, 502), self.read(DATA))

    def test_captured_without_data(self) -> None:
        """The length is that of the packet, and not of what was captured of it."""
        self.assertEqual(40, getattr(ip_packet(DATA[:40], len(DATA)), "length"))

    def test_length_left_to_the_card(self) -> None:
        """A packet that a card cuts itself has the length 0 in its header."""
        data = DATA[:2] + b"\0\0" + DATA[4:]
        self.assertEqual(40, getattr(self.read(data), "length"))

    def test_words(self) -> None:
        """What follows the ends in an event."""
        self.assertEqual("S 1000 0 64240 0 7", getattr(self.read(SYN), "words"))
        self.assertEqual("PA 1001 77 502 40", getattr(self.read(DATA), "words"))

    def test_greatest_scale(self) -> None:
        """A scale above 14 counts as 14 (RFC 7323)."""
        self.assertEqual(14, getattr(self.read(SYN[:-1] + b"\x0f"), "scale"))

    def test_datagrams(self) -> None:
        """UDP over IPv6 after a header of options, with 12 bytes of data."""
        head = struct.pack(">IHBB", 6 << 28, 8 + 8 + 12, 0, 64) + bytes.fromhex("20010db8" + "0" * 22 + "21" + "20010db8" + "0" * 22 + "35")
        data = head + bytes.fromhex("1100010400000000") + struct.pack(">HHHH", 5353, 53, 20, 0) + bytes(12)
        ends = "[2001:0db8:0000:0000:0000:0000:0000:0021]:5353", "[2001:0db8:0000:0000:0000:0000:0000:0035]:53"
        self.assertEqual(IpPacket("udp", *ends, 12), self.read(data))

    def test_echoes(self) -> None:
        """An echo has its identifier at both ends; other messages of ICMP are passed over."""
        head = bytes.fromhex("4500002400000000400100000a000001c0000209")
        echo = self.read(head + bytes.fromhex("0800000012340001") + bytes(8))
        self.assertEqual(IpPacket("icmp", "10.0.0.1:4660", "192.0.2.9:4660", 8), echo)
        self.assertEqual(Unread("a message of ICMP that is no echo"), self.read(head + bytes.fromhex("03010000 00000000") + bytes(8)))

    def test_other_protocols(self) -> None:
        """GRE and ICMPv6 have numbers, and no ports."""
        head = bytes.fromhex("45000024000000004 02f0000 0a000001 c0000209".replace(" ", ""))
        self.assertEqual(IpPacket("47", "10.0.0.1:0", "192.0.2.9:0", 16), self.read(head + bytes(16)))

    def test_fragments_and_cuts(self) -> None:
        later = SYN[:6] + b"\x00\xb9" + SYN[8:]
        self.assertEqual(Unread("a later fragment"), self.read(later))
        short = Unread("a packet that was captured too short: use tcpdump -s 0")
        self.assertEqual([short] * 3, [ip_packet(SYN[:size], 48) for size in (19, 21, 35)])

    def test_every_cut_is_read(self) -> None:
        for size in range(len(SYN)):
            self.assertIsInstance(ip_packet(SYN[:size], len(SYN)), (IpPacket, Unread))

    def test_of_ethernet(self) -> None:
        """Times are kept, VLAN tags passed, and what is none of IP is passed over."""
        tagged = bytes(12) + bytes.fromhex("8100000a0800") + SYN
        found = [*carried([Packet(5, 1, len(tagged), tagged), Packet(6, 1, 42, bytes(12) + b"\x08\x06" + bytes(28))])]
        self.assertEqual([5], [it.time for it in found if isinstance(it, Carried)])
        self.assertEqual(1, len(found))


class Logs(unittest.TestCase):
    def read(self, *data: bytes) -> "List[Union[Logged, Passed, Unread]]":
        return [*logged([Packet(9, 117, len(it), it) for it in data], "log.pcap")]

    def test_header(self) -> None:
        """61 bytes and 3 more, worked out by hand: rule 3 blocked it on its way in on em0, for want of a state."""
        self.assertEqual(61, HEADER.size)
        header = "3d 02 01 00" + "656d30" + "00" * 13 + "00" * 16 + "00000003 ffffffff" + "00000000" * 4 + "01" + "000000"
        found = self.read(bytes.fromhex(header.replace(" ", "")) + SYN)
        packet = IpPacket("tcp", "198.51.100.7:40000", "192.0.2.80:443", 0, "S", 1000, 0, 64240, 7)
        self.assertEqual([Logged(9, packet, "in", "em0", "3", "match")], found)

    def test_anchor(self) -> None:
        """Rule 1 of the anchor f2b, which is rule 7; out; a packet outside the window of its state."""
        header = "3d 02 01 0a" + "656d30" + "00" * 13 + "663262" + "00" * 13 + "00000007 00000001" + "00000000" * 4 + "02" + "000000"
        (found,) = self.read(bytes.fromhex(header.replace(" ", "")) + DATA)
        self.assertEqual(("out", "7.f2b.1", "state-mismatch"), getattr(found, "direction") and tuple(found[2:3] + found[4:6]))

    def test_later_header(self) -> None:
        """FreeBSD 14's has 69 bytes, and the packet begins after 72."""
        header = "45 02 01 00" + "656d30" + "00" * 13 + "00" * 16 + "00000003 ffffffff" + "00000000" * 4 + "01" + "00" * 11
        (found,) = self.read(bytes.fromhex(header.replace(" ", "")) + SYN)
        self.assertIsInstance(found, Logged)

    def test_what_is_no_block(self) -> None:
        event = PacketEvent("b", "in", "udp", "192.0.2.9:53", "10.0.0.1:1000", 40)
        self.assertEqual([Passed(9)], self.read(logged_bytes(event, 0, action=0)))
        self.assertIsInstance(self.read(logged_bytes(event, 0, action=8))[0], Unread)
        self.assertIsInstance(self.read(logged_bytes(event, 0)[:40])[0], Unread)

    def test_another_capture(self) -> None:
        with self.assertRaises(BadCapture) as fault:
            [*logged([Packet(9, 1, len(SYN), on_ethernet(SYN))], "ext.pcap")]
        said = "ext.pcap: its link type is 1, and that of a capture of pflog0 is 117; "
        self.assertEqual(f"{said}one of another interface goes with --data-a or --data-b", str(fault.exception))

    @needs("tcpdump")
    def test_tcpdump(self) -> None:
        """tcpdump reads the same from the same bytes."""
        event = PacketEvent("b", "in", "tcp", "198.51.100.7:40000", "192.0.2.80:443", 0, "S", 1000, 0, 64240, 7)
        with tempfile.TemporaryDirectory() as folder:
            path = os.path.join(folder, "log.pcap")
            with open(path, "wb") as it:
                it.write(pcap([Captured(0, logged_bytes(event, 0, 3))], 117))
            said = subprocess.run(["tcpdump", "-nettr", path], capture_output=True, text=True, check=False, timeout=60).stdout
        self.assertIn("rule 3/0(match): block in on em0: 198.51.100.7.40000 > 192.0.2.80.443: Flags [S]", said)
