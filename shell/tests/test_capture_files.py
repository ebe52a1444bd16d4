"""Files of tcpdump as they are read: pcap and pcapng, with faults, and the links around a message."""
from __future__ import annotations

import gzip
import shutil
import struct
import tempfile
import tracemalloc
import unittest
from pathlib import Path
from typing import List, Optional, Tuple

from ..captures.files import BadCapture, Packet, packets
from ..captures.links import Message, datagram, messages
from . import capture_files as made
from .capture_files import A, NOON, SECOND, block, enhanced, ethernet, interface, ip, pcap, pcapng, section

TWO = [(NOON + 123_456_789, b"first"), (NOON + 2 * SECOND, b"second one")]


class FileCase(unittest.TestCase):
    """A folder with a capture."""

    def setUp(self) -> None:
        self.room = Path(tempfile.mkdtemp())
        self.addCleanup(shutil.rmtree, self.room)

    def read(self, content: bytes) -> Tuple[List[Packet], str]:
        """The packets of a file, and its fault."""
        path = self.room / "it.pcap"
        path.write_bytes(content)
        found: List[Packet] = []
        try:
            for it in packets(str(path)):
                found.append(it)
        except BadCapture as why:
            return found, str(why).replace(f"{self.room}/", "")
        return found, ""

    def whole(self, content: bytes) -> List[Packet]:
        found, fault = self.read(content)
        self.assertEqual(fault, "")
        return found


class Pcap(FileCase):
    def test_byte_orders_and_units(self) -> None:
        for order in "<>":
            found = self.whole(pcap(TWO, 1, order, True))
            self.assertEqual(found, [Packet(NOON + 123_456_789, 1, 5, b"first"), Packet(NOON + 2 * SECOND, 1, 10, b"second one")])
            found = self.whole(pcap(TWO, 246, order))
            self.assertEqual([(it.time, it.link) for it in found], [(NOON + 123_456_000, 246), (NOON + 2 * SECOND, 246)])

    def test_short_snap_length(self) -> None:
        found = self.whole(pcap(TWO, 1, kept=6))
        self.assertEqual([(it.length, it.data) for it in found], [(5, b"first"), (10, b"second")])

    def test_cut_anywhere(self) -> None:
        # The header has 24 bytes; the first packet begins at byte 24 and the second at byte 45, where the file ends at byte 71.
        content = pcap(TWO, 1)
        self.assertEqual(len(content), 71)
        for end in range(len(content)):
            found, fault = self.read(content[:end])
            if end < 4:
                self.assertIn(fault, ("it.pcap: the file is empty", "it.pcap: the file is neither pcap nor pcapng"))
            elif end < 24:
                self.assertEqual(fault, "it.pcap: the header of the file goes beyond the end of the file")
            elif end in (24, 45):
                self.assertEqual((len(found), fault), (int(end == 45), ""))
            else:
                at, what = (24 if end < 45 else 45), "the packet" if end in (*range(40, 45), *range(61, 71)) else "the header of the packet"
                self.assertEqual((len(found), fault), (int(at == 45), f"it.pcap: {what} at byte {at} goes beyond the end of the file"))

    def test_a_lie_in_a_length(self) -> None:
        head = pcap([])
        for size in (262145, 0x7FFFFFFF, 0xFFFFFFFF):
            _, fault = self.read(head + struct.pack("<IIII", 0, 0, size, size) + b"x")
            self.assertEqual(fault, f"it.pcap: the packet at byte 24 claims {size} bytes, more than any packet has")
        _, fault = self.read(head + struct.pack("<IIII", 0, 0, 262144, 262144) + b"x")
        self.assertEqual(fault, "it.pcap: the packet at byte 24 goes beyond the end of the file")

    def test_something_else(self) -> None:
        self.assertEqual(self.read(b"all udp 192.0.2.1"), ([], "it.pcap: the file is neither pcap nor pcapng"))
        self.assertEqual(self.read(b""), ([], "it.pcap: the file is empty"))

    def test_memory_does_not_grow_with_the_file(self) -> None:
        path = self.room / "long.pcap"
        with open(path, "wb") as file:
            file.write(pcap([]))
            for _ in range(300):
                file.write(pcap([(NOON, bytes(100_000))], kept=262144)[24:])
        for content in (path, self.room / "long.pcap.gz"):
            if content != path:
                content.write_bytes(gzip.compress(path.read_bytes()))
            tracemalloc.start()
            self.assertEqual(sum(len(packet.data) for packet in packets(str(content))), 30_000_000)
            most = tracemalloc.get_traced_memory()[1]
            tracemalloc.stop()
            self.assertLess(most, 4_000_000)


class Packed(FileCase):
    def test_gzip(self) -> None:
        for content in (pcap(TWO), pcapng(TWO)):
            self.assertEqual(self.whole(gzip.compress(content)), self.whole(content))
            # Parts that were packed one after another are one file.
            self.assertEqual(self.whole(gzip.compress(content[:30]) + gzip.compress(content[30:])), self.whole(content))

    def test_cut(self) -> None:
        packed = gzip.compress(pcap([(NOON, bytes([at]) * 50) for at in range(200)]))
        found, fault = self.read(packed[:-9])
        self.assertEqual(len(found), 200)
        self.assertEqual(fault, "it.pcap: the capture ends at byte 13224: its gzip data end too early")
        for end in range(0, len(packed) - 9, 7):
            found, fault = self.read(packed[:end])
            self.assertTrue(fault.startswith("it.pcap: "), fault)
            self.assertLess(len(found), 200)

    def test_damaged(self) -> None:
        packed = bytearray(gzip.compress(pcap([(NOON, struct.pack(">Q", at * 2654435761)) for at in range(2000)])))
        packed[len(packed) // 2] ^= 0xFF
        _, fault = self.read(bytes(packed))
        self.assertIn("its gzip data are damaged", fault)


class Pcapng(FileCase):
    def test_units_and_offsets(self) -> None:
        resolutions = ((b"", 10**6), (b"\x09", 10**9), (b"\x8a", 1024), (b"\x00", 1))
        for code, units in resolutions:
            for order in "<>":
                option = struct.pack(f"{order}HH", 9, 1) + code + bytes(3) if code else b""
                offset = struct.pack(f"{order}HHq", 14, 8, 3600)
                for options, ahead in ((option, 0), (option + offset + bytes(4), 3600 * SECOND)):
                    packet = enhanced(NOON // SECOND * units + units // 2, b"abc", 0, order)
                    content = section(order) + interface(1, order, options) + packet
                    self.assertEqual(self.whole(content), [Packet(NOON + ahead + (units // 2) * SECOND // units, 1, 3, b"abc")])

    def test_sections_interfaces_and_other_blocks(self) -> None:
        other = block(0x0BAD, bytes(1_000_000))
        first = section() + interface(1) + other + interface(246) + enhanced(NOON // 1000, b"abc", 1) + block(5, bytes(20))
        second = section(">") + interface(101, ">") + enhanced(NOON // 1000, b"defg", 0, ">")
        self.assertEqual(self.whole(first + second), [Packet(NOON, 246, 3, b"abc"), Packet(NOON, 101, 4, b"defg")])

    def test_simple_and_old_packets(self) -> None:
        simple = block(3, struct.pack("<I", 9) + b"abcde")
        old = block(2, struct.pack("<HHIIII", 0, 7, NOON // 1000 >> 32, NOON // 1000 & 0xFFFFFFFF, 3, 4) + b"old")
        # (a simple packet has no time, and gets that of the packet before it)
        found = self.whole(section() + interface(1, kept=5) + simple + old + simple)
        self.assertEqual(found, [Packet(0, 1, 9, b"abcde"), Packet(NOON, 1, 4, b"old"), Packet(NOON, 1, 9, b"abcde")])

    def test_faults(self) -> None:
        head = section() + interface(1)
        at = len(head)
        packet = enhanced(NOON // 1000, b"abc")
        cases = (
            (packet[:-1], f"the block at byte {at} goes beyond the end of the file"),
            (packet[:5], f"the block at byte {at} goes beyond the end of the file"),
            (packet[:2], f"the block at byte {at} goes beyond the end of the file"),
            (enhanced(0, b"abc", 1), f"the packet at byte {at} is of interface 1, which the file does not describe before it"),
            (packet[:4] + struct.pack("<I", 9) + packet[8:], f"the block at byte {at} claims 9 bytes, which no such block has"),
            (struct.pack("<II", 6, 0xFFFFFFFC), f"the block at byte {at} claims 4294967292 bytes, more than any packet has"),
            (struct.pack("<II", 77, 0xFFFFFFFC), f"the block at byte {at} goes beyond the end of the file"),
            (packet[:-4] + bytes(4), f"the block at byte {at} has another length at its end than at its beginning"),
            (enhanced(2**64 - 1, b"abc"), f"the packet at byte {at} has a time before 1970 or at the end of the year 9999"),
            (block(6, b""), f"the packet at byte {at} is shorter than its header"),
            (block(6, struct.pack("<IIIII", 0, 0, 0, 90, 90)), f"the packet at byte {at} goes beyond the end of its block"),
            (block(1, b"four"), f"the interface at byte {at} is too short"),
        )
        for content, why in cases:
            self.assertEqual(self.read(head + content), ([], f"it.pcap: {why}"))
        self.assertEqual(self.read(section()[:8] + b"what" + section()[12:])[1], "it.pcap: the section at byte 0 has no byte order")

    def test_cut_anywhere(self) -> None:
        content = pcapng(TWO)
        ends = {len(section()): 0, len(section() + interface(1)): 0, len(pcapng(TWO[:1])): 1}
        for end in range(4, len(content)):
            found, fault = self.read(content[:end])
            self.assertEqual(not fault, end in ends, (end, fault))
            self.assertEqual(len(found), int(end >= len(pcapng(TWO[:1]))))


class Links(unittest.TestCase):
    def found(self, link: int, data: bytes) -> List[Message]:
        return [*messages([Packet(NOON, link, len(data), data)])]

    def is_found(self, link: int, data: bytes, sender: str = A, receiver: str = "224.0.0.240") -> None:
        self.assertEqual(self.found(link, data), [Message(NOON, sender, receiver, 24, made.message())])

    def test_each_link(self) -> None:
        its = ip(A, made.message())
        self.assertEqual(len(made.message()), 24)
        self.is_found(1, ethernet(its))
        self.is_found(1, ethernet(its) + bytes(6))
        self.is_found(1, ethernet(its, bytes.fromhex("8100 0005")))
        self.is_found(1, ethernet(its, bytes.fromhex("88a8 0005 8100 0006")))
        for link in (101, 12, 14, 228):
            self.is_found(link, its)
        self.is_found(0, struct.pack("<I", 2) + its)
        self.is_found(108, struct.pack(">I", 2) + its)
        self.is_found(113, bytes(14) + b"\x08\x00" + its)
        self.is_found(276, b"\x08\x00" + bytes(18) + its)
        for link in (246, 121, 18):
            self.is_found(link, made.message(), "", "")

    def test_ipv6(self) -> None:
        its = ip("fe80::1", made.message(), "ff02::f0")
        self.is_found(1, ethernet(its), "fe80::1", "ff02::f0")
        self.is_found(229, its, "fe80::1", "ff02::f0")
        # An option of 8 bytes, and the only fragment of a packet.
        optional = ip("fe80::1", bytes([240, 0, *range(6)]) + made.message(), "ff02::f0", 0)
        self.is_found(101, optional, "fe80::1", "ff02::f0")
        self.is_found(101, ip("fe80::1", bytes([240, 0, 0, 0, 0, 0, 0, 9]) + made.message(), "ff02::f0", 44), "fe80::1", "ff02::f0")
        self.assertEqual(self.found(101, ip("fe80::1", bytes([240, 0, 0, 8, 0, 0, 0, 9]) + made.message(), "ff02::f0", 44)), [])

    def test_what_is_no_message(self) -> None:
        its = ip(A, made.message())
        fragments = [ip(A, made.message(), offset=it) for it in (1, 0x1FFF)]
        for data in (b"", its[:19], ip(A, made.message(), protocol=17), *fragments):
            self.assertEqual(self.found(101, data), [])
        arp = ethernet(its).replace(b"\x08\x00\x45", b"\x08\x06\x45")
        for data in (ethernet(its)[:14], ethernet(its, b"\x81\x00"), arp, b"\x81\x00" * 30):
            self.assertEqual(self.found(1, data), [])
        self.assertEqual(self.found(9999, its), [])

    def test_datagrams(self) -> None:
        its = ip(A, b"what", protocol=6)
        self.assertEqual(self.datagram(1, ethernet(its)), its)
        self.assertEqual(self.datagram(101, its), its)
        self.assertIsNone(self.datagram(246, its))
        self.assertIsNone(self.datagram(101, b"\x25"))

    def datagram(self, link: int, data: bytes) -> Optional[bytes]:
        return datagram(Packet(NOON, link, len(data), data))

    def test_a_short_capture(self) -> None:
        its = ethernet(ip(A, made.message()))[:40]
        self.assertEqual(self.found(1, its), [Message(NOON, A, "224.0.0.240", 24, made.message()[:6])])
