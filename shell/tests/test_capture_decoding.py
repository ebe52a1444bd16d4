"""Messages of pfsync as they are read from their bytes."""
from __future__ import annotations

import struct
import unittest
from typing import List

from ..captures.decoding import Decoded, Peer, Record, decoded
from ..captures.layout import BULK_STATUS, CLEAR, HEADER, NAME, SHORT_UPDATE, STATE, SUBHEADER
from ..language.packets import Key
from . import capture_files as made
from .capture_files import group, message, peer, state

SHORT_CAPTURE = "captured short: use tcpdump -s 0"


def read(*groups: bytes) -> Decoded:
    its = message(*groups)
    return decoded(its, len(its))


class Decoding(unittest.TestCase):
    def records(self, *groups: bytes) -> List[Record]:
        its = read(*groups)
        self.assertEqual(its.fault, "")
        return its.records

    def test_sizes(self) -> None:
        sizes = [it.size for it in (HEADER, SUBHEADER, STATE, SHORT_UPDATE, NAME, CLEAR, BULK_STATUS)]
        self.assertEqual(sizes, [20, 4, 242, 84, 12, 20, 12])

    def test_header(self) -> None:
        its = read()
        self.assertEqual((its.version, its.length, its.checksum, its.records), (5, 24, "000102030405060708090a0b0c0d0e0f", []))

    def test_a_whole_state(self) -> None:
        ends = (("198.51.100.7", 50000), ("203.0.113.1", 80))
        inner = (("198.51.100.7", 50000), ("10.0.0.80", 8080))
        given = state(
            *(0x5F00A1B200000003, 0x8A1B2C3D, ends, inner, 6, 1, peer(4, 1000, 66535, 65535, 6, 99), peer(2, 7, 8, 512)),
            *(86390, 2, 4, 90, 0x10, "em0"),
        )
        (record,) = self.records(group(made.INS, given))
        self.assertEqual((record.kind.name, record.name), ("insert", "5f00a1b200000003/8a1b2c3d"))
        self.assertEqual(record.source, Peer(1000, 66535, 99, 65535, 4, 6))
        self.assertEqual(record.destination, Peer(7, 8, 0, 512, 2, None))
        self.assertEqual((record.remaining, record.timeout, record.rule, record.age, record.interface), (86390, 2, 4, 90, "em0"))
        self.assertTrue(record.asks_for_acknowledgement and record.is_whole)
        self.assertEqual(record.flow[:2], ("tcp", "in"))
        self.assertEqual(record.flow.wire, Key("198.51.100.7:50000", "203.0.113.1:80"))
        self.assertEqual(record.flow.stack, Key("198.51.100.7:50000", "10.0.0.80:8080"))

    def test_ipv6_and_other_protocols(self) -> None:
        ends = (("2001:db8::9", 0), ("fe80::1", 0))
        (record,) = self.records(group(made.UPD, state(1, wire=ends, protocol=58, direction=2)))
        far, near = "[2001:0db8:0000:0000:0000:0000:0000:0009]:0", "[fe80:0000:0000:0000:0000:0000:0000:0001]:0"
        self.assertEqual(record.flow, ("58", "out", Key(far, near), Key(far, near)))
        self.assertEqual((record.rule, record.asks_for_acknowledgement), (None, False))
        (record,) = self.records(group(made.DEL, state(1, protocol=1)))
        self.assertEqual((record.kind.name, record.flow.protocol), ("delete", "icmp"))

    def test_short_updates(self) -> None:
        (record,) = self.records(group(made.UPD_C, made.short(2, peer(9, 5, 6, 7, 14), peer(10), 0xB, 44, 5)))
        self.assertEqual((record.kind.name, record.name), ("short update", "0000000000000002/0000000b"))
        self.assertEqual((record.remaining, record.timeout), (44, 5))
        self.assertEqual((record.source, record.destination), (Peer(5, 6, 0, 7, 9, 14), Peer(0, 0, 0, 0, 10, None)))
        self.assertFalse(record.is_whole)

    def test_names_clears_and_statuses(self) -> None:
        groups = [group(it, made.name(3, 0xC)) for it in (made.INS_ACK, made.UPD_REQ, made.DEL_C)]
        names = [(it.kind.name, it.name) for it in self.records(*groups)]
        said = "0000000000000003/0000000c"
        self.assertEqual(names, [("insert acknowledgement", said), ("update request", said), ("short delete", said)])
        (record,) = self.records(group(made.UPD_REQ, made.name(0, 0)))
        self.assertTrue(record.asks_for_all)
        (record,) = self.records(group(made.CLR, made.clear(0xD, "em1")))
        self.assertEqual((record.kind.name, record.creator, record.interface), ("clear", 0xD, "em1"))
        (record,) = self.records(group(made.BUS, made.status(2, 0xE, 77)))
        self.assertEqual((record.kind.name, record.creator, record.status, record.remaining), ("bulk status", 0xE, 2, 77))

    def test_order_and_groups(self) -> None:
        its = read(
            group(made.INS, state(1), state(2)), group(made.TDB, bytes(48), bytes(48)), group(made.UPD_C), group(made.DEL_C, made.name(1))
        )
        self.assertEqual([(record.kind.name, record.id) for record in its.records], [("insert", 1), ("insert", 2), ("short delete", 1)])
        self.assertEqual((its.fault, its.passed_over), ("", 2))

    def test_what_follows_the_end_is_not_read(self) -> None:
        its = message(group(made.EOF), group(99, b"what"))
        self.assertEqual(decoded(its, len(its)).fault, "")


class Faults(unittest.TestCase):
    def test_versions(self) -> None:
        its = message(group(made.INS, bytes(264)), version=6)
        found = decoded(its, len(its))
        self.assertEqual((found.version, found.records), (6, []))
        self.assertEqual(found.fault, "version 6 of pfsync is OpenBSD's, whose records are not read here: version 5 is")
        its = message(version=4)
        self.assertEqual(decoded(its, len(its)).fault, "version 4 of pfsync is not read here: version 5 is")

    def test_later_systems(self) -> None:
        its = read(group(made.DEL_C, made.name(1)), group(13, bytes(277)))
        self.assertEqual([record.id for record in its.records], [1])
        ifconfig = "`ifconfig pfsync0 version 1301`"
        why = f"messages of action 13 are not of FreeBSD 13 (an insertion of FreeBSD 14, which sends those of 13 after {ifconfig})"
        self.assertEqual(its.fault, f"{why}: the rest was not read")
        self.assertIn("messages of action 200 are not of FreeBSD 13 (unknown here)", read(group(200)).fault)

    def test_states_of_another_size(self) -> None:
        # (the second of these begins within the first, so that its values are none)
        its = read(group(made.INS, state(1) + bytes(30), state(2) + bytes(30)))
        self.assertEqual([record.id for record in its.records], [1])
        self.assertEqual(its.fault, "insert 2 of 2 is none of 242 bytes, as FreeBSD 13 has them: the rest was not read")

    def test_values_that_no_state_has(self) -> None:
        whole = state(1)
        for at, value in ((120, 13), (152, 13), (232, 10), (234, 0), (234, 3)):
            changed = bytearray(whole)
            changed[at] = value
            self.assertTrue(read(group(made.UPD, bytes(changed))).fault.startswith("update 1 of 1 is none of 242 bytes"), at)
        self.assertEqual(read(group(made.UPD, whole)).fault, "")
        self.assertIn("short update 1 of 1 is none of 84 bytes", read(group(made.UPD_C, made.short(1, peer(13), peer()))).fault)

    def test_a_short_snap_length(self) -> None:
        its = message(group(made.INS, state(1), state(2)), group(made.DEL_C, made.name(3)))
        # The first state ends at byte 266, the second at 508, the deletion at 524, and the message at 528.
        self.assertEqual(len(its), 528)
        for end in range(20, len(its)):
            found = decoded(its[:end], len(its))
            number = (end >= 266) + (end >= 508) + (end >= 524)
            self.assertEqual(len(found.records), number, end)
            self.assertTrue(found.fault.endswith(SHORT_CAPTURE), found.fault)
        self.assertEqual(decoded(its[:300], 528).fault, f"insert 2 of 2: {SHORT_CAPTURE}")
        self.assertEqual(decoded(its[:7], 528).fault, SHORT_CAPTURE)

    def test_messages_that_are_cut(self) -> None:
        its = message(group(made.INS, state(1), state(2)))
        self.assertEqual(decoded(its[:-9], len(its) - 9).fault, "its header says 512 bytes, and 503 were sent: the kernel drops it whole")
        self.assertEqual(decoded(its[:12], 12).fault, "it has 12 bytes, but a header alone has 20")
        claimed = struct.pack(">BBH", 5, 0, 266) + its[4:266]
        found = decoded(claimed, 266)
        self.assertEqual(([record.id for record in found.records], found.fault), ([1], "insert 2 of 2: the message ends within it"))
        # (an IP packet that is padded)
        self.assertEqual(decoded(its + bytes(9), len(its) + 9).fault, "")

    def test_counts_that_lie(self) -> None:
        its = struct.pack(">BBH", 5, 0, 24) + bytes(16) + struct.pack(">BBH", made.DEL_C, 0, 65535)
        self.assertEqual(decoded(its, 24).fault, "short delete 1 of 65535: the message ends within it")
