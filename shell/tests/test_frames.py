"""Frames are read as docs/FORMATS.md lays them out, and shown in words. The bytes are put together by hand, field by field."""
from __future__ import annotations

import unittest
from typing import List

from oracle.frames import contents

from ..model.branches import Happened
from ..model.flights import read_flight
from ..model.frames import Frame, Record
from ..shows.records import record_line

NO_RULES = "d41d8cd98f00b204e9800998ecf8427e"
NAME = "0000000000000001 00000001"
FAR = "c0000209" + 24 * "0" + "0035"
NEAR = "0a000001" + 24 * "0" + "03e8"
TRANSLATED = "c6336401" + 24 * "0" + "0fa0"
SILENT = "00 ff 0000 00000000 00000000"
SINGLE = "01 ff 0000 00000000 00000000"
UDP = f"{NAME} 11 04 02 01 {FAR} {TRANSLATED} {FAR} {NEAR} {SINGLE} {SILENT} 06 000000 0000003c 00000000"
# A TCP state of direction in, between 2001:db8::9 port 5353 and 2001:db8::1 port 22, without a rule.
FAR_6 = "20010db8" + 16 * "0" + "00000009" + "14e9"
NEAR_6 = "20010db8" + 16 * "0" + "00000001" + "0016"
ENDS_TCP = "04 03 03e8 00000064 00000834  02 ff 07d0 ffffffff 00000001"
TCP = f"{NAME} 06 06 01 00 {FAR_6} {NEAR_6} {FAR_6} {NEAR_6} {ENDS_TCP} 01 000000 0000001e ffffffff"


def frame(*groups: str) -> bytes:
    """A frame of groups of an empty rule set, with its length in the header."""
    body = bytes.fromhex("".join(groups))
    return bytes.fromhex("0500") + (20 + len(body)).to_bytes(2, "big") + bytes.fromhex(NO_RULES) + body


def framed(data: bytes) -> Frame:
    """A frame in flight to b, with the records in its bytes."""
    words = (line.split()[1:] for line in contents(data) if line.startswith("record "))
    return Frame(1, "b", data, tuple(map(Record.read, words)))


def record_lines(data: bytes) -> List[str]:
    return [record_line(record) for record in framed(data).records]


class Contents(unittest.TestCase):
    """What `frame` has to write of bytes."""

    def test_the_acknowledgement_of_formats(self) -> None:
        data = bytes.fromhex("05000024d41d8cd98f00b204e9800998ecf8427e02000001000000000000000100000001")
        self.assertEqual(contents(data), ["record iack 1.1"])
        self.assertEqual(Frame(1, "b", data).checksum, NO_RULES)
        self.assertEqual(data, frame("02000001", NAME))

    def test_states(self) -> None:
        ends, keys = "1 - 0 0 0 0 - 0 0 0", "192.0.2.9:53 198.51.100.1:4000 192.0.2.9:53 10.0.0.1:1000"
        self.assertEqual(contents(frame("01000001", UDP)), [f"record ins 1.1 udp out {keys} {ends} udp.first 60 0 k"])
        key = "[2001:0db8:0000:0000:0000:0000:0000:0009]:5353 [2001:0db8:0000:0000:0000:0000:0000:0001]:22"
        ends = "4 3 1000 100 2100 2 - 2000 4294967295 1"
        self.assertEqual(contents(frame("03000001", TCP)), [f"record upd 1.1 tcp in {key} {key} {ends} tcp.opening 30 - -"])
        data = frame("04000001", NAME, SINGLE, SILENT, "06 000000 0000003b")
        self.assertEqual(contents(data), ["record updc 1.1 1 - 0 0 0 0 - 0 0 0 udp.first 59"])

    def test_groups_of_the_other_actions(self) -> None:
        groups = ("05000002", NAME, 24 * "0", "07000001", "0000000100000000 00000003", "00000001", "00000001 0000000000000007")
        expected = ["req 1.1", "req 0.0", "delc 3.4294967296", "clr 1 7", "bus 2"]
        self.assertEqual(contents(frame(*groups, "0a000001", "00000002 02 000000")), [f"record {it}" for it in expected])
        self.assertEqual(contents(frame()), [])

    def test_bytes_that_are_no_frame(self) -> None:
        whole = frame("02000001", NAME)
        cases = ((0, 1, "it has 0 bytes, but"), (19, 1, "it has 19 bytes, but a"), (20, 3, "say 36 bytes, but 20"), (35, 3, "but 35 are"))
        for length, fault, words in cases:
            self.assertEqual(contents(whole[:length]), [f"broken {fault}"])
            self.assertIn(words, Frame(1, "b", whole[:length]).summary)
        self.assertEqual(Frame(1, "b", whole).broken, "")

    def test_a_summary_counts_the_records_of_each_kind(self) -> None:
        data = frame("05000002", NAME, NAME, "0a000002", "00000001 01 000000", "00000001 02 000000")
        self.assertEqual(framed(data).summary, "2 update requests, 2 bulk statuses")
        self.assertEqual(framed(frame()).summary, "no records")


class Replies(unittest.TestCase):
    """What a reply to `frame` tells."""

    def test_a_frame_and_what_befell_it(self) -> None:
        data = frame("02000001", NAME)
        steps = ["event 5 step x cut 7 30", "outcome cut 30", "event 6 step x repeat 7", "outcome sent 8 30"]
        head = ["frame x 7", "event 4 step x flush b", "outcome sent 7 36", f"frame 7 a {data.hex()}", "record iack 1.1"]
        flight = read_flight([*head, *steps, "event 9 step x lose 7", "outcome lost", "end"])
        self.assertEqual((flight.ticket, flight.source, flight.to, flight.origin), (7, "b", "a", None))
        self.assertEqual(flight.sent, Happened(4, "flush b", "sent 7 36"))
        self.assertEqual((flight.frame.records, flight.now.data), ((Record.read(["iack", "1.1"]),), data[:30]))
        self.assertEqual((flight.ended, flight.is_lost, flight.is_taken), (Happened(9, "lose 7", "lost"), True, False))

    def test_a_copy_of_a_frame_that_was_cut(self) -> None:
        flight = read_flight(["frame x 8", "event 6 step x repeat 7", "outcome sent 8 0", "frame 8 a -", "broken 1", "end"])
        self.assertEqual((flight.origin, flight.frame.data, flight.frame.records, flight.ended), (7, b"", (), None))


class Lines(unittest.TestCase):
    """Records in words: the flow as pfctl prints it, sequence numbers as `[lo + (hi - lo)]` modulo 2^32."""

    def test_states(self) -> None:
        insert, update = record_lines(frame("01000001", UDP, "03000001", TCP))
        self.assertEqual(
            insert,
            "insert 1.1  udp 198.51.100.1:4000 (10.0.0.1:1000) -> 192.0.2.9:53  SINGLE:NO_TRAFFIC"
            "  60 s left of udp.first, rule 0, asks for an acknowledgement",
        )
        self.assertEqual(
            update,
            "update 1.1  tcp [2001:0db8:0000:0000:0000:0000:0000:0001]:22 <- [2001:0db8:0000:0000:0000:0000:0000:0009]:5353"
            "  SYN_SENT:ESTABLISHED  [4294967295 + 2] win 2000  [100 + 2000] wscale 3 win 1000"
            "  30 s left of tcp.opening, no rule",
        )

    def test_short_updates(self) -> None:
        udp = frame("04000001", NAME, SINGLE, SILENT, "06 000000 0000003b")
        self.assertEqual(record_lines(udp), ["short update 1.1  source SINGLE, destination NO_TRAFFIC  59 s left of udp.first"])
        tcp = frame("04000001", NAME, ENDS_TCP, "02 000000 00015180")
        ends = "source ESTABLISHED [100 + 2000] wscale 3 win 1000, destination SYN_SENT [4294967295 + 2] win 2000"
        self.assertEqual(record_lines(tcp), [f"short update 1.1  {ends}  86400 s left of tcp.established"])

    def test_the_others(self) -> None:
        data = frame("05000001", 24 * "0", "00000001", "00000001 0000000000000007", "0a000001", "00000002 01 000000")
        expected = ["update request 0.0 (all states)", "clear creator 1 up to id 7", "bulk status start"]
        self.assertEqual(record_lines(data), expected)


if __name__ == "__main__":
    unittest.main()
