"""The laboratory's records in the kernel's layout, and the files that they go into. The bytes are put together by hand, field by field."""
from __future__ import annotations

import unittest
from ipaddress import IPv4Address

from ..captures import layout
from ..captures.encoding import creator_of_bulk_status, message
from ..captures.writing import LINK_ETHERNET, LINK_PFSYNC, Written, on_ethernet, pcap
from ..model.frames import Record

NO_RULES = "d41d8cd98f00b204e9800998ecf8427e"
# 2.1, the first state of node b: its id, and its creator.
ID, CREATOR = "0000000000000001", "00000002"
FAR, NEAR = "c0000209" + 24 * "0", "0a000001" + 24 * "0"
TRANSLATED = "c6336401" + 24 * "0"
# flags of scrub, ttl and sign, modulation; lo, hi, added; window, mss, level, scale, pad
SINGLE = "0000 00 00 00000000  00000000 00000000 00000000  0000 0000 01 00" + 12 * "0"
SILENT = 64 * "0"
EMPTY_16 = 32 * "0"
# id, interface, wire key, stack key, ends, gateway
UDP_KEYS = f"{ID} 616c6c{26 * '0'}  {FAR}{TRANSLATED} 0035 0fa0  {FAR}{NEAR} 0035 03e8  {SINGLE} {SILENT} {EMPTY_16}"
# rule 3, no anchor, no translation; an age of 0, 60 s left; packets and bytes; creator; IPv4, UDP, out; spare, log, flags, class, 0, 0
UDP = f"{UDP_KEYS} 00000003 ffffffff ffffffff 00000000 0000003c {EMPTY_16}{EMPTY_16} {CREATOR} 02 11 02 0000 00 10 06 00 00"
FAR_6 = "20010db8" + 16 * "0" + "00000009"
NEAR_6 = "20010db8" + 16 * "0" + "00000001"
SOURCE = "0000 00 00 00000000  00000064 00000834 00000000  03e8 0000 04 83" + 12 * "0"
DESTINATION = "0000 00 00 00000000  ffffffff 00000001 00000000  07d0 0000 02 00" + 12 * "0"
TCP_KEYS = f"{ID} 616c6c{26 * '0'}  {FAR_6}{NEAR_6} 14e9 0016  {FAR_6}{NEAR_6} 14e9 0016  {SOURCE} {DESTINATION} {EMPTY_16}"
TCP = f"{TCP_KEYS} ffffffff ffffffff ffffffff 00000000 0000001e {EMPTY_16}{EMPTY_16} {CREATOR} 1c 06 01 0000 00 00 01 00 00"

KEYS_OF_UDP = "192.0.2.9:53 198.51.100.1:4000 192.0.2.9:53 10.0.0.1:1000"
KEYS_OF_TCP = 2 * "[2001:0db8:0000:0000:0000:0000:0000:0009]:5353 [2001:0db8:0000:0000:0000:0000:0000:0001]:22 "
ENDS_OF_TCP = "4 3 1000 100 2100 2 - 2000 4294967295 1"


def sent(*records: str, creator: int = 0) -> bytes:
    """The message with records in the words of a reply to `frame`."""
    return message(bytes.fromhex(NO_RULES), [Record.read(record.split()) for record in records], creator)


def by_hand(length: str, *groups: str) -> bytes:
    """A message of groups, with its length and the group that ends it."""
    return bytes.fromhex(f"05 00 {length} {NO_RULES}" + "".join(groups) + "0c 00 0001")


class Messages(unittest.TestCase):
    """A message for each kind of records."""

    def test_sizes(self) -> None:
        states, others = (layout.STATE, layout.SHORT_UPDATE, layout.PEER), (layout.NAME, layout.BULK_STATUS, layout.CLEAR, layout.TDB)
        self.assertEqual([state.size for state in states], [242, 84, 32])
        self.assertEqual([it.size for it in others], [12, 12, 20, 48])
        self.assertEqual((layout.HEADER.size, layout.SUBHEADER.size), (20, 4))

    def test_whole_states(self) -> None:
        # 20 + 4 + 242 + 4 bytes are 0x10e
        for word, action in (("ins", "01"), ("upd", "03"), ("del", "06")):
            its = sent(f"{word} 2.1 udp out {KEYS_OF_UDP} 1 - 0 0 0 0 - 0 0 0 udp.first 60 3 k")
            self.assertEqual(its.hex(), by_hand("010e", f"{action} 00 0001", UDP).hex())
            its = sent(f"{word} 2.1 tcp in {KEYS_OF_TCP} {ENDS_OF_TCP} tcp.opening 30 - -")
            self.assertEqual(its.hex(), by_hand("010e", f"{action} 00 0001", TCP).hex())

    def test_protocols_and_classes_by_number(self) -> None:
        its = sent(f"ins 2.1 47 out {KEYS_OF_UDP} 1 - 0 0 0 0 - 0 0 0 other.multiple 60 - -")
        self.assertEqual((its[24 + 233], its[24 + 239]), (47, 13))
        its = sent(f"ins 2.1 icmp out {KEYS_OF_UDP} 1 - 0 0 0 0 - 0 0 0 icmp.first 20 - -")
        self.assertEqual((its[24 + 233], its[24 + 239]), (1, 9))

    def test_short_updates(self) -> None:
        its = sent(f"updc 2.1 {ENDS_OF_TCP} tcp.established 86399")
        self.assertEqual(its.hex(), by_hand("0070", "04 00 0001", ID, SOURCE, DESTINATION, CREATOR, "0001517f 02 000000").hex())

    def test_names(self) -> None:
        for word, action in (("iack", "02"), ("req", "05"), ("delc", "07")):
            self.assertEqual(sent(f"{word} 2.1").hex(), by_hand("0028", f"{action} 00 0001", ID, CREATOR).hex())
        self.assertEqual(sent("req 0.0").hex(), by_hand("0028", "05 00 0001", 24 * "0").hex())

    def test_clears_and_bulk_statuses(self) -> None:
        self.assertEqual(sent("clr 7 99").hex(), by_hand("0030", "00 00 0001", 32 * "0", "00000007").hex())
        self.assertEqual(sent("bus 2", creator=7).hex(), by_hand("0028", "0a 00 0001", "00000007 00000000 02 000000").hex())

    def test_groups_follow_the_records(self) -> None:
        its = sent("req 2.1", "req 0.0", "delc 2.1", "req 2.1")
        groups = ("05 00 0002", ID, CREATOR, 24 * "0", "07 00 0001", ID, CREATOR, "05 00 0001", ID, CREATOR)
        self.assertEqual(its.hex(), by_hand("0054", *groups).hex())
        self.assertEqual(sent().hex(), by_hand("0018").hex())

    def test_the_creator_of_a_bulk_status_is_in_the_frame(self) -> None:
        request = "05000002" + 48 * "0"
        for groups, creator in ((request, 0), ("0a000001 00000007 01000000", 7), (request + "0a000001 00000009 02000000", 9)):
            body = bytes.fromhex(groups)
            frame = bytes.fromhex("0500") + (20 + len(body)).to_bytes(2, "big") + bytes.fromhex(NO_RULES) + body
            self.assertEqual(creator_of_bulk_status(frame), creator)


class Files(unittest.TestCase):
    """Packets and captures."""

    def test_a_message_on_ethernet(self) -> None:
        # 4510 + 002c + 0000 + 4000 + fff0 + 0000 + c0a8 + fefe + e000 + 00f0 are 425c2, and 25c2 + 4 are 25c6, whose complement is da39
        header = "4510 002c 0000 4000 ff f0 da39 c0a8fefe e00000f0"
        its = on_ethernet(by_hand("0018"), IPv4Address("192.168.254.254"))
        self.assertEqual(its.hex(), bytes.fromhex(f"01005e0000f0 0200c0a8fefe 0800 {header}").hex() + by_hand("0018").hex())

    def test_a_file(self) -> None:
        head = "4d3cb2a1 0200 0400 00000000 00000000 00000400"
        self.assertEqual(pcap([], LINK_ETHERNET).hex(), bytes.fromhex(f"{head} 01000000").hex())
        # 2026-01-01 and 2 ms and 3 ns: 1767225600 s are 0x6955b900, and 2000003 ns are 0x1e8483
        its = pcap([Written(1767225600002000003, b"\1\2\3")], LINK_PFSYNC)
        self.assertEqual(its.hex(), bytes.fromhex(f"{head} f6000000 00b95569 83841e00 03000000 03000000 010203").hex())


if __name__ == "__main__":
    unittest.main()
