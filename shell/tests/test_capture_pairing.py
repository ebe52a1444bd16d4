"""Two captures laid over one another: who is a, what came, and by whose clock."""
from __future__ import annotations

import os
import random
import threading
import unittest
from pathlib import Path
from typing import List, Optional, Sequence, Tuple

from ..captures.files import BadCapture
from ..captures.pairing import Overlay, Sent
from ..captures.sides import NoSuchSender
from . import capture_files as made
from .capture_cases import MILLISECOND, WAY, CaptureCase, Given, both, captures
from .capture_files import A, B, ETHERNET, NOON, PFSYNC, SECOND, ethernet, group, ip, message, name, pcap, pcapng, sent

HOUR = 3600 * SECOND


def deletion(number: int) -> bytes:
    """A message that no other one is like."""
    return message(group(made.DEL_C, name(number)))


# Two frames of each node, of which one of a and one of b are lost. The last one covers them all.
FIVE: Tuple[Given, ...] = (
    (0, "a", deletion(1), True),
    (10, "b", deletion(2), True),
    (20, "a", deletion(3), False),
    (30, "b", deletion(4), False),
    (40, "a", deletion(5), True),
    (50, "b", deletion(6), True),
)


def at(given: Given) -> int:
    """When a message is sent."""
    return NOON + round(given[0] * MILLISECOND)


def packet(given: Given) -> bytes:
    return ethernet(ip(A if given[1] == "a" else B, given[2]))


def seen_at(node: str) -> List[Tuple[int, bytes]]:
    """The packets that a capture of a node has, at the times of their senders."""
    return [(at(it), packet(it)) for it in FIVE if it[1] == node or it[3]]


def captured(given: Sequence[Given], node: str) -> List[Tuple[int, bytes]]:
    """The packets that a capture of a node has, those that came later by the time of their way."""
    return [(at(it) + WAY * (it[1] != node), packet(it)) for it in given if it[1] == node or it[3]]


def _in_order(packets: bytes) -> List[bytes]:
    """The packets of a pcap in the order of their times."""
    found: List[bytes] = []
    while packets:
        size = 16 + int.from_bytes(packets[8:12], "little")
        found.append(packets[:size])
        packets = packets[size:]
    return sorted(found, key=lambda it: (int.from_bytes(it[:4], "little"), int.from_bytes(it[4:8], "little")))


def own(node: str, ahead: int = 0) -> bytes:
    """A capture of the pfsync0 of a node."""
    return pcap([(at(it) + ahead, it[2]) for it in FIVE if it[1] == node], PFSYNC)


def fates(those: List[Sent]) -> List[Tuple[int, str, Optional[bool]]]:
    return [(it.message.records[0].id, it.node, it.arrived) for it in those]

# A guess of the sides, by something; and how they are known by who saw a message first.
GUESS = "a guess: {}, and nothing else shows it clearly; --a ADDRESS settles it"
FIRST = "messages are in the capture of the sender first, {} ms before the other, the difference of the clocks taken off"

class Laid(CaptureCase):
    def test_what_is_missing(self) -> None:
        for ahead in (0, HOUR, -HOUR, 7 * MILLISECOND):
            for files in (both(FIVE, ahead), both(FIVE, ahead)[::-1]):
                a, b = ("a", "b") if files[0] == both(FIVE, ahead)[0] else ("b", "a")
                found = self.sent(*files)
                fate = [(1, a, True), (2, b, True), (3, a, False), (4, b, False), (5, a, True), (6, b, True)]
                self.assertEqual(fates(found), fate)
                self.assertEqual([it.number for it in found], [1, 2, 3, 4, 5, 6])

    def test_times_are_those_of_a(self) -> None:
        for ahead in (0, HOUR, -HOUR):
            found = self.sent(*both(FIVE, ahead))
            self.assertEqual([it.time for it in found], [NOON + at * 10 * MILLISECOND for at in range(6)])
            came = [None if it.came is None else it.came - it.time for it in found]
            self.assertEqual(came, [WAY, WAY, None, None, WAY, WAY])

    def test_the_difference_of_the_clocks(self) -> None:
        sides = self.overlay(*both(FIVE, HOUR)).sides
        self.assertEqual((sides.clocks.first, sides.clocks.last, sides.latency), (HOUR, HOUR, WAY))

    def test_why_a_is_a(self) -> None:
        sides = self.overlay(*both(FIVE)).sides
        self.assertEqual((sides.nodes, sides.is_guess), ({A: "a", B: "b"}, False))
        why = FIRST.format("0.200")
        self.assertEqual(sides.said(), f"a is {A}, b is {B}: {why}")
        whole = [(*it[:3], True) for it in FIVE]
        sides = self.overlay(*both(whole, HOUR)).sides
        self.assertEqual((sides.nodes, sides.is_guess), ({A: "a", B: "b"}, False))
        why = FIRST.format("0.200")
        self.assertEqual(sides.said(), f"a is {A}, b is {B}: {why}")
        sides = self.overlay(*both(whole, HOUR)[::-1]).sides
        self.assertEqual(sides.nodes, {B: "a", A: "b"})
        # With nothing of both it is a guess, unless it is said.
        alone = [it for it in whole if it[1] == "a"]
        sides = self.overlay(*both(alone)).sides
        self.assertEqual((sides.nodes, sides.is_guess), ({A: "a"}, True))
        sides = self.overlay(*both(whole), a=B).sides
        self.assertEqual((sides.nodes, sides.is_guess), ({B: "a", A: "b"}, False))
        self.assertEqual(sides.said(), f"a is {B}, b is {A}: as --a says")

    def test_what_the_captures_did_not_get(self) -> None:
        """Nothing is lost, and tcpdump at a drops three messages of a, or each one drops a few of all: the time of the way decides."""
        rng = random.Random(1)
        given = [(1000.0 * nth, "ab"[nth % 2], deletion(nth), True) for nth in range(100)]
        a, b = ([(time, packet) for time, packet in captured(given, node)] for node in "ab")
        without = [it for nth, it in enumerate(a) if nth not in (10, 20, 30)]
        some = [[it for it in its if rng.random() > 0.03] for its in (a, b)]
        for first, second in ((without, b), some):
            sides = self.overlay(*(pcap(its, nanoseconds=True) for its in (first, second))).sides
            self.assertEqual((sides.nodes, sides.is_guess), ({A: "a", B: "b"}, False))
            self.assertEqual(sides.why, FIRST.format("0.200"))
        sides = self.overlay(*(pcap(its, nanoseconds=True) for its in (b, without))).sides
        self.assertEqual(sides.nodes, {B: "a", A: "b"})

    def test_a_way_that_is_too_short_to_be_seen(self) -> None:
        """Where times are in microseconds, and as many of each node are late: what one capture alone has makes a guess."""
        for lost_of_a, lost_of_b in ((2, 0), (1, 0), (4, 1), (3, 1)):
            given = [(10.0 * nth, "ab"[nth % 2], deletion(nth), True) for nth in range(40)]
            for nth in range(lost_of_a):
                given[10 + 2 * nth] = (*given[10 + 2 * nth][:3], False)
            # (b has one of a alone, as if it were b's)
            at_a = [it for nth, it in enumerate(given) if not (lost_of_b and nth == 4)]
            files = [pcap([(at(it), packet(it)) for it in its if it[1] == node or it[3]]) for its, node in ((at_a, "a"), (given, "b"))]
            sides = self.overlay(*files).sides
            self.assertEqual((sides.nodes, sides.is_guess), ({A: "a", B: "b"}, True), (lost_of_a, lost_of_b))
            alone = "1 message is" if lost_of_a == 1 else f"{lost_of_a} messages are"
            but = ", and 1 in the other alone" * lost_of_b
            self.assertEqual(sides.why, GUESS.format(f"{alone} in the capture of the sender alone{but}"))

    def test_messages_of_the_same_bytes_count_each(self) -> None:
        """Of fourteen messages of a, twelve are lost, ten of these of the same bytes as the last one, which comes."""
        given = [(1000.0 * nth, "a", deletion(min(nth, 3)), nth in (0, 13)) for nth in range(14)]
        for files, node in ((both(given), "a"), (both(given)[::-1], "b")):
            sides = self.overlay(*files).sides
            self.assertEqual(sides.said(), f"{node} is {A}: {GUESS.format('12 messages are in the capture of the sender alone')}")

    def test_of_many_messages_a_part_is_compared(self) -> None:
        given = [(1.0 * nth, "a", deletion(nth), nth % 2 == 0) for nth in range(20_001)]
        why = self.overlay(*both(given)).sides.why
        self.assertRegex(why, r"^a guess: of those that are compared, [0-9]+ messages are in the capture of the sender alone, and nothing else")

    def test_a_tcpdump_that_misses_what_its_own_node_sends(self) -> None:
        """Two frames of a are in the capture of b alone: nothing was lost, and who saw a frame first says whose captures they are."""
        given = [(10.0 * nth, "ab"[nth % 2], deletion(nth), True) for nth in range(40)]
        a, b = (sorted(capture, key=lambda one: one[0]) for capture in captures(given, 0))
        files = (pcap(its, ETHERNET, nanoseconds=True) for its in ([it for nth, it in enumerate(a) if nth not in (4, 8)], b))
        sides = self.overlay(*files).sides
        self.assertEqual((sides.nodes, sides.is_guess, sides.why), ({A: "a", B: "b"}, False, FIRST.format("0.200")))

    def test_an_address_that_sent_nothing(self) -> None:
        with self.assertRaises(NoSuchSender) as why:
            self.overlay(*both(FIVE), a="192.0.2.77")
        self.assertEqual(str(why.exception), f"no message is from 192.0.2.77: the senders are {A} and {B}")

    def test_only_within_the_capture_of_the_other_node(self) -> None:
        # The capture of b begins with the second frame and ends with the fifth.
        given = [(*it[:3], it[3] and it[0] not in (0, 50)) for it in FIVE]
        a, b = both(given)
        found = self.sent(a, b)
        self.assertEqual(fates(found)[0], (1, "a", None))
        self.assertEqual(fates(found)[2:4], [(3, "a", False), (4, "b", False)])

    def test_other_senders(self) -> None:
        a, b = both(FIVE)
        other = pcap(sent("192.0.2.3", (NOON, deletion(9)), (NOON + SECOND, deletion(10))), nanoseconds=True)[24:]
        overlay = self.overlay(a + other, b)
        self.assertEqual(overlay.others, {"192.0.2.3": 2})
        self.assertEqual(len([*overlay.sent()]), 6)

    def test_the_same_bytes_twice(self) -> None:
        # Of three requests of the same bytes the second is lost, or the first.
        for lost in range(3):
            given = [*FIVE, *((100 + 100 * nth, "a", message(group(made.UPD_REQ, name(0, 0))), nth != lost) for nth in range(3))]
            found = self.sent(*both([*given, (900, "b", deletion(9), True)]))
            self.assertEqual([it.arrived for it in found[6:9]], [nth != lost for nth in range(3)])

    def test_repeated_on_the_way(self) -> None:
        a, b = both(FIVE)
        again = pcap(sent(A, (NOON + 300_000, deletion(1))), nanoseconds=True)[24:]
        overlay = self.overlay(a, b[:24] + b[24:] + again)
        self.assertEqual(len([*overlay.sent()]), 6)
        self.assertEqual(overlay.repeated, {"a": 1, "b": 0})

    def test_a_frame_that_is_cut_on_its_way(self) -> None:
        """Of the message of frame 3 the last four bytes do not come: it is one frame, and as good as lost."""
        a, b = both(FIVE)
        cut = pcap([(NOON + 20 * MILLISECOND + WAY, ethernet(ip(A, deletion(3)[:-4])))], nanoseconds=True)[24:]
        overlay = self.overlay(a, b[:24] + b"".join(_in_order(b[24:] + cut)))
        self.assertEqual(fates([*overlay.sent()]), fates(self.sent(a, b)))
        self.assertEqual((overlay.cut, overlay.not_captured), ({"a": 1, "b": 0}, {"a": 0, "b": 0}))
        # (also where the capture of b does not cover the moment when it was sent)
        overlay = self.overlay(a, b[:24] + b"".join(_in_order(b[24:] + cut)[2:]))
        self.assertEqual(fates([*overlay.sent()])[2], (3, "a", False))

    def test_captured_twice(self) -> None:
        # The capture of a is of two interfaces, and has everything twice.
        given = [*FIVE, *((100.0 + nth, "a", deletion(100 + nth), True) for nth in range(9))]
        a = pcap([(at(it) + extra, packet(it)) for it in given if it[1] == "a" or it[3] for extra in (0, 1000)])
        overlay = self.overlay(a, both(given, HOUR)[1])
        self.assertEqual(fates([*overlay.sent()]), fates(self.sent(*both(given))))
        self.assertLess(abs(overlay.sides.clocks.first - HOUR), MILLISECOND)
        # (of what comes it may be the way that repeats it)
        self.assertEqual((overlay.doubled, overlay.repeated), ({"a": 12, "b": 0}, {"a": 0, "b": 2}))
        overlay = self.overlay(a, a=A)
        self.assertEqual((len([*overlay.sent()]), overlay.doubled), (14, {"a": 12, "b": 2}))
        # A node may send the same bytes twice itself.
        again = [(0.0, "a", deletion(1), True), (0.001, "a", deletion(1), True), *FIVE[1:]]
        self.assertEqual(len(self.sent(*both(again))), 7)

    def test_what_its_own_capture_does_not_have(self) -> None:
        a, b = both([*FIVE, (60, "a", deletion(7), True), (70, "a", deletion(8), True)])
        # The second last packet of a is left out: the way says where the others are.
        cut = len(pcap([(NOON, ethernet(ip(A, deletion(1))))])) - 24
        overlay = self.overlay(a[: -2 * cut] + a[-cut:], b)
        found = [*overlay.sent()]
        self.assertEqual(fates(found)[6:], [(7, "a", True), (8, "a", True)])
        self.assertEqual((overlay.not_captured, found[6].came), ({"a": 1, "b": 0}, found[6].time))


class Drift(CaptureCase):
    def test_a_clock_that_is_slow(self) -> None:
        # In an hour the clock of b gains 180 ms (50 parts of a million).
        rng = random.Random(7)
        seen: Tuple[List[Tuple[int, bytes]], List[Tuple[int, bytes]]] = ([], [])
        for nth in range(3600):
            which, time = rng.randrange(2), NOON + nth * SECOND
            packet = ethernet(ip((A, B)[which], deletion(nth)))
            way = rng.randrange(50_000, 150_000)
            for at in (0, 1):
                if at == which or nth % 100:
                    there = time + way * (at != which)
                    seen[at].append((there + HOUR + (there - NOON) // 20000 if at else there, packet))
        overlay = self.overlay(*(pcap(its, nanoseconds=True) for its in seen))
        found = [*overlay.sent()]
        self.assertEqual([one.message.records[0].id for one in found], [*range(3600)])
        self.assertEqual({one.number - 1 for one in found if one.arrived is False}, {*range(100, 3600, 100)})
        for nth, one in enumerate(found):
            self.assertLess(abs(one.time - NOON - nth * SECOND), MILLISECOND)
        self.assertLess(abs(overlay.sides.clocks.first - HOUR), 5 * MILLISECOND)
        self.assertLess(abs(overlay.sides.clocks.last - HOUR - 180 * MILLISECOND), 5 * MILLISECOND)

    def test_a_drift_that_is_more_than_the_way(self) -> None:
        """A way of 20 us, a frame each second, and a clock of b that gains or loses 50 us in that time."""
        for drift in (5e-5, -5e-5, 1e-4, -1e-4):
            given = [(1000.0 * nth, "ab"[nth % 2], deletion(nth)) for nth in range(400)]
            files = [
                pcap(
                    [
                        (moment + (int((moment - NOON) * drift) if node == "b" else 0), ethernet(ip(A if sender == "a" else B, its)))
                        for after, sender, its in given
                        for moment in [NOON + round(after * MILLISECOND) + 20_000 * (sender != node)]
                    ],
                    nanoseconds=True,
                )
                for node in "ab"
            ]
            for contents, nodes in ((files, {A: "a", B: "b"}), (files[::-1], {B: "a", A: "b"})):
                sides = self.overlay(*contents).sides
                self.assertEqual((sides.nodes, sides.is_guess), (nodes, False), drift)
                self.assertEqual(sides.why, FIRST.format("0.020"))

    def test_a_clock_that_is_set(self) -> None:
        given = [(1000.0 * nth, "ab"[nth % 2], deletion(nth), True) for nth in range(400)]
        a, b = both(given[:200])
        for step in (-HOUR, HOUR, 30 * SECOND):
            later, set_back = both(given[200:], step)
            overlay = self.overlay(a + later[24:], b + set_back[24:])
            found = [*overlay.sent()]
            self.assertLess(sum(one.arrived is not True for one in found), 40)
            clocks = overlay.sides.clocks
            self.assertEqual((clocks.first, clocks.last), (0, step))
            moment = clocks.was_set
            assert moment
            self.assertLess(abs(moment - NOON - 200 * SECOND), 20 * SECOND)
            self.assertEqual((overlay.sides.nodes, overlay.sides.is_guess), ({A: "a", B: "b"}, False))
            self.assertEqual(overlay.covered[0], (NOON, NOON + 399 * SECOND + WAY))
            self.assertEqual(overlay.covered[1], (NOON + WAY, NOON + 399 * SECOND))


class OtherCaptures(CaptureCase):
    def test_one_alone(self) -> None:
        a, b = both(FIVE)
        overlay = self.overlay(a)
        self.assertTrue(overlay.sides.is_guess)
        self.assertEqual(fates([*overlay.sent()]), [(1, "a", None), (2, "b", True), (3, "a", None), (5, "a", None), (6, "b", True)])
        overlay = self.overlay(b, a=B)
        self.assertFalse(overlay.sides.is_guess)
        self.assertEqual(fates([*overlay.sent()]), [(1, "b", True), (2, "a", None), (4, "a", None), (5, "b", True), (6, "a", None)])

    def test_pfsync_itself(self) -> None:
        found = self.sent(own("a"), own("b"))
        self.assertEqual(fates(found), [(nth + 1, "ab"[nth % 2], None) for nth in range(6)])
        overlay = self.overlay(own("a"))
        self.assertEqual(fates([*overlay.sent()]), [(1, "a", None), (3, "a", None), (5, "a", None)])
        self.assertEqual((overlay.hears("a"), overlay.hears("b")), (True, False))

    def test_pfsync_itself_and_the_link(self) -> None:
        link = both(FIVE, HOUR)
        # What b sends can not be seen at a, and whether it came is not known.
        found = self.sent(own("a"), link[1])
        self.assertEqual(fates(found), [(1, "a", True), (2, "b", None), (3, "a", False), (4, "b", None), (5, "a", True), (6, "b", None)])
        found = self.sent(link[0], own("b", HOUR))
        self.assertEqual(fates(found), [(1, "a", None), (2, "b", True), (3, "a", None), (4, "b", False), (5, "a", None), (6, "b", True)])

    def test_both_links_in_one_file(self) -> None:
        a, b = both(FIVE)
        again = b"".join(made.enhanced(at(it) // 1000, it[2], 1) for it in FIVE if it[1] == "a")
        found = self.sent(pcapng(seen_at("a")) + made.interface(PFSYNC) + again, b)
        self.assertEqual(fates(found), fates(self.sent(a, b)))

    def test_forms_say_the_same(self) -> None:
        wanted = fates(self.sent(*both(FIVE)))
        a, b = both(FIVE)
        raw = pcap([(time, packet[14:]) for time, packet in seen_at("a")], 101, ">")
        for first in (a, pcapng(seen_at("a")), raw):
            self.assertEqual(fates(self.sent(first, b)), wanted)

    def test_short_snap_lengths(self) -> None:
        # One capture has only the first bytes: the rest comes from the other one.
        whole = [(*it[:2], message(group(made.DEL_C, name(nth), name(nth + 100))), it[3]) for nth, it in enumerate(FIVE)]
        a = pcap([(at(it), packet(it)) for it in whole if it[1] == "a" or it[3]], ETHERNET, kept=34 + 40)
        found = self.sent(a, both(whole)[1])
        said = [(len(it.message.records), it.arrived) for it in found]
        self.assertEqual(said, [(2, True), (2, True), (1, False), (2, False), (2, True), (2, True)])

    def test_no_message(self) -> None:
        alone = "; if it is, its node sent and heard nothing: give the other capture alone"
        for files, why in (
            ([pcap([])], "A.pcap has no message of pfsync: is it a capture of the sync interface?"),
            ([pcap([(NOON, b"what")]), both(FIVE)[1]], f"A.pcap has no message of pfsync: is it a capture of the sync interface?{alone}"),
            ([both(FIVE)[0], pcap([(NOON, b"what")])], f"B.pcap has no message of pfsync: is it a capture of the sync interface?{alone}"),
            ([both(FIVE)[0], both(FIVE)[0]], "A.pcap and B.pcap are the same capture: one of node a and one of node b are compared"),
            ([b"no capture"], "A.pcap: the file is neither pcap nor pcapng"),
        ):
            with self.assertRaises(BadCapture) as fault:
                self.overlay(*files)
            self.assertEqual(str(fault.exception).replace(f"{self.room}/", ""), why)

    def test_one_file_by_two_names(self) -> None:
        first, second = self.file("A.pcap", both(FIVE)[0]), self.room / "B.pcap"
        second.symlink_to(first)
        for path in (first, str(second)):
            with self.assertRaises(BadCapture) as fault:
                Overlay([first, path])
            self.assertIn(" are the same capture: ", str(fault.exception))

    def test_captures_that_are_exchanged(self) -> None:
        """The address of a is given, and the captures show another one."""
        self.assertEqual(self.overlay(*both(FIVE), a=A).sides.exchanged, "")
        exchanged = self.overlay(*both(FIVE)[::-1], a=A).sides.exchanged
        why = FIRST.format("0.200")
        self.assertEqual(exchanged, f"{B}: {why}")
        self.assertEqual(self.overlay(own("a"), both(FIVE)[1], a=A).sides.exchanged, "")
        exchanged = self.overlay(own("a"), both(FIVE)[1], a=B).sides.exchanged
        self.assertEqual(exchanged, f"{A}: the capture of the pfsync0 of a has the same messages as {A} sent")

    def test_a_pipe(self) -> None:
        path = str(self.room / "pipe")
        os.mkfifo(path)
        a, b = both(FIVE)
        writer = threading.Thread(target=lambda: Path(path).write_bytes(a), daemon=True)
        writer.start()
        overlay = Overlay([path, self.file("B.pcap", b)])
        writer.join(20)
        self.assertEqual(len([*overlay.sent()]), 6)


if __name__ == "__main__":
    unittest.main()
