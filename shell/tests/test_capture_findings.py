"""What `capture` finds, each kind on a pair of captures of a few frames."""
from __future__ import annotations

import unittest
from typing import List

from ..captures.shown import shown
from . import capture_files as made
from .capture_cases import CaptureCase, Given, both, captures
from .capture_files import (
    A,
    B,
    NOON,
    OTHER_RULES,
    PFSYNC,
    SECOND,
    clear,
    group,
    message,
    name,
    pcap,
    peer,
    sent,
    short,
    state,
    status,
)

SINGLE, MULTIPLE = peer(1), peer(2)
ONE, TWO, THREE = (f"{it:016x}/0000000a" for it in (1, 2, 3))
FLOW = "udp 10.0.0.1:1000 -> 192.0.2.9:53"
OTHER_FLOW = "udp 10.0.0.2:1000 -> 192.0.2.9:53"
OTHER_ENDS = (("192.0.2.9", 53), ("10.0.0.2", 1000))


def inserted(*states: bytes) -> bytes:
    return message(group(made.INS, *states))


def updated(*records: bytes) -> bytes:
    return message(group(made.UPD_C, *records))


def asked(number: int, creator: int = 0xA) -> bytes:
    return message(group(made.UPD_REQ, name(number, creator)))


def beside(*given: Given) -> List[Given]:
    """The frames, and one of each node at both ends of the time, of which nothing is found."""
    first, last = inserted(state(0xF0, 0xF, ((("192.0.2.99", 9), ("192.0.2.98", 8))))), updated(short(0xF0, MULTIPLE, MULTIPLE, 0xF))
    one, two = (message(group(made.INS_ACK, name(it, 0xF))) for it in (0xF1, 0xF2))
    return [(-10, "a", first, True), (-9, "b", one, True), *given, (90_000, "a", last, True), (90_001, "b", two, True)]


class Findings(CaptureCase):
    """(Frame 3 is the first of those that each test is about; frames 1 and 2 are before it.)"""

    def test_nothing(self) -> None:
        said = self.captured(beside((0, "a", inserted(state(1)), True)))
        self.assertEqual((said.status, said.out[0]), (0, "nothing found in 5 frames"))
        self.assertEqual(
            said.out[1:7],
            [
                f"a is {A}, b is {B}: messages are in the capture of the sender first, 0.200 ms before the other,"
                " the difference of the clocks taken off",
                "a: 5 messages in A.pcap, from 11:59:59 to 12:01:30",
                "b: 5 messages in B.pcap, from 11:59:59 to 12:01:30",
                "a -> b: 3 frames: 3 came",
                "b -> a: 2 frames: 2 came",
                "times are in UTC; the clock of b is that of a, if frames take as long one way as the other; all times are those of a",
            ],
        )

    def test_a_lost_insertion(self) -> None:
        given = beside(
            (0, "a", inserted(state(1), state(2, wire=OTHER_ENDS)), False),
            (500, "a", updated(short(1, SINGLE, MULTIPLE)), True),
            (501, "b", asked(1), True),
            (502, "a", message(group(made.UPD, state(1))), True),
        )
        self.assertEqual(
            self.findings(given),
            [
                "1 frame not in the other capture, with 2 records of states, 1 of which was sent again; "
                "lost on the way, more than 500.000 ms late, or not captured: lesson lost-insertion.pfl",
                "  12:00:00.000000  frame 3 of a: 2 inserts; 1 of 2 states sent again in frame 6, after 502.000 ms;"
                f" not sent again here: {TWO}",
                "1 request for a state, 1 answered; "
                "an update came of a state that the node did not have: lessons lost-insertion.pfl, lost-frame.pfl",
                f"  12:00:00.501000  frame 5 of b asks for {ONE}  {FLOW}: frame 3 had it 501.000 ms before, and is not in the capture of b;"
                " answered in frame 6 after 1.000 ms",
            ],
        )

    def test_a_lost_update_is_made_up_for_by_the_next(self) -> None:
        given = beside(
            (0, "a", inserted(state(1)), True),
            (10, "a", updated(short(1, MULTIPLE, SINGLE)), False),
            (20, "a", updated(short(1, MULTIPLE, MULTIPLE)), True),
            (30, "a", message(group(made.DEL_C, name(1))), False),
        )
        said = self.findings(given)
        lost = "2 frames not in the other capture, with 1 record of a state, 1 of which was sent again"
        self.assertEqual(said[0].partition(";")[0], lost)
        self.assertEqual(
            said[1:],
            [
                "  12:00:00.010000  frame 4 of a: 1 short update; sent again in frame 5, after 10.000 ms",
                "  12:00:00.030000  frame 6 of a: 1 short delete",
            ],
        )

    def test_what_is_lost_twice(self) -> None:
        given = beside(
            (0, "a", inserted(state(1)), False),
            (10, "a", updated(short(1, SINGLE, MULTIPLE)), True),
            (11, "b", asked(1), True),
            (12, "a", message(group(made.UPD, state(1))), False),
        )
        said = self.findings(given)
        lost = "2 frames not in the other capture, with 2 records of states, 0 of which were sent again"
        self.assertEqual(said[0].partition(";")[0], lost)
        either = "was sent again only in frame 6 after 12.000 ms, which is not in the capture of b either"
        self.assertEqual(said[1], f"  12:00:00.000000  frame 3 of a: 1 insert; {ONE} {either}")
        self.assertEqual(said[2], f"  12:00:00.012000  frame 6 of a: 1 update; not sent again here: {ONE}")

    def test_a_frame_that_is_very_late(self) -> None:
        """Frame 3 comes after 600 ms, which is more than is looked for."""
        a, b = ([*its] for its in captures(beside((0, "a", inserted(state(1)), True))))
        b[2] = (NOON + 600 * 10**6, b[2][1])
        files = self.files([pcap(sorted(its, key=lambda one: one[0]), nanoseconds=True) for its in (a, b)])
        out = self.run_with(*files).out
        self.assertIn("1 frame of a came, and the capture of a does not have it within 500.000 ms", out)
        self.assertIn("  12:00:00.000000  frame 3 of a: 1 insert; sent again in frame 4, after 600.000 ms", out)

    def test_late_frames_do_not_move_the_clocks(self) -> None:
        """Of the four frames of b three come 100 ms late: the other one says what the clocks are."""
        flows = {nth: (("192.0.2.9", nth), ("10.0.0.1", 1)) for nth in range(1, 8)}
        given = [(100.0 * nth, "ab"[nth % 2], inserted(state(nth, wire=its)), True) for nth, its in flows.items()]
        a, b = ([*its] for its in captures(given))
        a = [(time + 100 * 10**6 * (nth in (1, 3, 5)), its) for nth, (time, its) in enumerate(a, 1)]
        files = self.files([pcap(sorted(its, key=lambda one: one[0]), nanoseconds=True) for its in (a, b)])
        out = self.run_with(*files, "--a", A).out
        clocks = "the clock of b is that of a, if frames take as long one way as the other; all times are those of a"
        self.assertIn(f"times are in UTC; {clocks}", out)

    def test_the_other_node_sends_nothing_again(self) -> None:
        """What b sends of a state is no repetition of what a sent, and may be older."""
        given = beside(
            (0, "a", inserted(state(1)), True),
            (10, "a", updated(short(1, MULTIPLE, MULTIPLE)), False),
            (20, "b", updated(short(1, SINGLE, MULTIPLE)), True),
            (30, "a", updated(short(1, MULTIPLE, MULTIPLE)), True),
        )
        said = self.findings(given)
        self.assertEqual(said[1], "  12:00:00.010000  frame 4 of a: 1 short update; sent again in frame 6, after 20.000 ms")
        said = self.findings(given[:5] + given[6:])
        self.assertEqual(said[1], f"  12:00:00.010000  frame 4 of a: 1 short update; not sent again here: {ONE}")

    def test_many_losses_in_a_row(self) -> None:
        """Twelve short updates of a state are lost, and the next one comes."""
        update = updated(short(1, MULTIPLE, MULTIPLE))
        rows = [(100.0 * nth, "a", update, nth == 13) for nth in range(1, 14)]
        for options, listed in (((), 5), (("--all",), 12)):
            said = self.findings(beside((0, "a", inserted(state(1)), True), *rows), *options)
            self.assertEqual(
                said[0].partition(";")[0], "12 frames not in the other capture, with 12 records of states, 12 of which were sent again"
            )
            wanted = [
                f"  12:00:0{nth // 10}.{nth % 10}00000  frame {nth + 3} of a: 1 short update; sent again in frame 16, after "
                + ("1.200 s" if nth == 1 else "1.100 s" if nth == 2 else "1.000 s" if nth == 3 else f"{1300 - 100 * nth}.000 ms")
                for nth in range(1, 13)
            ]
            self.assertEqual(said[1 : 1 + listed], wanted[:listed])
        # Without the last one, each but the last was sent again in vain.
        said = self.findings(beside((0, "a", inserted(state(1)), True), *rows[:3]))
        either = f"{ONE} was sent again only in frames that are not in the capture of b either, the last of them frame 6 after 200.000 ms"
        self.assertEqual(
            said[1:],
            [
                f"  12:00:00.100000  frame 4 of a: 1 short update; {either}",
                f"  12:00:00.200000  frame 5 of a: 1 short update; {ONE} was sent again only in frame 6 after 100.000 ms,"
                " which is not in the capture of b either",
                f"  12:00:00.300000  frame 6 of a: 1 short update; not sent again here: {ONE}",
            ],
        )

    def request(self, *given: Given) -> str:
        """What is said of the request of a few frames."""
        said = [finding for finding in self.findings(beside(*given)) if f" asks for {ONE}" in finding]
        self.assertEqual(len(said), 1, said)
        return said[0].strip().partition("  ")[2]

    def test_requests(self) -> None:
        update, ask = updated(short(1, SINGLE, MULTIPLE)), asked(1)
        answer = message(group(made.UPD, state(1)))
        came = self.request((0, "a", inserted(state(1)), True), (10, "a", update, True), (20, "b", ask, True), (40, "a", answer, True))
        refused = "refused there (table full, key in use, unknown interface), or gone since"
        end = "answered in frame 6 after 20.000 ms"
        before = "frame 3 had it 20.000 ms before and came"
        self.assertEqual(came, f"frame 5 of b asks for {ONE}  {FLOW}: {before}: the state was {refused}; {end}")
        never = self.request((10, "a", update, True), (20, "b", ask, True))
        self.assertEqual(
            never,
            f"frame 4 of b asks for {ONE}  (its flow is not known here): no frame here has brought it, unless it was gone more than 10 s before;"
            " no answer of a is here",
        )
        lost = self.request((0, "a", update, True), (10, "b", ask, True), (20, "a", answer, False))
        self.assertTrue(lost.endswith("; answered in frame 5 after 10.000 ms, which is not in the capture of b"), lost)
        gone = self.request(
            (0, "a", inserted(state(1)), True), (5, "a", message(group(made.DEL_C, name(1))), True), (10, "b", ask, True)
        )
        end = "frame 3 had it 10.000 ms before and came, and a deleted it in frame 4; no answer of a is here"
        self.assertEqual(gone, f"frame 5 of b asks for {ONE}  {FLOW}: {end}")

    def test_why_a_state_may_be_gone(self) -> None:
        """A restart, whose request is lost, and a clear; and a frame with the state that comes only after the request for it."""
        begun, update, ask = inserted(state(1)), updated(short(1, SINGLE, MULTIPLE)), asked(1)
        restart, clears = asked(0, 0), message(group(made.CLR, clear(0xA)))
        had = f"frame 6 of b asks for {ONE}  {FLOW}: frame 3 had it 30.000 ms before and came, and "
        given = (0, "a", begun, True), (20, "a", update, True), (30, "b", ask, True)
        said = self.request(given[0], (10, "b", restart, False), *given[1:])
        self.assertEqual(said, f"{had}b asked for all states in frame 4, as after a restart; no answer of a is here")
        said = self.request(given[0], (10, "b", clears, True), *given[1:])
        self.assertEqual(said, f"{had}b cleared the states of its creator in frame 4; no answer of a is here")
        # (the restart was before the frame)
        said = self.request((-1, "b", restart, False), *given)
        self.assertIn("frame 4 had it 30.000 ms before and came: the state was refused there", said)
        # The frame with the state is on its way for 200 ms.
        a, b = ([*its] for its in captures(beside(*given)))
        b[2] = (NOON + 200 * 10**6, b[2][1])
        files = self.files([pcap(sorted(its, key=lambda one: one[0]), nanoseconds=True) for its in (a, b)])
        out = self.run_with(*files).out
        late = "frame 3 had it 30.000 ms before, and came 170.000 ms after the request; no answer of a is here"
        self.assertIn(f"  12:00:00.030000  frame 5 of b asks for {ONE}  {FLOW}: {late}", out)
        self.assertIn("12:00:00.000000  frame 3  a -> b  came after 200.000 ms  1 insert", out)

    def test_bulk_updates(self) -> None:
        every, begin, end = asked(0, 0), message(group(made.BUS, status(1))), message(group(made.BUS, status(2)))
        three = [message(group(made.UPD, state(nth), state(nth + 10))) for nth in (1, 2, 3)]
        sign = "a node asks for all states when its pfsync starts, as after a restart: lessons restart.pfl, lost-bulk-frame.pfl"
        updates = [(2100 + 100 * nth, "a", it, nth != 1) for nth, it in enumerate(three)]
        asks = (0, "b", every, False), (1000, "b", every, True)
        said = self.findings(beside(*asks, (2000, "a", begin, True), *updates, (3000, "a", end, True)))
        self.assertIn(f"1 bulk update; {sign}", said)
        self.assertIn(
            "  12:00:00.000000  b asks for all states in frame 3 (2 tries, the last in frame 4); a begins in frame 5 after 2.000 s;"
            " it ends in frame 9: 6 whole updates in 1.000 s; frame 7 of it is not in the capture of b, with 2 states",
            said,
        )
        said = self.findings(beside((0, "b", every, True)))
        waited = "a does not begin in the 90.001 s until the captures end: the request came, and a does not answer it here"
        self.assertEqual(said[1:], [f"  12:00:00.000000  b asks for all states in frame 3; {waited}"])
        waited = "a does not begin in the 90.001 s until the captures end: the request is not in the capture of a"
        said = self.findings(beside((0, "b", every, False)))
        self.assertEqual(said[-1], f"  12:00:00.000000  b asks for all states in frame 3; {waited}")
        said = self.findings(beside((0, "b", every, True), (10, "a", begin, True), (20, "a", three[0], True)))
        said_ = "a begins in frame 4 after 10.000 ms; no end of it is here: 2 whole updates until the captures end"
        self.assertEqual(said[1:], [f"  12:00:00.000000  b asks for all states in frame 3; {said_}"])
        said = self.findings(beside((0, "a", begin, True), (20, "a", end, True)))
        said_ = "a begins in frame 3; it ends in frame 4: 0 whole updates in 20.000 ms"
        self.assertEqual(said[1:], [f"  12:00:00.000000  a begins a bulk update without a request here; {said_}"])

    def test_a_bulk_update_within_one_frame(self) -> None:
        begin, end = (group(made.BUS, status(it)) for it in (1, 2))
        its = message(group(made.UPD, state(1), state(2)), begin, group(made.UPD, state(3)), end)
        said = self.findings(beside((0, "b", asked(0, 0), True), (5, "a", its, True)))
        said_ = "a begins in frame 4 after 5.000 ms; it ends in frame 4: 3 whole updates in 0.000 ms"
        self.assertEqual(said[1:], [f"  12:00:00.000000  b asks for all states in frame 3; {said_}"])

    def test_what_is_no_update_of_a_bulk_update(self) -> None:
        """An answer to a request for a state comes between two updates of a bulk update, and counts apart."""
        begin, end = (group(made.BUS, status(it)) for it in (1, 2))
        given = (
            (0, "b", asked(0, 0), True),
            (5, "a", message(begin, group(made.UPD, state(1))), True),
            (6, "a", updated(short(3, SINGLE, MULTIPLE)), True),
            (7, "b", asked(3), True),
            (8, "a", message(group(made.UPD, state(3))), True),
            (9, "a", message(group(made.UPD, state(2)), end), True),
        )
        said_ = "a begins in frame 4 after 5.000 ms; it ends in frame 8: 2 whole updates and 1 more that answers a request in 4.000 ms"
        self.assertEqual(self.findings(beside(*given))[-1], f"  12:00:00.000000  b asks for all states in frame 3; {said_}")

    def test_a_bulk_update_of_which_the_end_is_lost(self) -> None:
        """It has no states: its start and its end are in one frame."""
        begin, end = (group(made.BUS, status(it)) for it in (1, 2))
        asks, frames = (0, "b", asked(0, 0), True), "a begins in frame 4 after 5.000 ms; it ends in frame"
        said = self.findings(beside(asks, (5, "a", message(begin, end), False)))
        lost = "4: 0 whole updates in 0.000 ms; frame 4 of it is not in the capture of b, with its start and its end"
        self.assertEqual(said[-1], f"  12:00:00.000000  b asks for all states in frame 3; {frames} {lost}")
        update = message(group(made.UPD, state(1)), end)
        said = self.findings(beside(asks, (5, "a", message(begin), True), (9, "a", update, False)))
        lost = "5: 1 whole update in 4.000 ms; frame 5 of it is not in the capture of b, with its end and 1 state"
        self.assertEqual(said[-1], f"  12:00:00.000000  b asks for all states in frame 3; {frames} {lost}")

    def test_an_update_before_the_start_in_its_frame_is_sent_back_by_nobody(self) -> None:
        """A bulk update sends the states as they are: here as b had sent the first one."""
        begin, end = (group(made.BUS, status(it)) for it in (1, 2))
        given = beside(
            (0, "b", inserted(state(1)), True),
            (100, "b", asked(0, 0), True),
            (200, "a", message(group(made.UPD, state(1)), begin, end), True),
        )
        self.assertEqual([finding for finding in self.findings(given) if "just as" in finding], [])

    def test_two_names(self) -> None:
        mine, theirs = inserted(state(1)), inserted(state(1, 0xB))
        said = self.findings(beside((0, "a", mine, True), (10, "b", theirs, True)))
        self.assertEqual(said[0].partition(";")[0], "1 flow under two names")
        self.assertEqual(said[1:], [f"  12:00:00.010000  {ONE} | 0000000000000001/0000000b  {FLOW}"])
        # One that is deleted soon gave way to the other; and another interface is another flow.
        gone = message(group(made.DEL_C, name(1)))
        self.assertEqual(self.findings(beside((0, "a", mine, True), (10, "b", theirs, True), (500, "a", gone, True))), [])
        there = inserted(state(1, 0xB, interface="em1"))
        self.assertEqual(self.findings(beside((0, "a", mine, True), (10, "b", there, True))), [])
        self.assertEqual(self.findings(beside((0, "a", mine, True), (10, "a", inserted(state(2)), True))), [])

    def test_a_state_whose_time_is_up_is_no_second_name(self) -> None:
        """The state of a has 60 s left, and b inserts one of the same flow after 70 s, or after 50 s."""
        mine, theirs = inserted(state(1)), inserted(state(1, 0xB))
        self.assertEqual(self.findings(beside((0, "a", mine, True), (70_000, "b", theirs, True))), [])
        said = self.findings(beside((0, "a", mine, True), (50_000, "b", theirs, True)))
        self.assertEqual(said[0].partition(";")[0], "1 flow under two names")

    def test_two_names_by_a_key_in_the_stack(self) -> None:
        # Both nodes translate a flow, each with a port of its own.
        inner = (("192.0.2.9", 53), ("10.0.0.1", 1000))
        ones = [(("192.0.2.9", 53), ("203.0.113.1", port)) for port in (50001, 60001)]
        mine, theirs = inserted(state(1, wire=ones[0], stack=inner)), inserted(state(1, 0xB, ones[1], inner))
        said = self.findings(beside((0, "a", mine, True), (10, "b", theirs, True)))
        flow = "udp 203.0.113.1:60001 (10.0.0.1:1000) -> 192.0.2.9:53"
        self.assertEqual(said[1:], [f"  12:00:00.010000  {ONE} | 0000000000000001/0000000b  {flow}"])

    def test_deletions_by_the_other_node(self) -> None:
        gone = message(group(made.DEL_C, name(1)))
        said = self.findings(beside((0, "a", inserted(state(1)), True), (500, "b", gone, True)))
        self.assertEqual(said[0].partition(";")[0], "1 state deleted by the node that did not insert it")
        self.assertEqual(said[1:], [f"  12:00:00.500000  frame 4 of b: {ONE}  {FLOW}, which a inserted"])
        self.assertEqual(self.findings(beside((0, "a", inserted(state(1)), True), (500, "a", gone, True))), [])
        # The second of two deletions is none of a state that is there.
        both_delete = ((0, "a", inserted(state(1)), True), (500, "a", gone, True), (501, "b", gone, True))
        self.assertEqual(self.findings(beside(*both_delete)), [])

    def test_updates_behind(self) -> None:
        def tcp(lo: int, level: int = 4) -> bytes:
            return updated(short(1, peer(level, lo, (lo + 100) % 2**32, 100), peer(4, 7, 107, 100), left=86400, timeout=2))

        begun = inserted(state(1, protocol=6, source=peer(2, 1, 101, 100), timeout=0))
        flow = FLOW.replace("udp", "tcp")
        said = self.findings(beside((0, "a", begun, True), (10, "a", tcp(2000), True), (15, "b", tcp(1500), True)))
        self.assertEqual(said[0].partition(";")[0], "1 update older than what the other node had sent")
        older = "source older than what frame 4 had 5.000 ms before, which had come by then"
        self.assertEqual(said[1:], [f"  12:00:00.015000  frame 5 of b: {older}: {ONE}  {flow}"])
        said = self.findings(beside((0, "a", begun, True), (10, "a", tcp(2000), True), (10.1, "b", tcp(1500), True)))
        self.assertIn("older than what frame 4 had 0.100 ms before, which was on its way: ", said[1])
        # (numbers go round, and a level counts before them)
        said = self.findings(beside((0, "a", begun, True), (10, "a", tcp(50), True), (15, "b", tcp(2**32 - 50), True)))
        self.assertIn("source older than what frame 4 had", said[1])
        self.assertEqual(self.findings(beside((0, "a", begun, True), (10, "a", tcp(2**32 - 200), True), (15, "b", tcp(50), True))), [])
        self.assertEqual(self.findings(beside((0, "a", begun, True), (10, "a", tcp(2000), True), (15, "b", tcp(1500, 9), True))), [])
        # Behind a frame that did not come is no wonder.
        said = self.findings(beside((0, "a", begun, True), (10, "a", tcp(2000), False), (15, "b", tcp(1500), True)))
        self.assertEqual([it for it in said if "older than" in it], [])

    def test_updates_sent_back(self) -> None:
        update = updated(short(1, MULTIPLE, MULTIPLE))
        said = self.findings(beside((0, "a", inserted(state(1)), True), (10, "a", update, True), (12, "b", update, True)))
        self.assertEqual(said[0].partition(";")[0], "1 update just as the other node had sent it")
        self.assertEqual(said[1:], [f"  12:00:00.012000  frame 5 of b, 2.000 ms after frame 4: {ONE}  {FLOW}"])
        self.assertEqual(self.findings(beside((0, "a", inserted(state(1)), True), (10, "a", update, True), (1020, "b", update, True))), [])

    def test_checksums_of_the_rules(self) -> None:
        other = message(group(made.INS, state(1)), checksum=OTHER_RULES)
        same, changed = "000102030405060708090a0b0c0d0e0f", "101112131415161718191a1b1c1d1e1f"
        said = self.findings(beside((0, "b", other, True)))
        self.assertEqual(said[0].partition(";")[0], "2 differences and changes of the rules' checksums")
        self.assertEqual(
            said[1:],
            [
                f"  12:00:00.000000  frame 3: the checksum of b changes from {same} to {changed}, which is not that of the other node",
                f"  12:01:30.001000  frame 5: the checksum of b changes from {changed} to {same}, which is that of the other node",
            ],
        )
        said = self.findings([(0, "a", message(), True), (10, "b", other, True), (20, "a", inserted(state(2)), True)])
        self.assertEqual(said[1:], [f"  12:00:00.010000  frame 2: a has {same}, b has {changed}"])

    def test_clears(self) -> None:
        said = self.findings(beside((0, "a", message(group(made.CLR, clear(0xA), clear(0xB, "em0"))), True)))
        self.assertEqual(said[0].partition(";")[0], "2 clears")
        self.assertEqual(
            said[1:],
            [
                "  12:00:00.000000  frame 3 of a: of all states made by 0000000a",
                "  12:00:00.000000  frame 3 of a: of all states made by 0000000b on em0",
            ],
        )
        # What was cleared is no second name.
        flush = message(group(made.CLR, clear(0xA)))
        given = beside((0, "a", inserted(state(1)), True), (5, "a", flush, True), (10, "b", inserted(state(1, 0xB)), True))
        self.assertEqual([finding for finding in self.findings(given) if "two names" in finding], [])

    def test_acknowledgements(self) -> None:
        held, ack = inserted(state(1, flags=0x10)), message(group(made.INS_ACK, name(1)))
        self.assertEqual(self.findings(beside((0, "a", held, True), (1, "b", ack, True))), [])
        said = self.findings(beside((0, "a", held, True)))
        self.assertEqual(said[0].partition(";")[0], "1 insertion of which no acknowledgement is here")
        self.assertEqual(said[1:], [f"  12:00:00.000000  frame 3 of a: {ONE}  {FLOW}"])
        said = self.findings(beside((0, "a", held, False)))
        self.assertEqual(said[-1], f"  12:00:00.000000  frame 3 of a: {ONE}  {FLOW}, which is not in the capture of b")
        # (half a second before the captures end, it may be acknowledged after that)
        self.assertEqual(self.findings(beside((89_500, "a", held, True))), [])

    def test_frames_that_are_not_read(self) -> None:
        said = self.findings(beside((0, "a", message(version=6), True)))
        self.assertEqual(said[0], "1 frame not read to its end; what was not read of them is not in this report")
        why = "version 6 of pfsync is OpenBSD's, whose records are not read here: version 5 is"
        self.assertEqual(said[1:], [f"  12:00:00.000000  frame 3 of a: {why}"])

    def test_the_first_of_each(self) -> None:
        gone = [(nth, "b", message(group(made.DEL_C, name(nth))), True) for nth in range(1, 9)]
        begun = (0, "a", inserted(*(state(nth, wire=(("192.0.2.9", nth), ("10.0.0.1", 1))) for nth in range(1, 9))), True)
        said = self.findings(beside(begun, *gone))
        self.assertEqual((len(said), said[-1]), (7, "  and 3 more; --all lists them"))
        self.assertEqual(len(self.findings(beside(begun, *gone), "--all")), 9)


class Alone(CaptureCase):
    """One capture, or captures of pfsync0."""

    def test_evidence(self) -> None:
        # The capture of a does not say what came to b; what b sends does.
        given = beside(
            (0, "a", inserted(state(1)), True),
            (10, "a", inserted(state(2, wire=OTHER_ENDS)), True),
            (20, "a", inserted(state(3, wire=(("192.0.2.9", 53), ("10.0.0.3", 1)), flags=0x10)), True),
            (30, "b", message(group(made.UPD_C, short(1, SINGLE, MULTIPLE)), group(made.INS_ACK, name(3))), True),
            (40, "a", updated(short(2, MULTIPLE, MULTIPLE)), True),
            (50, "b", asked(2), True),
        )
        said = self.run_with(self.file("A.pcap", both(given)[0]), "--a", A)
        later = "later frames show that 3 came and 1 did not come in time, or a state of it was not kept"
        self.assertIn(f"a -> b: 6 frames: no capture says whether 6 came ({later})", said.out)
        came = [it.split("  ")[3] for it in said.out if "  a -> b  " in it]
        self.assertEqual(
            came,
            [
                "not known whether it came",
                f"came, since b knows {ONE} in frame 6",
                f"did not come in time, or a state of it was not kept: b asks for {TWO} in frame 8",
                f"came, since b acknowledges {THREE} in frame 6",
                "came, since b asks for a state of it in frame 8",
                "not known whether it came",
            ],
        )
        ask = next(it for it in said.out if " asks for " in it and it.startswith("  12"))
        self.assertIn(f"{OTHER_FLOW}: frame 4 had it 40.200 ms before: it was lost, or the state was refused there", ask)

    def test_what_is_no_evidence(self) -> None:
        # What b has may have come by another frame, and so may the update for which it asks.
        whole, update = message(group(made.UPD, state(1))), updated(short(1, SINGLE, MULTIPLE))
        for given in (
            ((0, "a", inserted(state(1)), True), (5, "a", whole, True), (10, "b", update, True)),
            ((0, "b", inserted(state(1)), True), (5, "a", whole, True), (10, "b", update, True)),
            ((0, "a", updated(short(1, SINGLE, SINGLE)), True), (5, "a", update, True), (10, "b", asked(1), True)),
        ):
            said = self.run_with(self.file("A.pcap", both(beside(*given))[0]), "--a", A)
            self.assertEqual([it for it in said.out if "later frames" in it or "came, since" in it], [])

    def test_evidence_of_a_frame_that_came_stays(self) -> None:
        """b changes the state, is restarted, and asks for the state: that frame 3 came is shown by the change."""
        update = updated(short(1, SINGLE, MULTIPLE))
        given = beside(
            (0, "a", inserted(state(1)), True),
            (10, "b", update, True),
            (20, "b", asked(0, 0), False),
            (30, "a", update, True),
            (31, "b", asked(1), True),
        )
        path = self.file("A.pcap", both(given)[0])
        said = [it.split("  ")[3] for it in self.run_with(path, "--a", A).out if "  frame 3  " in it or "  frame 5  " in it]
        self.assertEqual(said, [f"came, since b knows {ONE} in frame 4", "came, since b asks for a state of it in frame 6"])
        # (frames 1 and 7 are of another state; frame 2 is b's)
        self.assertEqual(shown([*self.overlay(both(given)[0], a=A).sent()]), {2: True, 4: True})

    def test_a_restart_is_a_reason_of_its_own(self) -> None:
        """What b asks for after its restart it may have had before."""
        given = beside(
            (0, "a", inserted(state(1)), True),
            (20, "b", asked(0, 0), True),
            (30, "a", updated(short(1, SINGLE, MULTIPLE)), True),
            (31, "b", asked(1), True),
        )
        out = self.run_with(self.file("A.pcap", both(given)[0]), "--a", A).out
        self.assertEqual([it.split("  ")[3] for it in out if "  frame 3  " in it], ["not known whether it came"])

    def test_what_cannot_be_heard(self) -> None:
        # The pfsync0 of b has its requests, and nothing of a: an answer would not be there.
        its = pcap([(NOON, asked(1)), (NOON + SECOND, asked(0, 0)), (NOON + 2 * SECOND, inserted(state(1, 0xB, flags=0x10)))], PFSYNC)
        said = self.run_with(self.file("B.pcap", its))
        self.assertEqual(said.status, 1)
        self.assertEqual([it for it in said.out if "no acknowledgement" in it], [])
        self.assertEqual(sum("no capture has what b sends" in it for it in said.out), 2)

    def test_one_file_says_so(self) -> None:
        said = self.run_with(self.file("A.pcap", pcap(sent(A, (NOON, inserted(state(1)))))))
        self.assertEqual(said.status, 0)
        self.assertEqual(
            said.out[1],
            f"a is {A}: a guess, since one capture does not show whose it is, and is taken as that of a;"
            " --a ADDRESS settles it",
        )
        self.assertEqual(said.out[3], "a -> b: 1 frame: no capture says whether 1 came")


if __name__ == "__main__":
    unittest.main()
