"""How packets are judged by the profile and by the kernel's rules, and what they and updates do to a state; no program is asked. All numbers
are worked out by hand from docs/FORMATS.md and docs/KERNEL.md."""
from __future__ import annotations

import unittest
from dataclasses import replace
from typing import List, Optional, Sequence, Tuple

from ..language.events import read_packet
from ..language.names import Name
from ..language.packets import Key
from ..model.explanations import Edge, Loose, OfState
from ..model.frames import Changes
from ..model.kernels import PROFILE, Kernel
from ..model.merging import merged
from ..model.states import End, State
from ..model.tracking import judged, moved, started

KEY = Key("192.0.2.9:80", "10.0.0.1:1000")
SILENT = End(0, None, 0, 0, 0)
CIRCLE = 2**32
# The client's next number is 101, and the server's 501; the client offers 1000, and the server 2000.
OPENED = (End(4, None, 1000, 101, 2101), End(4, None, 2000, 501, 1501))
# Of the client a SYN alone was seen.
BEGUN = (End(2, None, 1000, 100, 102), SILENT)
# The client has closed, and the server has acknowledged that.
HALF = (End(9, None, 1000, 102, 2102), End(4, None, 2000, 501, 1501))
CLOSED = (End(9, None, 1000, 102, 2102), End(9, None, 2000, 502, 1502))
# Both have offered a scale: 2 and 3.
SCALED = (End(4, 2, 65535, 5000, 65001), End(4, 3, 60000, 9001, 74536))

Ends = Tuple[End, End]


def kernel(words: str) -> Kernel:
    return PROFILE.with_words(words.split())


def state(ends: Ends, timeout_class: str = "tcp.established") -> State:
    """A state of a connection that a client has begun on the way out, last used at 7 ms."""
    return State(Name(1, 1), "tcp", "out", KEY, KEY, *ends, timeout_class, 7, None, "-", 0, None)


def packet_line(words: str) -> str:
    """`client FLAGS SEQ ACK WIN LEN` or `server ..` as an event."""
    who, rest = words.split(" ", 1)
    way = "out tcp 10.0.0.1:1000 192.0.2.9:80" if who == "client" else "in tcp 192.0.2.9:80 10.0.0.1:1000"
    return f"packet a {way} {rest}"


def after(words: str, ends: Ends, *packets: str, timeout_class: str = "tcp.established") -> Optional[State]:
    """The state after packets at 5000 ms, by the rules with these words; nothing if one is dropped."""
    after: Optional[State] = state(ends, timeout_class)
    for packet in packets:
        after = moved(kernel(words), after, read_packet(packet_line(packet)), 5000) if after else None
    return after


def tests(words: str, ends: Ends, packet: str) -> OfState:
    return judged(kernel(words), state(ends), read_packet(packet_line(packet)))


class Judged(unittest.TestCase):
    """Which packets pass, and the ends after them."""

    def ends(self, words: str, before: Ends, packets: Sequence[str], wanted: Optional[Ends]) -> None:
        now = after(words, before, *packets)
        self.assertEqual(now and (now.source, now.destination), wanted, (words, packets))

    def test_a_segment_without_data_is_judged_by_what_it_acknowledges(self) -> None:
        far = "server A 5000 101 2000 0"
        for words in ("", "loose", "reset", "merge", "loose reset merge"):
            self.ends(words, OPENED, [far], None)
        for words in ("window", "window loose", "all"):
            self.ends(words, OPENED, [far], (End(4, None, 1000, 101, 2101), OPENED[1]))
        self.ends("window", OPENED, ["server A 5000 101 2000 1"], None)
        self.ends("window", OPENED, ["server FA 5000 101 2000 0"], None)
        # What it acknowledges may be 67035 ahead and as far behind.
        ahead, behind = 101 + 67035, (101 - 67035) % CIRCLE
        self.ends("window", OPENED, [f"server A 5000 {ahead} 2000 0"], (replace(OPENED[0], hi=ahead + 2000), OPENED[1]))
        self.ends("window", OPENED, [f"server A 5000 {behind} 2000 0"], OPENED)
        self.ends("window", OPENED, [f"server A 5000 {ahead + 1} 2000 0"], None)
        self.ends("window", OPENED, [f"server A 5000 {behind - 1} 2000 0"], None)

    def test_a_keepalive_after_a_failover(self) -> None:
        """5000 bytes of the server's were not seen here. It asks with the number before its next one; the answer mends the window."""
        asked, answered = "server A 5500 101 2000 0", "client A 101 5501 1000 0"
        self.ends("", OPENED, [asked], None)
        self.ends("window", OPENED, [asked, answered], (End(4, None, 1000, 101, 2101), End(4, None, 2000, 501, 6501)))
        data = "server A 5501 101 2000 1000"
        self.ends("window", OPENED, [asked, answered, data], (End(4, None, 1000, 101, 2101), End(4, None, 2000, 6501, 6501)))

    def test_a_reset_is_asked_for_its_number(self) -> None:
        closed = End(10, None, 1000, 101, 2101)
        for seq, lo in ((500, 501), (501, 501), (502, 502)):
            self.ends("reset", OPENED, [f"server R {seq} 0 0 0"], (closed, End(10, None, 2000, lo, 1501)))
        for seq in (499, 503, 1500):
            self.ends("reset", OPENED, [f"server R {seq} 0 0 0"], None)
            self.ends("window reset", OPENED, [f"server R {seq} 0 0 0"], None)
        self.ends("", OPENED, ["server R 503 0 0 0"], (closed, End(10, None, 2000, 503, 1501)))
        # Without `reset` any number passes by `window`, and moves lo no more.
        self.ends("window", OPENED, ["server R 3000000000 0 0 0"], (closed, End(10, None, 2000, 501, 1501)))
        self.ends("window loose", OPENED, ["server R 3000000000 0 0 0"], (closed, End(10, None, 2000, 501, 1501)))

    def test_the_acknowledged_number_0_of_a_reset(self) -> None:
        high = (End(4, None, 1000, 1000101, 1002101), OPENED[1])
        self.ends("", high, ["server RA 501 0 0 0"], None)
        self.ends("window reset", high, ["server RA 501 0 0 0"], (End(10, None, 1000, 1000101, 1002101), End(10, None, 2000, 501, 1501)))
        self.ends("window", high, ["server A 501 0 0 0"], None)

    def test_what_passes_loosely(self) -> None:
        late = "server FA 501 102 2000 3000"
        self.ends("", HALF, [late], None)
        self.ends("window reset merge", HALF, [late], None)
        self.ends("loose", HALF, [late], (HALF[0], End(7, None, 2000, 3502, 1501)))
        self.ends("loose", CLOSED, ["server FA 502 102 2000 3000"], (CLOSED[0], End(9, None, 2000, 3503, 1502)))
        # A reset lifts both; neither SYN nor ACK lifts an end.
        self.ends("loose", HALF, ["server R 501 0 0 3000"], (replace(HALF[0], level=10), End(10, None, 2000, 3501, 1501)))
        self.ends("loose reset", HALF, ["server R 1000 0 0 1"], (replace(HALF[0], level=10), End(10, None, 2000, 1001, 1501)))
        self.ends("loose", BEGUN, ["client SA 300 0 1000 0"], (End(2, None, 1000, 301, 102), SILENT))
        # Not in the middle of a connection, and not further than 67035: to the last byte after hi 1501, and from the first before lo 501.
        self.ends("loose", OPENED, [late], None)
        self.ends("loose", HALF, ["server A 65536 102 2000 3000"], (HALF[0], End(4, None, 2000, 68536, 1501)))
        self.ends("loose", HALF, ["server A 65537 102 2000 3000"], None)
        # (by a window of 1000 the left edge is at 4294966797)
        back = (501 - 67035) % CIRCLE
        self.ends("loose", HALF, [f"server A {back} 102 2000 1"], (HALF[0], HALF[1]))
        self.ends("loose", HALF, [f"server A {back - 1} 102 2000 1"], None)

    def test_the_first_data_after_a_failover(self) -> None:
        data, answer = "client PA 101 501 1000 400", "server A 501 501 2000 100"
        self.ends("", BEGUN, [data], None)
        self.ends("loose", BEGUN, [data], (End(2, None, 1000, 501, 102), SILENT))
        # By `window` the server may send what is offered, beyond the number 0, until it is heard.
        self.ends("window loose reset", BEGUN, [data], (End(2, None, 1000, 501, 102), End(0, None, 0, 0, 1000)))
        self.ends("window loose reset", BEGUN, [data, answer], (End(4, None, 1000, 501, 2501), End(2, None, 2000, 601, 1601)))

    def test_who_was_never_heard_begins(self) -> None:
        """The client's reset has closed both ends before the server was heard."""
        reset, answer = "client R 101 0 0 0", "server SA 500 101 2000 0"
        self.ends("", BEGUN, [reset, answer], None)
        self.ends("window", BEGUN, [reset, answer], (End(10, None, 1000, 100, 2101), End(10, None, 2000, 501, 1501)))
        # One whose number is 0 and who has a window was heard.
        zero = (End(2, None, 1000, 0, 2), SILENT)
        self.ends("window", zero, ["client S 0 0 1000 0"], (End(2, None, 1000, 1, 2), End(0, None, 0, 0, 1000)))

    def test_a_syn_that_is_sent_again(self) -> None:
        """What is offered beyond the number 0 is before the server's number, as numbers wrap: its hi stays, and its right edge is open."""
        again, answer = "client S 100 0 1000 0", "server SA 3000000000 101 2000 0"
        self.ends("", BEGUN, [again], (End(2, None, 1000, 101, 102), SILENT))
        self.ends("window", BEGUN, [again, answer], (End(4, None, 1000, 101, 2101), End(2, None, 2000, 3000000001, 1000)))
        # A number just before what is allowed begins there.
        near = "server SA 900 101 2000 0"
        self.ends("window", BEGUN, [again, near], (End(4, None, 1000, 101, 2101), End(2, None, 2000, 901, 1901)))

    def test_windows_of_syns_in_units_of_their_scale(self) -> None:
        """The client offers the scale 2, so that 60000 bytes are 15000 units; the server has 30001 at the scale 1."""
        begun, kept = (End(2, 2, window, 100, 102) for window in (60000, 15000))
        answer = "server SA 500 101 30001 0 1"
        # The units are rounded up: they are 30002 bytes.
        counted = (End(4, 2, 15000, 100, 30103), End(2, 1, 15001, 501, 501 + 60000))
        for words in ("scale", "window scale", "all"):
            self.ends(words, (kept, SILENT), [answer], counted)
        plain = (End(4, 2, 60000, 100, 101 + 30001), End(2, 1, 30001, 501, 501 + 60000))
        for words in ("", "window", "window loose merge expiry reset"):
            self.ends(words, (begun, SILENT), [answer], plain)
        # A window of 0 is one unit, and one that the server offers with no scale of the client's is kept in bytes.
        self.ends("scale", (kept, SILENT), ["server SA 500 101 0 0 1"], (End(4, 2, 15000, 100, 102), End(2, 1, 1, 501, 60501)))
        none = (End(2, None, 1000, 100, 102), SILENT)
        self.ends("scale", none, [answer], (End(4, None, 1000, 100, 30102), End(2, 1, 30001, 501, 1501)))

    def test_an_offer_that_is_not_answered_is_void(self) -> None:
        answer = "server SA 500 101 60000 0"
        for units, scale, window in ((15000, 2, 60000), (512, 7, 65535), (469, 7, 60032), (1, 14, 16384), (7, 0, 7)):
            begun = (End(2, scale, units, 100, 102), SILENT)
            wanted = (End(4, None, window, 100, 60101), End(2, None, 60000, 501, 501 + window))
            for words in ("scale", "all"):
                self.ends(words, begun, [answer], wanted)
            self.ends("", begun, [answer], (End(4, scale, units, 100, 60101), End(2, None, 60000, 501, 501 + units)))
        # If it is dropped nothing is changed, and without a SYN it is no answer.
        begun = (End(2, 7, 512, 100, 102), SILENT)
        self.ends("scale", begun, ["server SA 500 3000000000 60000 0"], None)
        self.ends("scale", begun, ["server A 500 101 60000 0"], (End(4, 7, 512, 100, 60101), End(2, None, 60000, 500, 1012)))

    def test_a_syn_that_is_no_first_packet_is_not_scaled(self) -> None:
        again = "client S 100 0 40000 0 2"
        for words in ("", "scale"):
            self.ends(words, (End(2, 2, 15000, 100, 102), SILENT), [again], (End(2, 2, 40000, 101, 102), SILENT))
        # Nor is an answer that comes again: by the profile's first packet it is no first one.
        answered = (End(4, 2, 15000, 100, 30103), End(2, 1, 15001, 501, 60501))
        wanted = (End(4, 2, 15000, 100, 30103), End(2, 1, 30001, 501, 60501))
        self.ends("scale", answered, ["server SA 500 101 30001 0 1"], wanted)
        self.ends("scale", answered, ["server SA 500 101 30001 0"], wanted)

    def test_who_begins_after_a_reset_answers_by_window(self) -> None:
        """A reset has closed both ends before the server was heard."""
        closed = (End(10, 2, 15000, 100, 102), End(10, None, 0, 0, 1))
        answer = "server SA 500 101 30001 0 1"
        self.ends("window scale", closed, [answer], (End(10, 2, 15000, 100, 30103), End(10, 1, 15001, 501, 60501)))
        self.ends("scale", closed, [answer], None)
        void = (End(10, None, 60000, 100, 30102), End(10, None, 30001, 501, 60501))
        self.ends("window scale", closed, ["server SA 500 101 30001 0"], void)

    def test_what_a_packet_begins(self) -> None:
        """The ends and the class of a new state."""
        for words, packet, window, scale in (
            *(("", "S 100 0 65535 0 7", 65535, 7), ("scale", "S 100 0 65535 0 7", 512, 7), ("all", "S 100 0 60000 0 2", 15000, 2)),
            *(("scale", "S 100 0 65408 0 7", 511, 7), ("scale", "S 100 0 65409 0 7", 512, 7), ("scale", "S 100 0 0 0 14", 1, 14)),
            *(("", "S 100 0 0 0", 1, None), ("scale", "S 100 0 65535 0", 65535, None), ("scale", "S 100 0 9 0 0", 9, 0)),
        ):
            source = End(2, scale, window, 100, 102)
            self.assertEqual(started(kernel(words), read_packet(packet_line(f"client {packet}"))), (source, SILENT, "tcp.first"), packet)
        begun = started(PROFILE, read_packet(packet_line("client FA 4294967295 5 9 10")))
        self.assertEqual(begun, (End(2, None, 9, 4294967295, 11), SILENT, "tcp.first"))
        for words, protocol, of, level in (
            *(("all", "udp", "udp", 1), ("all", "icmp", "icmp", 0), ("all", "47", "other", 1)),
            *(("", "icmp", "icmp", 1), ("icmp", "icmp", "icmp", 0), ("scale rule", "icmp", "icmp", 1), ("icmp", "58", "other", 1)),
        ):
            begun = started(kernel(words), read_packet(f"packet a out {protocol} 10.0.0.1:7 192.0.2.9:7 40"))
            self.assertEqual(begun, (End(level, None, 0, 0, 0), SILENT, f"{of}.first"), (words, protocol))

    def test_class_and_last_use(self) -> None:
        for words, ends, packet, wanted in (
            ("", OPENED, "client A 101 501 1000 0", ("tcp.established", 5000)),
            ("", HALF, "server FA 501 102 2000 0", ("tcp.finwait", 5000)),
            ("", OPENED, "client R 101 501 1000 0", ("tcp.closed", 5000)),
            ("window", OPENED, "client R 999999 501 1000 0", ("tcp.closed", 5000)),
            ("loose", HALF, "server FA 501 102 2000 3000", ("tcp.closing", 7)),
            ("loose", HALF, "server R 501 102 2000 3000", ("tcp.closing", 7)),
        ):
            now = after(words, ends, packet, timeout_class="tcp.closing")
            self.assertEqual(now and (now.timeout_class, now.last), wanted, (words, packet))

    def test_other_protocols(self) -> None:
        """By any rules a sender is heard, and the other end answered."""
        udp = replace(state((End(1, None, 0, 0, 0), SILENT), "udp.first"), protocol="udp")
        for words in ("", "all"):
            after: Optional[State] = udp
            found: List[object] = []
            for way in ("in udp 192.0.2.9:80 10.0.0.1:1000", "out udp 10.0.0.1:1000 192.0.2.9:80"):
                assert after
                self.assertEqual(judged(kernel(words), after, read_packet(f"packet a {way} 40")), OfState(Name(1, 1), {}))
                after = moved(kernel(words), after, read_packet(f"packet a {way} 40"), 9)
                found.append(after and (after.source.level, after.destination.level, after.timeout_class, after.last))
            self.assertEqual(found, [(2, 1, "udp.single", 9), (2, 2, "udp.multiple", 9)])

    def test_echoes_have_no_levels_by_the_kernel(self) -> None:
        """Class and last use are as ever."""
        for words, begun, wanted in (("", 1, [(2, 1), (2, 2)]), ("window", 1, [(2, 1), (2, 2)]), ("icmp", 0, [(0, 0)] * 2), ("all", 0, [(0, 0)] * 2)):
            keys = Key("192.0.2.9:7", "10.0.0.1:7")
            begins = replace(state((End(begun, None, 0, 0, 0), SILENT), "icmp.first"), protocol="icmp", wire=keys, stack=keys)
            after: Optional[State] = begins
            for way, levels in zip(("in icmp 192.0.2.9:7 10.0.0.1:7", "out icmp 10.0.0.1:7 192.0.2.9:7"), wanted):
                assert after
                after = moved(kernel(words), after, read_packet(f"packet a {way} 40"), 9)
                found = after and (after.source.level, after.destination.level, after.timeout_class, after.last)
                self.assertEqual(found, (*levels, "icmp.error", 9), words)


class Tests(unittest.TestCase):
    """The numbers of the tests."""

    def test_edges_by_the_profile(self) -> None:
        # At the scale 2 an acknowledgement may be 268140 behind; 5000 less 480000 is 4294492296 in 32 bits.
        tested = tests("", SCALED, "client A 4294492196 76037 100 1000")
        self.assertEqual(tested.edges["right"], Edge(4294493196, (65001,), None))
        self.assertEqual(tested.edges["left"], Edge(4294492196, (4294492296,), 100))
        self.assertEqual(tested.edges["ack"], Edge(76037, ((9001 - 268140) % CIRCLE, 76036), 1))
        self.assertEqual((tested.is_eased, tested.reset, tested.loose, tested.is_inside), (False, None, None, False))
        self.assertEqual([*tests("", OPENED, "server R 501 0 0 0").edges], ["right", "left"])

    def test_a_packet_without_data_is_where_its_sender_stands(self) -> None:
        tested = tests("window", OPENED, "server A 5000 101 2000 0")
        self.assertTrue(tested.is_eased and tested.is_inside)
        self.assertEqual(tested.edges["right"], Edge(501, (1501,), None))
        self.assertEqual(tested.edges["left"], Edge(501, ((501 - 1000) % CIRCLE,), None))
        # What does not count is what the other end has sent.
        self.assertEqual(tests("window", OPENED, "server R 5000 0 0 0").edges["ack"], Edge(101, ((101 - 67035) % CIRCLE, 67136), None))
        self.assertFalse(tests("window", OPENED, "server A 501 101 2000 1").is_eased)

    def test_an_answer_to_a_scale_counts_at_both(self) -> None:
        """64 kB back for the server, and 67035 units of the server's for what it acknowledges."""
        begun = (End(2, 7, 512, 1000000, 1000002), SILENT)
        answer = "server SA 4000000 900000 65535 0 7"
        tested = tests("scale", begun, answer)
        self.assertEqual(tested.edges["right"], Edge(4000001, (4000001 + 65536,), None))
        self.assertEqual(tested.edges["left"], Edge(4000000, (4000000 - 65536,), None))
        self.assertEqual(tested.edges["ack"], Edge(900000, ((1000000 - 8580480) % CIRCLE, 1067035), None))
        tested = tests("", begun, answer)
        self.assertEqual(tested.edges["right"], Edge(4000001, (4000001 + 512,), None))
        self.assertEqual(tested.edges["ack"], Edge(900000, (932965, 1067035), 32965))
        # An answer without a scale counts in bytes, and so does what the client has offered.
        tested = tests("scale", begun, answer[: -len(" 7")])
        self.assertEqual(tested.edges["left"], Edge(4000000, (4000000 - 65535,), None))
        self.assertEqual(tested.edges["ack"].missed, 32965)

    def test_the_number_of_a_reset(self) -> None:
        for words in ("reset", "window reset"):
            self.assertEqual(tests(words, OPENED, "server R 503 0 0 0").reset, Edge(503, (500, 502), 1))
            self.assertEqual(tests(words, OPENED, "server R 490 0 0 0").reset, Edge(490, (500, 502), 10))
            self.assertEqual(tests(words, OPENED, "server RA 500 101 0 0").reset, Edge(500, (500, 502), None))
            self.assertIsNone(tests(words, OPENED, "server A 503 101 0 0").reset)
        # Around 0 it is the same.
        zero = (OPENED[0], End(4, None, 2000, 0, 1501))
        self.assertEqual(tests("reset", zero, f"server R {CIRCLE - 1} 0 0 0").reset, Edge(CIRCLE - 1, (CIRCLE - 1, 1), None))
        self.assertEqual(tests("reset", zero, "server R 2 0 0 0").reset, Edge(2, (CIRCLE - 1, 1), 1))

    def test_further_edges_are_asked_for_only_outside_and_where_an_end_lets_it(self) -> None:
        late = "server FA 501 102 2000 3000"
        tested = tests("loose", HALF, late)
        self.assertEqual((tested.edges["right"].missed, tested.loose), (2001, Loose(None, None)))
        self.assertEqual((tested.is_inside, tested.passes_loosely), (False, True))
        self.assertIsNone(tests("loose", HALF, "server FA 501 102 2000 0").loose)
        self.assertIsNone(tests("loose", OPENED, late).loose)
        self.assertIsNone(tests("window reset merge", HALF, late).loose)
        self.assertEqual(tests("loose", HALF, "server A 65540 102 2000 3000").loose, Loose(4, None))
        self.assertEqual(tests("loose", HALF, f"server A {(501 - 67040) % CIRCLE} 102 2000 1").loose, Loose(None, 5))
        # A reset whose number is missed may pass loosely.
        self.assertTrue(tests("loose reset", HALF, "server R 1000 0 0 0").passes_loosely)


class Merged(unittest.TestCase):
    """What an update does, by which ends are stale."""

    # What is held: the source at 101 and the destination at 501, both ESTABLISHED.
    OLD, SAME, NEW = 0, 1, 2

    def update(self, words: str, source: int, destination: int) -> Tuple[Tuple[str, ...], Tuple[str, ...], State]:
        """An update whose ends are 50 before, at or 50 after what is held: the stale ends, those that are taken, and the state."""
        its_source, its_destination = (replace(end, lo=end.lo + 50 * (at - 1)) for end, at in zip(OPENED, (source, destination)))
        taken = merged(kernel(words), state(OPENED), Changes(its_source, its_destination, "tcp.closing", 40))
        assert isinstance(taken.state, State)
        return taken.stale, taken.taken, taken.state

    def test_each_pair_of_ends(self) -> None:
        src, dst = "source", "destination"
        for source, destination, stale, by_profile, by_kernel in (
            (self.NEW, self.NEW, (), (src, dst), (src, dst)),
            (self.SAME, self.SAME, (), (src, dst), (src, dst)),
            (self.OLD, self.NEW, (src,), (dst,), (dst,)),
            (self.NEW, self.OLD, (dst,), (src,), (src, dst)),
            (self.OLD, self.OLD, (src, dst), (), ()),
        ):
            for words, taken in (("", by_profile), ("window loose reset", by_profile), ("merge", by_kernel), ("all", by_kernel)):
                its_stale, its_taken, merged = self.update(words, source, destination)
                self.assertEqual((its_stale, its_taken), (stale, taken), (words, source, destination))
                self.assertEqual(merged.source.lo, 101 + 50 * (source - 1) * (src in taken))
                self.assertEqual(merged.destination.lo, 501 + 50 * (destination - 1) * (dst in taken))
                self.assertEqual((merged.timeout_class, merged.last), ("tcp.closing" if taken else "tcp.established", 7))

    def stale(self, held: Ends, came: Ends, protocol: str = "tcp") -> Tuple[str, ...]:
        return merged(PROFILE, replace(state(held), protocol=protocol), Changes(*came, "tcp.opening", 40)).stale

    def test_levels_come_before_numbers(self) -> None:
        low, high = End(4, None, 1, 100, 100), End(7, None, 1, 50, 50)
        self.assertEqual(self.stale((low, low), (high, high)), ("destination",))
        self.assertEqual(self.stale((high, high), (low, low)), ("source", "destination"))
        # The number of a destination counts once it has begun, and of other protocols the level alone.
        silent, begun = End(0, None, 0, 100, 0), End(0, None, 0, 50, 0)
        self.assertEqual(self.stale((low, silent), (low, begun)), ())
        self.assertEqual(self.stale((low, low), (replace(low, lo=50), replace(low, lo=50)), "udp"), ())
        self.assertEqual(self.stale((high, high), (low, low), "udp"), ("source", "destination"))


if __name__ == "__main__":
    unittest.main()
