"""What the lines of an explanation tell, and which rule decides over a packet, both without a program."""
from __future__ import annotations

import unittest
from typing import List, Optional

from ..language.events import read_packet
from ..language.names import Name
from ..language.records import CLEAR, INSERT, UPDATE
from ..model.branches import Happened
from ..model.explanations import Against, Edge, Expiry, Judged, Loose, NotExplained, OfState, Purge, Reason, TakenRecord, read_explanation
from ..model.kernels import PROFILE
from ..model.rulings import deciding
from ..model.setups import Adaptive, Rule

HEAD = ["why main 3", "event 3 step main deliver 1", "outcome taken 2"]


def reason(*lines: str) -> Reason:
    return read_explanation([*HEAD, *lines, "end"]).reason


class Replies(unittest.TestCase):
    def test_the_event_and_its_outcome(self) -> None:
        self.assertEqual(read_explanation([*HEAD, "end"]), (Happened(3, "deliver 1", "taken 2"), None, []))

    def test_an_event_that_is_refused_and_the_numbers_against_it(self) -> None:
        head = ["why main 4", "event 4 step main deliver 7", "refused 1 NoSuchFrame"]
        refused = Happened(4, "deliver 7", "refused 1 NoSuchFrame")
        self.assertTrue(refused.is_refused)
        self.assertEqual(read_explanation([*head, "ticket 2", "end"]), (refused, Against((2,)), ["ticket 2"]))
        self.assertEqual(read_explanation([*head, "clock 5 9", "end"]).reason, Against((5, 9)))
        self.assertEqual(read_explanation([*head, "end"]).reason, Against(()))

    def test_packets(self) -> None:
        edges = {"right": Edge(127001, (65001,), 62000), "ack": Edge(9001, (8000, 9500), None)}
        self.assertEqual(reason("state 1.1", "right 127001 65001 62000", "ack 9001 8000 9500 -"), OfState(Name(1, 1), edges))
        self.assertEqual(reason("state 1.1"), OfState(Name(1, 1), {}))
        self.assertTrue(OfState(Name(1, 1), {}).is_inside)
        self.assertEqual(reason("rule -"), Judged(None, None, "", ()))
        self.assertEqual(reason("rule 2 block"), Judged(None, 2, "block", ()))
        self.assertEqual(reason("closed 1.2", "rule 0 pass", "max 1 3"), Judged(Name(1, 2), 0, "max", ("1", "3")))

    def test_packets_by_rules_of_the_kernel(self) -> None:
        lines = ("state 1.1", "eased", "right 501 1501 -", "left 501 4294966797 -", "ack 101 4294900362 67136 -")
        edges = {
            "right": Edge(501, (1501,), None),
            "left": Edge(501, (4294966797,), None),
            "ack": Edge(101, (4294900362, 67136), None),
        }
        plain = reason(*lines)
        self.assertEqual(plain, OfState(Name(1, 1), edges, is_eased=True))
        its_reset, its_loose = "reset 503 500 502 1", "loose - -"
        asked = reason(*lines, its_reset)
        self.assertEqual(asked, OfState(Name(1, 1), edges, True, Edge(503, (500, 502), 1)))
        near = reason(*lines, its_reset, its_loose)
        self.assertEqual(near, OfState(Name(1, 1), edges, True, Edge(503, (500, 502), 1), Loose(None, None)))
        far = reason("state 1.1", "right 501 102 399", "left 101 100 -", "loose 7 -")
        self.assertEqual(far, OfState(Name(1, 1), {"right": Edge(501, (102,), 399), "left": Edge(101, (100,), None)}, loose=Loose(7, None)))
        found = [(one.is_inside, one.passes_loosely) for one in (plain, asked, near, far) if isinstance(one, OfState)]
        self.assertEqual(found, [(True, False), (False, False), (False, True), (False, False)])

    def test_records(self) -> None:
        bad, clear = TakenRecord(INSERT, ("1.2",), ("bad", "wire", "2.1")), TakenRecord(CLEAR, ("1", "2"), ("cleared", "2"))
        self.assertEqual(reason("record ins 1.2 bad wire 2.1", "record clr 1 2 cleared 2"), [bad, clear])
        self.assertEqual((bad.is_bad, clear.is_bad, bad.takes(PROFILE, Name(1, 2))), (True, False, False))
        for words, taken in (("", [True, False, False]), ("clear", [True, True, False]), ("merge", [True, False, False])):
            kernel = PROFILE.with_words(words.split())
            self.assertEqual([clear.takes(kernel, Name(*it)) for it in ((1, 2), (1, 3), (2, 1))], taken, words)
        ends = [TakenRecord(UPDATE, ("1.1",), ("merged", it, "0")).stale for it in ("-", "src", "dst", "both")]
        both = "source", "destination"
        self.assertEqual(ends, [(), ("source",), ("destination",), both])
        self.assertEqual((bad.taken, bad.goes_together, clear.taken), ((), False, ()))

    def test_ends_that_are_taken(self) -> None:
        both = "source", "destination"
        for fate, stale, taken, is_by_kernel in (
            ("- 0", (), both, False),
            ("src 0", ("source",), ("destination",), False),
            ("dst 0", ("destination",), ("source",), False),
            ("both 0", both, (), False),
            ("- 0 both", (), both, True),
            ("src 0 dst", ("source",), ("destination",), True),
            ("dst 0 both", ("destination",), both, True),
            ("both 0 -", both, (), True),
        ):
            (record,) = read_explanation([*HEAD, f"record updc 1.1 merged {fate}", "end"]).records
            self.assertEqual((record.stale, record.taken, record.goes_together), (stale, taken, is_by_kernel), fate)

    def test_purges(self) -> None:
        due, left = Expiry(Name(1, 1), "udp.first", 5, 2, 3000), Expiry(Name(1, 2), "udp.first", 60, 30, 31000)
        lines = ("clock 3000", "scaling 3 2 4", "expiry 1.1 udp.first 5 2 3000", "expiry 1.2 udp.first 60 30 31000")
        purge = Purge(3000, 3, Adaptive(2, 4), [due, left])
        self.assertEqual((reason(*lines), purge.due, due.last), (purge, [due], 1000))

    def test_other_lines_are_refused(self) -> None:
        packets = ("loose -", "loose 1 2 3", "loose x -", "reset", "right")
        of_packets = [[*HEAD, "state 1.1", packet, "end"] for packet in packets]
        for lines in (["names main"], [*HEAD, "rule x block", "end"], [*HEAD, "clock 1", "end"], *of_packets):
            self.assertRaises(NotExplained, read_explanation, lines)


class Rules(unittest.TestCase):
    def decided(self, packet: str, *rules: str, any_flags: Optional[int] = None) -> Optional[int]:
        words: List[Rule] = [Rule(tuple(rule.split())) for rule in rules]
        return deciding(words, read_packet(f"packet a {packet}"), any_flags)

    def test_the_last_that_matches_or_the_first_that_is_quick(self) -> None:
        udp, tcp = "out udp 10.0.0.1:1000 192.0.2.9:53 40", "in tcp 192.0.2.9:80 10.0.0.1:1000 A 1 2 3 4"
        self.assertEqual(self.decided(udp, "block any", "pass out", "pass in"), 1)
        self.assertEqual(self.decided(udp, "block any quick", "pass out"), 0)
        self.assertIsNone(self.decided(udp, "block in", "pass out proto 6", "pass out from 10.0.0.2/32", "pass out to 10.0.0.0/8"))
        self.assertEqual(self.decided(udp, "pass out tport 053", "pass out fport 53", "block any from 010.0.0.255/24 to 0.0.0.0/0"), 2)
        for port, decided in ((52, None), (53, 0), (60, 0), (80, 0), (81, None)):
            self.assertEqual(self.decided(udp.replace(":53", f":{port}"), "pass out tport 53:080"), decided, port)
        self.assertIsNone(self.decided(udp, "pass out fport 53:80"))
        self.assertIsNone(self.decided("out icmp 10.0.0.1:53 192.0.2.9:53 40", "block any fport 0:65535"))
        self.assertIsNone(self.decided("out icmp 10.0.0.1:53 192.0.2.9:53 40", "block any tport 53"))
        v6 = "[2001:0db8:0000:0000:0000:0000:0000:0001]:9"
        self.assertIsNone(self.decided(udp, f"pass out nat {v6}", "block any to 2001:0db8:0000:0000:0000:0000:0000:0000/0"))
        self.assertEqual(self.decided(tcp, f"pass in flags any rdr 10.0.0.1:5:6", f"pass in flags any rdr {v6}:10"), 0)
        self.assertEqual(self.decided(tcp, f"block in rdr {v6}:10"), 0)
        rules = ("pass in proto tcp", "pass in flags any tport 9")
        self.assertEqual([self.decided(tcp, *rules), self.decided(tcp, *rules, any_flags=0)], [None, 0])


if __name__ == "__main__":
    unittest.main()
