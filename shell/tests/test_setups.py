"""What a setup says of limits, timeouts and translation, with numbers that are worked out by hand from docs/FORMATS.md."""
from __future__ import annotations

import unittest
from typing import List, Tuple

from ..language.events import read_packet
from ..model.setups import Adaptive, Pool, Ports, Rule, Setup


class Scaling(unittest.TestCase):
    def test_from_the_start_to_the_end(self) -> None:
        for states, seconds in ((0, 60), (2, 60), (3, 30), (4, 0), (5, 0)):
            self.assertEqual(Adaptive(2, 4).scaled(60, states), seconds, states)

    def test_it_is_multiplied_and_then_truncated(self) -> None:
        # 240 / 7, 86400 / 6, and 60 * 131071 / 131072.
        self.assertEqual(Adaptive(0, 7).scaled(60, 3), 34)
        self.assertEqual(Adaptive(4, 10).scaled(86400, 9), 14400)
        self.assertEqual(Adaptive(0, 131072).scaled(60, 1), 59)

    def test_without_a_span_nothing_is_scaled(self) -> None:
        for limits in (Adaptive(0, 0), Adaptive(4, 4), Adaptive(4, 1)):
            for states in (1, 2, 4, 9):
                self.assertEqual(limits.scaled(60, states), 60, (limits, states))


class Limits(unittest.TestCase):
    def adaptive(self, *lines: str) -> Adaptive:
        return Setup.of(lines).adaptive

    def test_three_and_six_fifths_where_neither_is_set(self) -> None:
        self.assertEqual(self.adaptive(), (38, 76))
        for states, limits in ((1, (0, 1)), (2, (1, 2)), (3, (1, 3)), (4, (2, 4)), (5, (3, 6)), (65536, (39321, 78643))):
            self.assertEqual(self.adaptive(f"set states {states}"), limits)

    def test_each_is_set_by_itself(self) -> None:
        self.assertEqual(self.adaptive("set astart 2", "set states 10"), (2, 12))
        self.assertEqual(self.adaptive("set states 10", "set aend 8"), (6, 8))
        self.assertEqual(self.adaptive("set aend 4"), (38, 4))

    def test_the_last_value_counts_and_0_is_one(self) -> None:
        self.assertEqual(self.adaptive("set astart 2", "set aend 4", "set astart 0", "set aend 0"), (0, 0))


class Timeouts(unittest.TestCase):
    def test_the_rule_comes_before_the_setup_and_that_before_the_default(self) -> None:
        setup = Setup.of(
            ["set timeout udp.first 5", "rule a pass out timeout udp.first 3", "set timeout udp.first 07", "rule a block in timeout udp.first 9"]
        )
        for node, rule, seconds, said_by in (
            ("a", 0, 3, "rule 0 of a"),
            ("a", 1, 7, "`set timeout`"),
            ("b", 0, 7, "`set timeout`"),
            ("b", None, 7, "`set timeout`"),
        ):
            self.assertEqual(setup.seconds(node, rule, "udp.first"), seconds)
            self.assertEqual(setup.said_by(node, rule, "udp.first"), said_by)
        self.assertEqual((setup.seconds("a", 0, "udp.single"), setup.said_by("a", 0, "udp.single")), (30, ""))


class Translations(unittest.TestCase):
    def keys(self, rule: str, packet: str) -> List[Tuple[str, str, str, str]]:
        """Far and near of the wire key, and of the stack key."""
        tried = Rule(tuple(rule.split())).keys(read_packet(f"packet a {packet}"))
        return [(it.wire.far, it.wire.near, it.stack.far, it.stack.near) for it in tried]

    def test_pools(self) -> None:
        v6 = "[2001:0db8:0000:0000:0000:0000:0000:0001]"
        for words, pool in (
            ("pass out nat 198.51.100.1:04000", Pool("198.51.100.1", Ports(4000, 4000))),
            ("pass out nat 198.51.100.1:4000:4003", Pool("198.51.100.1", Ports(4000, 4003))),
            (f"pass in rdr {v6}:80:81", Pool(v6, Ports(80, 81))),
            ("pass in", None),
        ):
            self.assertEqual(Rule(tuple(words.split())).pool, pool)
        self.assertEqual(str(Pool(v6, Ports(80, 81))), f"{v6}:80:81")
        self.assertEqual(str(Pool("198.51.100.1", Ports(80, 80))), "198.51.100.1:80")

    def test_the_keys_of_a_new_state(self) -> None:
        query = "out udp 10.0.0.1:1000 192.0.2.9:53 40"
        far, near = "192.0.2.9:53", "10.0.0.1:1000"
        self.assertEqual(self.keys("pass out", query), [(far, near, far, near)])
        pool = [(far, f"198.51.100.1:{port}", far, near) for port in (4000, 4001)]
        self.assertEqual(self.keys("pass out nat 198.51.100.1:4000:4001", query), pool)
        come = "in udp 192.0.2.7:5000 203.0.113.1:80 40"
        redirected = [("192.0.2.7:5000", "203.0.113.1:80", "192.0.2.7:5000", "10.0.0.80:8080")]
        self.assertEqual(self.keys("pass in rdr 10.0.0.80:8080", come), redirected)

    def test_an_echo_and_a_protocol_without_ports(self) -> None:
        echo, other = "out icmp 10.0.0.1:7 192.0.2.9:7 64", "out 47 10.0.0.1:0 192.0.2.9:0 64"
        rule = "pass out nat 198.51.100.1:4000"
        self.assertEqual(self.keys(rule, echo), [("192.0.2.9:4000", "198.51.100.1:4000", "192.0.2.9:7", "10.0.0.1:7")])
        self.assertEqual(self.keys(rule, other), [("192.0.2.9:0", "198.51.100.1:0", "192.0.2.9:0", "10.0.0.1:0")])


if __name__ == "__main__":
    unittest.main()
