"""`match`, `nat-to` and `rdr-to` of later versions, worked out by hand from OpenBSD's pf.conf(5), which FreeBSD 15's is after: a `match`
that translates does so at once, and what follows it sees the translated packet."""
from __future__ import annotations

import unittest

from .imports import taken_in

DRAWN = "pf draws the port at random, and here the first free one is taken"
NO_RULE = "what no rule of the filter matches is translated, and makes a state here"
WAYS = "here `nat-to` is only on the way out, `rdr-to` only on the way in, and `binat-to` only on both"
WITHOUT = "the rules see addresses as they are without it"
FROM = "from 10.0.0.0/24"
POOL = "nat 192.0.2.1:50001:65535"


class Matches(unittest.TestCase):
    """`match`."""

    def test_what_decides_nothing(self) -> None:
        its = taken_in("match in all label x\nmatch out proto tcp set prio 6\nmatch on em0 set (queue q, prio 5) tag T\nblock in")
        self.assertEqual(its.rules(), ["block in"])
        # Each is a rule in pf's numbers.
        self.assertEqual(its.comments, ["# pf.conf:4 @3 block in"])
        self.assertEqual(its.said[-1], "pf.conf: 3 other lines: 3 exact, 0 approximated, 0 out")

    def test_packets_are_not_normalised(self) -> None:
        why = "packets are not normalised: they are not fragments, and none of their fields is changed"
        for words in ("scrub (no-df random-id, max-mss 1440)", "scrub ( reassemble tcp )"):
            self.assertEqual(taken_in(f"match in all {words}").said[0], f"pf.conf:1: approximated: {why}")

    def test_the_tag_that_it_gives(self) -> None:
        its = taken_in("match in from 10.0.0.1 tag T\nblock in tagged T")
        self.assertIn("pf.conf:2: out: `tagged T`: packets of the laboratory have no tags, and this file gives them this one", its.said[0])

    def test_of_other_interfaces(self) -> None:
        its = taken_in("match on em1 scrub (no-df)\nmatch out on em1 nat-to 192.0.2.9\nblock in")
        self.assertEqual(its.rules(), ["block in"])
        sums = "0 exact, 0 approximated, 0 out; 1 for other interfaces"
        self.assertEqual(its.said[-2:], [f"pf.conf: 0 {it}: {sums}" for it in ("translations of em0", "other lines")])

    def test_a_gateway(self) -> None:
        # As under `nat`: the rules see the address of em0.
        text = "match out on em0 inet from 10.0.0.0/24 to any nat-to (em0)\nblock all\npass out from (em0)\npass out from 10.0.0.0/24"
        its = taken_in(text)
        rules = [f"pass out quick {FROM} {POOL}", f"block out quick {FROM}", "block any", "pass out from 192.0.2.1/32", f"pass out {FROM}"]
        self.assertEqual(its.rules(), rules)
        self.assertEqual(its.said[0], f"pf.conf:1: approximated: {DRAWN}")
        self.assertEqual(its.said[2], "pf.conf: 1 translation of em0: 0 exact, 1 approximated, 0 out")
        wanted = ["1 approximated: " + DRAWN, f"1 {text.splitlines()[0]}", "3 @2, nat pf.conf:1: pass out from (em0)"]
        self.assertEqual(its.comments[:3], [f"# pf.conf:{it}" for it in wanted])

    def test_a_published_server(self) -> None:
        text = "match in on em0 proto tcp to (em0) port 80 rdr-to 10.0.0.80 port 8080\nblock in\npass in proto tcp to 10.0.0.80 port 8080"
        its = taken_in(text)
        to = "proto tcp to 192.0.2.1/32 tport 80"
        own = "pass in proto tcp to 10.0.0.80/32 tport 8080"
        self.assertEqual(its.rules(), [f"pass in quick {to} rdr 10.0.0.80:8080", f"block in quick {to}", "block in", own])
        self.assertEqual(its.said[0], "pf.conf: 2 rules of em0: 2 exact, 0 approximated, 0 out; 4 rule lines a node")

    def test_both_ways(self) -> None:
        its = taken_in("match on em0 proto esp from 10.0.0.4 to any binat-to 192.0.2.4\npass")
        rules = ["pass out quick proto 50 from 10.0.0.4/32 nat 192.0.2.4:0", "pass in quick proto 50 to 192.0.2.4/32 rdr 10.0.0.4:0"]
        self.assertEqual(its.rules(), [*rules, "pass any"])

    def test_rules_above_it(self) -> None:
        # A rule for all packets, or for a far end, matches them translated as well.
        translation = "match out on em0 proto esp from 10.0.0.0/24 to any nat-to 192.0.2.5"
        its = taken_in(f"block all\npass out proto esp to 10.9.0.0/16\nblock in from 10.0.0.1\n{translation}")
        self.assertNotIn("approximated: ", its.said[0])
        its = taken_in(f"block all\npass out proto esp from 10.0.0.1\n{translation}")
        why = "in pf pf.conf:2 above it sees packets as they came, and here translated"
        self.assertEqual(its.said[0], f"pf.conf:3: approximated: {why}")

    def test_what_an_earlier_one_has_translated(self) -> None:
        first = "match out on em0 proto esp from 10.0.0.0/24 to any nat-to 192.0.2.5"
        its = taken_in(f"{first}\nmatch out on em0 proto esp from any to any nat-to 192.0.2.6\npass out")
        why = "in pf it gets packets that an earlier translation has translated, and here it does not"
        self.assertEqual(its.said[0], f"pf.conf:2: approximated: {why}")
        its = taken_in(f"{first}\nmatch out on em0 proto esp from 10.1.0.0/24 to any nat-to 192.0.2.6\npass out")
        self.assertNotIn("approximated: ", its.said[0])

    def test_where_no_rule_matches(self) -> None:
        its = taken_in("match out on em0 proto esp from 10.0.0.0/24 to any nat-to 192.0.2.5")
        self.assertEqual(its.rules(), [f"pass out quick proto 50 {FROM} nat 192.0.2.5:0"])
        self.assertEqual(its.said[0], f"pf.conf:1: approximated: {NO_RULE}")

    def test_what_is_out(self) -> None:
        alone = "a `match` with a translation is taken in by interfaces, protocols, addresses and ports alone"
        for text, why in (
            ("match on em0 from 10.0.0.1 nat-to 192.0.2.5", "pfctl takes `nat-to` and `rdr-to` only with a direction"),
            ("match in from 10.0.0.1 nat-to 192.0.2.5", WAYS),
            ("match out proto tcp from 10.0.0.1 flags S/SA nat-to 192.0.2.5", alone),
            ("match out from 10.0.0.1 nat-to em9", "the addresses of em9 are not known: --address em9=ADDRESS/LENGTH gives them"),
        ):
            self.assertEqual(taken_in(text).said[0], f"pf.conf:1: out: {why}; {WITHOUT}")
        its = taken_in("anchor {\n match out from 10.0.0.1 nat-to 192.0.2.5\n match in scrub (no-df)\n pass in\n}")
        self.assertEqual(its.said[0], f"pf.conf:2: out: `match` with a translation is not taken in within anchors; {WITHOUT}")
        self.assertEqual(its.rules(), ["pass in"])


class Options(unittest.TestCase):
    """`nat-to` and `rdr-to` of a `pass` rule, which is what rules of the laboratory have: they match the packet as it comes."""

    def test_a_gateway(self) -> None:
        text = "pass out on em0 inet from 10.0.0.0/24 to any nat-to (em0)"
        its = taken_in(f"block all\n{text}\npass out quick proto udp nat-to 192.0.2.9 port 4000")
        rules = ["block any", f"pass out {FROM} {POOL}", "pass out quick proto udp nat 192.0.2.9:4000"]
        self.assertEqual(its.rules(), rules)
        self.assertEqual(its.said[0], f"pf.conf:2: approximated: {DRAWN}")
        self.assertEqual(its.comments[1:3], [f"# pf.conf:2 approximated: {DRAWN}", f"# pf.conf:2 @1 {text}"])
        self.assertEqual(its.said[1], "pf.conf: 3 rules of em0: 2 exact, 1 approximated, 0 out; 3 rule lines a node")

    def test_a_published_server(self) -> None:
        text = "pass in on em0 inet proto tcp from any to (em0) port { 80 443 } rdr-to 10.0.0.80 keep state (max 9)"
        its = taken_in(text)
        rules = [f"pass in proto tcp to 192.0.2.1/32 tport {it} max 9 rdr 10.0.0.80:{it}" for it in (80, 443)]
        self.assertEqual(its.rules(), rules)
        self.assertEqual(its.said[0], "pf.conf: 1 rule of em0: 1 exact, 0 approximated, 0 out; 2 rule lines a node")

    def test_ports_that_stay(self) -> None:
        its = taken_in("pass in proto tcp to (em0) rdr-to 10.0.0.4")
        self.assertEqual(its.rules(), ["pass in proto tcp to 192.0.2.1/32"])
        stays = "a port that stays as it is has no form here: what is passed by pf.conf:1 is not translated"
        self.assertEqual(its.said[0], f"pf.conf:1: approximated: {stays}")

    def test_what_is_out(self) -> None:
        stricter = "the rules may be stricter without it"
        of_match = "a translation is taken in only of `match` and `pass`, and `binat-to` only of `match`"
        for text, why in (
            ("pass in from 10.0.0.1 nat-to 192.0.2.5", WAYS),
            ("pass proto tcp to port 80 rdr-to 10.0.0.4", "pfctl takes `nat-to` and `rdr-to` only with a direction"),
            ("pass out from 10.0.0.1 binat-to 192.0.2.5", of_match),
            ("pass out inet from 10.0.0.1 nat-to ::1", "no address of its family follows `->`"),
            ("pass in inet af-to inet6", "FreeBSD 13's pf has no `af-to`"),
        ):
            self.assertEqual(taken_in(text).said[0], f"pf.conf:1: out: {why}; {stricter}")

    def test_below_another_translation(self) -> None:
        text = "match out proto esp from 10.0.0.0/24 nat-to 192.0.2.5\npass out proto esp nat-to 192.0.2.6"
        its = taken_in(text)
        self.assertEqual(its.rules(), [f"pass out quick proto 50 {FROM} nat 192.0.2.5:0", "pass out proto 50 nat 192.0.2.6:0"])
        why = "pf.conf:2 translates its packets again, and here it does not"
        self.assertEqual(its.said[0], f"pf.conf:1: approximated: {why}")


if __name__ == "__main__":
    unittest.main()
