"""Each construct of a pf.conf with the rules that it comes to, worked out by hand from pf.conf(5)."""
from __future__ import annotations

import unittest
from typing import Dict, List

from .imports import taken_in

ALL_V6 = ":".join(["0000"] * 8) + "/0"
SSH = "pass in quick proto tcp to 192.0.2.1/32 tport 22"
LOOPBACK_V6 = ":".join(["0000"] * 7) + ":0001/128"


class Rules(unittest.TestCase):
    """The rules of one statement or of a few."""

    def exact(self, text: str, *rules: str) -> None:
        """These rules, and nothing to be said of them."""
        its = taken_in(text)
        self.assertEqual(its.rules(), list(rules), text)
        self.assertEqual([it for it in its.said if "approximated: " in it or ": out: " in it], [], text)

    def approximated(self, text: str, why: str, *rules: str) -> None:
        its = taken_in(text)
        self.assertEqual(its.rules(), list(rules), text)
        self.assertEqual(its.said[0], f"pf.conf:{1 + text.count(chr(10))}: approximated: {why}", text)

    def test_directions_and_words_without_effect(self) -> None:
        self.exact("block all", "block any")
        self.exact("block drop in log (all, to pflog1) quick", "block in quick")
        self.exact('pass out quick on em0 all label "a b" keep state', "pass out quick")
        self.exact("pass in allow-opts tag X queue (q, p) prio 3 set prio (1, 2) keep state (if-bound)", "pass in")
        self.exact("pass", "pass any")

    def test_numbers_of_the_log_choose_no_packets(self) -> None:
        # As pfSense writes them, before 2.6 and since.
        self.exact('pass in quick on em0 inet proto tcp to 192.0.2.1 port 22 tracker 1000000101 flags S/SA keep state label "U"', SSH)
        self.exact("pass in quick on em0 inet proto tcp to 192.0.2.1 port 22 flags S/SA keep state ridentifier 1000000101", SSH)
        self.exact("block in log inet all tracker 1000000103 label \"Default deny\"", "block in from 0.0.0.0/0")
        self.exact("antispoof log for em0 tracker 1000001570", "block in from 192.0.2.1/32")
        self.exact("antispoof for em0 ridentifier 1 label x", "block in from 192.0.2.1/32")

    def test_a_block_rule_that_keeps_no_state(self) -> None:
        self.exact("block quick inet from any to any no state", "block any quick from 0.0.0.0/0")
        self.exact("set state-defaults no-sync\nblock in no state", "block in")

    def test_interfaces(self) -> None:
        self.exact("pass in on { em1 em0 em2 }", "pass in")
        self.exact("pass in on ! em1", "pass in")
        self.exact("pass in on em1")
        self.exact("pass in on ! em0")
        self.exact("pass in on all", "pass in")
        self.exact("pass in on lo")

    def test_groups_are_told(self) -> None:
        text = "pass in on egress from any to (egress)\npass in on lan"
        its = taken_in(text, "--group", "egress=em0")
        self.assertEqual(its.rules(), ["pass in to 192.0.2.1/32"])
        self.assertEqual(
            its.said[:2],
            [
                "pf.conf: `lan` is taken for an interface other than em0; if it is a group with em0 in it, --group lan=em0 says so",
                "pf.conf: 1 rule of em0: 1 exact, 0 approximated, 0 out; 1 for other interfaces; 1 rule line a node",
            ],
        )
        self.assertEqual(taken_in(text, "--on", "lan").rules(), ["pass in"])
        self.assertEqual(taken_in("pass in on vlan", "--on", "vlan7").rules(), ["pass in"])

    def test_protocols(self) -> None:
        self.exact("pass proto { tcp, udp icmp }", "pass any proto tcp", "pass any proto udp", "pass any proto icmp")
        self.exact("pass proto { esp 47 carp ipv6-icmp 17 }", *(f"pass any proto {it}" for it in ("50", "47", "112", "58", "udp")))
        self.exact("pass proto ip", "pass any")

    def test_families(self) -> None:
        self.exact("pass in inet", "pass in from 0.0.0.0/0")
        self.exact("pass in inet6 proto udp", f"pass in proto udp from {ALL_V6}")
        self.exact("pass in inet to 10.0.0.0/8", "pass in to 10.0.0.0/8")
        # A list with both families is one rule for each, and those of which the other end is of another family are none.
        rules = [f"pass in from 10.0.0.1/32 to 10.0.0.{it}/32" for it in (2, 3)]
        self.exact("pass in from { 10.0.0.1 ::1 } to { 10.0.0.2 10.0.0.3 }", *rules)
        self.exact("pass in inet6 from { 10.0.0.1 ::1 }", f"pass in from {LOOPBACK_V6}")

    def test_addresses(self) -> None:
        self.exact("pass in from 10.1.2.3/8", "pass in from 10.0.0.0/8")
        nets = ("10.0.0.0/8", "172.16.0.0/12", "192.168.7.0/24")
        self.exact("pass in from { 10/8, 172.16/12, 192.168.7 }", *(f"pass in from {net}" for net in nets))
        self.exact("pass in from 2001:DB8::/32", "pass in from 2001:0db8:0000:0000:0000:0000:0000:0000/32")
        self.exact("pass in from fe80::1%em0", "pass in from fe80:0000:0000:0000:0000:0000:0000:0001/128")
        # 4 to 7 is a net of four, and 8 and 9 are one of two.
        self.exact("pass in from 10.0.0.4 - 10.0.0.9", "pass in from 10.0.0.4/30", "pass in from 10.0.0.8/31")
        self.exact("pass in from any to any", "pass in")

    def test_what_is_not_an_address(self) -> None:
        self.exact("pass in inet from ! 128.0.0.0/1", "pass in from 0.0.0.0/1")
        self.exact("pass in from ! 10.0.0.0/8", *(f"pass in from {it}" for it in _without_ten()))
        # What is not ten is of its own family, and what is not in a table is of either.
        self.exact("table <t> { 128/1 }\npass in from ! <t>", "pass in from 0.0.0.0/1", f"pass in from {ALL_V6}")
        self.exact("table <t> const { }\npass in from ! <t>", "pass in")
        self.exact("pass in from ! any")

    def test_own_addresses(self) -> None:
        self.exact("pass in to em0", "pass in to 192.0.2.1/32")
        self.exact("pass in to (em0)", "pass in to 192.0.2.1/32")
        self.exact("pass in from em0:network", "pass in from 192.0.2.0/24")
        self.exact("pass in from (em0:network) to em0:broadcast", "pass in from 192.0.2.0/24 to 192.0.2.255/32")
        self.exact("pass in to em0/16", "pass in to 192.0.0.0/16")
        self.exact("pass in to lo0:network", "pass in to 127.0.0.0/8", f"pass in to {LOOPBACK_V6}")
        rules = ("pass in to 127.0.0.1/32", "pass in to 192.0.2.1/32")
        self.approximated("pass in inet to self", "`self` is lo0, and what --address says", *rules)

    def test_aliases_are_addresses_unless_it_says_0(self) -> None:
        more = ("--address", "192.0.2.9/24", "--address", "em1=10.0.0.1/8")
        self.assertEqual(taken_in("pass in to em0", *more).rules(), ["pass in to 192.0.2.1/32", "pass in to 192.0.2.9/32"])
        self.assertEqual(taken_in("pass in to em0:0", *more).rules(), ["pass in to 192.0.2.1/32"])
        self.assertEqual(taken_in("pass in from em1:network", *more).rules(), ["pass in from 10.0.0.0/8"])

    def test_tables(self) -> None:
        text = "table <t> persist { 10.0.0.0/8 172.16/12 }\nblock in from <t>"
        self.exact(text, "block in from 10.0.0.0/8", "block in from 172.16.0.0/12")
        # Of a table's nets the longest that holds an address counts, wherever it stands.
        text = "table <t> const { 10.0.0.8/30 ! 10.0.0.8/31 10.0.0.9 }\npass in from <t>"
        self.exact(text, "pass in from 10.0.0.9/32", "pass in from 10.0.0.10/31")
        self.exact("pass in from <t>\ntable <t> { em0 }", "pass in from 192.0.2.1/32")
        self.approximated("block in from <t>", "no table <t> is in the file: it is empty here")

    def test_tables_of_files(self) -> None:
        its = taken_in('table <t> file "bad.txt"\nblock in from <t>', bad_txt="10.0.0.1 # one\n\n!10.0.0.2\n10.0.0.2/31\n")
        self.assertEqual(its.rules(), ["block in from 10.0.0.1/32", "block in from 10.0.0.3/32"])
        its = taken_in('table <t> file "bad.txt"\nblock in from <t>')
        why = "approximated: there is no readable file bad.txt: nothing is taken from it"
        self.assertEqual((its.rules(), its.said[:2]), ([], [f"pf.conf:{it}: {why}" for it in (1, 2)]))

    def test_ports(self) -> None:
        spans: Dict[str, List[str]] = {
            "80": ["80"],
            "= https": ["443"],
            "!= 80": ["0:79", "81:65535"],
            "!= 0": ["1:65535"],
            "< 1024": ["0:1023"],
            "< 1": ["0"],
            "< 0": [],
            "<= 1024": ["0:1024"],
            "> 1023": ["1024:65535"],
            ">= 65535": ["65535"],
            "ftp:ssh": ["21:22"],
            "33433 >< 33626": ["33434:33625"],
            "80 >< 81": [],
            "1024 <> 65534": ["0:1023", "65535"],
            "{ 22, 80:81 }": ["22", "80:81"],
            "81:80": [],
        }
        for text, wanted in spans.items():
            self.exact(f"pass in proto tcp to port {text}", *(f"pass in proto tcp tport {it}" for it in wanted))
            self.exact(f"pass in proto udp from any port {text}", *(f"pass in proto udp fport {it}" for it in wanted))
        self.exact("pass in proto tcp to port >= 0", "pass in proto tcp")

    def test_lists_are_written_out_in_the_order_of_pfctl(self) -> None:
        text = "pass in on { em0 em0 } proto { tcp udp } from { 10.0.0.1 10.0.0.2 } port { 1 2 } to { 10.0.0.3 10.0.0.4 } port { 5 6 }"
        rules = [
            f"pass in proto {protocol} from 10.0.0.{source}/32 fport {fport} to 10.0.0.{to}/32 tport {tport}"
            for _ in range(2)
            for protocol in ("tcp", "udp")
            for source in (1, 2)
            for fport in (1, 2)
            for to in (3, 4)
            for tport in (5, 6)
        ]
        its = taken_in(text)
        self.assertEqual(its.rules(), rules)
        self.assertEqual([comment.split()[2] for comment in its.comments], [f"@{it}" for it in range(64)])

    def test_states(self) -> None:
        self.exact("pass in proto tcp flags any", "pass in proto tcp flags any")
        self.exact("pass in flags S/SA", "pass in")
        self.exact("pass in proto { tcp udp } flags any", "pass in proto tcp flags any", "pass in proto udp")
        self.exact("pass in keep state (no-sync, max 5)", "pass in no-sync max 5")
        self.exact("pass in keep state (max 0)", "pass in")
        text = "pass in keep state (udp.first 5 tcp.closed 7, tcp.first 0)"
        self.exact(text, "pass in timeout tcp.closed 7 timeout udp.first 5")
        self.exact("pass in proto udp synproxy state", "pass in proto udp")
        self.exact("pass in proto udp keep state (sloppy)", "pass in proto udp")

    def test_states_that_are_approximated(self) -> None:
        self.approximated("pass in modulate state", "`modulate state` as `keep state`: sequence numbers stay as they are", "pass in")
        self.approximated("pass in synproxy state", "`synproxy state` as `keep state`: the ends shake hands with one another", "pass in")
        takes = "it takes SYN without ACK"
        self.approximated("pass in proto tcp flags S/SAFR", f"`flags S/SAFR`: {takes}, whatever else is set", "pass in proto tcp")
        self.approximated("pass in proto tcp flags S/S", f"`flags S/S`: {takes}, and none with it", "pass in proto tcp")
        why = "without `max-src-conn`, `max-src-conn-rate`, `overload`: sources are not counted"
        self.approximated("pass in keep state (max-src-conn 9, max-src-conn-rate 5/3, overload <b> flush global)", why, "pass in")
        why = "`adaptive.start` of a rule is left out: timeouts shrink only by the states of a node"
        self.approximated("pass in keep state (adaptive.start 9)", why, "pass in")
        text, nets = "pass in from ! 10.0.0.0/8 keep state (max 9)", _without_ten()
        self.approximated(text, "each of its 8 rules here has a `max` of its own", *(f"pass in from {net} max 9" for net in nets))

    def test_defaults_of_states_are_for_rules_that_say_nothing_of_states(self) -> None:
        text = "set state-defaults no-sync, max 7\npass in\npass out keep state\nblock in"
        self.exact(text, "pass in no-sync max 7", "pass out", "block in")

    def test_answers_of_block_rules(self) -> None:
        why = "nothing is sent back: no RST, no ICMP error"
        for answer in ("return", "return-rst (ttl 9)", "return-icmp(host-unr, 1)"):
            self.approximated(f"block {answer} in", why, "block in")
        self.approximated("set block-policy return\nblock in", why, "block in")
        self.exact("set block-policy return\nblock drop in", "block in")

    def test_ways(self) -> None:
        for word, what in (("route-to", "packets"), ("reply-to", "answers")):
            why = f"`{word}` is left out: {what} go where they would go without it"
            gateways = "{ (em1 10.0.0.1), (em2 10.0.0.2) } round-robin"
            self.approximated(f"pass in on em0 {word} {gateways} inet all", why, "pass in from 0.0.0.0/0")
        self.approximated("pass in dup-to em1", "`dup-to` is left out: no copies are sent", "pass in")
        self.approximated("pass in rtable 1", "`rtable` is left out: the laboratory has no routes", "pass in")

    def test_what_packets_of_the_laboratory_do_not_have(self) -> None:
        routes = "the laboratory has no routes: every address counts as having one, and no packet fails the reverse path test"
        self.approximated("block in from no-route", routes)
        self.approximated("block in from urpf-failed", routes)
        self.approximated("pass in from ! no-route", routes, "pass in")
        self.approximated("block in fragment", "no packet of the laboratory is a fragment")
        self.approximated("pass in tos lowdelay", "packets of the laboratory have no TOS")
        sockets = "packets of the laboratory belong to no local socket, like forwarded ones"
        self.approximated("pass out proto tcp user { root, > 1000 }", sockets)
        self.approximated("pass out proto tcp user != root", sockets, "pass out proto tcp")
        self.approximated("pass out proto tcp group unknown", sockets, "pass out proto tcp")
        left = "protocols other than TCP and UDP, for which pf.conf(5) ignores users and groups, are left out"
        self.approximated("pass out user { root, www }", f"{sockets}; {left}")
        self.approximated("block out from any to any group != wheel user root", f"{sockets}; {left}")
        self.approximated("pass out user unknown group != wheel", sockets, "pass out")
        ignored = "users and groups are ignored: packets of its protocol have none"
        self.approximated("pass out proto icmp user root", ignored, "pass out proto icmp")
        its = taken_in("pass out proto { udp esp } group www")
        self.assertEqual((its.rules(), its.said[0]), (["pass out proto 50"], f"pf.conf:1: approximated: {sockets}; {ignored}"))
        system = "packets of the laboratory have no fingerprint of an operating system"
        self.approximated('block in proto tcp from any os "Windows 95" to port 25', system)
        self.approximated("pass in from any os unknown", f"{system}: all are unknown", "pass in")

    def test_icmp(self) -> None:
        self.approximated("pass in proto icmp icmp-type 8 code 0", "it passes every type of ICMP", "pass in proto icmp")
        echo = "every ICMP packet of the laboratory is an echo request or its reply"
        self.approximated("block in proto icmp icmp-type { redir timex }", echo)
        self.approximated("pass proto icmp6 icmp6-type { echoreq }", "it passes every type of ICMPv6", "pass any proto 58")

    def test_tags(self) -> None:
        # Nothing in the file gives the tag, so no packet has it.
        self.approximated("pass in tagged LAN", "no rule of this file gives a packet the tag `LAN`")
        self.exact("pass in ! tagged LAN", "pass in")
        its = taken_in("pass in on em1 tag LAN\npass out tagged LAN")
        self.assertIn("out: `tagged LAN`: packets of the laboratory have no tags, and this file gives them this one", its.said[0])

    def test_antispoof_is_a_block_of_nets_elsewhere_and_of_own_addresses(self) -> None:
        self.exact("antispoof for em0", "block in from 192.0.2.1/32")
        self.exact("antispoof log quick for { lo0 (em0) } inet", "block in quick from 127.0.0.0/8", "block in quick from 192.0.2.1/32")
        its = taken_in("antispoof for em1 label x", "--address", "em1=10.0.0.1/8")
        self.assertEqual(its.rules(), ["block in from 10.0.0.0/8", "block in from 10.0.0.1/32"])

    def test_what_is_skipped_has_no_rules(self) -> None:
        its = taken_in("set skip on { lo0 em0 }\nblock all\nnat on em0 from any to any -> 192.0.2.1")
        self.assertEqual((its.rules(), its.status), ([], 0))
        self.assertIn("# `set skip` makes pf filter nothing on em0: without rules every packet passes, and makes no state", its.setup)


def _without_ten() -> List[str]:
    """The nets that are not 10.0.0.0/8: where it goes to the left of a bit, what is to the right of it, and the other way round."""
    return [f"{it}.0.0.0/{length}" for it, length in ((0, 5), (8, 7), (11, 8), (12, 6), (16, 4), (32, 3), (64, 2), (128, 1))]


class Reading(unittest.TestCase):
    """Macros, quotes, comments and lines, as pfctl reads them."""

    def rules(self, text: str, *rules: str) -> None:
        its = taken_in(text)
        self.assertEqual(its.rules(), list(rules), its.said)

    def test_macros(self) -> None:
        self.rules('i = em0\nn = $i:network\npass in on $i from $n', "pass in from 192.0.2.0/24")
        ports = [f"pass in proto tcp tport {it}" for it in (22, 80, 443)]
        self.rules('a = "{ 22 80 }"\npass in proto tcp to port { $a 443 }', *ports)
        self.rules('a = "22 80"\nb = "{" $a 443 "}"\npass in proto tcp to port $b', *ports)
        self.rules('h = "10.0.0.1"\npass in from { $h, 10.0.0.2 }', "pass in from 10.0.0.1/32", "pass in from 10.0.0.2/32")
        self.rules("a = 1\na = 2\npass in proto tcp to port $a", "pass in proto tcp tport 2")

    def test_lines_go_on(self) -> None:
        self.rules("pass in \\\n  proto tcp \\\n  to port 22\npass out", "pass in proto tcp tport 22", "pass out")
        self.rules("pass in proto {\n  tcp # one\n  udp,\n\n}\npass out", "pass in proto tcp", "pass in proto udp", "pass out")
        # A backslash takes the next line into a comment, too.
        self.rules("# one \\\npass in\npass out # two", "pass out")
        self.rules("pass in\r\npass out\r\n", "pass in", "pass out")

    def test_what_follows_a_faulty_statement_is_read(self) -> None:
        self.rules("pass in from { 1.2.3.4\npass out", "pass out")
        self.rules('pass in label "x\npass out', "pass out")
        self.rules("pass in on $x from {\n1.2.3.4 }\npass out", "pass out")

    def test_included_files(self) -> None:
        its = taken_in('i = "em0"\ninclude "more.conf"\npass out on $j', more_conf="# one\nblock in on $i\nj = $i\n")
        self.assertEqual(its.rules(), ["block in", "pass out"])
        self.assertEqual(its.comments, ["# more.conf:2 @0 block in on $i", "# pf.conf:3 @1 pass out on $j"])
        its = taken_in('include "pf.conf"\npass in')
        why = "includes are nested more than 16 deep, or there are more than 256 of them"
        self.assertEqual(its.said[0], f"pf.conf:1: out: {why}")
        self.assertEqual(its.rules(), ["pass in"] * 17)

    def test_anchors_count_as_rules(self) -> None:
        its = taken_in('anchor "x/*"\nanchor in on em1 {\n pass in\n block out\n}\npass in')
        self.assertEqual(its.rules(), ["pass in"])
        self.assertEqual(its.comments[-1], "# pf.conf:6 @2 pass in")
        self.assertEqual(its.said[0], "pf.conf:1: out: the rules of this anchor are not in the file: pfctl can load them while pf runs")


class Settings(unittest.TestCase):
    """What is set."""

    def set(self, text: str, *lines: str) -> None:
        self.assertEqual(taken_in(text).settings, list(lines), text)

    def test_the_limit_of_states_and_where_timeouts_shrink(self) -> None:
        # pf's own: 100000 states, 60000 and 120000.
        self.set("", "set states 65536", "set astart 60000", "set aend 120000")
        # pfctl has 60% and 120% of a limit that is set, unless either is set as well, and tenths of it are truncated first.
        self.set("set limit states 20000", "set states 20000", "set astart 12000", "set aend 24000")
        self.set("set limit { frags 7, states 109 }", "set states 109", "set astart 60", "set aend 120")
        self.set("set limit states 500\nset timeout adaptive.start 9", "set states 500", "set astart 9", "set aend 120000")
        self.set("set timeout { adaptive.start 0, adaptive.end 0 }", "set states 65536", "set astart 0", "set aend 0")

    def test_what_is_above_the_limits_here(self) -> None:
        its = taken_in("set limit states 1000000")
        self.assertEqual(its.settings, ["set states 65536", "set astart 131072", "set aend 131072"])
        most = "becomes 65536, the maximum here"
        never = "timeouts never shrink here: pf shortens them with more than {} states, and there are at most 65536 here"
        self.assertEqual(its.said[0], f"pf.conf:1: approximated: `states 1000000` {most}; {never.format(600000)}")
        # pfctl begins at 60% of a limit: 65400 states are still few enough, and 66000 are too many.
        its = taken_in("set limit states 109000")
        self.assertEqual(its.said[0], f"pf.conf:1: approximated: `states 109000` {most}")
        self.assertEqual(its.settings, ["set states 65536", "set astart 65400", "set aend 130800"])
        its = taken_in("set limit states 110000")
        self.assertEqual(its.said[0], f"pf.conf:1: approximated: `states 110000` {most}; {never.format(66000)}")

    def test_which_statement_makes_timeouts_never_shrink(self) -> None:
        never = "timeouts never shrink here: pf shortens them with more than 70000 states, and there are at most 65536 here"
        its = taken_in("set limit states 100000\nset timeout { adaptive.start 70000, adaptive.end 90000 }\nset timeout interval 9")
        self.assertEqual(its.said[1], f"pf.conf:2: approximated: {never}")
        # In pf itself none of these does: it begins beyond the limit, never ends, or is off.
        for text in ("set limit states 60000\nset timeout { adaptive.start 70000, adaptive.end 90000 }",):
            self.assertNotIn("never shrink", "".join(taken_in(text).said))
        for text in ("{ adaptive.start 90000, adaptive.end 90000 }", "{ adaptive.start 0, adaptive.end 0 }"):
            self.assertNotIn("never shrink", "".join(taken_in(f"set limit states 400000\nset timeout {text}").said))

    def test_timeouts(self) -> None:
        its = taken_in("set timeout { tcp.first 9, interval 10 other.single 8 }\nset timeout udp.multiple 7")
        wanted = ["set timeout tcp.first 9", "set timeout other.single 8", "set timeout udp.multiple 7"]
        self.assertEqual(its.settings[:3], wanted)
        self.assertEqual(its.comments[1], "# pf.conf:2 set timeout udp.multiple 7")
        self.assertEqual(its.said[0], "pf.conf:1: approximated: `interval`: a purge is an event of the script")

    def test_profiles(self) -> None:
        classes = ("first", "opening", "established", "closing", "finwait", "closed")
        for name, seconds in (
            ("normal", (120, 30, 86400, 900, 45, 90)),
            ("high-latency", (180, 35, 86400, 905, 50, 95)),
            ("satellite", (180, 35, 86400, 905, 50, 95)),
            ("aggressive", (30, 5, 18000, 60, 30, 30)),
            ("conservative", (3600, 900, 432000, 3600, 600, 180)),
        ):
            wanted = [f"set timeout tcp.{it} {number}" for it, number in zip(classes, seconds)]
            self.assertEqual(taken_in(f"set optimization {name}").settings[:6], wanted)

    def test_what_changes_nothing_here(self) -> None:
        lines = ["fail-policy drop", "loginterface em0", 'fingerprints "/etc/pf.os"', "state-policy if-bound", "require-order no"]
        lines += ["skip on lo0", "debug loud"]
        its = taken_in("\n".join(f"set {line}" for line in lines))
        self.assertEqual(its.said[1], "pf.conf: 7 other lines: 7 exact, 0 approximated, 0 out")
        its = taken_in("set fail-policy return")
        why = "nothing is sent back where a pass rule can make no state: no RST, no ICMP error"
        self.assertEqual((its.rules(), its.said[0]), ([], f"pf.conf:1: approximated: {why}"))


if __name__ == "__main__":
    unittest.main()
