"""Translations of a pf.conf with the rules that they come to, worked out by hand from pf.conf(5): the translation comes first, and the
filter sees the packet that it makes."""
from __future__ import annotations

import unittest
from ipaddress import IPv4Network
from typing import List

from ..language.comments import is_of_import, origin
from .imports import taken_in

# pf draws one of the ports of a `nat` at random, so none with several ports is exact.
DRAWN = "pf draws the port at random, and here the first free one is taken"
NAT = "nat on em0 inet from 10.0.0.0/24 to any -> (em0)"
POOL = "nat 192.0.2.1:50001:65535"
FROM = "from 10.0.0.0/24"
RDR = "rdr on em0 inet proto tcp from any to (em0) port 80 -> 10.0.0.80 port 8080"
TO = "proto tcp to 192.0.2.1/32 tport 80"


def _without(net: str) -> List[str]:
    """The nets that are not this one, from the lowest on."""
    return [str(it) for it in sorted(IPv4Network("0.0.0.0/0").address_exclude(IPv4Network(net)))]


class Exact(unittest.TestCase):
    """Translations of which nothing is to be said, but for how a port is chosen."""

    def exact(self, text: str, *rules: str) -> None:
        its = taken_in(text)
        lost = [it for it in its.said if "approximated: " in it or ": out: " in it]
        self.assertEqual([it for it in lost if not it.endswith(f": approximated: {DRAWN}")], [], text)
        self.assertEqual(its.rules(), list(rules), text)

    def test_a_gateway(self) -> None:
        rest = (f"block out quick {FROM}", "block any", "pass out")
        self.exact(f"{NAT}\nblock all\npass out on em0 keep state", f"pass out quick {FROM} {POOL}", *rest)
        # A pass rule takes SYN alone, so the block rule is for what is left; what no rule is for passes, and a state is made.
        self.exact(f"{NAT}\npass out", f"pass out quick {FROM} {POOL}", f"pass out quick {FROM} flags any {POOL}", "pass out")
        self.exact(NAT, f"pass out quick {FROM} flags any {POOL}")
        self.exact(f"{NAT}\nblock in", f"pass out quick {FROM} flags any {POOL}", "block in")

    def test_a_gateway_of_some_protocols(self) -> None:
        # pf goes by the last rule, so the last one comes first; an echo gets any identifier.
        translated = [
            f"pass out quick proto icmp {FROM} nat 192.0.2.1:1:65535",
            f"pass out quick proto udp {FROM} {POOL}",
            f"pass out quick proto tcp {FROM} {POOL}",
            f"block out quick {FROM}",
        ]
        rest = ["block any", *(f"pass out proto {it}" for it in ("tcp", "udp", "icmp"))]
        self.exact(f"{NAT}\nblock all\npass out on em0 proto {{ tcp, udp, icmp }} from any to any", *translated, *rest)

    def test_a_rule_for_all_but_a_few_addresses(self) -> None:
        # What the rules above it say about the few comes first, so that it can be for all.
        few, rest = "to 10.9.0.0/16", [it for net in _without("10.9.0.0/16") for it in [f"pass out to {net} no-sync"]]
        translated = [
            f"pass out quick proto udp {FROM} {few} {POOL}",
            f"block out quick {FROM} {few}",
            f"pass out quick {FROM} no-sync {POOL}",
            f"block out quick {FROM}",
        ]
        text = f"{NAT}\nblock all\npass out proto udp {few}\npass out to ! 10.9.0.0/16 keep state (no-sync)"
        self.exact(text, *translated, "block any", f"pass out proto udp {few}", *rest)
        # Two of them: what the one leaves out is for the other.
        text = f"{NAT}\nblock all\npass out to ! 10.8.0.0/16\nblock out to ! 10.9.0.0/16"
        translated = [
            f"pass out quick {FROM} {few} {POOL}",
            f"block out quick {FROM} {few}",
            f"block out quick {FROM}",
        ]
        self.assertEqual(taken_in(text).rules()[:4], [*translated, "block any"])

    def test_an_exception_of_both_families_for_each_of_which_a_rule_decides(self) -> None:
        text = f"no nat proto carp\n{NAT}\npass out inet\npass out inet6"
        v4, v6 = (f"from {it}" for it in ("0.0.0.0/0", f"{':'.join(['0000'] * 8)}/0"))
        own = [f"pass out quick {FROM} {POOL}", f"pass out quick {FROM} flags any {POOL}"]
        self.exact(text, f"pass out quick proto 112 {v6}", f"pass out quick proto 112 {v4}", *own, f"pass out {v4}", f"pass out {v6}")

    def test_the_filter_sees_the_source_that_is_put_in(self) -> None:
        # A rule for the clients' own addresses is not for what is translated.
        self.exact(f"{NAT}\nblock all\npass out {FROM}", f"block out quick {FROM}", "block any", f"pass out {FROM}")
        rules = (f"pass out quick {FROM} {POOL}", f"block out quick {FROM}", "block any", "pass out from 192.0.2.1/32")
        self.exact(f"{NAT}\nblock all\npass out from (em0)", *rules)
        # Of ports, the range that is put in counts: 50001:65535 is above 1023, and not among those up to it.
        text, own = f"{NAT}\nblock all\npass out proto udp from any port", "proto udp fport"
        rules = (f"pass out quick proto udp {FROM} {POOL}", f"block out quick {FROM}", "block any", f"pass out {own} 1024:65535")
        self.exact(f"{text} > 1023", *rules)
        self.exact(f"{text} < 1024", f"block out quick {FROM}", "block any", f"pass out {own} 0:1023")

    def test_an_exception_keeps_its_packets_as_they_are(self) -> None:
        tunnel = f"{FROM} to 10.9.0.0/16"
        translated = (f"pass out quick {FROM} {POOL}", f"block out quick {FROM}")
        rules = (f"pass out quick {tunnel}", f"block out quick {tunnel}", *translated, "block any", "pass out")
        self.exact(f"no nat on em0 {tunnel}\n{NAT}\nblock all\npass out", *rules)
        # Where nothing is left to be excepted from, nothing is written.
        self.exact(f"{NAT}\nno nat on em0 {tunnel}\nblock all\npass out", *translated, "block any", "pass out")
        self.exact(f"no nat on em0 {tunnel}\nblock all", "block any")

    def test_all_but_a_few_addresses_are_an_exception(self) -> None:
        text = "nat on em0 inet from ! (em0) to any -> (em0)\nblock all\npass out"
        own = ("pass out quick from 192.0.2.1/32", "block out quick from 192.0.2.1/32")
        rest = (f"pass out quick {POOL}", "block out quick from 0.0.0.0/0", "block any", "pass out")
        self.exact(text, *own, *rest)
        # What one end leaves out is left out whatever the other end is.
        ends = ("from 10.0.0.1/32", "to 10.1.0.1/32")
        exceptions = [f"{action} out quick {end}" for end in ends for action in ("pass", "block")]
        self.exact("nat on em0 inet from ! 10.0.0.1 to ! 10.1.0.1 -> (em0)\nblock all\npass out", *exceptions, *rest)

    def test_a_published_server(self) -> None:
        rules = (f"pass in quick {TO} rdr 10.0.0.80:8080", f"block in quick {TO}", "block any")
        own = "pass in proto tcp to 10.0.0.80/32 tport 8080"
        self.exact(f"{RDR}\nblock all\npass in on em0 proto tcp to 10.0.0.80 port 8080", *rules, own)
        # A rule for the public end is not for what is translated.
        self.exact(f"{RDR}\nblock all\npass in proto tcp to (em0) port 80", f"block in quick {TO}", "block any", f"pass in {TO}")

    def test_what_passes_by_its_translation_meets_no_rule(self) -> None:
        rule = f"pass in quick {TO} flags any rdr 10.0.0.80:8080"
        self.exact(RDR.replace("rdr", "rdr pass", 1) + "\nblock all", rule, "block any")

    def test_quick_rules_come_in_their_own_order(self) -> None:
        text = f"{RDR}\nblock in quick from 198.51.100.0/24\npass in quick proto tcp to 10.0.0.80\nblock in from 203.0.113.0/24"
        drop = f"block in quick proto tcp from 198.51.100.0/24 {TO[len('proto tcp '):]}"
        # What has no SYN goes by the rule that is not quick, or by none.
        other = drop.replace("198.51.100", "203.0.113")
        passes = (f"pass in quick {TO} rdr 10.0.0.80:8080", other, f"pass in quick {TO} flags any rdr 10.0.0.80:8080")
        own = ("block in quick from 198.51.100.0/24", "pass in quick proto tcp to 10.0.0.80/32", "block in from 203.0.113.0/24")
        self.exact(text, drop, *passes, *own)

    def test_ports_of_a_redirection(self) -> None:
        def redirected(ports: str, to: str, *wanted: str) -> None:
            rules = [f"pass in quick proto tcp tport {it.replace(' ', ' flags any rdr 10.0.0.8:')}" for it in wanted]
            self.exact(f"rdr pass on em0 proto tcp to any port {ports} -> 10.0.0.8{to}", *rules)

        redirected("80", "", "80 80")
        redirected("{ 80 443 }", "", "80 80", "443 443")
        redirected("80:81", "", "80 80", "81 81")
        redirected("80:99", " port 8080", "80:99 8080")
        redirected("80:81", " port 8080:*", "80 8080", "81 8081")
        redirected("80", " port 8080:*", "80 8080")
        redirected("80:82", " port 80:*", "80 80", "81 81", "82 82")
        redirected("80:81", " port 80:90", "80 80", "81 81")
        # Where there are fewer ports, they are taken in turn.
        redirected("1:3", " port 3:4", "1 3", "2 4", "3 3")
        redirected("http", " port https", "80 443")

    def test_ports_of_a_nat(self) -> None:
        def translated(port: str, wanted: str) -> None:
            text = f"nat pass on em0 proto udp from 10.0.0.0/24 to any -> 192.0.2.1 {port}"
            self.exact(text, f"pass out quick proto udp {FROM} nat 192.0.2.1:{wanted}")

        translated("", "50001:65535")
        translated("port 4000", "4000")
        translated("port 1024:65535", "1024:65535")
        translated("port 9:7", "7:9")

    def test_a_port_that_stays_is_that_of_the_rule(self) -> None:
        text = "nat pass on em0 proto udp from 10.0.0.0/24 port 500 to any -> (em0) static-port"
        self.exact(text, f"pass out quick proto udp {FROM} fport 500 nat 192.0.2.1:500")
        # Protocols without ports have none that would have to stay.
        self.exact("rdr pass on em0 proto esp to (em0) -> 10.0.0.4", "pass in quick proto 50 to 192.0.2.1/32 rdr 10.0.0.4:0")

    def test_a_binat_goes_both_ways(self) -> None:
        text = "binat on em0 from 10.0.0.4 to any -> 192.0.2.4\nblock all\npass in proto tcp to 10.0.0.4 port { 25 443 }"
        rules = [
            "block out quick from 10.0.0.4/32",
            "pass in quick proto tcp to 192.0.2.4/32 tport 443 rdr 10.0.0.4:443",
            "pass in quick proto tcp to 192.0.2.4/32 tport 25 rdr 10.0.0.4:25",
            "block in quick to 192.0.2.4/32",
            "block any",
            *(f"pass in proto tcp to 10.0.0.4/32 tport {it}" for it in (25, 443)),
        ]
        self.exact(text, *rules)

    def test_a_binat_comes_before_a_nat_and_after_a_redirection(self) -> None:
        binat = "binat pass on em0 proto esp from 10.0.0.4 to any -> 192.0.2.4"
        nat, rdr = "nat pass on em0 proto esp from any to any -> 192.0.2.5", "rdr pass on em0 proto esp from any to any -> 10.0.0.9"
        out = ("pass out quick proto 50 from 10.0.0.4/32 nat 192.0.2.4:0", "pass out quick proto 50 nat 192.0.2.5:0")
        # The redirection is for all that comes, so nothing is left for the way in of the other.
        self.exact(f"{nat}\n{binat}\n{rdr}", *out, "pass in quick proto 50 rdr 10.0.0.9:0")

    def test_an_exception_of_one_kind_leaves_its_packets_to_the_other(self) -> None:
        binat = "binat pass on em0 proto esp from 10.0.0.4 to any -> 192.0.2.4"
        nat = "nat pass on em0 proto esp from any to any -> 192.0.2.5"
        far = "10.9.0.0/16"
        rules = [
            f"pass out quick proto 50 from 10.0.0.4/32 to {far} nat 192.0.2.5:0",
            "pass out quick proto 50 from 10.0.0.4/32 nat 192.0.2.4:0",
            "pass out quick proto 50 nat 192.0.2.5:0",
            "pass in quick proto 50 to 192.0.2.4/32 rdr 10.0.0.4:0",
        ]
        self.exact(f"no binat on em0 from 10.0.0.4 to {far}\n{binat}\n{nat}", *rules)

    def test_the_first_of_several_translations(self) -> None:
        first = "nat pass on em0 proto esp from 10.0.0.0/24 to any -> 192.0.2.5"
        second = "nat pass on em0 proto esp from any to any -> 192.0.2.6"
        rules = ("pass out quick proto 50 from 10.0.0.0/24 nat 192.0.2.5:0", "pass out quick proto 50 nat 192.0.2.6:0")
        self.exact(f"{first}\n{second}", *rules)
        self.exact(f"{second}\n{first}", rules[1])

    def test_ipv6(self) -> None:
        zeros = ":".join(["0000"] * 5)
        text = "nat pass on em0 inet6 from fd00::/16 to any -> 2001:db8::1"
        self.exact(text, f"pass out quick from fd00:{zeros}:0000:0000/16 flags any nat [2001:0db8:{zeros}:0001]:50001:65535")
        # em0 has no address of IPv6, so what has one stays as it is.
        self.exact("nat on em0 from fd00::/16 to any -> (em0)\nblock all", "block any")

    def test_other_interfaces(self) -> None:
        its = taken_in(f"{NAT.replace('on em0', 'on em1')}\nblock all\nno rdr on {{ em1 em0 }} proto tcp from any to any port 22")
        self.assertEqual(its.rules(), ["block any"])
        self.assertEqual(its.said[1], "pf.conf: 1 translation of em0: 1 exact, 0 approximated, 0 out; 1 for other interfaces")


class Drawn(unittest.TestCase):
    """Which of several ports a flow gets: pf draws one at random."""

    def lost(self, text: str) -> List[str]:
        return [it.partition("approximated: ")[2] for it in taken_in(text).said if "approximated: " in it]

    def test_where_there_are_several_ports(self) -> None:
        for ends in ("inet", "proto tcp", "proto { tcp udp }", "inet6 from fd00::1 to any"):
            self.assertEqual(self.lost(f"nat on em0 {ends} -> {'::1' if 'inet6' in ends else '192.0.2.1'}"), [DRAWN])
        self.assertEqual(self.lost("nat on em0 proto udp -> 192.0.2.1 port 1024:65535"), [DRAWN])
        its = taken_in("nat on em0 proto udp -> 192.0.2.1")
        self.assertIn(f"# pf.conf:1 approximated: {DRAWN}", its.setup)

    def test_where_there_is_one_or_none(self) -> None:
        for text in (
            "nat on em0 proto udp -> 192.0.2.1 port 4000",
            "nat on em0 proto esp -> 192.0.2.1",
            "nat on em0 proto udp from any port 500 -> 192.0.2.1 static-port",
            "no nat on em0 proto esp",
            "rdr pass on em0 proto tcp to port 80:99 -> 10.0.0.8 port 8080",
            "binat on em0 proto esp from 10.0.0.4 to any -> 192.0.2.4",
        ):
            self.assertEqual(self.lost(text), [], text)

    def test_an_echo_gets_any_identifier_whatever_ports_there_are(self) -> None:
        its = taken_in("nat pass on em0 inet from 10.0.0.0/24 to any -> 192.0.2.1 port 7")
        echo = f"pass out quick proto icmp {FROM} nat 192.0.2.1:1:65535"
        self.assertEqual(its.rules(), [echo, f"pass out quick {FROM} flags any nat 192.0.2.1:7"])
        why = "approximated: pf draws the identifier of an echo at random, and here the first free one is taken"
        self.assertEqual(its.said[0], f"pf.conf:1: {why}")
        self.assertEqual(self.lost("nat on em0 proto icmp -> 192.0.2.1"), [why.partition(": ")[2]])


class WithoutProtocol(unittest.TestCase):
    """`nat` with a port and any protocol, as pfctl takes it: nat_consistent() of its parse.y tests nothing."""

    ECHOES = "pf also takes echoes whose identifier is such a port, and here they are left out"

    def test_the_line_for_isakmp_of_pfsense_and_opnsense(self) -> None:
        first, second = (f"nat on em0 inet from (em1:network) to any {it}" for it in ("port 500 -> (em0:0) static-port", "-> (em0)"))
        its = taken_in(f"{first}\n{second}\npass out", "--address", "em1=10.0.0.1/24")
        isakmp = f"pass out quick {FROM} fport 500 tport 500"
        self.assertEqual(
            its.rules(),
            [
                f"{isakmp} nat 192.0.2.1:500",
                f"pass out quick {FROM} tport 500 nat 192.0.2.1:1:65535",
                f"{isakmp} flags any nat 192.0.2.1:500",
                f"pass out quick {FROM} tport 500 flags any nat 192.0.2.1:1:65535",
                f"pass out quick {FROM} {POOL}",
                f"pass out quick {FROM} flags any {POOL}",
                "pass out",
            ],
        )
        stays = "a port that stays as it is has no form here: the first free one of 1:65535 is taken, except from port 500 to port 500"
        self.assertEqual(its.said[0], f"pf.conf:1: approximated: {self.ECHOES}; {stays}")

    def test_each_protocol(self) -> None:
        def judged(ends: str, verdict: str, *rules: str) -> None:
            its = taken_in(f"nat pass on em0 {ends} -> 192.0.2.1 port 7")
            self.assertEqual(its.rules(), [f"pass out quick {rule} nat 192.0.2.1:7" for rule in rules], ends)
            self.assertEqual(its.said[0], f"pf.conf:1: approximated: {verdict}" if verdict else its.said[0])

        judged("inet from any to any port 500", self.ECHOES, "tport 500 flags any")
        judged("inet proto udp from any port 500 to any", "", "proto udp fport 500")
        # What has no ports has port 0 in pf.
        zero = "pf also takes packets of protocols without ports, and here they are left out"
        judged("inet from any to any port < 1024", f"{self.ECHOES}; {zero}", "tport 0:1023 flags any")
        judged("inet proto icmp from any to any port 500", f"{self.ECHOES}; packets of its protocol have no such ports")
        judged("inet proto esp from any to any port 500", "packets of its protocol have no such ports")
        its = taken_in("nat pass on em0 inet proto esp to any port < 9 -> 192.0.2.1")
        self.assertEqual(its.rules(), ["pass out quick proto 50 nat 192.0.2.1:0"])

    def test_an_exception(self) -> None:
        its = taken_in(f"no nat on em0 inet from any to any port 500\n{NAT}\nblock all\npass out")
        # (the block rule is for all that passes out without SYN)
        rules = [f"{it} out quick from 0.0.0.0/0 tport 500" for it in ("pass", "block")]
        self.assertEqual(its.rules()[:2], rules)
        self.assertEqual(its.said[0], f"pf.conf:1: approximated: {self.ECHOES}")

    def test_a_rule_of_the_filter_for_another_protocol_is_not_asked(self) -> None:
        its = taken_in("nat on em0 inet to any port 500 -> 192.0.2.1 port 7\nblock all\npass out proto { icmp esp udp }")
        rules = ["pass out quick proto udp tport 500 nat 192.0.2.1:7", "block out quick from 0.0.0.0/0 tport 500"]
        self.assertEqual(its.rules()[:3], [*rules, "block any"])

    def test_what_pfctl_refuses(self) -> None:
        port = "pfctl takes a port only with `proto tcp` or `proto udp`"
        for text, why in (
            ("rdr on em0 from any to any port 80 -> 10.0.0.1", port),
            ("rdr on em0 from any port 80 to any -> 10.0.0.1", port),
            ("no rdr on em0 from any to any port 80", port),
            ("binat on em0 proto tcp from 10.0.0.4 to any port 80 -> 192.0.2.4", "pfctl takes no ports with `binat`"),
        ):
            self.assertEqual(taken_in(text).said[0], f"pf.conf:1: out: {why}; the rules see addresses as they are without it")


class NotExact(unittest.TestCase):
    """Translations of which something is lost, or that are out."""

    def judged(self, text: str, verdict: str, why: str, *rules: str) -> None:
        its = taken_in(text)
        self.assertEqual(its.said[0], f"pf.conf:1: {verdict}: {why}", text)
        self.assertEqual(its.rules(), list(rules), text)

    def test_the_first_of_several_addresses(self) -> None:
        for to, first in (("{ 10.1.2.3, 10.1.2.4 } round-robin", "10.1.2.3"), ("10.1.2.3/30 source-hash", "10.1.2.0")):
            why = f"of several addresses to translate to, the first is taken, {first}"
            rule = f"pass in quick proto tcp tport 80 flags any rdr {first}:80"
            self.judged(f"rdr pass on em0 proto tcp to port 80 -> {to}", "approximated", why, rule)

    def test_a_port_that_stays(self) -> None:
        stays = "a port that stays as it is has no form here"
        echo = "pf draws the identifier of an echo at random, and here the first free one is taken"
        why = f"{echo}; {stays}: the first free one of 1:65535 is taken"
        text = "nat pass on em0 inet from 10.0.0.0/24 to any -> (em0) static-port"
        self.judged(text, "approximated", why, f"pass out quick {FROM} flags any nat 192.0.2.1:1:65535")
        text = "nat pass on em0 proto udp from 10.0.0.0/24 port > 1023 to any -> (em0) static-port"
        why = f"{stays}: the first free one of 1024:65535 is taken"
        self.judged(text, "approximated", why, f"pass out quick proto udp {FROM} fport 1024:65535 nat 192.0.2.1:1024:65535")
        text = "rdr on em0 proto tcp to (em0) -> 10.0.0.4\nblock all\npass in to 10.0.0.4"
        rules = ("pass in quick proto tcp to 192.0.2.1/32", "block in quick proto tcp to 192.0.2.1/32", "block any")
        self.judged(text, "approximated", f"{stays}: what is passed by pf.conf:3 is not translated", *rules, "pass in to 10.0.0.4/32")
        # Each port of a range to itself, as generators write it.
        text = "rdr on em0 proto udp to (em0) port 10000:20000 -> 10.0.0.4 port 10000:*\nblock all"
        text += "\npass in proto udp to 10.0.0.4 port > 10100"
        few = "proto udp to 192.0.2.1/32 tport"
        rules = (f"pass in quick {few} 10101:20000", f"block in quick {few} 10000:20000", "block any")
        own = "pass in proto udp to 10.0.0.4/32 tport 10101:65535"
        self.judged(text, "approximated", f"{stays}: what is passed by pf.conf:3 is not translated", *rules, own)

    def test_some_of_the_ports(self) -> None:
        text = "nat on em0 proto udp from 10.0.0.0/24 to any -> (em0) port 1000:2000\nblock all\npass out proto udp from any port"
        why = f"{DRAWN}; pf.conf:3 is for only some of its ports: the first one decides"
        rule = f"pass out quick proto udp {FROM} nat 192.0.2.1:1000:2000"
        self.judged(f"{text} < 1024", "approximated", why, rule, "block any", "pass out proto udp fport 0:1023")
        rules = (f"block out quick proto udp {FROM}", "block any", "pass out proto udp fport 1024:65535")
        self.judged(f"{text} > 1023", "approximated", why, *rules)

    def test_an_exception_from_which_nothing_is_matched(self) -> None:
        why = "what no rule of the filter matches makes a state here"
        rules = ("pass out quick from 10.0.0.0/25 flags any", f"pass out quick {FROM} flags any {POOL}")
        self.judged(f"no nat on em0 from 10.0.0.0/25 to any\n{NAT}", "approximated", why, *rules)

    def test_what_is_out(self) -> None:
        nets = "a net would keep the rest of each address, and addresses are translated one by one here"
        families = "pfctl refuses it: its addresses are of two families, so it gives no rule"
        beyond = "its ports go beyond the last one, or from the last to the first"
        tagged = "`tagged X`: packets of the laboratory have no tags, and this file gives them this one"
        for text, why in (
            ("nat on em0 from any to any -> em2", "the addresses of em2 are not known: --address em2=ADDRESS/LENGTH gives them"),
            ("nat on em0 inet6 from any to any -> 192.0.2.1", "no address of its family follows `->`"),
            ("nat on em0 inet from 2001:db8::/32 to any -> (em0)", families),
            ("nat on em0 from any to any -> ! 192.0.2.1", "what follows `->` is neither an address nor a table of the file"),
            ("nat on em0 from any to any -> <none>", "what follows `->` is neither an address nor a table of the file"),
            ("nat on em0 from any to any -> em0 port 7 static-port", "pfctl takes no `static-port` with a port"),
            ("nat on em0 from any to any -> em0 port x", "the port `x` is neither a number up to 65535 nor a name known here"),
            ("rdr on em0 from any to any -> 10.0.0.1 port 7", "pfctl takes a port only with `proto tcp` or `proto udp`"),
            ("rdr on em0 proto tcp to any -> 10.0.0.1 static-port", "pfctl takes `static-port` only with `nat`"),
            (
                "rdr on em0 proto tcp to any port 100:116 -> 10.0.0.1 port 200:*",
                "each of 17 ports is redirected to one of its own, and a rule here has no form for that",
            ),
            (
                "rdr on em0 proto tcp to any port { 100:101 7 } -> 10.0.0.1 port 200:*",
                "ports are redirected to others one by one here only from one port, or from one range LOW:HIGH",
            ),
            ("rdr on em0 proto tcp to port 1:2 -> 10.0.0.1 port 65535:*", beyond),
            ("rdr on em0 proto tcp to port 1:2 -> 10.0.0.1 port 9:7", beyond),
            ("binat on em0 from 10.0.0.0/30 to any -> 192.0.2.4/30", nets),
            ("binat on em0 from any to any -> 192.0.2.4", nets),
            ("nat on em0 from any to any tagged X -> em0\npass in on em1 tag X", tagged),
        ):
            self.judged(text, "out", f"{why}; the rules see addresses as they are without it")

    def test_what_matches_nothing(self) -> None:
        self.judged("nat on em0 inet from any to any tagged X -> em0", "approximated", "no rule of this file gives a packet the tag `X`")
        its = taken_in("nat pass on em0 inet from 10.0.0.0/24 to any ! tagged X -> em0")
        self.assertEqual(its.rules(), [f"pass out quick {FROM} flags any {POOL}"])
        self.judged("nat on em0 inet from no-route to any -> em0", "approximated", NO_ROUTES)

    def test_translations_for_which_there_is_no_room_are_out(self) -> None:
        table = f"table <t> const {{ {' '.join(f'10.0.{it}.0/24' for it in range(0, 260, 2) if it < 256)} }}"
        its = taken_in(f"{table}\nnat on em0 inet from <t> to any -> em0\n{RDR}\nblock all\npass out")
        why = "out: with its rules a node would have more than 256; the rules see addresses as they are without it"
        self.assertEqual(its.said[:2], [f"pf.conf:2: {why}", f"pf.conf:3: {why}"])
        self.assertEqual(its.rules(), ["block any", "pass out"])

    def test_each_rule_has_a_max_of_its_own(self) -> None:
        its = taken_in(f"{NAT}\nblock all\npass out keep state (max 5)")
        self.assertEqual(its.said[1], "pf.conf:3: approximated: each of its 2 rules here has a `max` of its own")


class Said(unittest.TestCase):
    """What is reported, and the comments."""

    def test_the_sums(self) -> None:
        its = taken_in(f"{NAT}\n{RDR}\nnat on em0 from any to any -> em9\nnat on em1 from any to any -> em9\nblock all\nset debug loud")
        wanted = [
            "pf.conf: 1 rule of em0: 1 exact, 0 approximated, 0 out; 3 rule lines a node",
            "pf.conf: 3 translations of em0: 1 exact, 1 approximated, 1 out; 1 for other interfaces",
            "pf.conf: 1 other line: 1 exact, 0 approximated, 0 out",
        ]
        self.assertEqual(its.said[2:], wanted)

    def test_the_comments_say_which_rule_and_which_translation(self) -> None:
        its = taken_in(f"no nat on em0 to 10.9.0.0/16\n{NAT}\nblock out quick on em1\npass out", "--node", "a")
        wanted = [
            "# pf.conf:1 approximated: what no rule of the filter matches makes a state here",
            f"# pf.conf:2 approximated: {DRAWN}",
            "# pf.conf:1 no nat on em0 to 10.9.0.0/16",
            "# pf.conf:4 @1, no nat pf.conf:1: pass out",
            "# pf.conf:1 where no rule matches: no nat on em0 to 10.9.0.0/16",
            f"# pf.conf:2 {NAT}",
            "# pf.conf:4 @1, nat pf.conf:2: pass out",
            f"# pf.conf:2 where no rule matches: {NAT}",
            "# pf.conf:4 @1 pass out",
        ]
        self.assertEqual(its.comments, wanted)
        first = ["pf.conf:1", "pf.conf:4 @1, no nat pf.conf:1", "pf.conf:1"]
        second = ["pf.conf:2", "pf.conf:4 @1, nat pf.conf:2", "pf.conf:2"]
        self.assertEqual([origin(comment) for comment in its.comments], ["", "", *first, *second, "pf.conf:4 @1"])
        self.assertTrue(all(is_of_import(comment) for comment in its.comments))

    def test_other_comments_are_of_nobody(self) -> None:
        others: List[str] = ["# x:1 native", "# x:1 no nats", "# x:1 @2, nat y: pass", "# nat on em0", "# x:1 where no rule: nat"]
        self.assertEqual([(origin(it), is_of_import(it)) for it in others], [("", False)] * len(others))


NO_ROUTES = "the laboratory has no routes: every address counts as having one, and no packet fails the reverse path test"

if __name__ == "__main__":
    unittest.main()
