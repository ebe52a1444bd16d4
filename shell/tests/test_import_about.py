"""`--about`: which rules are left out, worked out by hand, and that none of them decides anything about the packets in question."""
from __future__ import annotations

import random
import unittest
from typing import List, NamedTuple, Optional

from . import laboratory
from .imports import Imported, taken_in
from .test_import_meaning import Packet
from .test_import_translated_meaning import HOSTS, TARGETS, WITH_PORTS, Fate, Flow, Line, of_laboratory, random_case

SEED, ROUNDS = 20261201, 100
WEB = """\
table <bad> { 203.0.113.0/24 }
nat on em0 inet from 10.0.0.0/24 to any -> (em0)
rdr on em0 inet proto tcp from any to (em0) port 80 -> 10.0.0.80 port 8080
rdr on em0 inet proto tcp from any to (em0) port 25 -> 10.0.0.25
block all
block in quick from <bad>
pass out on em0
pass in on em0 proto tcp to 10.0.0.80 port 8080
pass in on em0 proto tcp to 10.0.0.25 port 25
pass in on em0 proto tcp to { 192.0.2.81 192.0.2.82 } port { 80 443 }
pass in proto icmp
pass in proto tcp to (em0) port 22
"""
NEAR = "at the near end (what comes in goes to it, and what goes out comes from it)"
OTHERS = ["block any", "block in quick from 203.0.113.0/24", "pass out"]
NAT = ["pass out quick from 10.0.0.0/24 nat 192.0.2.1:50001:65535", "block out quick from 10.0.0.0/24"]
TO = "proto tcp to 192.0.2.1/32 tport 80"
BAD = "block in quick proto tcp from 203.0.113.0/24 to 192.0.2.1/32 tport 80"


class Left(unittest.TestCase):
    """What is left out, and how that is reported."""

    def about(self, wanted: str, text: str = WEB) -> Imported:
        return taken_in(text, "--about", wanted)

    def test_a_server_and_its_port(self) -> None:
        its = self.about("192.0.2.81:443")
        # (an echo may have any identifier, also this number)
        self.assertEqual(its.rules(), [*OTHERS, "pass in proto tcp to 192.0.2.81/32 tport 443", "pass in proto icmp"])
        self.assertEqual(
            its.said,
            [
                f"pf.conf: only what is about packets with 192.0.2.81:443 {NEAR} is written",
                "pf.conf: 5 rules of em0: 5 exact, 0 approximated, 0 out; 3 not about 192.0.2.81:443; 5 rule lines a node",
                "pf.conf: 0 translations of em0: 0 exact, 0 approximated, 0 out; 3 not about 192.0.2.81:443",
                "pf.conf: 1 other line: 1 exact, 0 approximated, 0 out",
            ],
        )
        self.assertEqual(
            its.setup[:7],
            [
                "# The rules of em0, taken in from a pf.conf by `./lab import`.",
                f"# Only for packets with 192.0.2.81:443 {NEAR},",
                "# as these come or once they are translated, and for their answers. What matches none of them is left out:",
                "# 3 rules and 3 translations, and nets and ports of others. So the rules decide about these packets as they would",
                "# without --about. About others they may decide otherwise: a script should have none.",
                "# By `kernel all` FreeBSD's rules hold where the laboratory has them, as far as we know them, and else its profile.",
                "kernel all",
            ],
        )
        # The numbers are those of pf, and what is left out has no comment.
        comments = [it.split()[1:3] for it in its.setup[6:] if it.startswith("# ")]
        wanted = ((5, 0), (6, 1), (7, 2), (10, 6), (11, 9))
        self.assertEqual(comments, [[f"pf.conf:{line}", f"@{number}"] for line, number in wanted])

    def test_an_address_alone_has_every_port(self) -> None:
        rules = [f"pass in proto tcp to 192.0.2.81/32 tport {it}" for it in (80, 443)]
        self.assertEqual(self.about("192.0.2.81").rules(), [*OTHERS, *rules, "pass in proto icmp"])

    def test_a_client_that_is_translated(self) -> None:
        # Its answers come to the ports of the translation, which the rule for port 22 is not for.
        self.assertEqual(self.about("10.0.0.17").rules(), [*NAT, *OTHERS, "pass in proto icmp"])
        # A rule for one of these ports decides about an answer where the state is missing.
        its = self.about("10.0.0.17", f"{WEB}pass in proto tcp to (em0) port 50007\n")
        self.assertEqual(its.rules()[-1], "pass in proto tcp to 192.0.2.1/32 tport 50007")

    def test_a_server_to_which_packets_are_redirected(self) -> None:
        rdr = [BAD, f"pass in quick {TO} rdr 10.0.0.80:8080", f"block in quick {TO}"]
        own = "pass in proto tcp to 10.0.0.80/32 tport 8080"
        self.assertEqual(self.about("10.0.0.80:8080").rules(), [*NAT, *rdr, *OTHERS, own, "pass in proto icmp"])

    def test_what_goes_the_other_way_between_the_ends_of_a_translated_packet(self) -> None:
        # It could make a state by which the packet itself passes, untranslated.
        text = f"{WEB}block out quick proto tcp from (em0) port 80\nblock out quick proto tcp from (em0) port 81\n"
        self.assertEqual(self.about("10.0.0.80:8080", text).rules()[-1], "block out quick proto tcp from 192.0.2.1/32 fport 80")

    def test_the_ends(self) -> None:
        text = "pass in from 10.0.0.0/8 to 192.0.2.80\npass in from any to 192.0.2.81\npass out to 192.0.2.82"
        first, second, third = "pass in from 10.0.0.0/8 to 192.0.2.80/32", "pass in to 192.0.2.81/32", "pass out to 192.0.2.82/32"
        # Of what rules pass, 192.0.2.80 and .81 are named as ends of this side, and the two others as ends beyond.
        self.assertEqual(self.about("192.0.2.81", text).rules(), [second, third])
        self.assertEqual(self.about("10.0.0.1", text).rules(), [first, second])
        self.assertEqual(self.about("192.0.2.82", text).rules(), [second, third])
        self.assertEqual(self.about("near=192.0.2.82", text).rules(), [third])
        self.assertEqual(self.about("far=192.0.2.81", text).rules(), [second])
        self.assertEqual(self.about("either=192.0.2.80", text).rules(), [first, second, third])
        said = self.about("198.51.100.7", text).said[0]
        self.assertEqual(said, "pf.conf: only what is about packets with 198.51.100.7 at an end is written")
        # An address of the interface itself is at its side.
        self.assertIn(NEAR, self.about("192.0.2.1", text).said[0])

    def test_ipv6(self) -> None:
        text = "pass in proto tcp to { 2001:db8::1 2001:db8::2 } port { 80 443 }\npass in inet"
        zeros = ":".join(["0000"] * 5)
        self.assertEqual(self.about("[2001:db8::2]:443", text).rules(), [f"pass in proto tcp to 2001:0db8:{zeros}:0002/128 tport 443"])
        self.assertEqual(len(self.about("2001:db8::2", text).rules()), 2)

    def test_what_is_not_exact(self) -> None:
        # What is out or approximated counts if it may be about these packets.
        text = "pass in to 10.0.0.1 no state\npass in to 10.0.0.2 modulate state\npass in proto blub\npass in to 10.0.0.3"
        for address, lines in (("10.0.0.3", [3]), ("10.0.0.1", [1, 3]), ("10.0.0.2", [2, 3])):
            said = [it.partition(": ")[0] for it in self.about(address, text).said]
            self.assertEqual(said, [*(f"pf.conf:{line}" for line in lines), "pf.conf", "pf.conf"])

    def test_files_with_more_rules_than_a_node_may_have(self) -> None:
        nets = ", ".join(f"10.{it // 256}.{it % 256}.1" for it in range(2000))
        text = f"table <t> {{ {nets} }}\npass in proto tcp to <t> port 80\nnat on em0 proto tcp from <t> to any -> (em0) port 7\nblock in"
        self.assertEqual(taken_in(text).status, 1)
        its = self.about("10.3.9.1:80", text)
        own = ["pass out quick proto tcp from 10.3.9.1/32 flags any nat 192.0.2.1:7", "pass in proto tcp to 10.3.9.1/32 tport 80"]
        self.assertEqual((its.status, its.rules()), (0, [*own, "block in"]))

    def test_two_long_lists(self) -> None:
        nets = [", ".join(f"{net}.{it // 256}.{it % 256}.1" for it in range(3000)) for net in (10, 20)]
        text = f"table <t> {{ {nets[0]} }}\ntable <u> {{ {nets[1]} }}\npass in from <t> to <u>\npass in to 192.0.2.7"
        self.assertEqual(self.about("192.0.2.7", text).rules(), ["pass in to 192.0.2.7/32"])

    def test_faulty_words(self) -> None:
        addresses = ["10.0.0.300", "x", "", "10.0.0.1:", "10.0.0.1:65536", "10.0.0.1:x", "[10.0.0.1]:7"]
        for word in (*addresses, "far10.0.0.1", "left=10.0.0.1", "near="):
            with self.assertRaises(SystemExit, msg=word):
                self.about(word)


class Asked(NamedTuple):
    """An address with a port, if one is asked for, and the end that has it."""

    address: str
    port: Optional[int]
    end: str

    def has(self, packet: Packet) -> bool:
        """Whether a packet has it as it comes; an echo has any identifier, and a packet of other protocols no port."""
        near, far = (packet.destination, packet.destination_port), (packet.source, packet.source_port)
        near, far = (near, far) if packet.direction == "in" else (far, near)
        ends = {"near": [near], "far": [far], "either": [near, far]}[self.end]
        return any(address == self.address and self.is_port(packet, port) for address, port in ends)

    def is_port(self, packet: Packet, port: int) -> bool:
        return self.port is None or packet.protocol == "icmp" or packet.protocol in WITH_PORTS and port == self.port

    def is_given(self, packet: Packet, fate: Fate) -> bool:
        """Whether a translation gives it to a packet."""
        return bool(fate.near) and self.end != "far" and self.has(translated(packet, fate)._replace())


def translated(packet: Packet, fate: Fate) -> Packet:
    if not fate.near:
        return packet
    if packet.direction == "out":
        return packet._replace(source=fate.near[0], source_port=fate.near[1])
    return packet._replace(destination=fate.near[0], destination_port=fate.near[1])


def answer(packet: Packet) -> Packet:
    turned = {"in": "out", "out": "in"}[packet.direction]
    return Packet(turned, packet.protocol, packet.destination, packet.destination_port, packet.source, packet.source_port)


class Verdicts(unittest.TestCase):
    """Verdicts with the rules that are left out, and without, over made packets."""

    def test_random_rules_decide_alike(self) -> None:
        chance = random.Random(SEED)
        compared, left = 0, 0
        for family in (4, 4, 4, 6) * (ROUNDS // 4):
            case = random_case(chance, family)
            if not case.is_legible:
                continue
            # (also addresses that rules name, and those to which they translate)
            prefix = "10.0.0." if family == 4 else "2001:db8::"
            named = [it for it in (*TARGETS[family], *HOSTS[family]) if "/" not in it]
            address = chance.choice((*named, f"{prefix}{chance.randrange(1, 8)}"))
            asked = Asked(address, chance.choice((None, None, *range(1, 5))), chance.choice(("near", "near", "far", "either")))
            place = address if family == 4 or asked.port is None else f"[{address}]"
            its = taken_in(case.text, "--about", f"{asked.end}={place}{'' if asked.port is None else f':{asked.port}'}")
            self.assertEqual(its.status, 0)
            lines = [Line.of(rule) for rule in its.rules()]
            left += len(case.lines) - len(lines)
            for flow in self.flows(chance, family, case.lines, asked):
                self.assertEqual(of_laboratory(flow, lines), of_laboratory(flow, case.lines), (case.text, asked, flow, its.rules()))
                compared += 1
        # Both are enough to say something.
        self.assertGreater(compared, 3000)
        self.assertGreater(left, 200)

    def flows(self, chance: random.Random, family: int, lines: List[Line], asked: Asked) -> List[Flow]:
        """Random packets in question, and the answers to them as these come."""
        found: List[Flow] = []
        for _ in range(60):
            flow = self.flow(chance, family, asked)
            fate = of_laboratory(flow, lines)
            if asked.has(flow.packet) or asked.is_given(flow.packet, fate):
                back = answer(translated(flow.packet, fate))
                found += [flow, Flow(back, False), Flow(back, flow.has_syn), Flow(answer(flow.packet), False)]
        return found

    def flow(self, chance: random.Random, family: int, asked: Asked) -> Flow:
        """A random packet, mostly with the address at one of its ends."""
        prefix, own = ("10.0.0.", "192.0.2.1") if family == 4 else ("2001:db8::", "2001:db8::9")
        ends = [chance.choice((asked.address, own, f"{prefix}{chance.randrange(1, 8)}")) for _ in range(2)]
        protocol = chance.choice(("tcp", "tcp", "udp", "icmp", "50"))
        some = (*range(6), *([asked.port] * 4 if asked.port is not None else []))
        ports = [chance.choice(some) if protocol in WITH_PORTS else 0 for _ in range(2)]
        packet = Packet(chance.choice(("in", "out")), protocol, ends[0], ports[0], ends[1], ports[1])
        return Flow(packet, protocol == "tcp" and chance.random() < 0.7)

    def test_the_program_decides_alike(self) -> None:
        packets = [
            "packet a in tcp 198.51.100.7:4000 192.0.2.1:80 S 1 0 1000 0",
            "packet a out tcp 10.0.0.80:8080 198.51.100.7:4000 SA 1 2 1000 0",
            "packet a in tcp 203.0.113.9:4000 192.0.2.1:80 S 1 0 1000 0",
            "packet a in tcp 198.51.100.7:4001 10.0.0.80:8080 S 1 0 1000 0",
            "packet a out tcp 10.0.0.80:8080 198.51.100.8:4000 S 1 0 1000 0",
            "packet b in tcp 198.51.100.8:4000 192.0.2.1:50001 SA 1 2 1000 0",
        ]
        steps = [f"step main {packet}" for packet in packets]
        found: List[List[str]] = []
        for words in ((), ("--about", "10.0.0.80:8080")):
            lab = laboratory("\n".join(taken_in(WEB, *words).setup))
            self.addCleanup(lab.close)
            found.append([lab.ask(step)[0] for step in steps])
        self.assertEqual(found[0], found[1])
        self.assertGreater(len({*found[0]}), 2)


if __name__ == "__main__":
    unittest.main()
