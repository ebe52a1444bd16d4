"""Random rules of a pf.conf, and the rules of the laboratory that they come to: both match the same packets."""
from __future__ import annotations

import ipaddress
import random
import unittest
from typing import Dict, List, NamedTuple, Tuple

from .imports import taken_in

SEED, ROUNDS, PACKETS = 20261128, 150, 60
V4 = ("10.0.0.0/30", "10.0.0.1", "10.0.0.2", "10.0.0.4/31", "10.0.0.0/29", "128.0.0.0/1", "0/0")
V6 = ("2001:db8::/125", "2001:db8::1", "2001:db8::4/126", "::/0")
PORTS = ("1", "= 2", "!= 2", "< 2", "<= 2", "> 2", ">= 3", "1:3", "1 >< 4", "1 <> 3", "{ 1 4 }", "{ != 2 }")
TABLES: Dict[str, Tuple[str, ...]] = {
    "t": ("10.0.0.0/29", "! 10.0.0.2/31", "10.0.0.3"),
    "u": ("10.0.0.1", "2001:db8::/126", "! 2001:db8::2"),
    "w": (),
}


class Packet(NamedTuple):
    """What a rule looks at."""

    direction: str
    protocol: str
    source: str
    source_port: int
    destination: str
    destination_port: int


def in_net(address: str, net: str) -> bool:
    net = net if ":" in net or net.count(".") == 3 else "0.0.0.0/0"
    return ipaddress.ip_address(address) in ipaddress.ip_network(net)


def in_table(address: str, name: str) -> bool:
    """The entry with the longest net that holds the address decides."""
    entries = [(ipaddress.ip_network(it.lstrip("! ")), it.startswith("!")) for it in TABLES[name]]
    holding = [(net.prefixlen, is_not) for net, is_not in entries if ipaddress.ip_address(address) in net]
    return bool(holding) and not max(holding)[1]


def of_host(address: str, host: str) -> bool:
    """Whether an address is one that a rule has: `!` of a net is of its family alone, and `!` of a table of both."""
    is_not, text = host.startswith("!"), host.lstrip("! ")
    if text == "any":
        return True
    if text.startswith("<"):
        return in_table(address, text.strip("<>")) != is_not
    is_family = (":" in address) == (":" in text)
    return is_family and in_net(address, text) != is_not


def of_port(port: int, text: str) -> bool:
    """Whether a port is one that a rule has."""
    if text.startswith("{"):
        parts = ["!= 2"] if "!=" in text else text.strip("{ }").split()
        return any(of_port(port, part) for part in parts)
    words = text.split()
    if len(words) == 3:
        low, high = int(words[0]), int(words[2])
        return low < port < high if words[1] == "><" else port < low or port > high
    if ":" in text:
        low, high = map(int, text.split(":"))
        return low <= port <= high
    sign, number = ("=", int(text)) if len(words) == 1 else (words[0], int(words[1]))
    tests = {"=": port == number, "!=": port != number, "<": port < number, "<=": port <= number}
    return {**tests, ">": port > number, ">=": port >= number}[sign]


def family_of(address: str) -> str:
    return "inet6" if ":" in address else "inet"


class Ends(NamedTuple):
    """The packets that a statement is for."""

    family: str
    protocol: str
    source: str
    source_port: str
    destination: str
    destination_port: str

    @property
    def words(self) -> List[str]:
        words = [self.family, *(["proto", self.protocol] if self.protocol else [])]
        words += ["from", self.source, *(["port", self.source_port] if self.source_port else [])]
        words += ["to", self.destination, *(["port", self.destination_port] if self.destination_port else [])]
        return [word for word in words if word]

    def matches(self, packet: Packet) -> bool:
        """Whether a packet is one of them, by pf.conf(5)."""
        return (
            self.protocol in ("", packet.protocol)
            and self.family in ("", family_of(packet.source))
            and of_host(packet.source, self.source)
            and of_host(packet.destination, self.destination)
            and (not self.source_port or of_port(packet.source_port, self.source_port))
            and (not self.destination_port or of_port(packet.destination_port, self.destination_port))
        )


class Random(NamedTuple):
    """A random rule by its parts."""

    direction: str
    ends: Ends

    @property
    def text(self) -> str:
        return " ".join(["pass", *([self.direction] if self.direction else []), *self.ends.words])

    def matches(self, packet: Packet) -> bool:
        return self.direction in ("", packet.direction) and self.ends.matches(packet)


def line_matches(line: str, packet: Packet) -> bool:
    """Whether a rule of the laboratory is for a packet, by docs/FORMATS.md."""
    _, direction, *words = line.split()
    said = dict(zip(words[::2], words[1::2]))
    ends = (("from", packet.source, "fport", packet.source_port), ("to", packet.destination, "tport", packet.destination_port))
    for net, address, port, number in ends:
        low, _, high = said.get(port, "0:65535").partition(":")
        if not int(low) <= number <= int(high or low) or net in said and not in_net(address, said[net]):
            return False
    return direction in ("any", packet.direction) and said.get("proto", packet.protocol) == packet.protocol


def random_rule(chance: random.Random) -> Random:
    protocol = chance.choice(("tcp", "udp", ""))
    hosts = (*["any"] * 20, *V4, *V6, *(f"! {it}" for it in (*V4, *V6)), *(f"{mark}<{table}>" for table in TABLES for mark in ("", "! ")))
    ports = [chance.choice((*[""] * 10, *PORTS)) if protocol else "" for _ in range(2)]
    direction, family = chance.choice(("", "in", "out")), chance.choice(("", "", "inet", "inet6"))
    return Random(direction, Ends(family, protocol, chance.choice(hosts), ports[0], chance.choice(hosts), ports[1]))


def random_packet(chance: random.Random) -> Packet:
    if chance.random() < 0.6:
        ends = [chance.choice(("10.0.0.", "10.0.1.", "192.0.2.")) + str(chance.randrange(8)) for _ in range(2)]
    else:
        ends = [f"2001:db8::{chance.randrange(10)}" for _ in range(2)]
    protocol, ports = chance.choice(("tcp", "udp")), [chance.randrange(6) for _ in range(2)]
    return Packet(chance.choice(("in", "out")), protocol, ends[0], ports[0], ends[1], ports[1])


class Meaning(unittest.TestCase):
    """What a rule is for, against a second reading of pf.conf(5)."""

    def test_random_rules_match_the_same_packets(self) -> None:
        chance = random.Random(SEED)
        tables = "".join(f"table <{name}> const {{ {' '.join(its)} }}\n" for name, its in TABLES.items())
        tried: List[bool] = []
        for _ in range(ROUNDS):
            rule = random_rule(chance)
            its = taken_in(f"{tables}{rule.text}")
            if "two families" in "".join(its.said) or its.status == 1:
                continue
            for packet in (random_packet(chance) for _ in range(PACKETS)):
                wanted = rule.matches(packet)
                tried.append(wanted)
                self.assertEqual(any(line_matches(it, packet) for it in its.rules()), wanted, (rule.text, packet))
        # Both answers come often enough to say something.
        self.assertGreater(min(tried.count(True), tried.count(False)), 500)


if __name__ == "__main__":
    unittest.main()
