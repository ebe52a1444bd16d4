"""Random translations and rules of a pf.conf, and the rules of the laboratory that they come to: they decide on packets alike."""
from __future__ import annotations

import random
import unittest
from functools import lru_cache
from ipaddress import ip_address, ip_network
from typing import Dict, List, NamedTuple, Optional, Sequence, Set, Tuple

from .imports import Imported, taken_in
from .test_import_meaning import Ends, Packet, family_of

SEED, ROUNDS, PACKETS = 20261129, 200, 40
OWN = {"inet": "192.0.2.1", "inet6": ""}
HOSTS = {
    4: ("10.0.0.0/30", "10.0.0.1", "10.0.0.2", "10.0.0.4/31", "10.0.0.0/29"),
    6: ("2001:db8::/125", "2001:db8::1", "2001:db8::2", "2001:db8::4/126"),
}
TARGETS = {4: ("10.0.0.1", "10.0.0.6", "192.0.2.1"), 6: ("2001:db8::1", "2001:db8::9")}
PORTS = ("1", "!= 2", "< 2", ">= 3", "1:3", "4:5")
POOLS = ("", "", "3", "1:3", "5:4")
WITH_PORTS = ("tcp", "udp")
STAYS = "a port that stays as it is has no form here: "


class Flow(NamedTuple):
    """The first packet of a flow; of TCP with SYN alone, or without."""

    packet: Packet
    has_syn: bool


class Fate(NamedTuple):
    """What becomes of it: whether it passes, whether there is a state then, and to which end it is translated, if to any."""

    passes: bool
    has_state: bool = False
    near: Optional[Tuple[str, int]] = None


class Translates(NamedTuple):
    """A random translation."""

    kind: str
    is_no: bool
    passes: bool
    ends: Ends
    target: str
    port: str

    @property
    def text(self) -> str:
        words = ["no"] * self.is_no + [self.kind] + ["pass"] * self.passes + ["on em0", *self.ends.words]
        return " ".join(words if self.is_no else [*words, "->", self.target, *(["port", self.port] if self.port else [])])

    def address(self, packet: Packet) -> str:
        """The address that a packet of its family gets; empty where there is none."""
        family = family_of(packet.source)
        return OWN[family] if self.target == "(em0)" else self.target if family_of(self.target) == family else ""

    def matches(self, packet: Packet) -> bool:
        """As pf.conf(5): `binat` turned round on the way in, from what is translated to."""
        if self.target != "(em0)" and not self.is_no and not self.address(packet):
            return False
        if self.kind == "binat" and packet.direction == "in" and not self.is_no:
            turned = packet._replace(source=self.ends.source, destination=packet.source)
            return packet.destination == self.address(packet) and self.ends.matches(turned)
        return self.ends.matches(packet)

    def near(self, packet: Packet) -> Tuple[str, int]:
        """The end of a packet that is translated, as it is then: of the ports of `nat` the first."""
        ports = [int(it) for it in self.port.replace("*", "0").split(":") if it]
        if self.kind == "nat":
            return self.address(packet), min(ports or [50001])
        if self.kind == "binat" and packet.direction == "out":
            return self.address(packet), packet.source_port
        if self.kind == "binat":
            return self.ends.source, packet.destination_port
        if len(ports) == 2:
            low, _, high = self.ends.destination_port.partition(":")
            first, last = int(low), ports[1] or ports[0] + int(high or low) - int(low)
            return self.address(packet), (packet.destination_port - first) % (last - ports[0] + 1) + ports[0]
        return self.address(packet), ports[0] if ports else packet.destination_port


class Filters(NamedTuple):
    """A random rule of the filter."""

    action: str
    direction: str
    is_quick: bool
    any_flags: bool
    ends: Ends

    @property
    def text(self) -> str:
        words = [self.action, self.direction, *["quick"] * self.is_quick, *self.ends.words, *["flags any"] * self.any_flags]
        return " ".join(word for word in words if word)

    def matches(self, packet: Packet, has_syn: bool) -> bool:
        is_taken = self.action == "block" or self.any_flags or has_syn or packet.protocol != "tcp"
        return is_taken and self.direction in ("", packet.direction) and self.ends.matches(packet)


BLOCK_ALL = Filters("block", "", False, False, Ends("", "", "any", "", "any", ""))


# ---- what pf does


def translation_of(packet: Packet, translations: Sequence[Translates]) -> Optional[Translates]:
    """The first translation of the first kind that is for a packet, and where that is none or an exception, of the second kind."""
    for kind in ("binat", "nat") if packet.direction == "out" else ("rdr", "binat"):
        first = next((translation for translation in translations if translation.kind == kind and translation.matches(packet)), None)
        if first is not None and not first.is_no:
            return first if first.address(packet) else None
    return None


def of_pf(flow: Flow, translations: Sequence[Translates], filters: Sequence[Filters]) -> Fate:
    """What becomes of a flow, by pf.conf(5): translations come first, and the filter sees the packet that they make."""
    packet, near = flow.packet, None
    translation = translation_of(packet, translations)
    if translation is not None:
        near = translation.near(packet)
        if packet.direction == "out":
            packet = packet._replace(source=near[0], source_port=near[1])
        else:
            packet = packet._replace(destination=near[0], destination_port=near[1])
    last: Optional[Filters] = None
    for rule in () if translation is not None and translation.passes else filters:
        if rule.matches(packet, flow.has_syn):
            last = rule
            if rule.is_quick:
                break
    if last is not None and last.action == "block":
        return Fate(False)
    return Fate(True, last is not None or near is not None, near)


# ---- what the laboratory does


class Line(NamedTuple):
    """A rule of the laboratory: the words with what follows each, and the nets and ports, as far as it has them."""

    action: str
    direction: str
    flags: Set[str]
    said: Dict[str, str]
    near: Optional[Tuple[str, int]]

    @classmethod
    def of(cls, text: str) -> "Line":
        action, direction, *words = text.replace("flags any", "any_flags").split()
        flags = {"quick", "any_flags"} & {*words}
        words = [word for word in words if word not in flags]
        said = dict(zip(words[::2], words[1::2]))
        pool = said.get("nat") or said.get("rdr")
        return cls(action, direction, flags, said, _first_of(pool) if pool else None)

    def matches(self, flow: Flow) -> bool:
        packet, said = flow.packet, self.said
        if self.direction not in ("any", packet.direction) or said.get("proto", packet.protocol) != packet.protocol:
            return False
        if self.action == "pass" and packet.protocol == "tcp" and not flow.has_syn and "any_flags" not in self.flags:
            return False
        return (
            (self.near is None or family_of(self.near[0]) == family_of(packet.source))
            and self._has(packet, "fport", packet.source_port)
            and self._has(packet, "tport", packet.destination_port)
            and ("from" not in said or _in_net(packet.source, said["from"]))
            and ("to" not in said or _in_net(packet.destination, said["to"]))
        )

    def _has(self, packet: Packet, word: str, port: int) -> bool:
        low, _, high = self.said.get(word, "0:65535").partition(":")
        return word not in self.said or (packet.protocol in WITH_PORTS and int(low) <= port <= int(high or low))


@lru_cache(maxsize=None)
def _in_net(address: str, net: str) -> bool:
    return ip_address(address) in ip_network(net)


def _first_of(pool: str) -> Tuple[str, int]:
    """The address of a pool, as short as it can be, and its first port."""
    address, _, ports = pool.strip("[").partition("]:" if pool.startswith("[") else ":")
    return str(ip_address(address)), int(ports.partition(":")[0])


def of_laboratory(flow: Flow, lines: Sequence[Line]) -> Fate:
    """What becomes of a flow, by docs/FORMATS.md: the last rule that matches, or the first `quick` one."""
    last: Optional[Line] = None
    for line in lines:
        if line.matches(flow):
            last = line
            if "quick" in line.flags:
                break
    if last is None or last.action == "block":
        return Fate(last is None)
    return Fate(True, True, last.near)


# ---- chance


def random_ends(chance: random.Random, some: Sequence[str], nots: int = 1) -> Ends:
    """The packets of a statement, of whose hosts so many are all but one of some."""
    protocol = chance.choice(("tcp", "tcp", "tcp", "udp", "", "", "icmp", "50"))
    hosts = (*["any"] * 14, *some, *(chance.choice([f"! {it}" for it in some]) for _ in range(nots)))
    ports = [chance.choice((*[""] * 6, *PORTS)) if protocol in WITH_PORTS else "" for _ in range(2)]
    return Ends("", protocol, chance.choice(hosts), ports[0], chance.choice(hosts), ports[1])


def random_translation(chance: random.Random, family: int) -> Translates:
    kind, is_no = chance.choice((*["nat"] * 4, *["rdr"] * 4, "binat")), chance.random() < 0.25
    ends, target, port = random_ends(chance, HOSTS[family]), chance.choice((*TARGETS[family], "(em0)")), ""
    if kind == "binat":
        ends = ends._replace(source_port="", destination_port="")
        ends = ends if is_no else ends._replace(source=HOSTS[family][2])
    elif kind == "nat":
        port = chance.choice(POOLS)
    elif ends.protocol in WITH_PORTS:
        one, several = ("", "4", "4"), ("", "2", "3:4", "2:*")
        port = chance.choice(several if ends.destination_port in ("1", "1:3", "4:5") else one)
    return Translates(kind, is_no, not is_no and chance.random() < 0.2, ends, target, port)


def random_filter(chance: random.Random, family: int, nots: int = 1) -> Filters:
    ends = random_ends(chance, (*HOSTS[family], *TARGETS[family]), nots)
    action, direction = chance.choice(("pass", "pass", "pass", "block")), chance.choice(("", "in", "out"))
    any_flags = action == "pass" and ends.protocol in ("", "tcp") and chance.random() < 0.3
    return Filters(action, direction, chance.random() < 0.25, any_flags, ends)


def random_flow(chance: random.Random, family: int) -> Flow:
    if family == 4:
        ends = [chance.choice((f"10.0.0.{chance.randrange(8)}", "192.0.2.1")) for _ in range(2)]
    else:
        ends = [f"2001:db8::{chance.randrange(10)}" for _ in range(2)]
    protocol = chance.choice(("tcp", "tcp", "udp", "icmp", "50"))
    ports = [chance.randrange(6) if protocol in WITH_PORTS else 0 for _ in range(2)]
    packet = Packet(chance.choice(("in", "out")), protocol, ends[0], ports[0], ends[1], ports[1])
    return Flow(packet, protocol == "tcp" and chance.random() < 0.7)


class Case(NamedTuple):
    """A random pf.conf, and what became of it."""

    text: str
    translations: List[Translates]
    filters: List[Filters]
    its: Imported
    lines: List[Line]

    @property
    def lost(self) -> List[str]:
        """What is lost, but for how one of several ports is chosen: both take the first."""
        reasons = [why for it in self.its.said if "approximated: " in it for why in it.partition("approximated: ")[2].split("; ")]
        return [reason for reason in reasons if not reason.endswith("at random, and here the first free one is taken")]

    @property
    def is_legible(self) -> bool:
        """Whether pfctl would take the statements, and they are few enough."""
        return self.its.status == 0 and not any(": out: " in it for it in self.its.said)


def random_case(chance: random.Random, family: int, nots: int = 1) -> Case:
    translations = [random_translation(chance, family) for _ in range(chance.randrange(1, 5))]
    filters = [BLOCK_ALL] * (chance.random() < 0.6) + [random_filter(chance, family, nots) for _ in range(chance.randrange(5))]
    text = "\n".join([*(translation.text for translation in translations), *(rule.text for rule in filters)])
    its = taken_in(text)
    return Case(text, translations, filters, its, [Line.of(rule) for rule in its.rules()])


def some_flows(chance: random.Random, case: Case, family: int) -> List[Flow]:
    """Random flows, of which those are preferred that are translated."""
    flows = [random_flow(chance, family) for _ in range(10 * PACKETS)]
    flows.sort(key=lambda it: translation_of(it.packet, case.translations) is None)
    return [*flows[: PACKETS // 2], *chance.sample(flows, PACKETS // 2)]


class Meaning(unittest.TestCase):
    """What becomes of flows, against a second reading of pf.conf(5)."""

    def compare(self, case: Case, flow: Flow) -> str:
        """Holds what becomes of a flow against what pf does: what that is."""
        wanted, found = of_pf(flow, case.translations, case.filters), of_laboratory(flow, case.lines)
        if case.lost:
            self.assertEqual(found[:2], wanted[:2], (case.text, flow))
            return "stays"
        if flow.packet.protocol not in WITH_PORTS and found.near and wanted.near:
            # (an echo has any identifier, and other protocols have no ports)
            found = found._replace(near=(found.near[0], wanted.near[1]))
        self.assertEqual(found, wanted, (case.text, flow))
        return "blocked" if not wanted.passes else "translated" if wanted.near else "passed"

    def test_random_translations_and_rules_decide_alike(self) -> None:
        chance = random.Random(SEED)
        found: List[str] = []
        for family in (4, 4, 4, 6) * (ROUNDS // 4):
            case = random_case(chance, family)
            if case.is_legible and all(it.startswith(STAYS) for it in case.lost):
                found += [self.compare(case, flow) for flow in some_flows(chance, case, family)]
        # Each fate comes often enough to say something.
        counts = {it: found.count(it) for it in ("translated", "blocked", "passed", "stays")}
        self.assertGreater(min(counts.values()), 600, counts)

    def test_rules_for_all_but_a_few_addresses(self) -> None:
        chance = random.Random(SEED + 1)
        found: List[str] = []
        for family in (4, 4, 4, 6) * (ROUNDS // 5):
            case = random_case(chance, family, nots=12)
            if case.is_legible and all(it.startswith(STAYS) for it in case.lost):
                found += [self.compare(case, flow) for flow in some_flows(chance, case, family)]
        counts = {it: found.count(it) for it in ("translated", "blocked", "passed")}
        self.assertGreater(min(counts.values()), 200, counts)


if __name__ == "__main__":
    unittest.main()
