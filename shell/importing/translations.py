"""What `nat`, `rdr` and `binat` of a pf.conf(5) do: which packets they are for, and what becomes of one of their ends."""
from __future__ import annotations

from dataclasses import dataclass, field, replace
from typing import Dict, Iterable, Iterator, List, NamedTuple, Optional, Sequence, Tuple

from ..language.setups import MOST_RULES
from .addresses import NONE, Address, Addresses, Network, Span
from .expansion import PfRule, expanded
from .firewall import Firewall
from .grammar import Filter, HostKind, Operation, Translation
from .hosts import SELF, NotKnown, targets_of
from .regions import Ports, Region, Side, holds
from .rules import NAT, Context, Never, Out, matched, port_of
from .services import ICMP, ICMP6, WITH_PORTS
from .tokens import NotRead

RDR, BINAT = "rdr", "binat"
OUT, IN = "out", "in"
# The ports of a `nat` that names none (PF_NAT_PROXY_PORT_LOW and _HIGH).
POOL: Span = (50001, 65535)
# At most this many ports are written out one by one, if each is translated to one of its own.
MOST_PORTS = 16
STATIC = "static-port"
TOO_MANY = f"with its rules a node would have more than {MOST_RULES}"
_OF_FILTER = ("tag", "tagged", "! tagged", "rtable")


class Piece(NamedTuple):
    """Packets that are translated alike on their way: to an address, None if they stay as they are, and to ports, None if the packet
    keeps its own."""

    kind: str
    direction: str
    region: Region
    target: Optional[Address] = None
    ports: Optional[Span] = None
    # (`no nat` and the like)
    is_no: bool = False
    # (`nat pass` and the like: no rule of the filter is asked)
    passes: bool = False
    # (of a `match` of later versions)
    is_match: bool = False

    @property
    def near(self) -> Side:
        """The end that is translated, as it comes."""
        return self.region.source if self.direction == OUT else self.region.destination

    def is_again(self, other: "Piece") -> bool:
        """Whether packets that this piece has translated are some of those that the other one is for."""
        if self.target is None or self.direction != other.direction:
            return False
        near = Side(Addresses.between(self.target, self.target))
        return self.with_near(near, self.region).common(other.region) is not None

    def with_near(self, near: Side, region: Region) -> Region:
        """A region with another end instead of the translated one."""
        return region._replace(source=near) if self.direction == OUT else region._replace(destination=near)


@dataclass
class Pieces:
    """What became of a translation."""

    pieces: List[Piece] = field(default_factory=list)
    lost: List[str] = field(default_factory=list)
    out: str = ""


class Target(NamedTuple):
    """The family that addresses give their rule, 0 for none; and by family the address that is taken."""

    family: int = 0
    addresses: Dict[int, Address] = {}


def translated(firewall: Firewall, words: Translation, context: Context) -> Pieces:
    """What a translation does on the interface that is taken; nothing if it is for others."""
    its = Pieces()
    try:
        target = Target(words.match.family) if words.is_no else _target(firewall, words, its.lost)
        of_filter = [option for option in words.options if option.word in _OF_FILTER]
        rules = expanded(firewall, Filter(words.kind, replace(words.match, family=target.family), options=of_filter))
        if not rules:
            raise Out("pfctl refuses it: its addresses are of two families, so it gives no rule")
        for rule in (it for it in rules if firewall.is_for(it.interface)):
            its.pieces += _of_rule(words, rule, target, context, its.lost)
            if len(its.pieces) > MOST_RULES:
                raise Out(TOO_MANY)
        its.lost += drawn(its.pieces)
    except (Out, NotRead, NotKnown) as why:
        its.out, its.pieces = str(why), []
    return its


def _of_rule(words: Translation, rule: PfRule, target: Target, context: Context, lost: List[str]) -> List[Piece]:
    """What one of pf's rules does; what is lost is added to the list."""
    if words.kind == BINAT and rule.has_ports:
        raise Out("pfctl takes no ports with `binat`")
    try:
        region = matched(rule, context, lost)
        region = _of_ports(region, lost) if words.kind == NAT and region.has_ports else region
    except Never as why:
        lost.append(str(why))
        return []
    if words.is_no:
        ways = {NAT: (OUT,), RDR: (IN,), BINAT: (OUT, IN)}[words.kind]
        return [Piece(words.kind, way, region, is_no=True) for way in ways if region.families]
    return [it for family in region.families for it in _of_family(words, rule, region._replace(family=family), target)]


def pieces_of(firewall: Firewall, words: Translation, rule: PfRule, region: Region, lost: List[str]) -> List[Piece]:
    """What a translation does with the packets of a rule that has it as an option."""
    target = _target(firewall, words, lost)
    families = [family for family in region.families if target.family in (0, family)]
    return [it for family in families for it in _of_family(words, rule, region._replace(family=family), target)]


def within_anchor(pieces: Iterable[Piece], regions: Sequence[Region]) -> List[Piece]:
    """The pieces for the packets that come to an anchor."""
    parts = ((piece, piece.region.common(region)) for piece in pieces for region in regions)
    return [it._replace(region=part) for it, part in parts if part is not None]


def _of_family(words: Translation, rule: PfRule, region: Region, targets: Target) -> Iterator[Piece]:
    direction, target = IN if words.kind == RDR else OUT, targets.addresses.get(region.family)
    piece = Piece(words.kind, direction, region, target, passes=words.passes, is_match=words.is_match)
    if target is None:
        # (an interface without an address of the family: pf looks no further, and translates nothing)
        yield piece._replace(passes=False)
    elif words.kind == NAT:
        yield piece._replace(ports=_pool(words))
    elif words.kind == RDR:
        yield from _redirected(words, rule.destination_port, piece)
    else:
        yield from _both_ways(piece)


# ---- addresses


def _target(firewall: Firewall, words: Translation, lost: List[str]) -> Target:
    """Where a translation goes: the first of several addresses."""
    nets = [(net, host.kind) for host in words.targets for net in targets_of(firewall, host)]
    lost += [SELF for host in words.targets if host.text == "self"]
    family = words.match.family or next((net.version for net, kind in nets if kind is HostKind.ADDRESS), 0)
    own = [net for net, _ in nets if family in (0, net.version)]
    if not own:
        raise Out("no address of its family follows `->`")
    firsts: Dict[int, Network] = {net.version: net for net in reversed(own)}
    several = [first for first in firsts.values() if sum(net.num_addresses for net in own if net.version == first.version) > 1]
    if several and words.kind == BINAT:
        raise Out("a net would keep the rest of each address, and addresses are translated one by one here")
    lost += [f"of several addresses to translate to, the first is taken, {it.network_address}" for it in several]
    return Target(family, {version: net.network_address for version, net in firsts.items()})


def _both_ways(piece: Piece) -> Iterator[Piece]:
    """A `binat`: the source on the way out, and its address for the target on the way in."""
    own, target = _single(piece.region.source, piece.region.family), piece.target
    if own is None or target is None:
        raise Out("a net would keep the rest of each address, and addresses are translated one by one here")
    yield piece
    region = piece.region._replace(source=piece.region.destination, destination=Side(Addresses.between(target, target)))
    yield piece._replace(direction=IN, region=region, target=own)


def _single(side: Side, family: int) -> Optional[Address]:
    """The address of an end that has only one."""
    nets = (side.addresses or NONE).networks()
    return nets[0].network_address if len(nets) == 1 and nets[0].num_addresses == 1 and nets[0].version == family else None


# ---- ports


def _of_ports(region: Region, lost: List[str]) -> Region:
    """The packets of a `nat` with ports, which pfctl takes with any protocol. What is not TCP or UDP has port 0 in pf, and an echo its
    identifier."""
    if region.protocol in WITH_PORTS:
        return region
    has_none = all(holds(it.ports, ((0, 0),)) for it in (region.source, region.destination))
    if region.protocol in (None, ICMP, ICMP6):
        lost.append("pf also takes echoes whose identifier is such a port, and here they are left out")
    elif has_none:
        return region._replace(source=Side(region.source.addresses), destination=Side(region.destination.addresses))
    if region.protocol is not None:
        raise Never("packets of its protocol have no such ports")
    if has_none:
        lost.append("pf also takes packets of protocols without ports, and here they are left out")
    return region


def drawn(pieces: Iterable[Piece]) -> List[str]:
    """What is lost of translations whose ports pf draws at random."""
    nats = [piece for piece in pieces if piece.kind == NAT and piece.target is not None]
    ranges = [nat for nat in nats if nat.ports is not None and nat.ports[0] < nat.ports[1] and nat.region.protocol in (None, *WITH_PORTS)]
    echoes = [nat for nat in nats if nat.region.protocol in (None, ICMP) and nat.region.family == 4 and not nat.region.has_ports]
    what = "the port" if ranges else "the identifier of an echo" if echoes else ""
    return [f"pf draws {what} at random, and here the first free one is taken"] if what else []


def _pool(words: Translation) -> Optional[Span]:
    """The ports of a `nat`; None if each packet keeps its own."""
    if any(option.word == STATIC for option in words.options):
        if words.port:
            raise Out(f"pfctl takes no `{STATIC}` with a port")
        return None
    if not words.port:
        return POOL
    first, colon, last = words.port.partition(":")
    low, high = sorted((port_of(first), port_of(last if colon else first)))
    return (low, high) if high else POOL


def _redirected(words: Translation, of: Optional[Operation], piece: Piece) -> Iterator[Piece]:
    """An `rdr`: to one port, or each port to one of its own, counted from the first that it is for."""
    if any(option.word == STATIC for option in words.options):
        raise Out(f"pfctl takes `{STATIC}` only with `nat`")
    if words.port and piece.region.protocol not in WITH_PORTS:
        raise Out("pfctl takes a port only with `proto tcp` or `proto udp`")
    first, colon, last = words.port.partition(":")
    alternatives = len(words.match.destination.ports)
    if not words.port or _stays(of, alternatives, first, last):
        yield piece
    elif not colon or (last == "*" and of is not None and of.operator == "="):
        yield piece._replace(ports=(port_of(first), port_of(first)))
    else:
        for port, to in _mapped(of, alternatives, port_of(first), last):
            near = Side(piece.near.addresses, ((port, port),))
            yield piece._replace(region=piece.with_near(near, piece.region), ports=(to, to))


def _stays(of: Optional[Operation], alternatives: int, first: str, last: str) -> bool:
    """Whether each port of a range is redirected to itself."""
    if of is None or of.operator != ":" or not last or port_of(of.first) != port_of(first):
        return False
    return alternatives == 1 if last == "*" else port_of(last) >= port_of(of.second)


def _mapped(of: Optional[Operation], alternatives: int, first: int, last: str) -> Iterator[Tuple[int, int]]:
    """Each port that is redirected, and its new port."""
    if of is None or of.operator not in ("=", ":") or (last == "*" and alternatives > 1):
        raise Out("ports are redirected to others one by one here only from one port, or from one range LOW:HIGH")
    low = port_of(of.first)
    ports = range(low, port_of(of.second or of.first) + 1)
    count = len(ports) if last == "*" else port_of(last) - first + 1
    if len(ports) > MOST_PORTS:
        raise Out(f"each of {len(ports)} ports is redirected to one of its own, and a rule here has no form for that")
    if count < 1 or first + min(count, len(ports)) - 1 > 65535:
        raise Out("its ports go beyond the last one, or from the last to the first")
    return ((port, (port - low) % count + first) for port in ports)


def few_of(ports: Optional[Ports]) -> List[int]:
    """Ports, if they are few enough to be written out one by one; else none."""
    count = MOST_PORTS + 1 if ports is None else sum(high - low + 1 for low, high in ports)
    return [it for low, high in ports or () for it in range(low, high + 1)] if count <= MOST_PORTS else []
