"""`--about`: the packets that have an address at an end, and the rules that such packets can meet.

A rule that is left out matches none of these packets, so it decides nothing about them: of the rules that match one, the last is the same,
and so is the first `quick` one. The answers to these packets count as well, translated or not: where a node does not have the state, the
rules decide about them, and what is passed makes a state by which the packets themselves pass.
"""
from __future__ import annotations

from dataclasses import dataclass, field
from itertools import chain
from typing import Dict, Iterable, Iterator, List, NamedTuple, Optional, Sequence, Tuple

from .addresses import Address, Addresses, Network, Span
from .regions import Region, Side
from .services import ICMP, TCP, UDP, WITH_PORTS

_ANY = "any"
_OTHER = {"in": "out", "out": "in"}
# The nets of an end; None for all.
Nets = Sequence[Optional[Network]]


NEAR, FAR, EITHER = ENDS = "near", "far", "either"
_SAID = {
    NEAR: "at the near end (what comes in goes to it, and what goes out comes from it)",
    FAR: "at the far end (what comes in comes from it, and what goes out goes to it)",
    EITHER: "at an end",
}


class Wanted(NamedTuple):
    """An address, and a port of it; None for all. The end that has it is empty if it is not said."""

    address: Address
    port: Optional[int] = None
    end: str = ""

    def __str__(self) -> str:
        if self.port is None:
            return str(self.address)
        return f"[{self.address}]:{self.port}" if self.address.version == 6 else f"{self.address}:{self.port}"

    @property
    def said(self) -> str:
        """The packets, in words."""
        return f"packets with {self} {_SAID[self.end]}"

    def placed(self, is_own: bool, passed: Iterable[Tuple[str, Region]]) -> "Wanted":
        """With the end at which an own address is, or at which what is passed or translated names it, if that is one end alone."""
        ends = {NEAR} if is_own else {it for direction, region in passed for it in self._named(direction, region)}
        return self if self.end else self._replace(end=ends.pop() if len(ends) == 1 else EITHER)

    def _named(self, direction: str, region: Region) -> Iterator[str]:
        for way in (direction,) if direction in _OTHER else _OTHER:
            near, far = (region.destination, region.source) if way == "in" else (region.source, region.destination)
            yield from (end for end, side in ((NEAR, near), (FAR, far)) if self._is_among(side))

    def _is_among(self, side: Side) -> bool:
        """Whether an end has the address as one of a few, not as one of all but a few."""
        if side.addresses is None or not side.addresses.has(self.address):
            return False
        count = sum(high - low + 1 for low, high in side.addresses.spans(self.address.version))
        return count <= 1 << self.address.max_prefixlen - 1


class Way(NamedTuple):
    """Packets that are asked about: their direction, and a region; of it perhaps only those that are not TCP or UDP."""

    direction: str
    region: Region
    is_without_ports: bool = False

    def meets(self, direction: str, region: Region) -> bool:
        has_ports = self.is_without_ports and (region.protocol in WITH_PORTS or region.has_ports)
        return direction in (_ANY, self.direction) and not has_ports and self.region.common(region) is not None


@dataclass
class About:
    """The packets that are asked about: those with the address at an end, as they come or once they are translated, and their answers."""

    wanted: Wanted
    ways: List[Way] = field(default_factory=list)
    # The packets with the address at an end as they come.
    _ends: List[Way] = field(default_factory=list)

    def __post_init__(self) -> None:
        """With a port the packets are those of TCP and UDP, and echoes, whose identifier may be any."""
        address, port, end = self.wanted
        own = Side(Addresses.between(address, address))
        for protocol in (None,) if port is None else (TCP, UDP, ICMP):
            side = own if port is None or protocol == ICMP else own._replace(ports=((port, port),))
            source, destination = (Region(address.version, protocol, *its) for its in ((side, Side()), (Side(), side)))
            self._ends += [Way("in", destination), Way("out", source)] * (end != FAR)
            self._ends += [Way("in", source), Way("out", destination)] * (end != NEAR)
        self.ways += self._ends

    def add(self, direction: str, region: Region, target: Optional[Address], ports: Optional[Span]) -> None:
        """Adds packets that are translated, if that gives them the address, and their answers; of those that had it, the answers."""
        port = self.wanted.port
        has_port = port is None or ports is None or ports[0] <= port <= ports[1] or region.protocol in (None, ICMP)
        if self.wanted.end != FAR and target == self.wanted.address and has_port:
            self.ways += [Way(direction, region), Way(_OTHER[direction], _turned(region))]
        if target is not None:
            parts = (end.region.common(region) for end in self._ends if end.direction == direction)
            self.ways += [way for part in parts if part is not None for way in _answers(direction, part, target, ports)]

    def has(self, direction: str, region: Region) -> bool:
        """Whether packets that are asked about are among those of a direction and a region."""
        return any(way.meets(direction, region) for way in self.ways)

    def pairs(self, direction: str, region: Region, sources: Nets, others: Nets) -> Iterator[Tuple[Optional[Network], Optional[Network]]]:
        """The nets of a rule's source and destination between which packets that are asked about may go."""
        ways = [way.region for way in self.ways if way.meets(direction, region)]
        by_ways: Dict[int, List[int]] = {}
        for at, net in enumerate(others):
            by_ways.setdefault(_met(net, [way.destination for way in ways]), []).append(at)
        for source in sources:
            met = _met(source, [way.source for way in ways])
            places = sorted(chain.from_iterable(its for other, its in by_ways.items() if met & other))
            yield from ((source, others[at]) for at in places)


def _turned(region: Region) -> Region:
    return region._replace(source=region.destination, destination=region.source)


def _answers(direction: str, region: Region, target: Address, ports: Optional[Span]) -> Iterator[Way]:
    """The answers to packets that are translated, as they come: to an address, and of TCP and UDP to its ports."""
    for protocol in (TCP, UDP, None):
        of_it = region.common(Region(protocol=protocol))
        if of_it is not None:
            near = Side(Addresses.between(target, target), None if protocol is None or ports is None else (ports,))
            sent = of_it._replace(source=near) if direction == "out" else of_it._replace(destination=near)
            yield Way(_OTHER[direction], _turned(sent), is_without_ports=protocol is None)


def _met(net: Optional[Network], sides: Sequence[Side]) -> int:
    """Which of some ends a net has addresses of: a bit for each."""
    return sum(1 << at for at, it in enumerate(sides) if net is None or it.addresses is None or _is_met(net, it.addresses))


def _is_met(net: Network, addresses: Addresses) -> bool:
    low, high = int(net.network_address), int(net.broadcast_address)
    return any(low <= last and first <= high for first, last in addresses.spans(net.version))
