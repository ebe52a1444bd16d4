"""Sets of packets: those that a rule of the filter, or a translation, is for."""
from __future__ import annotations

from typing import List, NamedTuple, Optional, Sequence, Tuple

from ..language.setups import MOST_RULES
from .addresses import FAMILIES, NONE, Addresses, Span, common
from .services import GREATEST_PORT, WITH_PORTS

Ports = Tuple[Span, ...]
EVERY_PORT: Ports = ((0, GREATEST_PORT),)


class Side(NamedTuple):
    """One end of packets: its addresses, and its ports; None for all."""

    addresses: Optional[Addresses] = None
    ports: Optional[Ports] = None

    def common(self, other: "Side") -> "Side":
        addresses = self.addresses if other.addresses is None else other.addresses
        ports = self.ports if other.ports is None else other.ports
        if self.addresses is not None and other.addresses is not None:
            addresses = self.addresses.common(other.addresses)
        if self.ports is not None and other.ports is not None:
            ports = tuple(common(self.ports, other.ports))
        return Side(addresses, ports)

    def holds(self, other: "Side", family: int) -> bool:
        """Whether every end of the other that is of this family is one of these."""
        has_addresses = self.addresses is None or not _only(other.addresses, family).minus(self.addresses).spans(family)
        return has_addresses and holds(self.ports, other.ports)


class Region(NamedTuple):
    """Packets of a family (0 for both), of a protocol (None for all), and with these ends."""

    family: int = 0
    protocol: Optional[int] = None
    source: Side = Side()
    destination: Side = Side()

    @property
    def has_ports(self) -> bool:
        """Whether they are those of some ports alone."""
        return self.source.ports is not None or self.destination.ports is not None

    @property
    def families(self) -> List[int]:
        """The families that have packets."""
        ends = [it.addresses for it in (self.source, self.destination) if it.addresses is not None]
        has_ports = () not in (self.source.ports, self.destination.ports)
        return [family for family in FAMILIES if has_ports and self.family in (0, family) and all(end.spans(family) for end in ends)]

    def common(self, other: "Region") -> Optional["Region"]:
        """The packets in both; None if there are none."""
        families, protocols = {self.family, other.family} - {0}, {self.protocol, other.protocol} - {None}
        if len(families) > 1 or len(protocols) > 1:
            return None
        ends = self.source.common(other.source), self.destination.common(other.destination)
        found = Region(max(self.family, other.family), self.protocol if other.protocol is None else other.protocol, *ends)
        # (ports without a protocol are those of TCP and UDP)
        is_without = found.has_ports and found.protocol not in (None, *WITH_PORTS)
        return found if found.families and not is_without else None

    def holds(self, other: "Region") -> bool:
        """Whether every packet of the other is in this one, as far as one rule can say so."""
        return (
            self.protocol in (None, other.protocol)
            and all(self.family in (0, family) for family in other.families)
            and all(self.source.holds(other.source, it) and self.destination.holds(other.destination, it) for it in other.families)
        )

    def but_few(self) -> Tuple[List["Region"], "Region"]:
        """These packets with fewer nets, if they are for all but a few addresses: those that are left out, and what then holds them all."""
        families = self.families
        source, destination = _left_out(self.source, families), _left_out(self.destination, families)
        opened = self._replace(
            family=families[0] if len(families) == 1 else 0,
            source=Side(ports=self.source.ports) if source else self.source,
            destination=Side(ports=self.destination.ports) if destination else self.destination,
        )
        # (what one end leaves out is left out whatever the other end is)
        left_out = [opened._replace(source=source)] if source else []
        return [*left_out, *([opened._replace(destination=destination)] if destination else [])], opened


def _left_out(side: Side, families: Sequence[int]) -> Optional[Side]:
    """What an end leaves out, if that makes far fewer nets."""
    if side.addresses is None:
        return None
    others = side.addresses.complement(families)
    is_fewer = 3 * len(others.networks(MOST_RULES)) <= len(side.addresses.networks(MOST_RULES))
    return side._replace(addresses=others) if is_fewer else None


def holds(ports: Optional[Ports], others: Optional[Ports]) -> bool:
    """Whether the other ports are among these."""
    others = EVERY_PORT if others is None else others
    return ports is None or tuple(common(ports, others)) == others


def _only(addresses: Optional[Addresses], family: int) -> Addresses:
    """The addresses of a family."""
    return NONE.complement([family]) if addresses is None else addresses.common(NONE.complement([family]))
