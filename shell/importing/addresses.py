"""Sets of addresses, as spans of numbers, and the fewest nets that make the same set."""
from __future__ import annotations

import ipaddress
from itertools import islice
from typing import Iterable, List, NamedTuple, Optional, Sequence, Tuple, Union

# The first and the last number.
Span = Tuple[int, int]
Network = Union[ipaddress.IPv4Network, ipaddress.IPv6Network]
Address = Union[ipaddress.IPv4Address, ipaddress.IPv6Address]
_BITS = {4: 32, 6: 128}
FAMILIES = (4, 6)


def merged(spans: Iterable[Span]) -> List[Span]:
    """The spans in order, with those that touch joined."""
    found: List[Span] = []
    for low, high in sorted(span for span in spans if span[0] <= span[1]):
        if found and low <= found[-1][1] + 1:
            found[-1] = (found[-1][0], max(found[-1][1], high))
        else:
            found.append((low, high))
    return found


def rest(spans: Iterable[Span], most: int) -> List[Span]:
    """The numbers from 0 to the greatest that are in none of the spans."""
    its = merged(spans)
    begins = [0, *(high + 1 for _, high in its)]
    ends = [*(low - 1 for low, _ in its), most]
    return [(low, high) for low, high in zip(begins, ends) if low <= high]


def common(one: Sequence[Span], other: Sequence[Span]) -> List[Span]:
    """The numbers that are in both; the spans of each are in order, and none touches the next."""
    found: List[Span] = []
    at = beside = 0
    while at < len(one) and beside < len(other):
        low, high = max(one[at][0], other[beside][0]), min(one[at][1], other[beside][1])
        found += [(low, high)] * (low <= high)
        is_first_over = one[at][1] < other[beside][1]
        at, beside = at + is_first_over, beside + (not is_first_over)
    return found


class Addresses(NamedTuple):
    """A set of addresses, by family."""

    v4: Tuple[Span, ...] = ()
    v6: Tuple[Span, ...] = ()

    @classmethod
    def of(cls, networks: Iterable[Network]) -> "Addresses":
        spans: List[List[Span]] = [[], []]
        for it in networks:
            spans[it.version == 6].append((int(it.network_address), int(it.broadcast_address)))
        return cls(*(tuple(merged(its)) for its in spans))

    @classmethod
    def between(cls, first: Address, last: Address) -> "Addresses":
        """A range of addresses of one family."""
        span = ((int(first), int(last)),) if int(first) <= int(last) else ()
        return cls(v4=span) if first.version == 4 else cls(v6=span)

    def spans(self, version: int) -> Tuple[Span, ...]:
        return self.v4 if version == 4 else self.v6

    def complement(self, families: Sequence[int] = FAMILIES) -> "Addresses":
        """The addresses of these families that are not in the set."""
        return Addresses(*(tuple(rest(self.spans(family), 2 ** _BITS[family] - 1)) if family in families else () for family in FAMILIES))

    def plus(self, other: "Addresses") -> "Addresses":
        return Addresses(*(tuple(merged((*self.spans(family), *other.spans(family)))) for family in FAMILIES))

    def common(self, other: "Addresses") -> "Addresses":
        return Addresses(*(tuple(common(self.spans(family), other.spans(family))) for family in FAMILIES))

    def minus(self, other: "Addresses") -> "Addresses":
        return self.common(other.complement())

    def has(self, address: Address) -> bool:
        return any(low <= int(address) <= high for low, high in self.spans(address.version))

    def networks(self, most: Optional[int] = None) -> List[Network]:
        """The fewest nets that make the set, IPv4 first; at most this many of each family."""
        v4 = (ipaddress.summarize_address_range(ipaddress.IPv4Address(low), ipaddress.IPv4Address(high)) for low, high in self.v4)
        v6 = (ipaddress.summarize_address_range(ipaddress.IPv6Address(low), ipaddress.IPv6Address(high)) for low, high in self.v6)
        return [*islice((net for nets in v4 for net in nets), most), *islice((net for nets in v6 for net in nets), most)]


NONE = Addresses()
EVERY = NONE.complement()
NETS = {4: ipaddress.ip_network("0.0.0.0/0"), 6: ipaddress.ip_network("::/0")}


def as_table(entries: Sequence[Tuple[Network, bool]]) -> Addresses:
    """The addresses of a table: each entry is a net, and whether it has a `!`. Of all entries that hold an address, the one with the
    longest net counts."""
    found = NONE
    for length in sorted({net.prefixlen for net, _ in entries}):
        found = found.plus(Addresses.of(net for net, is_not in entries if net.prefixlen == length and not is_not))
        found = found.minus(Addresses.of(net for net, is_not in entries if net.prefixlen == length and is_not))
    return found
