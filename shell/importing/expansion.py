"""The rules that pfctl(8) makes of a statement: one for each combination of the members of its lists, in its order."""
from __future__ import annotations

import re
from itertools import product
from math import prod
from typing import List, NamedTuple, Optional, Sequence, Set, TypeVar

from .firewall import Firewall
from .grammar import Antispoof, End, Filter, Host, HostKind, IcmpType, Interface, Match, Operation
from .hosts import Resolved, resolved
from .tokens import NotRead

MOST_OF_A_STATEMENT = 100_000
_LOOPBACK = re.compile("lo[0-9]*$")

Item = TypeVar("Item")


class PfRule(NamedTuple):
    """A rule as pf has it, made of the words of its statement; None where it says nothing."""

    words: Filter
    interface: Optional[Interface]
    protocol: Optional[str]
    icmp_type: Optional[IcmpType]
    source: Resolved
    source_port: Optional[Operation]
    system: Optional[str]
    destination: Resolved
    destination_port: Optional[Operation]
    user: Optional[Operation]
    group: Optional[Operation]
    # 4 or 6, and 0 for both.
    family: int = 0

    @property
    def has_ports(self) -> bool:
        return self.source_port is not None or self.destination_port is not None


def expanded(firewall: Firewall, words: Filter) -> List[PfRule]:
    """The rules of a statement, for all interfaces. Addresses of two families make no rule."""
    match = words.match
    lists = (
        _or_none(match.interfaces),
        _or_none(match.protocols),
        _or_none(words.icmp_types),
        resolved(firewall, match.source.hosts),
        _or_none(match.source.ports),
        _or_none(match.systems),
        resolved(firewall, match.destination.hosts),
        _or_none(match.destination.ports),
        _or_none(words.users),
        _or_none(words.groups),
    )
    if prod(map(len, lists)) > MOST_OF_A_STATEMENT:
        raise NotRead(f"its lists expand to more than {MOST_OF_A_STATEMENT} rules")
    found = (PfRule(words, *its) for its in product(*lists))
    return [it._replace(family=max(_families(it))) for it in found if len(_families(it) - {0}) <= 1]


def _families(rule: PfRule) -> Set[int]:
    """The families that a rule gets from its own words and its addresses, and 0."""
    return {0, rule.words.match.family, rule.source.family, rule.destination.family}


def _or_none(items: Sequence[Item]) -> Sequence[Optional[Item]]:
    return items or (None,)


def without_spoofs(antispoof: Antispoof) -> List[Filter]:
    """The block rules that `antispoof` stands for: for each interface its nets anywhere else, and its own addresses."""
    found: List[Filter] = []
    for host in antispoof.interfaces:
        elsewhere = Match([Interface(host.text, is_not=True)], antispoof.family, source=_from(host, f"{host.text}:network"))
        own = Match([], antispoof.family, source=_from(host, host.text))
        matches = [elsewhere] if _LOOPBACK.match(host.text) else [elsewhere, own]
        found += [Filter("block", match, "drop", "in", antispoof.is_quick) for match in matches]
    return found


def _from(host: Host, text: str) -> End:
    kind = HostKind.DYNAMIC if host.kind is HostKind.DYNAMIC else HostKind.ADDRESS
    return End((Host(kind, text),))
