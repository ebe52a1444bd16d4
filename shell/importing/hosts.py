"""The addresses of a rule, as pfctl(8) expands them: each one makes a rule of its own."""
from __future__ import annotations

import ipaddress
import re
from typing import List, NamedTuple, Optional, Sequence, Tuple

from .addresses import EVERY, NONE, Address, Addresses, Network
from .firewall import Firewall, Own
from .grammar import Host, HostKind
from .services import number_of

_INTERFACE = re.compile(r"[a-z][a-z0-9_.]*[0-9]$|self$")
_NO_ROUTES = "the laboratory has no routes: every address counts as having one, and no packet fails the reverse path test"

SELF = "`self` is lo0, and what --address says"


class Resolved(NamedTuple):
    """An address as pf has it: the set of addresses, None for all; the family that it gives its rule, 0 for none; and what is lost,
    or why it cannot be taken in."""

    addresses: Optional[Addresses] = None
    family: int = 0
    lost: str = ""
    out: str = ""


class NotKnown(Exception):
    """Why an address cannot be taken in."""


def resolved(firewall: Firewall, hosts: Sequence[Host]) -> List[Resolved]:
    """The resolved addresses, in pf's order; for all if there are none."""
    return [it for host in hosts for it in _resolved(firewall, host)] or [Resolved()]


def _resolved(firewall: Firewall, host: Host) -> List[Resolved]:
    try:
        return [it._replace(lost=SELF) for it in _each(firewall, host)] if host.text == "self" else _each(firewall, host)
    except NotKnown as why:
        return [Resolved(NONE, out=str(why))]


def _each(firewall: Firewall, host: Host) -> List[Resolved]:
    if host.kind is HostKind.ANY:
        return [Resolved(NONE if host.is_not else None)]
    if host.kind in (HostKind.NO_ROUTE, HostKind.URPF_FAILED):
        return [Resolved(None if host.is_not else NONE, lost=_NO_ROUTES)]
    if host.kind is HostKind.ROUTE:
        raise NotKnown(f"`route {host.text}`: the laboratory has no routes, and so no labels of them")
    if host.kind is HostKind.TABLE:
        return [_of_table(firewall, host)]
    if host.kind is HostKind.DYNAMIC:
        nets = _nets(*_own(firewall, host.text), host.length)
        return [_both(Addresses.of(nets), host.is_not)]
    if host.kind is HostKind.RANGE:
        first, last = (_address(firewall, it) for it in (host.text, host.last))
        if first.version != last.version or int(first) > int(last):
            raise NotKnown(f"`{host.text} - {host.last}` is not a range of addresses")
        return [_single(Addresses.between(first, last), first.version, host.is_not)]
    return [_single(Addresses.of([it]), it.version, host.is_not) for it in networks_of(firewall, host)]


def networks_of(firewall: Firewall, host: Host) -> List[Network]:
    """The nets of an address that is expanded: for an interface one for each of its addresses."""
    net = _network(firewall, host)
    return _nets(*_own(firewall, host.text), host.length) if net is None else [net]


def targets_of(firewall: Firewall, host: Host) -> List[Network]:
    """The nets to which a translation may go, in pf's order as far as it is known."""
    table = firewall.table(host.text) if host.kind is HostKind.TABLE else None
    if table is not None:
        return table.addresses.networks()
    if host.kind not in (HostKind.ADDRESS, HostKind.DYNAMIC) or host.is_not:
        raise NotKnown("what follows `->` is neither an address nor a table of the file")
    return networks_of(firewall, host)


def _of_table(firewall: Firewall, host: Host) -> Resolved:
    table = firewall.table(host.text)
    if table is None:
        return _both(NONE, host.is_not)._replace(lost=f"no table <{host.text}> is in the file: it is empty here")
    return _both(table.addresses, host.is_not)._replace(lost=table.lost)


def _both(addresses: Addresses, is_not: bool) -> Resolved:
    """A set of either family."""
    addresses = addresses.complement() if is_not else addresses
    return Resolved(None if addresses == EVERY else addresses)


def _single(addresses: Addresses, family: int, is_not: bool) -> Resolved:
    """A set of one family, which its rule then has, too: what `!` leaves is of this family only."""
    return Resolved(addresses.complement([family]) if is_not else addresses, family)


# ---- addresses and nets


def _network(firewall: Firewall, host: Host) -> Optional[Network]:
    """The net of an address with its length; None if it is a name."""
    address, length = _without_scope(firewall, host.text), host.length
    if re.fullmatch(r"[0-9]+(\.[0-9]+){0,3}", address):
        octets = [int(it) for it in address.split(".")]
        if max(octets) > 255:
            raise NotKnown(f"`{host.text}` is not an address")
        dotted = ".".join(map(str, (*octets, *[0] * (4 - len(octets)))))
        return _net(dotted, str(_imputed(octets)) if length is None else length, 32)
    return _net(address, "128" if length is None else length, 128) if ":" in address and _is_v6(address) else None


def _net(address: str, length: str, most: int) -> Network:
    """The net of an address; its bits after the length do not count."""
    if number_of(length, most) is None:
        raise NotKnown(f"`{address}/{length}` has a length that is not from 0 to {most}")
    return ipaddress.ip_network(f"{address}/{length}", strict=False)


def _imputed(octets: Sequence[int]) -> int:
    """The length of a net without one: that of its class, or of all octets that are there."""
    of_class = 8 if octets[0] < 128 else 16 if octets[0] < 192 else 24 if octets[0] < 224 else 4 if octets[0] < 240 else 32
    return max(of_class, 8 * len(octets))


def _is_v6(text: str) -> bool:
    try:
        ipaddress.IPv6Address(text)
        return True
    except ValueError:
        return False


def _without_scope(firewall: Firewall, text: str) -> str:
    """An address without the interface of its scope, which is the one that is taken."""
    address, scoped, scope = text.partition("%")
    if scoped and scope != firewall.on:
        raise NotKnown(f"`{text}` is an address of an interface other than {firewall.on}")
    return address


def _address(firewall: Firewall, text: str) -> Address:
    """An end of a range."""
    net = _network(firewall, Host(HostKind.ADDRESS, text))
    if net is None or net.num_addresses > 1:
        raise NotKnown(f"`{text}` is not an end of a range of addresses")
    return net.network_address


# ---- interfaces


def _own(firewall: Firewall, text: str) -> Tuple[List[Own], List[str]]:
    """The addresses of a named interface, and what follows its name."""
    name, *words = text.split(":")
    wrong = [word for word in words if word not in ("network", "broadcast", "0")]
    if wrong and _INTERFACE.match(name):
        raise NotKnown(f"`{text}`: the laboratory knows no `:{wrong[0]}` of an interface")
    own = firewall.addresses_of(name)
    if own is None and (words or _INTERFACE.match(name)):
        this = "" if name == firewall.on else f"{name}="
        raise NotKnown(f"the addresses of {name} are not known: --address {this}ADDRESS/LENGTH gives them")
    if own is None:
        or_given = "" if "." in text else f"; if it is an interface, --address {text}=ADDRESS/LENGTH gives its addresses"
        raise NotKnown(f"`{text}` is a name that pfctl looks up: write its address{or_given}")
    return _first_ones(own) if "0" in words else own, words


def _first_ones(own: Sequence[Own]) -> List[Own]:
    """The first address of each family; the others are aliases."""
    firsts = [next((it for it in own if it.version == family), None) for family in (4, 6)]
    return [it for it in own if it in firsts]


def _nets(own: Sequence[Own], words: Sequence[str], length: Optional[str]) -> List[Network]:
    """The addresses of an interface, or their nets, or their broadcast addresses."""
    if length is not None:
        return [_net(str(it.ip), length, it.max_prefixlen) for it in own]
    if "network" in words:
        return [it.network for it in own]
    if "broadcast" in words:
        return [ipaddress.ip_network(it.network.broadcast_address) for it in own if it.version == 4]
    return [ipaddress.ip_network(it.ip) for it in own]
