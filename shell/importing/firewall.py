"""What is known about the firewall besides its pf.conf: which interface is taken, addresses, groups, and its tables."""
from __future__ import annotations

import ipaddress
import re
from dataclasses import dataclass, field
from typing import Dict, List, Optional, Set, Tuple, Union

from .addresses import Addresses
from .grammar import Interface

Own = Union[ipaddress.IPv4Interface, ipaddress.IPv6Interface]
# Interfaces of these kinds are in a group of that name (ifconfig(8)).
_CLONED = {
    *("bridge", "carp", "disc", "edsc", "enc", "epair", "faith", "gif", "gre", "ipsec", "lagg", "lo", "me", "ng", "ovpn", "pflog"),
    *("pfsync", "ppp", "stf", "tap", "tun", "vlan", "vmnet", "vxlan", "wg", "wlan"),
}
_LOOPBACK = ("127.0.0.1/8", "::1/128")


@dataclass
class TableContent:
    """What a table has, and what to report if that is not all that it has on the firewall."""

    addresses: Addresses
    lost: str = ""


@dataclass
class Firewall:
    """The interface that is taken, the addresses of interfaces by name, and the interfaces of each group."""

    on: str
    addresses: Dict[str, List[Own]] = field(default_factory=lambda: {"lo0": [ipaddress.ip_interface(it) for it in _LOOPBACK]})
    groups: Dict[str, Set[str]] = field(default_factory=dict)
    # The tables by the anchor from whose file they are, and by name; and the anchor whose rules are looked at.
    _tables: Dict[Tuple[str, str], TableContent] = field(default_factory=dict)
    file: str = ""

    def add_address(self, interface: str, address: Own) -> None:
        own = self.addresses.setdefault(interface, [])
        own += [address] * (address not in own)

    def add_table(self, file: str, name: str, content: TableContent) -> None:
        self._tables[file, name] = content

    def table(self, name: str) -> Optional[TableContent]:
        """The table of this name: that of the anchor, if it has one, else that of the main file."""
        return self._tables.get((self.file, name)) or self._tables.get(("", name))

    def is_on(self, name: str) -> bool:
        """Whether this is the name of the interface, or of a group that it is in."""
        return name in (self.on, "all") or self.on in self.groups.get(name, ()) or (name in _CLONED and _stem(self.on) == name)

    def is_for(self, interface: Optional[Interface]) -> bool:
        """Whether a rule for this interface is for the one that is taken."""
        return interface is None or self.is_on(interface.name) != interface.is_not

    def is_unknown_group(self, name: str) -> bool:
        """Whether a name looks like the name of an unknown group: names of interfaces end in a number."""
        return not (name[-1:].isdigit() or self.is_on(name) or name in self.groups or name in _CLONED)

    def addresses_of(self, name: str) -> Optional[List[Own]]:
        """The addresses of an interface, of the interfaces of a group, or of the firewall itself; None if they are not known."""
        if name == "self":
            return [it for its in self.addresses.values() for it in its]
        members = [name] if name in self.addresses else sorted(self.groups.get(name, ()))
        known = [self.addresses[member] for member in members if member in self.addresses]
        return [it for its in known for it in its] if known and len(known) == len(members) else None


def _stem(name: str) -> str:
    return re.sub(r"[0-9]+$", "", name)
