"""Which packets a rule matches, and which rule decides on a packet (pf.conf(5))."""
from __future__ import annotations

import ipaddress
from typing import Optional, Sequence

from ..language.packets import PacketEvent
from ..language.setups import FLAGS_ANY, FROM, FROM_PORT, PROTO, QUICK, TO, TO_PORT, Option
from .setups import Pool, Rule


def deciding(rules: Sequence[Rule], packet: PacketEvent, any_flags: Optional[int] = None) -> Optional[int]:
    """The number of the rule that decides on a packet: the last that matches, or the first of these that is quick. The rule
    `any_flags` counts as one that says `flags any`."""
    decided: Optional[int] = None
    for number, rule in enumerate(rules):
        if _matches(rule, packet, rule.has(FLAGS_ANY) or number == any_flags):
            decided = number
            if rule.has(QUICK):
                break
    return decided


def _matches(rule: Rule, packet: PacketEvent, any_flags: bool) -> bool:
    """Whether a rule matches the packet; a pass rule takes a TCP packet that begins a connection, or any TCP packet if it says so."""
    return (
        rule.words[1] in ("any", packet.direction)
        and (not rule.has(PROTO) or rule.value(PROTO) == packet.protocol)
        and _meets(rule, packet.source, FROM, FROM_PORT, packet.protocol)
        and _meets(rule, packet.destination, TO, TO_PORT, packet.protocol)
        and (rule.action == "block" or any_flags or not packet.is_tcp or packet.is_request)
        and (rule.action == "block" or _is_of_family(rule.pool, packet))
    )


def _is_of_family(pool: Optional[Pool], packet: PacketEvent) -> bool:
    """Whether a translation is to an address of the packet's family, if there is one."""
    return pool is None or pool.is_v6 == packet.source.startswith("[")


def _meets(rule: Rule, end: str, net: Option, port: Option, protocol: str) -> bool:
    """Whether an end of a packet is what a rule says about it. Only protocols with ports meet a rule with a port."""
    address, _, number = end.rpartition(":")
    if rule.has(net) and ipaddress.ip_address(address.strip("[]")) not in ipaddress.ip_network(rule.value(net), strict=False):
        return False
    ports = rule.ports(port)
    return ports is None or protocol in ("tcp", "udp") and ports.has(int(number))
