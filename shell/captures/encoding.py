"""The records of the laboratory as a message of pfsync(4), in the layout of FreeBSD 13.

What a record of the laboratory does not have is chosen: states are floating, so their interface is `all`; their rule is in no anchor, and
no rule of a translation is named; ages, counts of packets and bytes, gateways, numbers added to sequence numbers and what `scrub` keeps are
0, and so is the time of a bulk update. A clear is for all interfaces, and has no greatest id.
"""
from __future__ import annotations

import ipaddress
from itertools import groupby
from typing import Dict, Sequence, Union

from ..language.names import Name
from ..language.packets import Key
from ..language.records import BULK_STATUS, CLEAR, KINDS
from ..language.setups import CLASSES
from ..model.frames import HEADER as HEADER_SIZE, Carried, Changes, Record
from ..model.states import End
from . import layout
from .layout import Layout

# The interface of a state that is bound to none.
FLOATING = b"all"
# A rule that is not there.
NO_RULE = 2**32 - 1
# In `state_flags`: the sender asks for an acknowledgement (PFSTATE_ACK).
ASKS_FOR_ACKNOWLEDGEMENT = 0x10
# In `wscale`: the end has offered a scale (PF_WSCALE_FLAG).
HAS_SCALE = 0x80
# The families of addresses, as FreeBSD numbers them (AF_INET and AF_INET6).
FAMILIES = {4: 2, 6: 28}
DIRECTIONS = {"in": 1, "out": 2}
PROTOCOLS = {"icmp": 1, "tcp": 6, "udp": 17}
_CLASS_NUMBERS = {it.word: number for number, it in enumerate(CLASSES)}
_ADDRESS_SIZE = 16
Values = Dict[str, Union[int, bytes]]


def message(checksum: bytes, records: Sequence[Record], creator: int = 0) -> bytes:
    """The message with these records, in their order, from a node whose rules have this checksum; bulk statuses have its creator."""
    groups = [(kind.number, [*its]) for kind, its in groupby(records, lambda it: it.kind)]
    body = b"".join(_group(number, len(its)) + b"".join(record(it, creator) for it in its) for number, its in groups)
    # (the last group has no records, but counts one)
    body += _group(layout.END.number, 1)
    return _packed(layout.HEADER, {"version": layout.VERSION, "len": layout.HEADER.size + len(body), "pfcksum": checksum}) + body


def record(record: Record, creator: int = 0) -> bytes:
    """A record in the kernel's layout; a bulk status has this creator."""
    if isinstance(record.state, Carried):
        return _state(record.state)
    if isinstance(record.state, Changes):
        return _short_update(record.name, record.state)
    if record.kind is CLEAR:
        return _packed(layout.CLEAR, {"creatorid": int(record.about[0])})
    if record.kind is BULK_STATUS:
        return _packed(layout.BULK_STATUS, {"creatorid": creator, "status": int(record.about[0])})
    return _packed(layout.NAME, {"id": record.name.id, "creatorid": record.name.creator})


def creator_of_bulk_status(frame: bytes) -> int:
    """The creator in the first bulk status of a whole frame of the laboratory; 0 where it has none."""
    at = HEADER_SIZE
    while at < len(frame):
        kind, count = KINDS[frame[at]], int.from_bytes(frame[at + 2 : at + 4], "big")
        at += layout.SUBHEADER.size
        if kind is BULK_STATUS:
            return int.from_bytes(frame[at : at + 4], "big")
        at += count * kind.size
    return 0


def family(end: str) -> int:
    """4 or 6: the version of IP that an end `ADDRESS:PORT` or `[ADDRESS]:PORT` is of."""
    return 6 if end.startswith("[") else 4


def _group(action: int, count: int) -> bytes:
    return _packed(layout.SUBHEADER, {"action": action, "count": count})


def _packed(its: Layout, values: Values) -> bytes:
    """The bytes of a layout: numbers in network order, bytes from the left, and 0 where there is no value."""
    assert {*values} <= {field.name for field in its.fields}
    return b"".join(_field(values.get(field.name, 0), field.size) for field in its.fields)


def _field(value: Union[int, bytes], size: int) -> bytes:
    return value.to_bytes(size, "big") if isinstance(value, int) else value[:size].ljust(size, b"\0")


def _state(carried: Carried) -> bytes:
    return _packed(
        layout.STATE,
        {
            "id": carried.name.id,
            "ifname": FLOATING,
            "key[0].addr[2]": _addresses(carried.wire),
            "key[0].port[2]": _ports(carried.wire),
            "key[1].addr[2]": _addresses(carried.stack),
            "key[1].port[2]": _ports(carried.stack),
            "src": _peer(carried.source),
            "dst": _peer(carried.destination),
            "rule": NO_RULE if carried.rule is None else carried.rule,
            "anchor": NO_RULE,
            "nat_rule": NO_RULE,
            "expire": carried.remaining,
            "creatorid": carried.name.creator,
            "af": FAMILIES[family(carried.wire.far)],
            "proto": PROTOCOLS[carried.protocol] if carried.protocol in PROTOCOLS else int(carried.protocol),
            "direction": DIRECTIONS[carried.direction],
            "state_flags": ASKS_FOR_ACKNOWLEDGEMENT * carried.asks_for_acknowledgement,
            "timeout": _CLASS_NUMBERS[carried.timeout_class],
        },
    )


def _short_update(name: Name, changes: Changes) -> bytes:
    return _packed(
        layout.SHORT_UPDATE,
        {
            "id": name.id,
            "src": _peer(changes.source),
            "dst": _peer(changes.destination),
            "creatorid": name.creator,
            "expire": changes.remaining,
            "timeout": _CLASS_NUMBERS[changes.timeout_class],
        },
    )


def _peer(end: End) -> bytes:
    scale = 0 if end.scale is None else HAS_SCALE | end.scale
    return _packed(layout.PEER, {"seqlo": end.lo, "seqhi": end.hi, "max_win": end.window, "state": end.level, "wscale": scale})


def _addresses(key: Key) -> bytes:
    """The far address and the near one; those of IPv4 take the first 4 of 16 bytes."""
    addresses = (ipaddress.ip_address(end.rpartition(":")[0].strip("[]")) for end in (key.far, key.near))
    return b"".join(address.packed.ljust(_ADDRESS_SIZE, b"\0") for address in addresses)


def _ports(key: Key) -> bytes:
    return b"".join(int(end.rpartition(":")[2]).to_bytes(2, "big") for end in (key.far, key.near))
