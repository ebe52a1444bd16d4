"""The messages of pfsync(4) version 5 as FreeBSD 13 lays them out, read from their bytes."""
from __future__ import annotations

import struct
from typing import Callable, Dict, List, NamedTuple, Optional, Tuple

from ..language.packets import Key
from ..language.records import (
    BULK_STATUS as STATUS_RECORD,
    CLEAR as CLEAR_RECORD,
    DELETE,
    INSERT,
    INSERT_ACK,
    KINDS,
    SHORT_DELETE,
    SHORT_UPDATE as SHORT_RECORD,
    UPDATE,
    UPDATE_REQUEST,
    RecordKind,
)
from .layout import ACTIONS, BULK_STATUS, CLEAR, END, HEADER, NAME, PEER, SHORT_UPDATE, STATE, SUBHEADER, VERSION, Layout

CUT = "captured short: use tcpdump -s 0"
NO_RULE = 0xFFFFFFFF
_ACKNOWLEDGE = 0x10
_OFFERED, _SHIFT = 0x80, 0x0F
# The highest level of an end (PF_TCPS_PROXY_DST), and the families of addresses of FreeBSD.
_MOST_LEVEL = 12
_V4, _V6 = 2, 28
_FAMILIES = (_V4, _V6)
_DIRECTIONS = {1: "in", 2: "out"}
PROTOCOLS = {6: "tcp", 17: "udp", 1: "icmp"}
# What later systems send.
_OTHERS = {
    8: "a fragment",
    9: "a fragment",
    13: "an insertion of FreeBSD 14, which sends those of 13 after `ifconfig pfsync0 version 1301`",
    14: "an update of FreeBSD 14, which sends those of 13 after `ifconfig pfsync0 version 1301`",
}


class Peer(NamedTuple):
    """An end of a connection (pfsync_state_peer): `added` is what `modulate state` adds to its numbers."""

    lo: int
    hi: int
    added: int
    window: int
    level: int
    scale: Optional[int]


class Ends(NamedTuple):
    """A flow in its parts, as the laboratory prints them."""

    protocol: str
    direction: str
    wire: Key
    stack: Key


class Record(NamedTuple):
    """A record. What its kind does not have is 0 or None; of a bulk status `remaining` is its endtime."""

    kind: RecordKind
    id: int
    creator: int
    source: Optional[Peer]
    destination: Optional[Peer]
    remaining: int
    timeout: int
    data: bytes

    @property
    def name(self) -> str:
        """The name of its state as `pfctl -ss -vv` prints it, ID/CREATOR."""
        return f"{self.id:016x}/{self.creator:08x}"

    @property
    def is_whole(self) -> bool:
        """Whether it has all of a state: an insertion, an update or a deletion."""
        return self.kind.number in _WHOLE

    @property
    def keys(self) -> bytes:
        """The flow of a whole state as bytes: those of both keys, protocol, family and direction."""
        return self.data[_KEYS] + self.data[_FAMILY]

    @property
    def flow(self) -> Ends:
        """The flow of a whole state."""
        return flow_of(self.keys)

    @property
    def protocol(self) -> str:
        """The protocol of a whole state."""
        return protocol_word(self.data[_AT_PROTOCOL])

    @property
    def rule(self) -> Optional[int]:
        """The number of the rule of a whole state; None if it has none."""
        number = int.from_bytes(self.data[_RULE], "big")
        return None if number == NO_RULE else number

    @property
    def age(self) -> int:
        """The seconds since a whole state began."""
        return int.from_bytes(self.data[_AGE], "big")

    @property
    def interface(self) -> str:
        """The interface of a whole state or of a clear; of a clear empty if it is for all."""
        begin = STATE.at("ifname") if self.is_whole else CLEAR.at("ifname")
        return self.data[begin : begin + 16].split(b"\0")[0].decode("ascii", "backslashreplace")

    @property
    def asks_for_acknowledgement(self) -> bool:
        """Whether the sender of a whole state holds a packet until it is acknowledged (`defer`)."""
        return bool(self.data[_AT_FLAGS] & _ACKNOWLEDGE)

    @property
    def status(self) -> int:
        """The status of a bulk status: 1 start, 2 end."""
        return self.data[BULK_STATUS.at("status")]

    @property
    def asks_for_all(self) -> bool:
        """Whether it asks for all states."""
        return self.kind is UPDATE_REQUEST and not self.id and not self.creator


class Decoded(NamedTuple):
    """A message: its version, the length that its header has, the checksum of the sender's rules, its records, what could not be read
    (empty if that is nothing), and how many records of IPsec it has (TDB), which are passed over."""

    version: int
    length: int
    checksum: str
    records: List[Record]
    fault: str
    passed_over: int = 0


# ---- layouts as forms of `struct`


def _form(layout: Layout, codes: Dict[str, str]) -> str:
    """The bytes of a layout, where only the fields with a code are read."""
    form = "".join(codes.get(field.name, f"{field.size}x") for field in layout.fields)
    assert struct.calcsize(f">{form}") == layout.size
    return form


def _slice(name: str, size: int) -> slice:
    return slice(STATE.at(name), STATE.at(name) + size)


_PEER = _form(PEER, {"seqlo": "I", "seqhi": "I", "seqdiff": "I", "max_win": "H", "state": "B", "wscale": "B"})
_PEERS = {"src": _PEER, "dst": _PEER}
_NUMBERS = {"id": "Q", "creatorid": "I", "expire": "I", "timeout": "B"}
_HEADER = struct.Struct(f">{_form(HEADER, {'version': 'B', 'len': 'H', 'pfcksum': '16s'})}")
_SUBHEADER = struct.Struct(f">{_form(SUBHEADER, {'action': 'B', 'count': 'H'})}")
_STATE = struct.Struct(f">{_form(STATE, {**_PEERS, **_NUMBERS, 'af': 'B', 'direction': 'B'})}")
_SHORT = struct.Struct(f">{_form(SHORT_UPDATE, {**_PEERS, **_NUMBERS})}")
_NAME = struct.Struct(f">{_form(NAME, _NUMBERS)}")
_CLEAR = struct.Struct(f">{_form(CLEAR, _NUMBERS)}")
_STATUS = struct.Struct(f">{_form(BULK_STATUS, {'creatorid': 'I', 'endtime': 'I'})}")
assert _SUBHEADER.size == 4
_SIZES, _END = {action.number: action.layout.size for action in ACTIONS.values()}, END.number
_KEY_SIZE = 36
_KEYS = _slice("key[0].addr[2]", 2 * _KEY_SIZE)
_FAMILY = slice(STATE.at("af"), STATE.at("direction") + 1)
_RULE, _AGE = _slice("rule", 4), _slice("creation", 4)
_AT_PROTOCOL, _AT_FLAGS = STATE.at("proto"), STATE.at("state_flags")
_WHOLE = (INSERT.number, UPDATE.number, DELETE.number)


# ---- messages


def decoded(payload: bytes, length: int) -> Decoded:
    """A message from the bytes that were captured, and how many were sent. Records that are whole before a fault are there."""
    if len(payload) < _HEADER.size:
        return Decoded(0, 0, "", [], CUT if length > len(payload) else f"it has {length} bytes, but a header alone has {_HEADER.size}")
    version, said, checksum = _HEADER.unpack_from(payload)
    records: List[Record] = []
    if version != VERSION:
        whose = "OpenBSD's, whose records are not read" if version == 6 else "not read"
        return Decoded(version, said, checksum.hex(), records, f"version {version} of pfsync is {whose} here: version {VERSION} is")
    if said > length:
        fault, passed_over = f"its header says {said} bytes, and {length} were sent: the kernel drops it whole", 0
    else:
        fault, passed_over = _groups(payload, said, records)
    return Decoded(version, said, checksum.hex(), records, fault, passed_over)


def is_cut(payload: bytes, length: int) -> bool:
    """Whether fewer bytes of a message were sent than its header says: the kernel drops it whole."""
    return len(payload) >= _HEADER.size and payload[0] == VERSION and int.from_bytes(payload[2:4], "big") > length


def _groups(payload: bytes, said: int, records: List[Record]) -> Tuple[str, int]:
    """Reads the groups of a message into records; returns what could not be read, and how many records were passed over."""
    at, end, passed_over, read_group = _HEADER.size, min(said, len(payload)), 0, _SUBHEADER.unpack_from
    while at + 4 <= end:
        number, count = read_group(payload, at)
        at += 4
        if number == _END:
            return "", passed_over
        size = _SIZES.get(number)
        if size is None:
            what = _OTHERS.get(number, "unknown here")
            return f"messages of action {number} are not of FreeBSD 13 ({what}): the rest was not read", passed_over
        there = min(count, (end - at) // size)
        reader = _READERS.get(number)
        if reader:
            read = reader(KINDS[number], payload, at, there, records)
            if read < there:
                return f"{_nth(number, read, count)} is none of {size} bytes, as FreeBSD 13 has them: the rest was not read", passed_over
        else:
            passed_over += there
        if there < count:
            why = CUT if said > len(payload) else "the message ends within it"
            return f"{_nth(number, there, count)}: {why}", passed_over
        at += count * size
    return CUT if said > len(payload) else "", passed_over


def _nth(number: int, read: int, count: int) -> str:
    kind = KINDS[number].name if number in KINDS else "record of IPsec"
    return f"{kind} {read + 1} of {count}"


# ---- records

# Reads that many records of a kind from a place on into a list; returns how many have values that the kernel takes.
_Reader = Callable[[RecordKind, bytes, int, int, List[Record]], int]


def _with_ends(kind: RecordKind, payload: bytes, at: int, count: int, records: List[Record]) -> int:
    """States and short updates."""
    is_whole = kind.number in _WHOLE
    form = _STATE if is_whole else _SHORT
    size, read, add, new = form.size, form.unpack_from, records.append, tuple.__new__
    family, direction = _V4, 1
    for nth in range(count):
        number, lo, hi, added, window, level, scale, lo_2, hi_2, added_2, window_2, level_2, scale_2, *rest = read(payload, at)
        if is_whole:
            left, creator, family, direction, timeout = rest
        else:
            creator, left, timeout = rest
        if level > _MOST_LEVEL or level_2 > _MOST_LEVEL or family not in _FAMILIES or direction not in _DIRECTIONS:
            return nth
        source = new(Peer, (lo, hi, added, window, level, scale & _SHIFT if scale & _OFFERED else None))
        destination = new(Peer, (lo_2, hi_2, added_2, window_2, level_2, scale_2 & _SHIFT if scale_2 & _OFFERED else None))
        add(new(Record, (kind, number, creator, source, destination, left, timeout, payload[at : at + size])))
        at += size
    return count


def _names(kind: RecordKind, payload: bytes, at: int, count: int, records: List[Record]) -> int:
    """Acknowledgements, requests and short deletions."""
    for begin in range(at, at + count * _NAME.size, _NAME.size):
        data = payload[begin : begin + _NAME.size]
        number, creator = _NAME.unpack(data)
        records.append(Record(kind, number, creator, None, None, 0, 0, data))
    return count


def _clears(kind: RecordKind, payload: bytes, at: int, count: int, records: List[Record]) -> int:
    for begin in range(at, at + count * _CLEAR.size, _CLEAR.size):
        data = payload[begin : begin + _CLEAR.size]
        (creator,) = _CLEAR.unpack(data)
        records.append(Record(kind, 0, creator, None, None, 0, 0, data))
    return count


def _statuses(kind: RecordKind, payload: bytes, at: int, count: int, records: List[Record]) -> int:
    for begin in range(at, at + count * _STATUS.size, _STATUS.size):
        data = payload[begin : begin + _STATUS.size]
        creator, end = _STATUS.unpack(data)
        records.append(Record(kind, 0, creator, None, None, end, 0, data))
    return count


_READERS: Dict[int, _Reader] = {
    **{it.number: _with_ends for it in (INSERT, UPDATE, DELETE, SHORT_RECORD)},
    **{it.number: _names for it in (INSERT_ACK, UPDATE_REQUEST, SHORT_DELETE)},
    CLEAR_RECORD.number: _clears,
    STATUS_RECORD.number: _statuses,
}


# ---- flows


def protocol_word(number: int) -> str:
    """A protocol as the laboratory prints it."""
    return PROTOCOLS.get(number) or str(number)


def flow_of(keys: bytes) -> Ends:
    """A flow from its bytes, as `Record.keys` has them."""
    family, protocol, direction = keys[2 * _KEY_SIZE :]
    wire, stack = (_key(keys[begin : begin + _KEY_SIZE], family) for begin in (0, _KEY_SIZE))
    return Ends(protocol_word(protocol), _DIRECTIONS[direction], wire, stack)


def _key(data: bytes, family: int) -> Key:
    far, near = struct.unpack_from(">HH", data, 32)
    return Key(f"{address(data[:16], family)}:{far}", f"{address(data[16:32], family)}:{near}")


def address(data: bytes, family: int) -> str:
    """An address as the laboratory prints it, of IPv6 in brackets."""
    return "%d.%d.%d.%d" % (*data[:4],) if family == _V4 else f"[{data.hex(':', 2)}]"
