"""Captures for tests: read without the code that wrote them, and dissected by tshark with the dissector of this tree.

What tshark shows of a message is put into the words of the program's reply to `frame`, so that the two can be compared.
"""
from __future__ import annotations

import ipaddress
import os
import struct
import subprocess
import xml.etree.ElementTree as ElementTree
from itertools import groupby
from typing import Dict, List, NamedTuple, Sequence, Tuple

from ..language.lines import lines_of
from ..link.programs import run_lines
from . import TOP, program
from .children import needs

DISSECTOR = f"{TOP}/wireshark/pfsync.lua"
needs_tshark, needs_tcpdump = needs("tshark"), needs("tcpdump")
# The head of a pcap with nanoseconds and numbers that begin with the low byte, and the head of each of its packets.
HEAD, PACKET_HEAD = 24, struct.Struct("<IIII")
# The headers of Ethernet and of IP before a message.
BEFORE_MESSAGE = 14 + 20
KINDS = {"0": "clr", "1": "ins", "2": "iack", "3": "upd", "4": "updc", "5": "req", "6": "del", "7": "delc", "10": "bus"}
PROTOCOLS = {"1": "icmp", "6": "tcp", "17": "udp"}
WHOLE = ("ins", "upd", "del")
# The names of groups in the column Info.
GROUPS = {
    **{"clr": "CLR", "ins": "INS", "iack": "INS_ACK", "upd": "UPD", "updc": "UPD_C", "req": "UPD_REQ", "del": "DEL", "delc": "DEL_C"},
    "bus": "BUS",
}


class Packet(NamedTuple):
    """A packet of a file: its nanoseconds since 2026 began in UTC, and its bytes."""

    time: int
    data: bytes


def packets(content: bytes) -> List[Packet]:
    """The packets of a whole file."""
    found, at = [], HEAD
    while at < len(content):
        seconds, nanoseconds, length, whole = PACKET_HEAD.unpack_from(content, at)
        assert length == whole
        at += PACKET_HEAD.size + length
        found.append(Packet((seconds - 1767225600) * 10**9 + nanoseconds, content[at - length : at]))
    return found


class Dissected(NamedTuple):
    """What tshark shows of a packet: its source, the column Info, the checksum of the rules, its records, the names of their levels, and
    what it finds wrong."""

    source: str
    info: str
    checksum: str
    records: List[str]
    levels: List[str]
    faults: List[str]


# The fields of a record: what they have, and how they are shown.
Fields = Dict[str, Tuple[str, str]]


def shark(path: str, *words: str) -> "subprocess.CompletedProcess[str]":
    """Runs tshark over a file with the dissector, and without anybody's settings."""
    command = ("tshark", "-n", "-X", f"lua_script:{DISSECTOR}", "-r", path, *words)
    environment = {**os.environ, "HOME": os.path.dirname(path), "XDG_CONFIG_HOME": os.path.dirname(path), "TZ": "UTC"}
    return subprocess.run(command, capture_output=True, text=True, errors="replace", env=environment, timeout=60, check=True)


def dissected(path: str) -> List[Dissected]:
    """The packets of a file, in their order."""
    columns = [line.split("\t") for line in shark(path, "-T", "fields", "-e", "ip.src", "-e", "_ws.col.Info").stdout.splitlines()]
    tree = ElementTree.fromstring(shark(path, "-T", "pdml").stdout)
    return [_packet(it, source, info) for it, (source, info) in zip(tree.iter("packet"), columns)]


def _packet(packet: ElementTree.Element, source: str, info: str) -> Dissected:
    its = packet.find("proto[@name='pfsync']")
    records: List[str] = []
    levels: List[str] = []
    for group in its.iter("field") if its is not None else ():
        if group.get("name") != "pfsync.group":
            continue
        action = next(it.get("show", "") for it in group if it.get("name") == "pfsync.action")
        for record in group.findall("field[@name='pfsync.record']"):
            fields = {it.get("name", ""): (it.get("show", ""), it.get("showname", "")) for it in record.iter("field")}
            records.append(_words(KINDS[action], fields))
            levels += [fields[f"pfsync.{end}.level"][0] for end in ("src", "dst") if f"pfsync.{end}.level" in fields]
    faults = [it.get("show", "") for it in packet.iter("field") if it.get("name") == "_ws.expert.message"]
    checksum = next((it.get("value", "") for it in packet.iter("field") if it.get("name") == "pfsync.pfcksum"), "")
    return Dissected(source, info, checksum, records, levels, [fault for fault in faults if "Time To Live" not in fault])


def _words(kind: str, fields: Fields) -> str:
    """A record as the program shows it. Of a clear the greatest id is not in a message."""
    if kind == "clr":
        return f"clr {int(fields['pfsync.creatorid'][0], 16)}"
    if kind == "bus":
        return f"bus {fields['pfsync.status'][0]}"
    number, creator = (int(it, 16) for it in fields["pfsync.name"][0].split("/"))
    name = f"{kind} {creator}.{number}"
    if kind not in (*WHOLE, "updc"):
        return name
    ends = f"{_end(fields, 'src')} {_end(fields, 'dst')}"
    timeout = fields["pfsync.timeout"][1].split()[1]
    left = fields["pfsync.expire"][0]
    if kind == "updc":
        return f"{name} {ends} {timeout} {left}"
    protocol, direction = fields["pfsync.proto"][0], fields["pfsync.direction"][1].split()[1]
    keys = " ".join(_address(fields, it) for it in ("wire.far", "wire.near", "stack.far", "stack.near"))
    rule = fields["pfsync.rule"][0]
    flags = "k" if fields["pfsync.state_flags.ack"][0] == "1" else "-"
    said = f"{left} {'-' if rule == '4294967295' else rule} {flags}"
    return f"{name} {PROTOCOLS.get(protocol, protocol)} {direction} {keys} {ends} {timeout} {said}"


def _end(fields: Fields, end: str) -> str:
    level, window, lo, hi = (fields[f"pfsync.{end}.{it}"][0] for it in ("state", "max_win", "seqlo", "seqhi"))
    scale = fields[f"pfsync.{end}.wscale.shift"][0] if fields[f"pfsync.{end}.wscale.offered"][0] == "1" else "-"
    return f"{level} {scale} {window} {lo} {hi}"


def _address(fields: Fields, end: str) -> str:
    port = fields[f"pfsync.{end}.port"][0]
    if f"pfsync.{end}.addr" in fields:
        return f"{fields[f'pfsync.{end}.addr'][0]}:{port}"
    return f"[{ipaddress.ip_address(fields[f'pfsync.{end}.addr6'][0]).exploded}]:{port}"


class Told(NamedTuple):
    """What the program says of a frame at a node: by which event it was there, which node sent it, the checksum of its rules, and its
    records, or none where it was cut."""

    place: int
    sender: str
    checksum: str
    records: List[str]

    @property
    def info(self) -> str:
        """The groups of its records, each with its number of records, as the column Info has them."""
        kinds = ((kind, len([*its])) for kind, its in groupby(record.split()[0] for record in self.records))
        return ", ".join(f"{GROUPS[kind]} {number}" for kind, number in kinds)


def told(script: Sequence[str], branch: str = "main") -> Dict[str, List[Told]]:
    """What each node has seen of the frames of a script's branch, in order, by the program's replies to `log` and `frame`."""
    # (searches take long, and change nothing)
    script = [it for it in script if not it.startswith("search ")]
    log = run_lines(program(), [*script, f"log {branch}"]).replies[-1]
    cursor = int(log[0].split()[5])
    words = [line.split()[4] for line in log[1:-1]][:cursor]
    tickets = range(1, 1 + sum(word in ("flush", "repeat") for word in words))
    replies = run_lines(program(), [*script, *(f"frame {branch} {ticket}" for ticket in tickets)]).replies
    seen: Dict[str, List[Told]] = {"a": [], "b": []}
    for reply in replies[len(replies) - len(tickets) :]:
        _, _, to, data = reply[3].split()
        checksum = data[8:40]
        sender = "a" if to == "b" else "b"
        steps = [line.split() for line in reply if line.startswith("event ")]
        events = [(int(step[1]), step[4]) for step in steps if int(step[1]) <= cursor]
        records = [_without_bound(it[len("record ") :]) for it in reply if it.startswith("record ")]
        if events[0][1] == "flush":
            seen[sender].append(Told(events[0][0], sender, checksum, records))
        is_cut = any(word == "cut" for _, word in events) or not records
        seen[to] += [Told(place, sender, checksum, [] if is_cut else records) for place, word in events if word == "deliver"]
    return {node: sorted(its) for node, its in seen.items()}


def _without_bound(record: str) -> str:
    return record.rpartition(" ")[0] if record.startswith("clr ") else record


def script_lines(path: str) -> List[str]:
    with open(path, encoding="utf-8") as it:
        return lines_of(it.read())
