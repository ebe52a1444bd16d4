"""The captures of the lesson examples/captured-failover.pfl. No firewall made them: a run of the laboratory did, by `kernel all` and
the rules that are taken in, and its frames are written as messages of FreeBSD 13, with names and times such as those have.

    PFL_LAB=PROGRAM python3 -m shell.tests.captured_night FOLDER

writes them; a test compares them with those in examples/."""
from __future__ import annotations

import sys
from dataclasses import replace
from pathlib import Path
from typing import Dict, Iterator, List

from ..captures.encoding import creator_of_bulk_status, message
from ..captures.runs import ADDRESSES
from ..captures.writing import LINK_ETHERNET, Written, on_ethernet, pcap
from ..language.events import PACKET, TICK, read_packet
from ..language.names import ALL_STATES, NODES, Name
from ..link.laboratory import Laboratory
from ..model.branches import Branch
from ..model.frames import Carried, Record
from . import TOP, laboratory, nights
from .imports import imported

NAME = "captured-failover"
EXAMPLES = Path(TOP, "examples")
# The interface whose rules are taken in from the pf.conf.
INTERFACE = "em0"
LINK_PFLOG = 117
# 2026-11-27 22:01 UTC in nanoseconds, and by how much the clock of b is ahead.
BEGUN, AHEAD = 1795816860 * 10**9, 700_123_000
# Between two events that are not ticks, and from one node to the other.
APART, LATENCY = 150_000, 90_000
# What the nodes call themselves, and the number of the first state of each.
CREATORS = {1: 0x7DF8AB13, 2: 0x8A6A1B3C}
FIRST = 0x6B09F1A000000000
# What happened, one event a line; `wait` moves both clocks. Client 17 is connected when the night begins, client 18 connects in it.
RUN = """
wait 3100
packet a in tcp 198.51.100.17:51512 192.0.2.80:443 S 1000000 0 64240 0 7
wait 20
packet a out tcp 192.0.2.80:443 198.51.100.17:51512 SA 5000000 1000001 65160 0 7
wait 20
packet a in tcp 198.51.100.17:51512 192.0.2.80:443 A 1000001 5000001 502 0
wait 10
packet a in tcp 198.51.100.17:51512 192.0.2.80:443 PA 1000001 5000001 502 517
wait 940
flush a
deliver 1
wait 500
packet a out tcp 192.0.2.80:443 198.51.100.17:51512 PA 5000001 1000518 509 1400
wait 500
flush a
deliver 2
wait 2200
packet a in tcp 198.51.100.18:40112 192.0.2.80:443 S 7000000 0 64240 0 7
wait 20
packet a out tcp 192.0.2.80:443 198.51.100.18:40112 SA 9000000 7000001 65160 0 7
wait 20
packet a in tcp 198.51.100.18:40112 192.0.2.80:443 A 7000001 9000001 502 0
wait 10
packet a in tcp 198.51.100.18:40112 192.0.2.80:443 PA 7000001 9000001 502 517
wait 700
flush a
lose 3
wait 300
packet a out tcp 192.0.2.80:443 198.51.100.18:40112 PA 9000001 7000518 509 1400
wait 700
flush a
deliver 4
wait 1
flush b
deliver 5
wait 1
flush a
lose 6
wait 600
packet b in tcp 198.51.100.17:51512 192.0.2.80:443 PA 1000518 5001401 502 300
wait 15
packet b in tcp 198.51.100.18:40112 192.0.2.80:443 PA 7000518 9001401 502 300
wait 300
packet b in tcp 198.51.100.18:40112 192.0.2.80:443 PA 7000518 9001401 502 300
wait 600
packet b in tcp 198.51.100.18:40112 192.0.2.80:443 PA 7000518 9001401 502 300
wait 100
flush b
deliver 7
"""


def events() -> Iterator[str]:
    """The events of the run."""
    for line in filter(None, RUN.splitlines()):
        word, _, rest = line.partition(" ")
        yield from (f"tick {node} {rest}" for node in NODES) if word == "wait" else [line]


def files() -> Dict[str, bytes]:
    """The files of the night by name: the captures of both sync interfaces, and what b logged."""
    rules = imported(str(EXAMPLES / f"{NAME}.conf"), "--on", INTERFACE, "--unopened").setup
    lab = laboratory("\n".join([*rules, "open", *(f"step main {event}" for event in events())]))
    branch = lab.branch("main")
    times = {node: [*_times(branch, node)] for node in NODES}
    seen: Dict[str, List[Written]] = {node: [] for node in NODES}
    for ticket in range(1, lab.show("main").next_ticket):
        flight = lab.flight("main", ticket)
        records = [_named(record) for record in flight.frame.records]
        creator = CREATORS.get(creator_of_bulk_status(flight.frame.data), 0)
        data = on_ethernet(message(bytes.fromhex(flight.frame.checksum), records, creator), ADDRESSES[flight.source])
        seen[flight.source].append(Written(times[flight.source][flight.sent.number], data))
        if flight.is_delivered and flight.ended:
            seen[flight.to].append(Written(times[flight.to][flight.ended.number] + LATENCY - APART, data))
    found = {f"{NAME}-{node}.pcap": pcap(sorted(its), LINK_ETHERNET) for node, its in seen.items()}
    found[f"{NAME}-b-pflog.pcap"] = _log(lab, branch, times["b"])
    lab.close()
    return found


def _times(branch: Branch, node: str) -> Iterator[int]:
    """When the events happened by the clock of a node, from the opening on."""
    time = BEGUN + AHEAD * (node == "b")
    yield time
    for event in branch.events:
        word, *rest = event.split()
        time += int(rest[1]) * 10**6 * (rest[0] == node) if word == TICK.word else APART
        yield time


def _named(record: Record) -> Record:
    """A record with the names that machines give."""
    if isinstance(record.state, Carried):
        return replace(record, state=replace(record.state, name=_name(record.state.name)))
    return replace(record, about=tuple(str(_name(Name.read(word))) for word in record.about)) if record.name != ALL_STATES else record


def _name(name: Name) -> Name:
    return Name(CREATORS[name.creator], FIRST + name.id)


def _log(lab: Laboratory, branch: Branch, times: List[int]) -> bytes:
    """What pf logged at b: the packets that it blocked."""
    packets = []
    for place, (event, outcome) in enumerate(zip(branch.events, lab.outcomes(branch.events)), 1):
        if event.startswith(f"{PACKET.word} b ") and outcome.startswith("drop block"):
            packets.append(nights.Captured(times[place], nights.logged(read_packet(event), nights.REASONS["block"])))
    return nights.pcap(packets, LINK_PFLOG)


def main() -> int:
    for name, content in files().items():
        Path(sys.argv[1], name).write_bytes(content)
    return 0


if __name__ == "__main__":
    sys.exit(main())
