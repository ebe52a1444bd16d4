"""Flows through a pf.conf, worked out by hand from pf.conf(5), as the file NAME.flows beside NAME.conf has them.

Its lines, of which those that are empty or begin with `#` say nothing:

    import WORDS                       the words of the command line
    sums TEXT                          a sum that is reported, as far as it is written here
    numbers LINE@N LINE@N ..           of rules, the number that pf gives a statement's first one for the interface
    approximated LINE | REASON         a statement that is not exact, and a part of the reason that is reported
    out LINE | REASON                  the same of one that is out
    in|out PROTO SOURCE DESTINATION [FLAGS] | VERDICT | RULE | WHY

A flow is its first packet. VERDICT is `pass`, `block`, `no state` where a packet passes since no rule matches, and `nat` or `rdr` with
the address and the port that its near end gets, or with the ports from LO to HI, one of which it gets. RULE is the line of the rule that
decides, with FILE: before it in another file; after it may stand `nat LINE`, `no nat LINE` and the like, the translation that comes
first. It is the line of the translation alone where that has `pass` or no rule matches, and `-` where nothing does."""
from __future__ import annotations

import ipaddress
from dataclasses import dataclass, field
from typing import Dict, List, NamedTuple, Tuple

from .imports import CONFS

# What follows the ends of a first packet: of TCP its numbers, with ACK acknowledging the one before the first.
_OF_TCP, _LENGTH = "1000 {ack} 65535 0", "40"


class Flow(NamedTuple):
    """The first packet of a flow, what becomes of it, by which rule, and why; and its line in the file."""

    packet: str
    verdict: str
    rule: str
    why: str
    number: int

    @property
    def event(self) -> str:
        """The event that brings the packet to node a."""
        direction, protocol, source, destination, *flags = self.packet.split()
        after = f"{flags[0]} {_OF_TCP.format(ack=int('A' in flags[0]))}" if protocol == "tcp" else _LENGTH
        return f"packet a {direction} {protocol} {long_end(source)} {long_end(destination)} {after}"

    @property
    def far(self) -> str:
        """The address of the end that is beyond the interface."""
        direction, _, source, destination, *_ = self.packet.split()
        return _parts(source if direction == "in" else destination)[0]

    @property
    def is_translated(self) -> bool:
        return self.verdict.startswith(("nat ", "rdr "))

    def has_near(self, end: str) -> bool:
        """Whether an end is one that the near end of the packet gets."""
        address, ports = _parts(self.verdict.split()[1])
        low, _, high = ports.partition(":")
        own, port = _parts(end)
        return ipaddress.ip_address(own) == ipaddress.ip_address(address) and int(low) <= int(port) <= int(high or low)


@dataclass
class Flows:
    """What a file says."""

    name: str
    words: List[str] = field(default_factory=list)
    sums: List[str] = field(default_factory=list)
    # By the line of a statement, the number of its first rule.
    numbers: Dict[str, str] = field(default_factory=dict)
    # By the verdict and the line of a statement, a part of the reason.
    judged: Dict[Tuple[str, str], str] = field(default_factory=dict)
    flows: List[Flow] = field(default_factory=list)

    @classmethod
    def read(cls, name: str) -> "Flows":
        its = cls(name)
        with open(f"{CONFS}/{name}.flows", encoding="utf-8") as file:
            for number, line in enumerate(file, 1):
                if line.strip() and not line.startswith("#"):
                    its.take(number, *line.split(maxsplit=1))
        return its

    def take(self, number: int, word: str, rest: str) -> None:
        """Takes a line."""
        if word == "import":
            self.words = rest.split()
        elif word == "sums":
            self.sums.append(rest.strip())
        elif word == "numbers":
            self.numbers = {line: at for line, _, at in (it.partition("@") for it in rest.split())}
        else:
            parts = [it.strip() for it in rest.split("|")]
            if word in ("in", "out") and len(parts) == 4:
                packet, verdict, rule, why = parts
                self.flows.append(Flow(f"{word} {packet}", verdict, rule, why, number))
            else:
                self.judged[word, parts[0]] = parts[1]


def _parts(end: str) -> Tuple[str, str]:
    """The address of an end, and what follows it."""
    address, _, port = end.strip("[").partition("]:" if end.startswith("[") else ":")
    return address, port


def long_end(end: str) -> str:
    """An end as the laboratory writes it."""
    address, port = _parts(end)
    return f"[{ipaddress.ip_address(address).exploded}]:{port}" if end.startswith("[") else end
