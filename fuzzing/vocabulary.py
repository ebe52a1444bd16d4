"""The words and numbers with which lines are changed."""
from __future__ import annotations

from typing import Sequence, Tuple

from shell.language.commands import KERNEL_WORD, SETUP
from shell.language.events import EVENTS
from shell.language.forms import ACTION, RULE_DIRECTION
from shell.language.lines import KNOWN
from shell.language.names import NODES
from shell.language.searches import ANY, GOALS, SCOPES, THEN
from shell.language.setups import CLASS, LIMITS, OPTIONS, TIMEOUT

# The numbers where something begins or ends, each with its neighbours.
EDGES = (
    *(0, 1, 2, 9, 10, 16, 17, 31, 32, 33, 36, 147, 148, 255, 256, 257, 511, 512, 4096, 4097, 9000, 9001, 65495, 65496),
    *(65535, 65536, 65537, 131072, 131073, 999999999999, 1000000000000, 1000000000001),
    *(4294967294, 4294967295, 4294967296, 18446744073709551615, 18446744073709551616, 10**40),
)
FLAGS = ("S", "SA", "A", "FA", "PA", "R", "RA", "F", "-", "FSRPAU", "SF", "AS", "SS", "s")
PROTOCOLS = ("tcp", "udp", "icmp", "6", "17", "1", "006", "47", "255", "0", "256", "TCP")
ENDS = (
    *("10.0.0.1:1000", "192.0.2.9:53", "192.0.2.9:80", "10.0.0.1:0", "192.0.2.9:0", "010.000.0.01:01000"),
    *("[2001:0db8:0000:0000:0000:0000:0000:0001]:1000", "[2001:0db8:0000:0000:0000:0000:0000:0009]:53"),
    *("255.255.255.255:65535", "10.0.0.256:1", "10.0.0.1:65536", "10.0.0.1", "10.0.0:1", "1.2.3.4.5:6"),
    *("[10.0.0.1]:1", "2001:0db8::1:1", "[2001:db8::1]:1000", ":", "[]:1"),
)
NETS = (
    *("10.0.0.0/8", "10.0.0.1/32", "0.0.0.0/0", "10.0.0.0/33", "10.0.0.1/", "/8"),
    *("2001:0db8:0000:0000:0000:0000:0000:0000/32", "2001:0db8:0000:0000:0000:0000:0000:0000/129"),
)
PORTS = ("53", "80", "53:80", "80:80", "80:53", "1000:1001", "0:65535", "053:0080", "65535:65536", "70000", "53:", ":53", "1:2:3", ":")
POOLS = (
    *("203.0.113.1:7000", "203.0.113.1:7000:7001", "198.51.100.1:4000:4003", "010.0.0.1:07000:07000", "192.0.2.1:0:65535"),
    *("[2001:0db8:0000:0000:0000:0000:0000:0001]:1000:1001", "[2001:0db8:0000:0000:0000:0000:0000:0001]:7:7"),
    *("10.0.0.1:2:1", "10.0.0.1:1:2:3", "10.0.0.1:", "10.0.0.1", "[10.0.0.1]:1:2", "[2001:db8::1]:1:2", "10.0.0.1:1:65536"),
)
BRANCHES = (
    *("main", "other", "w0", "f1", "a", "b", "a-9", "ma", "maine", "Main", "-a", "1a", "m_n"),
    *("x" * 16, "x" * 17, "x" * 32, "x" * 33),
)
STATES = (
    *("1.1", "1.2", "2.1", "3.1", "1.0", "0.0", "0.1", "01.001", "1.1.1", "1.", ".1", "1"),
    *("4294967295.18446744073709551615", "4294967296.1"),
)
# Rules of the kernel, and words that are none.
RULES_OF_KERNEL = (*KERNEL_WORD.words, "max", "takeover", "kernel", "profile", "none", "Window", "windows", "loos", "0", "-")
# Words that can replace each other.
ALIKE: Tuple[Sequence[str], ...] = (
    tuple(EVENTS),
    (*KNOWN, "view"),
    (*GOALS, *SCOPES, ANY, THEN),
    tuple(SETUP),
    (*NODES, "A", "ab"),
    RULE_DIRECTION.words,
    ACTION.words,
    (*LIMITS, TIMEOUT.word),
    CLASS.words,
    RULES_OF_KERNEL,
    (*OPTIONS, "port", "keep"),
    FLAGS,
    PROTOCOLS,
    ENDS,
    NETS,
    PORTS,
    POOLS,
    BRANCHES,
    STATES,
)
# Words for a form by its name, right ones and others, and numbers if there are none.
BY_NAME = {"P": PROTOCOLS, "NET": NETS, "PORTS": PORTS, "POOL": POOLS}
FEW = (0, 1, 1, 2, 2, 3, 53, 80, 1000, 65535)
# Lines that many pairs show, for making events from.
SHOWN = (
    *(f"frame {it}" for it in range(1, 9)),
    *(f"state {node} {boot}.{it}" for node in NODES for boot in (1, 2, 3) for it in (1, 2)),
)
BYTES = (
    *("\0", "\r", "\t", " ", "\x0b", "\x0c", "\x1b", "\x7f", "\x80", "\xa0", "\xe4", "\xff"),
    *("#", "-", "+", ".", ":", "0", "a"),
)
# A line has at most 512 bytes, and the program reads 65536 at a time.
LENGTHS = (510, 511, 512, 513, 514, 1024, 65535, 65536, 65537, 200000)
