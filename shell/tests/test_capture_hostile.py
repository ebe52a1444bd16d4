"""Captures that are damaged: `capture` reads what is whole, and reports one fault with its place.

PFL_CAPTURES sets how many are tried, and PFL_SEED the seed: PFL_CAPTURES=100000 python3 -m unittest shell.tests.test_capture_hostile
"""
from __future__ import annotations

import gzip
import os
import random
import struct
import time
import tracemalloc
import unittest
from typing import Callable, List, Sequence, Tuple
from unittest import mock

from ..arguments import parser
from . import capture_files as made
from .capture_cases import MILLISECOND, CaptureCase, both
from .capture_files import A, B, NOON, PFSYNC, ethernet, group, ip, message, name, pcap, pcapng, peer, short, state, status
from .dump_cases import Said

TRIED = int(os.environ.get("PFL_CAPTURES", "2000"))
SEED = int(os.environ.get("PFL_SEED", "20260109"))
SIX = (("2001:db8::9", 53), ("2001:db8::1", 1000))
# A little of everything that messages have.
GIVEN = [
    (0.0, "a", message(group(made.INS, state(1, flags=0x10), state(2, wire=SIX))), True),
    (5.0, "b", message(group(made.INS_ACK, name(1))), True),
    (9.0, "b", message(group(made.INS, state(1, 0xB))), True),
    (20.0, "a", message(group(made.UPD_C, short(1, peer(2, 5, 9, 7, 3), peer(2)), short(2, peer(1), peer(2)))), False),
    (25.0, "b", message(group(made.UPD_REQ, name(2), name(0, 0))), True),
    (30.0, "a", message(group(made.BUS, status(1)), group(made.UPD, state(2, wire=SIX))), True),
    (31.0, "a", message(group(made.BUS, status(2)), group(made.TDB, bytes(48))), True),
    (40.0, "b", message(group(made.DEL_C, name(1)), group(made.CLR, made.clear(0xA, "em0")), checksum=made.OTHER_RULES), True),
]
# Numbers that lengths, counts and times may be made to have.
NUMBERS = (0, 1, 3, 8, 0x7F, 0xFF, 0x100, 0x7FFF, 0xFFFF, 0x10000, 262144, 262145, 0x7FFFFFFF, 0x80000000, 0xFFFFFFFC, 0xFFFFFFFF)
OPTIONS: Sequence[Sequence[str]] = (
    (),
    ("--states", "--all"),
    ("--flow", "10.0.0.1:1000"),
    ("--from", "12:00", "--to", "12:00:30"),
    ("--a", B),
    ("--states", "--flow", "2001:db8::1"),
)
Rng = random.Random


def files_of(node: str) -> List[bytes]:
    """The capture of a node in several forms."""
    packets = [(NOON + round(it[0] * MILLISECOND), ip(A if it[1] == "a" else B, it[2])) for it in GIVEN if it[1] == node or it[3]]
    framed = [(at, ethernet(its)) for at, its in packets]
    own = [(NOON + round(it[0] * MILLISECOND), it[2]) for it in GIVEN if it[1] == node]
    several = made.section() + made.interface(1) + made.interface(PFSYNC, options=struct.pack("<HHBxxxHHq", 9, 1, 9, 14, 8, 60))
    statistics, again = made.block(5, bytes(12)), made.enhanced(NOON, own[0][1], 1)
    mixed = several + b"".join(made.enhanced(at // 1000, its) for at, its in framed) + statistics + again
    plain = [
        *(pcap(framed), pcap(framed, nanoseconds=True, order=">"), pcapng(framed), mixed, pcap(own, PFSYNC), pcapng(own, PFSYNC)),
        *(pcap(packets, 101), pcap([(at, bytes(14) + b"\x08\x00" + its) for at, its in packets], 113), pcap(framed, kept=300)),
    ]
    return plain + [gzip.compress(it, mtime=0) for it in plain[:3]]


# ---- what is done to a file


def changed(rng: Rng, content: bytes, _: bytes) -> bytes:
    """Some bytes are others."""
    out = bytearray(content)
    for _nth in range(rng.choice((1, 1, 2, 5, 30))):
        out[rng.randrange(len(out))] = rng.randrange(256)
    return bytes(out)


def lied(rng: Rng, content: bytes, _: bytes) -> bytes:
    """A number is another one."""
    form = rng.choice(("<I", ">I", "<H", ">H", "<Q"))
    at = rng.randrange(len(content))
    number = struct.pack(form, rng.choice(NUMBERS) & (2 ** (8 * struct.calcsize(form)) - 1))
    return content[:at] + number + content[at + len(number) :]


def cut(rng: Rng, content: bytes, _: bytes) -> bytes:
    return content[: rng.randrange(len(content))]


def spliced(rng: Rng, content: bytes, other: bytes) -> bytes:
    return content[: rng.randrange(len(content))] + other[rng.randrange(len(other)) :]


def repeated(rng: Rng, content: bytes, _: bytes) -> bytes:
    begin = rng.randrange(len(content))
    return content[:begin] + content[begin : begin + rng.randrange(1, 400)] * rng.choice((2, 3, 50)) + content[begin:]


def left_out(rng: Rng, content: bytes, _: bytes) -> bytes:
    begin = rng.randrange(len(content))
    return content[:begin] + content[begin + rng.randrange(1, 60) :]


WAYS: Tuple[Callable[[Rng, bytes, bytes], bytes], ...] = (changed, changed, lied, lied, cut, spliced, repeated, left_out)


class Hostile(CaptureCase):
    def setUp(self) -> None:
        super().setUp()
        # (a new parser for each run would take most of the time)
        kept = parser("./lab")
        patched = mock.patch(f"{parser.__module__.rpartition('.')[0]}.main.parser", lambda *_: kept)
        patched.start()
        self.addCleanup(patched.stop)

    def judged(self, said: Said, what: object) -> None:
        """Whether an answer is one: nothing or something found, or a fault in a line for each file that has one."""
        self.assertIn(said.status, (0, 1, 2), what)
        self.assertEqual(said.status == 2, bool(said.err), (what, said.err))
        self.assertLessEqual(len(said.err), 2, what)
        for line in said.err:
            self.assertRegex(line, r"^lab: ([AB]\.pcap|no message is from)", what)
        self.assertTrue(said.out or said.status == 2, what)

    def test_mutations(self) -> None:
        forms = {node: files_of(node) for node in "ab"}
        rng = random.Random(SEED)
        begun = time.process_time()
        for nth in range(TRIED):
            which = rng.randrange(len(forms["a"]))
            contents = [forms["a"][which], forms["b"][which if rng.random() < 0.8 else rng.randrange(len(forms["b"]))]]
            if rng.random() < 0.4:
                contents = contents[rng.randrange(2) :][:1]
            for at in range(len(contents)):
                if rng.random() < 0.8 or at == 0:
                    way = rng.choice(WAYS)
                    plain = contents[at].startswith(b"\x1f\x8b") and rng.random() < 0.7
                    its = gzip.decompress(contents[at]) if plain else contents[at]
                    its = way(rng, its, rng.choice(forms[rng.choice("ab")]))
                    contents[at] = gzip.compress(its, 1, mtime=0) if plain else its
            options = rng.choice(OPTIONS)
            try:
                said = self.run_with(*self.files(contents), *options)
            except Exception as error:
                raise AssertionError(f"seed {SEED}, capture {nth}, {options}: {error!r}") from error
            self.judged(said, f"seed {SEED}, capture {nth}")
        self.assertLess(time.process_time() - begun, 30 + TRIED * 0.1)

    def test_cut_at_every_byte(self) -> None:
        a, b = both([GIVEN[1], GIVEN[3], GIVEN[7]])
        whole = self.file("B.pcap", b)
        for content in (a, pcapng([(NOON, ethernet(ip(A, GIVEN[3][2])))]), gzip.compress(a, mtime=0)):
            for end in range(len(content)):
                self.judged(self.run_with(self.file("A.pcap", content[:end]), whole), end)

    def test_memory_is_bounded(self) -> None:
        # Thousands of times the same bytes at one moment, senders without number, states without number, and lies in lengths.
        rng = random.Random(SEED)
        same = pcap([(NOON, ethernet(ip(A, message())))] * 4_000)
        senders = pcap([(NOON + nth, ethernet(ip(f"10.{nth >> 8}.{nth & 255}.1", message()))) for nth in range(4_000)])
        ahead = pcap([(NOON - nth * MILLISECOND, ethernet(ip(A, message(group(made.DEL_C, name(nth)))))) for nth in range(4_000)])
        faces = made.section() + made.interface(1) * 70_000
        packed = gzip.compress(pcap([]) + bytes(500_000), mtime=0)
        for content in (same, senders, ahead, faces, packed, pcapng([(NOON, b"x")])[:-4] + bytes(4)):
            files = self.files((content, changed(rng, same, b"")))
            tracemalloc.start()
            begun = time.process_time()
            said = self.run_with(*files)
            most = tracemalloc.get_traced_memory()[1]
            tracemalloc.stop()
            self.assertIn(said.status, (0, 1, 2))
            self.assertLess(most, 60_000_000)
            self.assertLess(time.process_time() - begun, 60)


if __name__ == "__main__":
    unittest.main()
