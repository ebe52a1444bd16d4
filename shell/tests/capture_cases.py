"""Captures in a folder, for tests of `capture`: what the command says of them."""
from __future__ import annotations

import io
import os
import shutil
import tempfile
import time
import unittest
from contextlib import redirect_stderr, redirect_stdout
from pathlib import Path
from typing import Iterable, List, Optional, Sequence, Tuple

from ..captures.pairing import Overlay, Sent
from ..main import main
from .capture_files import A, B, ETHERNET, NOON, SECOND, Timed, ethernet, ip, pcap
from .dump_cases import Said

MILLISECOND = SECOND // 1000
# The time that a frame is on its way.
WAY = 200_000
# A message: milliseconds after noon, the node that sends it, its bytes, and whether it is in the other capture.
Given = Tuple[float, str, bytes, bool]


def captures(given: Iterable[Given], ahead: int = 0) -> Tuple[List[Timed], List[Timed]]:
    """What the captures of both nodes have, in the order in which it was sent, the clock of b so many nanoseconds ahead."""
    seen: Tuple[List[Timed], List[Timed]] = ([], [])
    for after, node, payload, arrives in given:
        moment, which = NOON + round(after * MILLISECOND), "ab".index(node)
        packet = ethernet(ip((A, B)[which], payload))
        for at in (0, 1):
            if at == which or arrives:
                seen[at].append((moment + WAY * (at != which) + ahead * at, packet))
    return seen


def both(given: Iterable[Given], ahead: int = 0) -> Tuple[bytes, bytes]:
    """The captures of both nodes, the clock of b so many nanoseconds ahead."""
    a, b = (pcap(sorted(capture, key=lambda one: one[0]), ETHERNET, nanoseconds=True) for capture in captures(given, ahead))
    return a, b


def _set_back(zone: Optional[str]) -> None:
    if zone is None:
        del os.environ["TZ"]
    else:
        os.environ["TZ"] = zone
    time.tzset()


class CaptureCase(unittest.TestCase):
    """A folder with captures."""

    def setUp(self) -> None:
        self.set_zone("UTC")
        self.room = Path(tempfile.mkdtemp())
        self.addCleanup(shutil.rmtree, self.room)

    def set_zone(self, zone: str) -> None:
        """Sets the zone in which times are printed, until the test ends."""
        former = os.environ.get("TZ")
        os.environ["TZ"] = zone
        time.tzset()
        self.addCleanup(_set_back, former)

    def file(self, name: str, content: bytes) -> str:
        path = self.room / name
        path.write_bytes(content)
        return str(path)

    def files(self, contents: Sequence[bytes]) -> List[str]:
        """Files A.pcap and B.pcap."""
        return [self.file(f"{node}.pcap", content) for node, content in zip("AB", contents)]

    def overlay(self, *contents: bytes, a: Optional[str] = None) -> Overlay:
        return Overlay(self.files(contents), a)

    def sent(self, *contents: bytes, a: Optional[str] = None) -> List[Sent]:
        return [*self.overlay(*contents, a=a).sent()]

    def run_with(self, *words: str) -> Said:
        """What the command says, with the folder left out."""
        out, err = io.StringIO(), io.StringIO()
        with redirect_stdout(out), redirect_stderr(err):
            status = main(["--program", "", "capture", *words])
        said, faults = (it.getvalue().replace(f"{self.room}/", "").splitlines() for it in (out, err))
        return Said(status, said, faults)

    def captured(self, given: Iterable[Given], *options: str) -> Said:
        """What the command says of the captures of both nodes."""
        return self.run_with(*self.files(both(given)), *options)

    def findings(self, given: Iterable[Given], *options: str) -> List[str]:
        """The parts of the report: what is found, without the head and the timeline."""
        said = self.captured(given, *options)
        self.assertEqual(said.err, [])
        begin = next(nth for nth, line in enumerate(said.out) if line.startswith("times are in "))
        end = next(nth for nth, line in enumerate(said.out) if line.startswith("what no frame says: "))
        self.assertEqual(said.status, int(end > begin + 1))
        return said.out[begin + 1 : end]
