"""Dumps for tests of `compare`: states as pfctl prints them, and what the command says of two files."""
from __future__ import annotations

import io
import shutil
import tempfile
import unittest
from contextlib import redirect_stderr, redirect_stdout
from pathlib import Path
from typing import List, NamedTuple, Union

from ..main import main

# A state of each form that pfctl has for them.
WEB = """\
all tcp 192.0.2.80:443 <- 198.51.100.17:51512       ESTABLISHED:ESTABLISHED
   [3058113415 + 65535] wscale 6  [1224512417 + 65664] wscale 7
   age 00:01:40, expires in 23:59:57, 120:118 pkts, 9312:88214 bytes, rule 3
   id: 5f00a1b200000003 creatorid: 8a1b2c3d gateway: 192.0.2.1
   origif: em0
"""
NAT = """\
all tcp 203.0.113.1:61000 (10.0.0.17:51512) -> 192.0.2.80:443       ESTABLISHED:ESTABLISHED
   [1000 + 100] wscale 6  [2000 + 200] wscale 7
   age 26:01:40, expires in 23:59:57, 1:2 pkts, 3:4 bytes, anchor 1, rule 5, source-track
   id: 5f00a1b200000004 creatorid: 8a1b2c3d
   gateway: 0.0.0.0
"""
QUERY = """\
all udp 10.0.0.1:1000 -> 192.0.2.9:53       SINGLE:NO_TRAFFIC
   age 00:00:02, expires in 00:00:28, 1:0 pkts, 40:0 bytes, rule 12
   id: 5f00a1b200000005 creatorid: 8a1b2c3d gateway: 0.0.0.0
"""
ECHO = """\
em0 icmp 10.0.0.1:43210 -> 192.0.2.9:43210       0:0
   age 00:05:00, expires in 00:00:08, 1:1 pkts, 84:84 bytes, rule 12
   id: 5f00a1b200000006 creatorid: 8a1b2c3d gateway: 0.0.0.0
"""
SIX = """\
all tcp 2001:db8::80[443] (2001:db8::1[8443]) <- 2001:db8:1::17[50000]       PROXY:DST
   [1 + 2](+99)  [3 + 4]
   age 00:05:00, expires in 00:00:30, 1:1 pkts, 84:84 bytes, rule 12, sloppy
   id: 5f00a1b200000007 creatorid: 8a1b2c3d gateway: ::
"""
TUNNEL = """\
all gre 10.0.0.1 -> 192.0.2.9       MULTIPLE:MULTIPLE
   age 00:05:00, expires in 00:00:30, 1:1 pkts, 84:84 bytes
   id: 5f00a1b200000008 creatorid: 8a1b2c3d gateway: 0.0.0.0
"""
ALL = (WEB, NAT, QUERY, ECHO, SIX, TUNNEL)


class Said(NamedTuple):
    """What a run of the command came to."""

    status: int
    out: List[str]
    err: List[str]


class DumpCase(unittest.TestCase):
    """A folder with two dumps."""

    def setUp(self) -> None:
        self.room = Path(tempfile.mkdtemp())
        self.addCleanup(shutil.rmtree, self.room)

    def file(self, name: str, content: Union[str, bytes]) -> str:
        path = self.room / name
        path.write_bytes(content.encode() if isinstance(content, str) else content)
        return str(path)

    def run_with(self, *words: str) -> Said:
        """What the command says, with the folder left out."""
        out, err = io.StringIO(), io.StringIO()
        with redirect_stdout(out), redirect_stderr(err):
            status = main(["--program", "", "compare", *words])
        said, faults = (it.getvalue().replace(f"{self.room}/", "").splitlines() for it in (out, err))
        return Said(status, said, faults)

    def compared(self, a: Union[str, bytes], b: Union[str, bytes], *options: str) -> Said:
        return self.run_with(self.file("a", a), self.file("b", b), *options)

    def line(self, said: Said, begin: str) -> str:
        """The one line that begins so, blanks left out."""
        found = [it.strip() for it in said.out if it.strip().startswith(begin)]
        self.assertEqual(len(found), 1, said.out)
        return found[0]
