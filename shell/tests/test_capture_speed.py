"""How long `capture` takes over many messages, and how much memory.

The gate tries 50,000. PFL_MESSAGES=1000000 python3 -m unittest shell.tests.test_capture_speed tries a million, in two captures of half a
million each, with 20,000 states living; this takes a minute, and as much to make them.
"""
from __future__ import annotations

import os
import resource
import subprocess
import sys
import time
import unittest

from . import TOP
from .capture_cases import CaptureCase
from .capture_streams import Sizes, write_two

MESSAGES = int(os.environ.get("PFL_MESSAGES", "50000"))
# Of a million messages, on a machine that does nothing else.
SECONDS, MEGABYTES = 60, 500
# A machine may be slow, or have much to do.
SLACK = 8


class Speed(CaptureCase):
    def test_many_messages(self) -> None:
        sizes = Sizes(MESSAGES // 2, MESSAGES // 50)
        paths = [str(self.room / f"{node}.pcap") for node in "AB"]
        with open(paths[0], "wb") as a, open(paths[1], "wb") as b:
            lost = write_two((a, b), sizes, 1)
        begun, before = time.monotonic(), resource.getrusage(resource.RUSAGE_CHILDREN)
        ran = subprocess.run([sys.executable, f"{TOP}/lab", "capture", *paths], capture_output=True, text=True, check=False, timeout=600)
        took, after = time.monotonic() - begun, resource.getrusage(resource.RUSAGE_CHILDREN)
        self.assertEqual((ran.returncode, ran.stderr), (1, ""))
        frames = f"{lost} frame{'s' * (lost != 1)} not in the other capture"
        self.assertEqual(ran.stdout.splitlines()[0], f"found: {frames}")
        processor = after.ru_utime + after.ru_stime - before.ru_utime - before.ru_stime
        if "PFL_MESSAGES" in os.environ:
            print(f"{MESSAGES:,} messages: {took:.1f} s, {processor:.1f} s of a processor, {after.ru_maxrss >> 10} MB", file=sys.stderr)
        self.assertLess(processor, 2 + SECONDS * SLACK * MESSAGES / 10**6)
        self.assertLess(after.ru_maxrss >> 10, MEGABYTES if MESSAGES >= 10**6 else MEGABYTES // 3)


if __name__ == "__main__":
    unittest.main()
