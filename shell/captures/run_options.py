"""The words after `frames`: a script, the captures that are written, and how."""
from __future__ import annotations

import argparse


def add_options(words: argparse.ArgumentParser) -> None:
    """What a command line can say."""
    words.add_argument("file", metavar="SCRIPT")
    words.add_argument("capture_a", metavar="A.pcap", help="the file for the capture at node a")
    words.add_argument("capture_b", metavar="B.pcap", help="the file for the capture at node b")
    words.add_argument("--branch", default="main", metavar="BRANCH", help="writes the frames of this branch instead of `main`")
    words.add_argument(
        "--pfsync", action="store_true", help="writes what the interface pfsync0 shows: what its node sent, without Ethernet and IP"
    )
