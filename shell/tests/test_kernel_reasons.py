"""Where `why` of a packet that is dropped for its window says that FreeBSD's kernel passes it. The numbers are worked out by hand."""
from __future__ import annotations

import re
import unittest
from typing import Dict, List, Tuple
from unittest.mock import patch

from ..console.colours import PLAIN
from ..depends import otherwise
from ..depends.why import why_event
from ..scripts import texts
from . import TOP, laboratory, reasons
from .test_reasons import FAR_FIN, FIN, OPEN, SYN, SYN_ACK

PACKET = "step main packet a out tcp 10.0.0.1:1000 192.0.2.9:80 "
FAR_PACKET = "step main packet a in tcp 192.0.2.9:80 10.0.0.1:1000 "
# The source's lo is 5000, its hi 65001; the destination's lo is 9001, its hi 9001 + 65535. An acknowledgement may be 67035 ahead.
KNOWN = OPEN + SYN + SYN_ACK
# The destination has not been heard: the source's lo is 5000, its hi 5002.
UNHEARD = OPEN + SYN
# The same without scales, and the destination's lo is 500001: further from 0 than an acknowledgement may be behind.
HIGH = OPEN + PACKET + "S 5000 0 60000 0\n" + FAR_PACKET + "SA 500000 5001 60000 0\n"

LEAST, MOST = (5000 - 67035) % 2**32, 5002 + 67035
# Why, and by which words of a line `kernel` it passes here.
NO_DATA = "a packet without data is judged by what it acknowledges alone (by kernel window"
ACK_0 = "the acknowledged number 0 of a reset says nothing (by kernel window"
UNHEARD_END = "where the other end was not heard, a packet may begin 67035 before lo, and end 67035 after hi (by kernel loose"
CLOSED_END = "where an end has closed, a packet may begin 67035 before lo, and end 67035 after hi (by kernel loose"
FIRST = "an end that was not heard begins with its first packet, whatever its level (by kernel window"

# Of each packet that is dropped here: a script, and why the kernel passes it, if it does.
CASES: Dict[str, Tuple[str, str]] = {
    "no data": (KNOWN + PACKET + "A 200000 9001 100 0", NO_DATA),
    "one byte": (KNOWN + PACKET + "A 200000 9001 100 1", ""),
    "a FIN is like a byte": (KNOWN + PACKET + "FA 200000 9001 100 0", ""),
    "no data, and a far acknowledgement": (KNOWN + PACKET + f"A 200000 {9001 + 67036} 100 0", ""),
    "no data, and an acknowledgement just near": (KNOWN + PACKET + f"A 200000 {9001 + 67035} 100 0", NO_DATA),
    "the acknowledgement 0 of a reset": (HIGH + PACKET + "RA 5001 0 0 0", ACK_0),
    "the same of an end that was not heard": (
        OPEN + PACKET + "S 500000 0 60000 0\n" + FAR_PACKET + "RA 7 0 0 0",
        ACK_0,
    ),
    "a reset one before the next number": (
        UNHEARD + PACKET + "R 4999 0 0 0",
        "a reset may have the next number, or one beside it (by kernel window",
    ),
    "the acknowledgement 0 of another packet": (HIGH + PACKET + "A 5001 0 0 0", ""),
    "the first packet of an end that a reset closed": (UNHEARD + PACKET + "R 5001 0 0 0\n" + SYN_ACK, FIRST),
    "the other end was not heard": (UNHEARD + PACKET + "PA 5001 1 100 1000", UNHEARD_END),
    "the other end was not heard, at the most": (UNHEARD + PACKET + f"PA {MOST - 1000} 1 100 1000", UNHEARD_END),
    "the other end was not heard, above that": (UNHEARD + PACKET + f"PA {MOST - 999} 1 100 1000", ""),
    "the other end was not heard, at the least": (UNHEARD + PACKET + f"PA {LEAST} 1 100 1000", UNHEARD_END),
    "the other end was not heard, below that": (UNHEARD + PACKET + f"PA {LEAST - 1} 1 100 1000", ""),
    "the other end has closed": (KNOWN + FIN + FAR_FIN + FAR_PACKET + f"A {9001 + 65535} 5002 100 100", CLOSED_END),
    # (the far FIN has offered 60000 at scale 3 from 5002 on)
    "the sender has closed": (KNOWN + FIN + FAR_FIN + PACKET + f"PA {5002 + 480000} 9002 100 100", CLOSED_END),
    "an end is closing": (KNOWN + FIN + PACKET + "PA 65001 9001 100 100", ""),
}


def of_kernel(script: str) -> List[str]:
    """What is said of the kernel."""
    return [reason for reason in reasons(script) if reason.startswith("FreeBSD's kernel")]


def others(script: str) -> List[str]:
    """What other rules come to that the reason does not name."""
    return [reason for reason in reasons(script) if re.match(r"(by|with|without) .* (it|the run) is ", reason)]


class KernelReasons(unittest.TestCase):
    def test_packets_that_the_kernel_passes(self) -> None:
        for name, (script, why) in CASES.items():
            with self.subTest(name):
                lines = [f"FreeBSD's kernel, as far as we know its sources, passes this packet: {why}; docs/REAL.md)"]
                self.assertEqual(of_kernel(script), lines if why else [])

    def test_resets(self) -> None:
        """A kernel before 13.2-RELEASE-p7 judged them like any packet without data."""
        old = "may pass this packet: before 13.2-RELEASE-p7 it does not test the number of a reset (by kernel window without reset"
        self.assertEqual(of_kernel(KNOWN + PACKET + "R 200000 0 0 0"), [f"FreeBSD's kernel, as far as we know its sources, {old}; docs/REAL.md)"])


class Others(unittest.TestCase):
    """By which rules an event comes to something else, if its reason does not name them."""

    def test_a_word_that_the_reason_names_is_not_named_again(self) -> None:
        self.assertEqual(others(KNOWN + PACKET + "A 200000 9001 100 0"), [])
        self.assertEqual(others("kernel window\n" + KNOWN + PACKET + "A 200000 9001 100 0"), [])

    def test_another_word_that_passes_the_packet_is_named(self) -> None:
        self.assertEqual(others(UNHEARD + PACKET + "R 4999 0 0 0"), ["by kernel loose it is `pass 1.1` (docs/REAL.md)"])

    def test_all_words_may_come_to_what_it_is_here(self) -> None:
        """A reset of any number passes by `window`, and not by `reset` besides."""
        self.assertEqual(others(KNOWN + PACKET + "R 200000 0 0 0"), ["by kernel all it is `drop window`, as here (docs/REAL.md)"])

    def test_a_purge_after_a_reset_that_does_not_count(self) -> None:
        """The reset's number is in the window; by `reset` the state lives on, and is not closed."""
        reset = KNOWN + PACKET + "A 5001 9001 100 0\n" + FAR_PACKET + "R 9500 0 0 0\n"
        (said,) = of_kernel(reset)
        self.assertIn("drops this packet from 13.2-RELEASE-p7 on: seq 9500 is 498 above 9002 (by kernel reset a reset needs lo 9001", said)
        purge = reset + "step main tick a 100000\nstep main purge a\n"
        self.assertEqual(others(purge), ["by kernel reset it is `purged 0` (docs/REAL.md)"])

    def test_an_update_made_the_difference(self) -> None:
        """As in the lesson of a late update: `why` of the drop names the word by which it is none."""
        lab = laboratory(texts.read(f"{TOP}/examples/late-update.pfl"))
        self.addCleanup(lab.close)
        lines = why_event(lab, lab.branch("main"), 13, PLAIN)
        self.assertEqual(lines[-1].strip(), "by kernel merge it is `drop window` (docs/REAL.md)")

    def test_after_an_event_that_does_not_happen_there_it_is_another_run(self) -> None:
        """By `reset` the state is still there when it is killed, and by the profile it is not."""
        reset = "kernel reset\n" + KNOWN + PACKET + "A 5001 9001 100 0\n" + FAR_PACKET + "R 9500 0 0 0\n"
        lines = reset + "step main tick a 100000\nstep main purge a\nstep main kill a 1.1\n"
        self.assertEqual(others(lines), ["by the profile it is `refused NoSuchState` (docs/REAL.md)"])
        self.assertEqual(others(lines + "step main tick a 1\n"), ["by the profile the run is a different one since event 7 (docs/REAL.md)"])

    def test_of_a_long_run_only_depends_asks(self) -> None:
        with patch.object(otherwise, "MOST_EVENTS", 3):
            self.assertEqual(others(UNHEARD + PACKET + "R 4999 0 0 0"), ["by kernel loose it is `pass 1.1` (docs/REAL.md)"])
            self.assertEqual(others(KNOWN + PACKET + "A 5001 9001 100 0\n" + PACKET + "R 4999 0 0 0"), [])


if __name__ == "__main__":
    unittest.main()
