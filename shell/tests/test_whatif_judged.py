"""The second program that judges `whatif`: it finds what is not as it was, and finds nothing in what `whatif` calls so."""
from __future__ import annotations

import unittest
from typing import List, Sequence

from oracle.whatifs import false_claims, faulty, laboratory, named, same_faults

from ..model.setups import Setup
from . import program
from .test_whatif import ARRIVES, FLOW, QUERY
from .test_whatif_causes import DEFERRED

SETUP = Setup.of(["rule a block any", "rule a pass out", "rule b block any", "rule b pass out"])
DEFER = Setup.of(["set defer 1", *SETUP.lines])
KEYS = "udp out 192.0.2.9:53 10.0.0.1:1000 192.0.2.9:53 10.0.0.1:1000"


class Judged(unittest.TestCase):
    def false(self, setup: Setup, events: Sequence[str], name: str) -> List[str]:
        return false_claims(program(), setup, events, [name]).get(name, [])

    def test_a_state_that_is_gone_from_both_nodes(self) -> None:
        parts = self.false(SETUP, [*ARRIVES[:3], "restart a"], "frame 1 lost (event 3)")
        self.assertEqual([it[: len(it.split(KEYS)[0]) + len(KEYS)] for it in parts[:2]], [f"only in the run: state {node} {KEYS}" for node in "ab"])
        self.assertEqual(parts[2:], [f"only in the run: one name {KEYS}"])

    def test_a_held_packet_that_is_dropped(self) -> None:
        self.assertEqual(self.false(DEFER, DEFERRED, "frame 2 lost (event 5)"), ["event 1: its packet was freed, but lost"])
        self.assertEqual(self.false(DEFER, DEFERRED, "frame 2 twice (event 5)"), [])

    def test_another_verdict(self) -> None:
        self.assertEqual(self.false(SETUP, ARRIVES, "frame 1 last (event 3)")[0], "event 4: pass, but drop block")

    def test_the_events_of_a_fault(self) -> None:
        deliver, late = (3, ["deliver", "1"]), [*ARRIVES, QUERY]
        lines = [(at, it.split()) for at, it in enumerate(late, 1)]
        self.assertEqual(faulty(late, "frame 1 late by 1 event (event 3)"), [*lines[:2], lines[3], deliver, lines[4]])
        self.assertEqual(faulty(late, "frame 1 last (event 3)"), [*lines[:2], *lines[3:], deliver])
        self.assertEqual(faulty(late, "without event 2 (flush a)"), [lines[0], *lines[2:]])
        self.assertEqual(faulty(late, "the clock of b advances by 61 s before event 2"), [lines[0], (0, ["tick", "b", "61000"]), *lines[1:]])

    def test_what_whatif_calls_as_it_was(self) -> None:
        self.assertEqual(
            named(["3  4 faults: every packet and state as it was", "   a restarts before events 3 to 4; frame 1 twice (event 3); and 1 more"]),
            ["a restarts before event 3", "a restarts before event 4", "frame 1 twice (event 3)"],
        )
        self.assertEqual(named([f"2  1 fault: at the end only on a: {FLOW}", "   frame 1 lost (event 3)"]), [])
        for setup, events in ((SETUP, ARRIVES), (DEFER, DEFERRED)):
            lab = laboratory(program(), setup, events)
            self.addCleanup(lab.close)
            names = same_faults(lab)
            self.assertGreater(len(names), 10)
            self.assertEqual(false_claims(program(), setup, events, names), {})


if __name__ == "__main__":
    unittest.main()
