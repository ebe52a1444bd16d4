"""`changes`: what one event changed."""
from __future__ import annotations

import unittest

from ..console.colours import PLAIN
from ..link.laboratory import Unknown
from ..shows.changes import changes
from . import laboratory

SCRIPT = """
    rule a pass out
    open
    step main packet a out udp 10.0.0.1:1000 192.0.2.9:53 40
    step main flush a
    step main lose 1
    step main tick b 1500
    step main cut 7 3
    step main tick b 0
"""


class Changes(unittest.TestCase):
    def setUp(self) -> None:
        self.lab = laboratory(SCRIPT)
        self.addCleanup(self.lab.close)

    def lines(self, number: int) -> "list[str]":
        return changes(self.lab, self.lab.branch("main"), number, PLAIN)

    def test_a_packet_makes_a_state_and_queues_it(self) -> None:
        lines = self.lines(1)
        self.assertEqual(lines[0], "event 1: packet a out udp 10.0.0.1:1000 192.0.2.9:53 40: pass 1.1")
        self.assertIn("  a: counter packets passed: 0 -> 1", lines)
        self.assertTrue(any(line.startswith("  a: state 1.1 new: udp 10.0.0.1:1000 -> 192.0.2.9:53") for line in lines))
        self.assertTrue(any(line.startswith("  a: queue 1.1 new: insert") for line in lines))
        self.assertFalse(any(line.startswith(("  b:", "  link:")) for line in lines))

    def test_a_loss_takes_the_frame_alone(self) -> None:
        self.assertEqual(self.lines(3), ["event 3: lose 1: lost", "  link: frame 1 gone: to b, 148 bytes: 1 insert"])

    def test_a_clock(self) -> None:
        self.assertEqual(self.lines(4), ["event 4: tick b 1500: clock 1500", "  b: clock: 0 s -> 1.5 s"])

    def test_a_packet_is_held_and_released(self) -> None:
        self.lab = laboratory(f"set defer 1\n{SCRIPT}\nstep main tick a 20\nstep main release a")
        self.addCleanup(self.lab.close)
        held = "udp 10.0.0.1:1000 192.0.2.9:53 40, since 0 s"
        self.assertIn(f"  a: held packet 1.1 new: {held}", self.lines(1))
        # Of the script above the cut is refused, so that seven events stand.
        self.assertIn(f"  a: held packet 1.1 gone: {held}", self.lines(7))

    def test_nothing_changed(self) -> None:
        # The cut was refused, so the fifth event is the tick by nothing.
        self.assertEqual(self.lines(5), ["event 5: tick b 0: clock 1500", "  it changed nothing"])

    def test_an_undone_event_says_so(self) -> None:
        self.lab.ask("back main 3")
        self.assertEqual(self.lines(3)[1], "  it was undone: this is what it changed before that")

    def test_no_such_event(self) -> None:
        for number in (0, 6):
            with self.assertRaises(Unknown):
                self.lines(number)


if __name__ == "__main__":
    unittest.main()
