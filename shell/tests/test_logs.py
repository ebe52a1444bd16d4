"""`log`: events, outcomes and the cursor."""
from __future__ import annotations

import unittest

from ..console.colours import PLAIN, Paint
from ..shows.logs import log
from . import laboratory

SCRIPT = """
    rule a pass out
    open
    step main packet a out udp 10.0.0.1:1000 192.0.2.9:53 40
    step main flush a
    step main lose 1
"""


class Logs(unittest.TestCase):
    def lines(self, script: str, paint: Paint = PLAIN) -> "list[str]":
        lab = laboratory(script)
        self.addCleanup(lab.close)
        return log(lab, lab.branch("main"), paint)

    def test_all_events_stand(self) -> None:
        self.assertEqual(
            self.lines(SCRIPT),
            [
                "main: 3 events, 3 stand",
                "  1  packet a out udp 10.0.0.1:1000 192.0.2.9:53 40  pass 1.1",
                "  2  flush a                                         sent 1 148",
                "  3  lose 1                                          lost",
                "  >  cursor at 3",
            ],
        )

    def test_the_cursor_stands_before_what_was_undone(self) -> None:
        lines = self.lines(SCRIPT + "back main 2")
        self.assertEqual(lines[0], "main: 3 events, 1 stands")
        self.assertEqual(lines[2], "  >  cursor at 1")
        self.assertEqual([line.endswith("  (undone)") for line in lines[1:]], [False, False, True, True])

    def test_everything_undone(self) -> None:
        lines = self.lines(SCRIPT + "back main 3")
        self.assertEqual(lines[:2], ["main: 3 events, 0 stand", "  >  cursor at 0"])

    def test_no_events(self) -> None:
        self.assertEqual(self.lines("open"), ["main: 0 events"])

    def test_an_undone_event_has_the_outcome_that_it_had(self) -> None:
        lines = self.lines(SCRIPT + "back main 1")
        self.assertEqual(lines[-1], "  3  lose 1                                          lost  (undone)")

    def test_colours_change_no_text(self) -> None:
        painted = "\n".join(self.lines(SCRIPT + "back main 2", Paint(True)))
        for code in ("0", "1", "2", "31", "32", "33"):
            painted = painted.replace(f"\033[{code}m", "")
        self.assertEqual(painted.split("\n"), self.lines(SCRIPT + "back main 2"))


if __name__ == "__main__":
    unittest.main()
