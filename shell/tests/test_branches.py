"""What a session knows of its branches is what the program knows: the shown pair is that of the events followed."""
from __future__ import annotations

import unittest
from typing import List

from ..model.pair import read_shown
from . import laboratory

SETUP = """
rule a pass out
rule b pass out
open
"""
QUERY = "step main packet a out udp 10.0.0.1:{} 192.0.2.9:53 40"


class Followed(unittest.TestCase):
    def follows(self, lines: List[str], branch: str, events: List[str], cursor: int) -> None:
        lab = laboratory(SETUP)
        self.addCleanup(lab.close)
        for line in lines:
            lab.ask(line)
        known = lab.branch(branch)
        self.assertEqual((known.events, known.cursor), (events, cursor))
        shown = lab.show(branch)
        self.assertEqual((shown.events, shown.cursor), (len(events), cursor))
        replayed = lab.run([*(f"step main {event}" for event in events[:cursor]), "show main"])[-1]
        self.assertEqual(read_shown(replayed).nodes, shown.nodes)

    def test_undone_events_stay_until_another_is_accepted(self) -> None:
        ticks = ["step main tick a 1", "step main tick a 2", "back main 1"]
        self.follows(ticks, "main", ["tick a 1", "tick a 2"], 1)
        self.follows([*ticks, "step main tick a 3"], "main", ["tick a 1", "tick a 3"], 2)

    def test_refused_and_faulty_steps_leave_no_event(self) -> None:
        self.follows(["step main flush a", "step main tick a", "step other tick a 1"], "main", [], 0)

    def test_a_fork_has_the_first_events_and_a_dropped_branch_none(self) -> None:
        lines = ["step main tick a 1", "step main tick a 2", "fork main 1 other", "step other tick b 5", "drop main"]
        self.follows(lines, "other", ["tick a 1", "tick b 5"], 2)

    def test_an_excision_takes_out_what_depends_on_it(self) -> None:
        # The frame that event 2 sends cannot be delivered without it, and the ticks happen as before.
        lines = [
            QUERY.format(1000),
            "step main flush a",
            "step main tick b 7",
            "step main deliver 1",
            "step main tick b 1",
            "back main 1",
        ]
        self.follows(
            [*lines, "excise main 2"], "main", ["packet a out udp 10.0.0.1:1000 192.0.2.9:53 40", "tick b 7", "tick b 1"], 2
        )
        five = ["packet a out udp 10.0.0.1:1000 192.0.2.9:53 40", "flush a", "tick b 7", "deliver 1", "tick b 1"]
        self.follows([*lines, "excise main 2", "restore main"], "main", five, 4)
        self.follows([*lines, "excise main 2", "step main flush a", "restore main"], "main", [five[0], "tick b 7", "flush a"], 3)


if __name__ == "__main__":
    unittest.main()
