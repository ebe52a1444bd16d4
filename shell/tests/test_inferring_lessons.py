"""The lessons of examples/ as captures, and scripts inferred from these: the frames of each must be those of the lesson, and so must be
the tables at the end where the packets were captured, too."""
from __future__ import annotations

import glob
import os
from typing import Dict, Iterator, List, Tuple

from ..language.lines import lines_of
from ..link.laboratory import Laboratory
from ..scripts.texts import read
from . import TOP
from .inferred import Inferred, Nights, differing_frames, differing_tables, frames_of

LESSONS = {os.path.basename(it)[:-4]: it for it in sorted(glob.glob(f"{TOP}/examples/*.pfl"))}
# The lessons whose branch `main` sends frames, each with how many.
FRAMES: Dict[str, int] = {
    **{"adaptive-timeouts": 2, "answer-after-failover": 1, "any-way-deferred": 2, "asymmetric-routing-deferred": 2},
    **{"asymmetric-routing": 5, "early-purge": 4, "failover-in-mid-stream": 1, "failover-with-defer": 3},
    **{"captured-failover": 7, "keepalive-after-failover-kernel": 1},
    **{"keepalive-after-failover": 1, "kill-that-comes-back": 2, "late-update-kernel": 2, "late-update": 2, "lost-bulk-frame": 4},
    **{"lost-frame": 3, "lost-insertion": 1, "nat-failover": 2, "never-at-rest-kernel": 4, "never-at-rest": 7, "restart": 1},
    **{"split-brain": 5, "syn-flood": 3, "without-the-loss": 2},
}
# In this one the clock of a alone goes on, so that nothing says whether the capture of b covers the frames that it lacks.
ONE_CLOCK = ("lost-frame",)


def held(number: int) -> str:
    """The line of the head where this number of frames is the same, of as many."""
    have = "has" if number == 1 else "have"
    return f"# Held against the captured frames, {number} of {number} {have} the same records, by kind and by state."


class Lessons(Nights):
    def lessons(self) -> Iterator[Tuple[str, Laboratory]]:
        for name, path in LESSONS.items():
            lab = self.run_of(lines_of(read(path)))
            if name in FRAMES:
                yield name, lab
            else:
                self.assertEqual([], frames_of(lab), f"{name} sends frames: it belongs to the lessons here")

    def played(self, made: Inferred) -> Laboratory:
        return self.run_of(made.script)

    def infer_from(self, lab: Laboratory, *words: str) -> Inferred:
        return self.infer(self.captured(lab, lab.branch("main")), *words)

    def test_frames(self) -> None:
        """From the captures of pfsync alone: all frames, record by record, with flows, ends and classes."""
        for name, lab in self.lessons():
            with self.subTest(name):
                made = self.infer_from(lab)
                number = FRAMES[name]
                self.assertEqual([], differing_frames(self.played(made), lab))
                self.assertIn(held(number), made.script)
                self.assertIn("# No frame parts.", made.script)

    def test_frames_by_the_rules(self) -> None:
        """With the setup of the lesson, and so by its rules of the kernel."""
        for name, lab in self.lessons():
            with self.subTest(name):
                made = self.infer_from(lab, *self.rules(lab))
                self.assertEqual([], differing_frames(self.played(made), lab))
                self.assertIn("# No frame parts.", made.script)
                self.assertEqual(lab.setup.lines, made.script[made.script.index(lab.setup.lines[0]) :][: len(lab.setup.lines)])

    def test_ends(self) -> None:
        """With the packets of both nodes' interfaces, and the rules: the tables at the end as well, of all but one."""
        for name, lab in self.lessons():
            with self.subTest(name):
                made = self.infer_from(lab, *self.rules(lab), *self.data(lab, lab.branch("main")))
                played = self.played(made)
                self.assertEqual([], differing_frames(played, lab))
                if name not in ONE_CLOCK:
                    self.assertEqual([], differing_tables(played, lab))

    def test_what_was_blocked(self) -> None:
        """Both segments that b drops in failover-in-mid-stream.pfl are in the script, and dropped there for their window."""
        lab = self.run_of(lines_of(read(LESSONS["failover-in-mid-stream"])))
        made = self.infer_from(lab, *self.logs(lab, lab.branch("main"), "b"))
        dropped = [outcome for outcome in self.outcomes(made) if outcome[1] == "drop window"]
        self.assertEqual(
            [
                "packet b in tcp 192.0.2.80:443 10.0.0.17:51512 A 120001 401 60000 1460",
                "packet b out tcp 10.0.0.17:51512 192.0.2.80:443 A 401 120001 60000 0",
            ],
            [event for event, _ in dropped],
        )
        self.assertIn("# Of 2 packets that pf logged as blocked, 2 are blocked for the same reason here.", made.script)

    def outcomes(self, made: Inferred) -> List[Tuple[str, str]]:
        lab = self.played(made)
        return [*zip(made.events, lab.outcomes(made.events))]
