"""Faults that do the same are played once: those that share an effect have it when each is played by itself."""
from __future__ import annotations

import unittest
from functools import partial
from typing import Dict, List, Set

from ..console.colours import PLAIN
from ..link.laboratory import Laboratory
from ..whatif import report
from ..whatif.asked import Asked
from ..whatif.faults import faults_of
from ..whatif.groups import Base, Effect
from ..whatif.plays import Player
from ..whatif.sharing import Alike, Sharing
from ..whatif.tries import course_of, tried
from . import TOP, laboratory
from .random_nights import play
from .test_whatif import ARRIVES, TWO, lab_of, quiet_progress

# Random nights in which no state is killed.
SEEDS = (2, 3, 6)


class Shared(unittest.TestCase):
    """The faults that are declared to do the same."""

    def lab(self, lab: Laboratory) -> Laboratory:
        self.addCleanup(lab.close)
        return lab

    def alike(self, lab: Laboratory, kind: str) -> List[Set[str]]:
        """The names of the faults of a kind, those together that do the same."""
        course = course_of(lab, lab.branch("main"))
        sharing = Sharing(course)
        found: Dict[object, Set[str]] = {}
        for fault in faults_of(course, (kind,), 1, len(course)):
            found.setdefault(sharing.alike((fault,)) or fault, set()).add(fault.name)
        return [*found.values()]

    def test_what_happens_at_one_node_may_come_after_what_happens_at_the_other(self) -> None:
        # (a query and a flush at a, a delivery to b, an answer at b)
        found = self.alike(self.lab(lab_of(ARRIVES)), "restart")
        self.assertEqual(len(found), 5)
        self.assertIn({"a restarts before event 1"}, found)
        self.assertIn({"a restarts before event 3", "a restarts before event 4"}, found)
        self.assertIn({f"b restarts before event {at}" for at in (1, 2, 3)}, found)

    def test_two_restarts_stay_in_their_order_and_frames_that_are_made_or_cut(self) -> None:
        lab = self.lab(lab_of(["restart b", "tick b 1", "flush b", "repeat 1", "cut 1 9", "lose 1", "deliver 2"]))
        restarts, clocks = self.alike(lab, "restart"), self.alike(lab, "clock")
        self.assertIn({"a restarts before event 1"}, restarts)
        self.assertIn({f"a restarts before event {at}" for at in (2, 3, 4)}, restarts)
        self.assertIn({f"the clock of a advances by 61 s before event {at}" for at in (1, 2, 3, 4)}, clocks)
        self.assertIn({f"the clock of a advances by 61 s before event {at}" for at in (6, 7)}, clocks)

    def test_other_faults_are_played_each(self) -> None:
        lab = self.lab(lab_of(TWO))
        for kind in ("lose", "twice", "late", "last", "skip"):
            self.assertTrue(all(len(it) == 1 for it in self.alike(lab, kind)), kind)

    def test_nothing_is_shared_where_a_state_is_killed(self) -> None:
        lab = self.lab(lab_of([*ARRIVES, "kill a 1.1"]))
        self.assertTrue(all(len(it) == 1 for it in self.alike(lab, "restart")))

    def same_effects(self, lab: Laboratory) -> int:
        """Plays each fault that shares its effect; returns how many there were."""
        branch, shared = lab.branch("main"), 0
        course = course_of(lab, branch)
        sharing = Sharing(course)
        known: Dict[Alike, Effect] = {}
        with lab.beside(branch) as other:
            player = Player(other, branch, course)
            base = Base(course, player.play(()), lab.setup)
            for fault in faults_of(course, ("restart", "clock"), 1, len(course)):
                alike = sharing.alike((fault,))
                if alike:
                    shared += alike in known
                    effect = base.effect(player.play((fault,)))
                    self.assertEqual(known.setdefault(alike, effect), effect, fault.name)
        return shared

    def test_their_effects_are_the_same(self) -> None:
        for name in ("lost-bulk-frame", "split-brain", "asymmetric-routing-deferred", "syn-flood"):
            with open(f"{TOP}/examples/{name}.pfl", encoding="utf-8") as script:
                lab = self.lab(laboratory("\n".join(line for line in script.read().splitlines() if not line.startswith("#"))))
            self.assertGreater(self.same_effects(lab), 5, name)

    def test_their_effects_are_the_same_in_random_nights(self) -> None:
        for seed in SEEDS:
            lab = self.lab(laboratory("set defer 1\nrule a pass any\nrule b pass any\nopen"))
            play(lab, seed, 24)
            self.assertGreater(self.same_effects(lab), 5, seed)


class AtOnce(unittest.TestCase):
    """The reasons of groups, asked when their first fault is played."""

    def lines(self, lab: Laboratory, later: bool) -> List[str]:
        """The answer, by reasons that are asked at once, or later, by a replay of each first fault."""
        branch = lab.branch("main")

        with lab.beside(branch) as other:
            its = tried(Player(other, branch, course_of(lab, branch)), Asked(), quiet_progress, partial(report.why_first, PLAIN))
            groups = report.shown_groups(its)
            for _, group in groups:
                self.assertIsNotNone(group.reason)
                group.reason = None if later else group.reason
            return report.report(its, groups, PLAIN)

    def test_they_are_those_of_a_replay(self) -> None:
        for events in (ARRIVES, TWO):
            lab = lab_of(events)
            self.addCleanup(lab.close)
            self.assertEqual(self.lines(lab, False), self.lines(lab, True))


if __name__ == "__main__":
    unittest.main()
