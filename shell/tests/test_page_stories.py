"""What a page tells of a script: its paragraphs, each at its moment, and the runs that were undone."""
from __future__ import annotations

import random
import unittest
from typing import Dict, List

from ..language.lines import lines_of
from ..link.laboratory import Laboratory
from ..pages.runs import MOST_FORMER, Run, run_of
from ..scripts.stories import Story, story_of
from . import program

SETUP = "rule a pass out\nrule b pass out\nopen\n"
ONE, TWO, THREE = (f"packet a out udp 10.0.0.{it}:1 192.0.2.9:53 40" for it in (1, 2, 3))


class Paragraphs(unittest.TestCase):
    def paragraphs(self, *lines: str) -> List[str]:
        story = Story()
        for line in lines:
            story.comment(line)
        return story.waiting

    def test_lines_that_follow_one_another_are_one(self) -> None:
        self.assertEqual(self.paragraphs("# One,", "# and on.\r", "#", "#  Two.", "", "## Three"), ["One, and on.", "Two.", "Three"])

    def test_marks_are_no_paragraphs(self) -> None:
        self.assertEqual(self.paragraphs("#> x", "#! x", "#= 1", "#? x", "  #>y"), [])

    def test_bytes_that_are_no_text(self) -> None:
        self.assertEqual(self.paragraphs("# \udcff."), ["\ufffd."])


class Stories(unittest.TestCase):
    def run_of(self, script: str) -> Run:
        run = run_of(program(), lines_of(script), "a-script.pfl")
        self.addCleanup(run.close)
        return run

    def notes(self, run: Run) -> Dict[str, Dict[int, List[str]]]:
        return {record.name: {place: list(those) for place, those in record.notes.items()} for record in run.records}

    def events(self, run: Run) -> Dict[str, List[str]]:
        return {record.name: [one.event for one in record.moments] for record in run.records}

    def test_the_title_and_what_comes_before_the_pair_is_open(self) -> None:
        run = self.run_of(f"# A title. And more of it.\n# On.\n{SETUP}")
        self.assertEqual((run.title, run.intro), ("A title", ["A title. And more of it. On."]))
        alone = self.run_of(f"# A title.\n\n# An introduction.\n{SETUP}")
        self.assertEqual((alone.title, alone.intro), ("A title", ["An introduction."]))
        self.assertEqual(self.run_of(SETUP).title, "a-script.pfl")

    def test_a_script_without_open(self) -> None:
        self.assertEqual(self.events(self.run_of("rule a pass out\n")), {"main": []})

    def test_paragraphs_are_at_the_moments_that_follow_them(self) -> None:
        run = self.run_of(f"{SETUP}# One.\nstep main {ONE}\nstep main {TWO}\n# Three.\nstep main {THREE}\n# The end.\n")
        self.assertEqual(self.notes(run), {"main": {1: ["One."], 3: ["Three."]}})
        self.assertEqual(run.records[0].after, {3: ["The end."]})

    def test_a_refused_event_and_a_question_leave_their_paragraph_to_the_next(self) -> None:
        run = self.run_of(f"{SETUP}# No.\nstep main flush a\n# Look.\nshow main\n# Yes.\nstep main {ONE}\n")
        self.assertEqual(self.notes(run), {"main": {1: ["No.", "Look.", "Yes."]}})

    def test_what_was_undone_and_stepped_over_is_a_branch_of_its_own(self) -> None:
        run = self.run_of(f"{SETUP}# One.\nstep main {ONE}\n# Two.\nstep main {TWO}\n# Back.\nback main 2\n# Three.\nstep main {THREE}\n")
        self.assertEqual(self.events(run), {"main": [THREE], "main~1": [ONE, TWO]})
        self.assertEqual(self.notes(run), {"main": {1: ["Back.", "Three."]}, "main~1": {1: ["One."], 2: ["Two."]}})
        self.assertEqual([record.former for record in run.records], [False, True])

    def test_back_and_forward_again_keeps_one_run(self) -> None:
        run = self.run_of(f"{SETUP}step main {ONE}\nback main 1\nforward main 1\n# Two.\nstep main {TWO}\n")
        self.assertEqual(self.events(run), {"main": [ONE, TWO]})
        self.assertEqual(self.notes(run), {"main": {2: ["Two."]}})

    def test_events_that_stay_undone(self) -> None:
        run = self.run_of(f"{SETUP}step main {ONE}\nstep main {TWO}\nback main 1\n")
        self.assertEqual((self.events(run), run.records[0].undone), ({"main": [ONE], "main~1": [ONE, TWO]}, 1))

    def test_a_fork_has_the_paragraphs_up_to_where_it_begins(self) -> None:
        script = f"# One.\nstep main {ONE}\n# Two.\nstep main {TWO}\n# What if?\nfork main 1 other\n# Three.\nstep other {THREE}\n"
        run = self.run_of(SETUP + script)
        self.assertEqual(self.notes(run), {"main": {1: ["One."], 2: ["Two."]}, "other": {1: ["One."], 2: ["What if?", "Three."]}})
        self.assertEqual(run.records[0].forks, {1: ["other"]})

    def test_an_excision_moves_what_follows_it(self) -> None:
        script = f"# One.\nstep main {ONE}\n# Two.\nstep main {TWO}\n# Three.\nstep main {THREE}\n# Without two.\nexcise main 2\n"
        run = self.run_of(SETUP + script)
        self.assertEqual(self.events(run), {"main": [ONE, THREE], "main~1": [ONE, TWO, THREE]})
        self.assertEqual(self.notes(run)["main"], {1: ["One."], 2: ["Three."]})
        self.assertEqual(run.records[0].after, {2: ["Without two."]})
        self.assertEqual(self.notes(run)["main~1"], {1: ["One."], 2: ["Two."], 3: ["Three."]})

    def test_a_restoration_brings_the_run_back(self) -> None:
        script = f"# One.\nstep main {ONE}\n# Two.\nstep main {TWO}\nexcise main 1\nrestore main\n# Three.\nstep main {THREE}\n"
        run = self.run_of(SETUP + script)
        self.assertEqual(self.events(run), {"main": [ONE, TWO, THREE]})
        self.assertEqual(self.notes(run), {"main": {1: ["One."], 2: ["Two."], 3: ["Three."]}})

    def test_a_dropped_branch_is_not_shown(self) -> None:
        run = self.run_of(f"{SETUP}fork main 0 other\nstep other {ONE}\n# Away with it.\ndrop other\n")
        self.assertEqual((self.events(run), run.records[0].after), ({"main": []}, {0: ["Away with it."]}))

    def test_the_newest_of_many_runs_are_kept(self) -> None:
        tries = "".join(f"step main tick a {it}\nback main 1\n" for it in range(1, 12))
        run = self.run_of(SETUP + tries)
        former = [record.moments[0].event for record in run.records if record.former]
        self.assertEqual(former, [f"tick a {it}" for it in range(12 - MOST_FORMER, 12)])


class AtRandom(unittest.TestCase):
    """Scripts of any commands in any order, taken or refused."""

    def script(self, seed: int) -> List[str]:
        dice, names = random.Random(seed), ("main", "x", "y")
        kinds = ["step {0} tick a {1}", f"step {{0}} {ONE}", "step {0} flush a", "step {0} deliver {2}", "back {0} {2}", "forward {0} {2}"]
        kinds += ["fork {0} {2} {3}", "excise {0} {2}", "excise {0} {2}", "restore {0}", "drop {0}", "show {0}"]
        lines = [dice.choice(kinds).format(dice.choice(names), it, dice.randrange(1, 5), dice.choice(names)) for it in range(1, 50)]
        return [*SETUP.splitlines(), *(f"# {number}.\n{line}" for number, line in enumerate(lines))]

    def test_a_story_has_the_events_of_the_branches(self) -> None:
        for seed in range(30):
            lab = Laboratory(program())
            story = story_of(lab, lines_of("\n".join(self.script(seed))))
            branches = {name: (it.events, it.cursor) for name, it in story.branches.items()}
            self.assertEqual(branches, {name: (lab.branch(name).events, lab.branch(name).cursor) for name in lab.names()}, seed)
            lab.close()


if __name__ == "__main__":
    unittest.main()
