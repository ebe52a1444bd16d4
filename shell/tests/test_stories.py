"""The story of a script by its branches."""
from __future__ import annotations

import unittest
from typing import Dict, List

from ..console.characters import legible
from ..language.lines import lines_of
from ..link.laboratory import Laboratory
from ..scripts.stories import Story, story_of
from . import program

TICK = "step main tick a 1"


def story(text: str, setup: str = "") -> Story:
    """The story of lines after `open`."""
    lab = Laboratory(program())
    found = story_of(lab, lines_of(f"{setup}open\n{text}"))
    lab.close()
    return found


def notes(story: Story, branch: str = "main") -> Dict[int, List[str]]:
    """The paragraphs of a branch as a chart has them."""
    return story.above(branch)


class Notes(unittest.TestCase):
    def test_paragraphs_are_about_the_event_that_follows(self) -> None:
        first = f"# One, which\n# goes on.\n\n# Two.\n#\n#  Three.\n{TICK}\n"
        found = story(f"{first}{TICK}\n#> step clock 1 dropped 0\n# Four.\n{TICK}\n")
        self.assertEqual(notes(found), {0: ["One, which goes on.", "Two.", "Three."], 2: ["Four."]})

    def test_what_cannot_be_shown_is_marked(self) -> None:
        self.assertEqual(legible("caf\u00e9 \t\u00a0\x1b[31m\udcff <b>"), "caf\u00e9 \ufffd[31m\ufffd <b>")
        self.assertEqual(notes(story(f"# \x07 one.\n{TICK}\n")), {0: ["\ufffd one."]})

    def test_what_is_no_event_has_no_paragraphs(self) -> None:
        found = story(f"# One.\nshow main\n# Two.\nstep main deliver 1\n# Three.\n{TICK}\nnames\n")
        self.assertEqual(notes(found), {0: ["One.", "Two.", "Three."]})

    def test_the_end_of_a_story_is_at_the_end_of_each_branch(self) -> None:
        found = story(f"{TICK}\nfork main 1 other\nstep other tick a 2\n# The end.\n# For all.\n")
        self.assertEqual((notes(found), notes(found, "other")), ({1: ["The end. For all."]}, {2: ["The end. For all."]}))

    def test_a_branch_has_what_was_said_before_it_began(self) -> None:
        found = story(f"# One.\n{TICK}\n# Two.\n{TICK}\n# What if?\nfork main 1 other\n# Other.\nstep other tick a 2\n")
        self.assertEqual(notes(found), {0: ["One."], 1: ["Two."]})
        self.assertEqual(notes(found, "other"), {0: ["One."], 1: ["What if?", "Other."]})

    def test_what_is_undone_and_stepped_over_is_gone(self) -> None:
        text = f"# One.\n{TICK}\n# Two.\n{TICK}\nback main 1\n"
        self.assertEqual(notes(story(text)), {0: ["One."]})
        self.assertEqual(notes(story(f"{text}forward main 1\n")), {0: ["One."], 1: ["Two."]})
        self.assertEqual(notes(story(f"{text}# New.\n{TICK}\n")), {0: ["One."], 1: ["New."]})
        self.assertEqual(notes(story(f"{text}back main 1\n{TICK}\n")), {})

    def test_an_excision_moves_them_and_is_taken_back(self) -> None:
        text = f"# One.\n{TICK}\n# Two.\n{TICK}\n# Three.\n{TICK}\nfork main 1 a1\nfork main 3 a3\nexcise main 2\n"
        self.assertEqual((notes(story(text)), story(text).forks("main")), ({0: ["One."], 1: ["Three."]}, {1: ["a1"]}))
        back = story(f"{text}restore main\n")
        self.assertEqual(notes(back), {0: ["One."], 1: ["Two."], 2: ["Three."]})
        self.assertEqual(back.forks("main"), {1: ["a1"], 3: ["a3"]})

    def test_events_that_fall_out_with_one(self) -> None:
        packet = "step main packet a out udp 10.0.0.1:1 10.0.0.2:2 40"
        found = story(f"{packet}\n# Two.\nstep main flush a\n# Three.\n{TICK}\nexcise main 1\n", "rule a pass out\n")
        self.assertEqual(notes(found), {0: ["Three."]})


class Forks(unittest.TestCase):
    def test_where_branches_begin(self) -> None:
        found = story(f"{TICK}\nfork main 1 one\nfork main 0 two\nfork one 1 three\nfork main 1 four\ndrop four\n")
        self.assertEqual(found.forks("main"), {1: ["one"], 0: ["two"]})
        # A branch has its own name where it begins, and those of branches that began before.
        self.assertEqual(found.forks("one"), {1: ["one", "three"]})
        self.assertEqual(found.forks("two"), {0: ["two"]})

    def test_they_are_gone_with_events_that_are_stepped_over(self) -> None:
        text = f"{TICK}\n{TICK}\nfork main 2 one\nback main 1\n"
        self.assertEqual(story(text).forks("main"), {})
        self.assertEqual(story(f"{text}forward main 1\n").forks("main"), {2: ["one"]})
        self.assertEqual(story(f"{text}{TICK}\n").forks("main"), {})

    def test_a_branch_that_is_not_there(self) -> None:
        self.assertEqual(story("").forks("other"), {})


if __name__ == "__main__":
    unittest.main()
