"""The story on a page: the paragraphs at each moment, and the ways to other runs."""
from __future__ import annotations

import unittest
from typing import List, Tuple

from .page_cases import RULES, RUN, PageCase, setUpModule

__all__ = ["setUpModule"]

STORY = "Array.from(document.querySelectorAll('#story p'), it => it.textContent)"
AFTER = "Array.from(document.querySelectorAll('#after p'), it => it.textContent)"
WAYS = "Array.from(document.querySelectorAll('#story button'), it => it.textContent)"
BRANCH = "document.querySelector('#branches button[aria-pressed=true]').dataset.branch"
TICK = "step main tick a 1\n"


class Story(PageCase):
    def story(self, branch: str, moment: int) -> List[str]:
        self.go(branch, moment)
        told: List[str] = self.browser.evaluate(STORY)
        return told

    def test_an_event_without_a_paragraph_has_the_newest_before_it(self) -> None:
        self.open(f"{RULES}{TICK}# Two.\n#\n# And more.\n{TICK}{TICK}# Four.\n{TICK}# The end.\n", "#main/0")
        self.assertEqual(self.story("main", 1), [])
        self.assertEqual(self.story("main", 2), ["Two.", "And more."])
        self.assertEqual(self.story("main", 3), ["From event 2 on:", "Two.", "And more."])
        self.assertEqual(self.story("main", 4), ["Four."])
        self.assertEqual(self.browser.evaluate(AFTER), ["The end."])
        self.story("main", 3)
        self.assertEqual(self.browser.evaluate(AFTER), [])

    def test_the_opening_has_what_stands_before_the_setup(self) -> None:
        self.open(RUN, "#main/0")
        told = self.story("main", 0)
        self.assertEqual(told[-1], "The second paragraph of what stands before the setup.")
        self.assertIn("rule b block any", self.browser.evaluate("document.querySelector('#story .setup').textContent"))

    def ways(self, branch: str, moment: int) -> Tuple[str, ...]:
        self.go(branch, moment)
        return tuple(self.browser.evaluate(WAYS))

    def test_there_are_ways_to_branches_and_to_earlier_runs_where_they_part(self) -> None:
        self.open(RUN, "#main/0")
        self.assertEqual(self.ways("main", 1), ())
        self.assertEqual(self.ways("main", 2), ("Branch later begins here",))
        self.assertEqual(self.ways("main", 3), ("The earlier run main~1 continues differently",))
        self.assertEqual(self.ways("main~1", 3), ("Branch main continues differently",))
        self.assertEqual(self.ways("later", 2), ("Branch main continues differently", "The earlier run main~1 continues differently"))
        self.assertEqual(self.ways("later", 3), ())

    def test_a_way_goes_to_the_next_event_of_the_other_run(self) -> None:
        self.open(RUN, "#main/2")
        self.browser.click("#story button")
        self.at(3)
        self.assertEqual(self.browser.evaluate(BRANCH), "later")
        self.go("main", 3)
        self.browser.click("#story button")
        self.at(4)
        self.assertEqual(self.browser.evaluate(BRANCH), "main~1")


if __name__ == "__main__":
    unittest.main()
