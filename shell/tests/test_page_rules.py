"""The mark `k` on a page and the notes of a chart: events that come to something else by other rules."""
from __future__ import annotations

import unittest
from contextlib import closing
from typing import List

from ..charts.text import text as chart_text
from ..console.colours import PLAIN
from ..depends import otherwise
from ..main import drawn_from
from ..pages.runs import run_of
from . import program
from .page_cases import PageCase, setUpModule
from .test_depends import BLIND, CLOSED, NIGHT, SESSION

__all__ = ["setUpModule"]

# The night: by `loose` its last packet passes. And a branch whose last packet passes by `window`, but not by all words.
SCRIPT = [*SESSION, "step main tick a 1", "fork main 3 blind", f"step blind {BLIND[10:]}"]
MARK = "document.querySelector('.rule-mark')"


def rules(lines: List[str]) -> List[List[str]]:
    """What the moments of main have by other rules, in a page's data."""
    with closing(run_of(program(), lines, "a-script.pfl")) as run:
        return [list(record.rules(number)) for record in run.records[:1] for number in range(1, len(record.moments) + 1)]


class Data(unittest.TestCase):
    def test_each_event_has_what_it_comes_to(self) -> None:
        self.assertEqual(rules(NIGHT), [[], [], [], [], ["by kernel loose: pass 1.1"]])
        self.assertEqual(rules(CLOSED)[-2:], [[], ["by kernel window, loose together: pass 1.1"]])
        self.assertEqual(rules([*SESSION, BLIND])[-1], ["by kernel window: pass 1.1", "by kernel all: drop window"])

    def test_from_where_on_it_is_another_run(self) -> None:
        purge = ["step main tick a 200000", "step main purge a"]
        found = rules(["kernel reset", *SESSION, BLIND.replace("3000000000", "1000"), *purge, "step main kill a 1.1", "step main tick a 1"])
        self.assertEqual(found[3:], [
            ["by the profile: pass 1.1"], [], ["by the profile: purged 1"],
            ["by the profile: refused NoSuchState", "by the profile: a different run from here on"], [],
        ])

    def test_only_the_first_events_of_a_long_branch_are_asked_about(self) -> None:
        most = otherwise.MOST_EVENTS
        otherwise.MOST_EVENTS = 4
        try:
            self.assertEqual(rules(NIGHT)[-1], [])
            self.assertEqual(rules([*SESSION, BLIND])[-1], ["by kernel window: pass 1.1", "by kernel all: drop window"])
        finally:
            otherwise.MOST_EVENTS = most


class Pages(PageCase):
    def test_the_moment_has_the_other_outcome(self) -> None:
        self.open("\n".join([*NIGHT, ""]), "#main/5")
        self.assertEqual(self.browser.text("#rules"), "by kernel loose: pass 1.1")
        self.go("main", 4)
        self.assertEqual(self.browser.count("#rules:not([hidden])"), 0)

    def test_its_row_has_a_mark_that_goes_there(self) -> None:
        self.open("\n".join([*NIGHT, ""]), "#main/1")
        self.assertEqual(self.browser.count(".rule-mark"), 1)
        self.assertEqual(self.browser.evaluate(f"{MARK}.firstChild.data"), "k")
        self.assertEqual(self.browser.evaluate(f"{MARK}.querySelector('title').textContent"), "event 5, by kernel loose: pass 1.1")
        self.browser.click(".rule-mark")
        self.at(5)

    def test_a_key_goes_to_the_next_of_them(self) -> None:
        self.open("\n".join([*NIGHT, *[NIGHT[-1]] * 2, ""]), "#main/0")
        for place in (5, 6, 7, 7):
            self.browser.keys("k")
            self.at(place)

    def test_a_branch_without_any_has_no_mark(self) -> None:
        self.open("\n".join([*SCRIPT, ""]), "#main/4")
        self.assertEqual(self.browser.count(".rule-mark"), 0)
        self.go("blind", 4)
        self.assertEqual(self.browser.text("#rules"), "by kernel window: pass 1.1; by kernel all: drop window")
        self.assertEqual(self.browser.count(".rule-mark"), 1)


class Charts(unittest.TestCase):
    def notes(self, lines: List[str], with_notes: bool = True) -> List[str]:
        drawn = chart_text(drawn_from(program(), lines, "main", with_notes=with_notes), PLAIN, 100)
        return [it.strip() for it in drawn if "Event" in it or "choice of rules" in it]

    def test_notes_have_the_other_outcome_and_how_many_events_depend(self) -> None:
        summary = "By the profile; 1 of 5 events depends on the choice of rules (event 5)."
        self.assertEqual(self.notes(NIGHT), ["Event 5, by kernel loose: pass 1.1.", summary])
        self.assertEqual(self.notes(NIGHT, False), [])
        self.assertEqual(self.notes(NIGHT[:-1]), ["By the profile; none of 4 events depends on the choice of rules."])
        two = "By kernel loose; 2 of 6 events depend on the choice of rules (events 5, 6)."
        self.assertEqual(self.notes(["kernel loose", *NIGHT, NIGHT[-1]])[-1], two)


if __name__ == "__main__":
    unittest.main()
