"""A page for everybody: by the keyboard alone, and for those who hear it."""
from __future__ import annotations

import unittest
from typing import List

from .access_rules import CONTROLS, controls_have_names, tree
from .page_cases import RUN, PageCase, setUpModule
from .page_probes import FOCUSED, LISTEN, REACHABLE, SEES_FOCUS

__all__ = ["setUpModule"]

# How many drawings are neither named, nor passed over, nor within something that is named.
UNNAMED = """Array.from(document.querySelectorAll("svg")).filter(it =>
  !it.closest("[aria-hidden=true]") && !it.closest("[role][aria-label]")).length"""
SHOWN_HEADINGS = """Array.from(document.querySelectorAll("h1, h2, h3, h4, h5, h6")).filter(it => it.offsetParent)
  .map(it => Number(it.tagName[1]))"""


class Reach(PageCase):
    def test_each_control_and_picture_has_a_name(self) -> None:
        self.open(RUN, "#main/2")
        self.assertGreater(sum(it.role in CONTROLS for it in tree(self.browser)), 8)
        self.assertEqual(controls_have_names(self.browser), [])
        self.assertEqual(self.browser.evaluate(UNNAMED), 0)

    def test_the_key_tab_reaches_everything_in_order(self) -> None:
        self.open(RUN, "#main/2")
        wanted = self.browser.evaluate(REACHABLE)
        reached: List[str] = []
        for _ in range(len(wanted) + 5):
            self.browser.keys("Tab")
            focused = self.browser.evaluate(FOCUSED)
            if not focused or focused in reached:
                break
            reached.append(focused)
            self.assertTrue(self.browser.evaluate(SEES_FOCUS), focused)
        self.assertEqual([it for it in wanted if it not in reached], [])
        self.assertEqual(self.browser.count("[tabindex]:not([tabindex='0']):not([tabindex='-1'])"), 0)

    def test_headings_go_down_one_at_a_time(self) -> None:
        self.open(RUN, "#main/2")
        levels = self.browser.evaluate(SHOWN_HEADINGS)
        self.assertEqual((levels[0], levels.count(1)), (1, 1))
        self.assertTrue(all(two - one <= 1 for one, two in zip(levels, levels[1:])), levels)

    def test_an_event_is_said_once(self) -> None:
        self.open(RUN, "#main/2")
        self.browser.evaluate(LISTEN)
        said = ["event 3 of 4: deliver 1: taken 1", "event 4 of 4: tick b 500: clock 500"]
        for at, words in enumerate(said, 1):
            self.browser.click("#forward")
            self.browser.wait_until("window.said.length === arguments[0]", 5, at)
            self.assertEqual(self.browser.evaluate("window.said"), said[:at])
        self.browser.click("#branches [data-branch=later]")
        self.browser.keys_at("#chart", "Home")
        self.browser.wait_until("window.said.length === 4")
        self.assertEqual(self.browser.evaluate("window.said")[2:], ["event 4 of 4: tick a 1500: clock 1500", "the opening of later"])

    def test_where_the_slider_has_the_focus_it_alone_says_the_event(self) -> None:
        self.open(RUN, "#main/2")
        self.browser.evaluate(LISTEN)
        self.browser.keys_at("#slider", "ArrowRight")
        self.at(3)
        self.assertEqual(self.browser.attribute("#slider", "aria-valuetext"), "event 3 of 4: deliver 1: taken 1")
        self.browser.evaluate("new Promise(done => setTimeout(done, 100))")
        self.assertEqual(self.browser.evaluate("window.said"), [])

    def test_what_a_search_finds_is_said(self) -> None:
        self.open(RUN, "#main/4")
        self.browser.evaluate(LISTEN)
        for sought, at, said in (("10.0.0.1", 1, "1 state found at a, 1 at b"), ("10.9.9.9", 2, "0 states found at a, 0 at b")):
            seek = "it => { it.value = arguments[0]; it.dispatchEvent(new Event('input')); }"
            self.browser.evaluate(f"({seek})(document.querySelector('#search'))", sought)
            self.browser.wait_until("window.said.length === arguments[0]", 5, at)
            self.assertEqual(self.browser.evaluate("window.said")[-1], said)

    def test_the_slider_says_where_it_is(self) -> None:
        self.open(RUN, "#main/2")
        said = self.browser.attribute("#slider", "aria-valuetext") or ""
        self.assertIn("2", said)
        self.browser.keys_at("#slider", "ArrowRight")
        self.at(3)
        self.assertNotEqual(self.browser.attribute("#slider", "aria-valuetext"), said)

    def test_the_language_and_the_landmarks(self) -> None:
        self.open(RUN, "#main/2")
        self.assertEqual((self.browser.attribute("html", "lang"), self.browser.count("main")), ("en", 1))
        ids = self.browser.evaluate("Array.from(document.querySelectorAll('[id]'), it => it.id)")
        self.assertEqual(sorted({*ids}), sorted(ids))

    def test_zoom_is_not_forbidden(self) -> None:
        self.open(RUN, "#main/2")
        self.assertNotRegex(self.browser.attribute("meta[name=viewport]", "content") or "", "user-scalable|maximum-scale")


if __name__ == "__main__":
    unittest.main()
