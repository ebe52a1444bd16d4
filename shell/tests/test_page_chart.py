"""The chart of a page: its marked row, clicks on rows, its heads, and the ways of frames."""
from __future__ import annotations

import unittest
from typing import List

from .page_cases import RUN, PageCase, example, setUpModule
from .test_page_size import IN_SIGHT, of_events

__all__ = ["setUpModule"]

# The events of the rows that are marked.
MARKED = "Array.from(document.querySelectorAll('#chart .now[data-first]'), it => [Number(it.dataset.first), Number(it.dataset.last)])"
ROWS = "Array.from(document.querySelectorAll('#chart [data-first]'), it => [Number(it.dataset.first), Number(it.dataset.last)])"
# What is in sight of the heads of the lanes: their texts, where they are not beyond the chart's box or under something else.
HEADS = """Array.from(document.querySelectorAll("#chart *")).filter(it => {
  if (it.children.length || !/^node [ab], boot/.test(it.textContent)) { return false; }
  const its = it.getBoundingClientRect(), box = document.querySelector("#chart").getBoundingClientRect();
  const top = document.elementFromPoint(its.left + its.width / 2, its.top + its.height / 2);
  return its.top >= box.top - 1 && its.bottom <= box.bottom + 1 && (top === it || it.contains(top) || top.contains(it));
}).map(it => it.textContent)"""
DOTS = "Array.from(document.querySelectorAll('#chart [data-ticket]'), it => it.dataset.ticket).sort()"


class Rows(PageCase):
    def test_the_row_of_the_moment_is_marked(self) -> None:
        self.open(RUN, "#main/0")
        self.assertEqual(self.browser.evaluate(MARKED), [])
        # A frame's way from its flush to its end is in one row where nothing lies between: in main that is the beginning of `later`.
        of_main = (("main", 2, [2, 2]), ("main", 3, [3, 3]))
        for branch, moment, row in (*of_main, ("main~1", 1, [1, 1]), ("main~1", 2, [2, 3]), ("main~1", 3, [2, 3])):
            self.go(branch, moment)
            self.assertEqual(self.browser.evaluate(MARKED), [row])
            self.assertTrue(self.browser.evaluate(IN_SIGHT))

    def test_the_rows_have_all_events_once(self) -> None:
        self.open(example("lost-bulk-frame"), "#main/1")
        for branch, events in (("main", 21), ("late", 20)):
            self.go(branch, 1)
            self.browser.size(1440, 3000)
            rows = self.browser.evaluate(ROWS)
            self.assertEqual([event for first, last in rows for event in range(first, last + 1)], list(range(1, self.place()[1] + 1)))

    def test_a_click_on_a_row_goes_there(self) -> None:
        self.open(RUN, "#main~1/0")
        for row, moment in (("[data-first='4']", 4), ("[data-last='1']", 1), ("[data-first='2']", 3)):
            self.browser.click(f"#chart {row}")
            self.at(moment)

    def test_a_click_on_a_word_in_a_row_goes_there_too(self) -> None:
        self.open(RUN, "#main/0")
        word = "document.querySelector('#chart svg text tspan').getBoundingClientRect()"
        middle = f"(box => [box.left + 5, box.top + box.height / 2])({word})"
        x, y = self.browser.evaluate(middle)
        self.browser.evaluate("document.elementFromPoint(...arguments).dispatchEvent(new MouseEvent('click', {bubbles: true}))", x, y)
        self.at(1)


class Sight(PageCase):
    def long(self, place: str) -> None:
        self.open("\n".join(of_events(300)), place)

    def test_the_marked_row_comes_into_sight(self) -> None:
        self.long("#main/150")
        self.assertTrue(self.browser.evaluate(IN_SIGHT))
        for key in ("End", "Home", "PageDown", "PageDown", "ArrowRight"):
            self.browser.keys_at("#slider", key)
            if key != "Home":
                self.browser.wait_until(IN_SIGHT, 2)

    def test_it_stays_in_sight_where_the_window_changes(self) -> None:
        self.long("#main/250")
        for width, height in ((1024, 800), (390, 844), (844, 390), (1440, 1000)):
            self.browser.size(width, height)
            self.browser.wait_until(IN_SIGHT, 2)

    def test_the_heads_stay_in_sight(self) -> None:
        self.long("#main/300")
        self.assertEqual(self.browser.evaluate(HEADS), ["node a, boot 1", "node b, boot 2"])
        self.browser.evaluate("document.querySelector('#chart').scrollTo(0, 0)")
        self.assertEqual(self.browser.evaluate(HEADS), ["node a, boot 1", "node b, boot 2"])

    def test_scrolling_by_hand_shows_what_is_there(self) -> None:
        self.long("#main/0")
        for part in (0.5, 1, 0.25):
            self.browser.evaluate("(it => it.scrollTo(0, arguments[0] * it.scrollHeight))(document.querySelector('#chart'))", part)
            seen = """Array.from(document.querySelectorAll('#chart svg text')).filter(it => {
              const its = it.getBoundingClientRect(), box = document.querySelector('#chart').getBoundingClientRect();
              return its.top >= box.top && its.bottom <= box.bottom; }).length > 5"""
            self.browser.wait_until(seen, 2)
        self.assertEqual(self.place()[0], 0)


class Ways(PageCase):
    def dots(self, branch: str, moment: int) -> List[str]:
        self.go(branch, moment)
        return list(self.browser.evaluate(DOTS))

    def test_a_frame_in_flight_is_on_its_way(self) -> None:
        self.browser.still()
        self.open(RUN, "#main/0")
        # Frame 1 is sent by event 2, and arrives with event 3, or is lost; frame 2 is sent by event 5 of main~1 and stays on its way.
        self.assertEqual([self.dots("main", it) for it in (0, 1, 2, 3)], [[], [], ["1"], []])
        self.assertEqual(self.dots("later", 4), [])
        self.assertEqual([self.dots("main~1", it) for it in (2, 4, 5)], [["1"], [], ["2"]])


if __name__ == "__main__":
    unittest.main()
