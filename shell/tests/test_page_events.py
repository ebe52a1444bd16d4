"""The list of the events: links that say in words what the chart shows, of which one is the moment's."""
from __future__ import annotations

import unittest

from .page_cases import RUN, PageCase, setUpModule
from .test_page_size import of_events

__all__ = ["setUpModule"]

LINKS = "Array.from(document.querySelectorAll('#events a'), it => it.textContent.replace(/\\s+/g, ' '))"
HREFS = "Array.from(document.querySelectorAll('#events a'), it => it.getAttribute('href'))"
CURRENT = "Array.from(document.querySelectorAll('#events [aria-current=step]'), it => Number(it.dataset.placeOf))"
STOPS = "Array.from(document.querySelectorAll('#events a')).filter(it => it.tabIndex >= 0).map(it => Number(it.dataset.placeOf))"
FOCUSED = "document.activeElement.dataset.placeOf ?? document.activeElement.id"
IN_SIGHT = """(() => {
  const its = document.querySelector("#events [aria-current]").getBoundingClientRect();
  const box = document.querySelector("#events-box").getBoundingClientRect();
  return its.top >= box.top && its.bottom <= box.bottom;
})()"""


class Events(PageCase):
    def test_each_event_is_a_link_with_what_came_of_it(self) -> None:
        self.open(RUN, "#later/2")
        self.assertEqual(self.browser.text("#listing-title"), "Events of later as a list")
        first = ["0 the opening", "1 packet a out udp 10.0.0.1:1000 192.0.2.9:53 40 pass 1.1", "2 flush a sent 1 148"]
        self.assertEqual(self.browser.evaluate(LINKS), [*first, "3 lose 1 lost", "4 tick a 1500 clock 1500"])
        self.assertEqual(self.browser.evaluate(HREFS), [f"#later/{it}" for it in range(5)])
        self.go("main~1", 5)
        self.assertEqual(self.browser.evaluate(HREFS)[-1], "#main~1/5")

    def test_the_current_one_is_marked_and_is_where_tab_stops(self) -> None:
        self.open(RUN, "#main/2")
        for branch, moment in (("main", 2), ("main", 0), ("later", 4), ("main~1", 5)):
            self.go(branch, moment)
            self.assertEqual((self.browser.evaluate(CURRENT), self.browser.evaluate(STOPS)), ([moment], [moment]))

    def test_a_link_goes_to_its_event_and_leaves_no_trap(self) -> None:
        self.open(RUN, "#main/2")
        before = self.browser.evaluate("history.length")
        self.browser.click("#play")
        self.browser.click("#events [data-place-of='4']")
        self.at(4)
        self.assertEqual(self.browser.attribute("#play", "aria-pressed"), "false")
        self.assertEqual((self.browser.evaluate("location.hash"), self.browser.evaluate("history.length")), ("#main/4", before))
        self.browser.click("#events [data-place-of='0']")
        self.at(0)

    def test_by_keys(self) -> None:
        self.open(RUN, "#main/2")
        keys = ("ArrowDown", "ArrowDown", "ArrowDown", "Home", "ArrowUp", "End", "ArrowLeft")
        self.browser.evaluate("document.querySelector('#events [aria-current]').focus()")
        for key, place in zip(keys, ("3", "4", "4", "0", "0", "4", "3")):
            self.browser.keys(key)
            self.assertEqual(self.browser.evaluate(FOCUSED), place)
        # (the moment stays where it is until a link is taken)
        self.assertEqual(self.place()[0], 2)
        self.browser.keys("Enter")
        self.at(3)
        self.assertEqual((self.browser.evaluate(FOCUSED), self.browser.evaluate(CURRENT)), ("3", [3]))

    def test_of_a_long_run_a_hundred_are_listed(self) -> None:
        self.open("\n".join(of_events(300)), "#main/0")
        self.assertEqual((self.browser.count("#events a"), self.browser.count("#earlier[hidden]")), (101, 1))
        self.assertEqual(self.browser.text("#later"), "Events 101 to 200")
        self.browser.click("#later")
        self.at(101)
        self.assertEqual((self.browser.count("#events a"), self.browser.text("#earlier")), (100, "Events 1 to 100"))
        self.browser.keys_at("#later", "Enter")
        self.at(201)
        # (the button is gone, and the focus is at the event)
        self.assertEqual(self.browser.evaluate(FOCUSED), "201")
        for key, moment in (("End", 300), ("PageUp", 290), ("Home", 0)):
            self.browser.keys_at("#slider", key)
            self.at(moment)
            self.assertTrue(self.browser.evaluate(IN_SIGHT), key)

    def test_the_page_does_not_scroll_with_the_list(self) -> None:
        self.open("\n".join(of_events(300)), "#main/0")
        self.browser.size(390, 700)
        self.browser.evaluate("scrollTo(0, 0)")
        self.browser.keys_at("#slider", "End")
        self.at(300)
        self.assertEqual((self.browser.evaluate("scrollY"), self.browser.evaluate(IN_SIGHT)), (0, True))

    def test_the_chart_points_to_it(self) -> None:
        self.open(RUN, "#main/2")
        name = "Chart of main with 4 events; the list of its events says the same in words"
        self.assertEqual(self.browser.attribute("#chart [role=img]", "aria-label"), name)
        self.go("later", 4)
        self.assertIn("Chart of later", self.browser.attribute("#chart [role=img]", "aria-label") or "")
        self.assertEqual(self.browser.count("#chart svg:not([aria-hidden=true])"), 0)
        self.assertIn("the list after it", self.browser.evaluate("document.querySelector('#chart-note').textContent"))


if __name__ == "__main__":
    unittest.main()
