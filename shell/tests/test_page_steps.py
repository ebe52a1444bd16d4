"""Moving about in a page: by the mouse, by keys, by the address and by the browser's own buttons."""
from __future__ import annotations

import unittest
from glob import glob

from . import TOP, page_cases
from .page_cases import QUERY, RULES, RUN, PageCase, setUpModule

__all__ = ["setUpModule"]

SLIDER = "Number(document.querySelector('#slider').value)"
HASH = "location.hash"
PRESSED_IN_SIGHT = """(() => {
  const its = document.querySelector("#branches [aria-pressed=true]").getBoundingClientRect();
  const box = document.querySelector("#branches").getBoundingClientRect();
  return its.top >= box.top - 1 && its.bottom <= box.bottom + 1;
})()"""
BRANCHES = ["main", "later", "main~1"]
FOCUS = "document.activeElement.id"


class Opens(PageCase):
    def test_asks_the_network_for_nothing(self) -> None:
        self.open()
        for branch in BRANCHES:
            self.go(branch, 4)
        asked = [request for request in self.browser.requests() if not request.startswith("data:")]
        self.assertEqual([it.partition("?")[0] for it in asked], [f"file://{page_cases.desk.page(RUN.encode())}"])
        self.assertEqual(self.browser.evaluate("performance.getEntriesByType('resource').map(it => it.name)"), [])

    def test_says_what_run_it_is(self) -> None:
        self.open()
        self.assertIn("A query and its answer", self.browser.title)
        self.assertIn("A query and its answer", self.browser.text("#title"))
        self.assertEqual(self.browser.text("#by"), "by the profile")
        names = "Array.from(document.querySelectorAll('#branches button'), it => it.dataset.branch)"
        self.assertEqual(self.browser.evaluate(names), BRANCHES)
        self.assertEqual(self.place()[1], 4)
        self.assertIn("The second paragraph of what stands before the setup.", self.browser.evaluate("document.body.innerText"))

    def test_the_pages_of_the_lessons(self) -> None:
        pages = sorted(glob(f"{TOP}/examples/*.html"))
        self.assertTrue(pages)
        for page in pages:
            with self.subTest(page):
                self.open_file(page)
                self.assertEqual(self.place()[0], 0)
                self.browser.keys_at("#slider", "End")
                self.browser.wait_until(f"new Set({page_cases.PLACE}.split(' / ')).size === 1")
                self.assertEqual(self.browser.errors(), [])

    def test_a_link_opens_its_moment(self) -> None:
        self.open(RUN, "#later/3")
        self.at(3)
        self.assertEqual((self.pressed(), self.place(), self.browser.text("#event")[-6:]), ("later", (3, 4), "lose 1"))
        self.open(RUN, "#main~1/5")
        self.at(5)
        self.assertEqual((self.pressed(), self.place()), ("main~1", (5, 5)))

    def test_a_wrong_link_opens_the_page_all_the_same(self) -> None:
        for link in ("#nobody/7", "#main/999", "#main/-1", "#%", "#main/", "#/3", "#__proto__/1"):
            with self.subTest(link):
                self.open(RUN, link)
                moment, all_of = self.place()
                self.assertTrue(0 <= moment <= all_of, (moment, all_of))
                self.assertIn(self.pressed(), BRANCHES)
                self.browser.keys_at("#slider", "Home", "ArrowRight")
                self.at(1)
                self.assertEqual(self.browser.errors(), [])

    def pressed(self) -> str:
        """The branch that is shown."""
        return str(self.browser.attribute("#branches button[aria-pressed=true]", "data-branch"))


class Moves(PageCase):
    def test_the_buttons(self) -> None:
        self.open(RUN, "#main/2")
        for button, moment in (("forward", 3), ("forward", 4), ("back", 3), ("first", 0), ("forward", 1), ("last", 4)):
            self.browser.click(f"#{button}")
            self.at(moment)
            self.assertEqual(self.browser.evaluate(SLIDER), moment)
        self.browser.click("#branches button[data-branch=later]")
        self.browser.wait_until("location.hash.startsWith('#later/')")
        self.assertEqual(self.browser.attribute("#branches button[data-branch=main]", "aria-pressed"), "false")

    def test_the_ends_hold(self) -> None:
        self.open(RUN, "#main/4")
        for keys, moment in ((("ArrowRight", "ArrowRight"), 4), (("Home", "ArrowLeft"), 0), (("PageUp",), 0), (("End", "PageDown"), 4)):
            self.browser.keys_at("#slider", *keys)
            self.at(moment)

    def test_the_slider_by_the_mouse(self) -> None:
        self.open(page_cases.example("lost-bulk-frame"), "#main/0")
        last = self.place()[1]
        for start, end in ((0.0, 1.0), (1.0, 0.5), (0.5, 0.0), (0.25, 0.75)):
            self.browser.drag("#slider", start, end)
            self.browser.wait_until(f"{SLIDER} === parseInt({page_cases.PLACE})")
            self.assertAlmostEqual(self.place()[0], end * last, delta=1.01 if 0 < end < 1 else 0)
        self.assertEqual(self.browser.evaluate(HASH), f"#main/{self.place()[0]}")

    def test_the_slider_and_the_chart_take_keys_where_they_have_the_focus(self) -> None:
        self.open(RUN, "#main/2")
        both = (("ArrowRight", 3), ("ArrowLeft", 2), ("End", 4), ("Home", 0), ("ArrowRight", 1), ("PageDown", 4), ("PageUp", 0))
        upwards = {"#slider": (("ArrowUp", 1), ("ArrowDown", 0)), "#chart": (("ArrowDown", 1), ("ArrowUp", 0))}
        for focused, more in upwards.items():
            self.go("main", 2)
            for key, moment in (*both, *more):
                self.browser.keys_at(focused, key)
                self.at(moment)
                self.assertEqual(self.place()[0], moment, (focused, key))

    def test_elsewhere_keys_scroll_as_on_any_page(self) -> None:
        self.browser.size(1300, 500)
        self.open(page_cases.example("lost-bulk-frame"), "#main/3")
        down = (("ArrowDown", 0, "scrollY > 10"), ("PageDown", 0, "scrollY > 100"), ("End", 0, "scrollY > 400"), (" ", 0, "scrollY > 100"))
        up = (("ArrowUp", 600, "scrollY < 590"), ("PageUp", 600, "scrollY < 500"), ("Home", 600, "scrollY < 100"))
        for focused in ("", "#copy"):
            self.browser.evaluate("document.activeElement.blur()")
            if focused:
                self.browser.evaluate("document.querySelector(arguments[0]).focus()", focused)
            for key, start, where in (*down, *up):
                if key != " " or not focused:
                    self.browser.evaluate("scrollTo(0, arguments[0])", start)
                    self.browser.keys(key)
                    self.browser.wait_until(where)
                    # (a page scrolls on for a while)
                    self.browser.evaluate("new Promise(done => setTimeout(done, 300))")
            self.browser.keys("ArrowRight", "ArrowLeft", "ArrowLeft")
            self.assertEqual(self.place()[0], 3)
            self.assertEqual(self.browser.attribute("#play", "aria-pressed"), "false")

    def test_a_chart_that_is_wider_than_its_box_is_moved_by_arrows(self) -> None:
        self.browser.size(320)
        self.open(page_cases.example("lost-bulk-frame"), "#main/0")
        self.browser.keys_at("#chart", *["ArrowRight"] * 3)
        self.browser.wait_until("document.querySelector('#chart').scrollLeft > 20")
        self.assertEqual(self.place()[0], 0)
        self.browser.keys_at("#chart", "ArrowDown")
        self.at(1)

    def test_long_strides(self) -> None:
        self.open(page_cases.example("lost-bulk-frame"), "#main/0")
        self.browser.keys_at("#slider", "PageDown")
        self.browser.wait_until(f"parseInt({page_cases.PLACE}) > 1")
        stride = self.place()[0]
        self.browser.keys_at("#slider", "PageDown")
        self.at(2 * stride)
        self.browser.keys_at("#slider", "PageUp")
        self.at(stride)
        self.browser.keys_at("#slider", "PageUp")
        self.at(0)

    def test_keys_for_branches(self) -> None:
        self.open(RUN, "#main/1")
        for key, branch in (("]", "later"), ("]", "main~1"), ("[", "later"), ("[", "main")):
            self.browser.keys(key)
            self.browser.wait_until("location.hash.startsWith(arguments[0])", 5, f"#{branch}/")

    def test_the_branch_that_is_shown_is_in_sight(self) -> None:
        forks = "".join(f"fork main 1 branch-number-{it}\n" for it in range(15))
        self.browser.size(390)
        self.open(f"{RULES}step main {QUERY}\n{forks}", "#branch-number-14/1")
        for key in ("[", "[", "]"):
            self.assertTrue(self.browser.evaluate(PRESSED_IN_SIGHT))
            self.browser.keys(key)

    def test_keys_for_search_and_help(self) -> None:
        self.open(RUN, "#main/1")
        self.browser.keys("/")
        self.browser.wait_until(f"{FOCUS} === 'search'")
        self.browser.keys("1", "ArrowLeft", "Home", " ", "]", "?", "/")
        self.assertEqual((self.place()[0], self.browser.evaluate("document.activeElement.value")), (1, " ]?/1"))
        self.browser.keys("Escape")
        self.browser.evaluate("document.activeElement.blur()")
        self.browser.keys("?")
        self.browser.wait_until("/page ?up/i.test(document.body.innerText)")
        self.browser.keys("ArrowLeft", "Escape")
        self.browser.wait_until("!/page ?up/i.test(document.body.innerText)")
        self.assertEqual(self.place()[0], 1)
        self.browser.keys_at("#slider", "ArrowRight")
        self.at(2)

    def test_single_key_shortcuts_can_be_turned_off_until_the_page_is_closed(self) -> None:
        self.open(RUN, "#main/1")
        self.browser.keys("?")
        self.browser.wait_until("document.querySelector('#keys').open")
        self.browser.click("#shortcuts")
        self.browser.keys("Escape")
        for _ in range(2):
            self.browser.evaluate("document.activeElement.blur()")
            self.browser.keys("]", "[", "?", "/", "k")
            self.assertEqual(self.browser.evaluate(HASH), "#main/1")
            self.assertFalse(self.browser.evaluate("document.querySelector('#keys').open"))
            self.assertNotEqual(self.browser.evaluate(FOCUS), "search")
            self.browser.reload()
            self.at(1)
        # (what is off is said where they are listed, and the other keys are as they were)
        self.browser.keys_at("#slider", "ArrowRight")
        self.at(2)
        self.browser.click("#help")
        self.assertFalse(self.browser.evaluate("document.querySelector('#shortcuts').checked"))
        self.browser.click("#shortcuts")
        self.browser.keys("Escape", "]")
        self.browser.wait_until("location.hash.startsWith('#later/')")

    def test_keys_of_the_browser_itself_are_left_alone(self) -> None:
        self.open(RUN, "#main/1")
        for held in ("ctrlKey", "altKey", "metaKey"):
            for key in ("ArrowRight", "ArrowLeft", "]", " ", "Home"):
                event = "new KeyboardEvent('keydown', {key: arguments[0], [arguments[1]]: true, bubbles: true, cancelable: true})"
                for place in ("document", "document.querySelector('#slider')", "document.querySelector('#chart')"):
                    self.assertTrue(self.browser.evaluate(f"{place}.dispatchEvent({event})", key, held), (held, key, place))
        self.assertEqual(self.place()[0], 1)


class Plays(PageCase):
    def plays(self) -> bool:
        return self.browser.attribute("#play", "aria-pressed") == "true"

    def test_play_goes_on_to_the_end_and_stops(self) -> None:
        self.open(RUN, "#main/2")
        self.assertFalse(self.plays())
        self.browser.click("#play")
        self.assertTrue(self.plays())
        self.browser.wait_until(f"parseInt({page_cases.PLACE}) === 4", 15)
        self.assertFalse(self.plays())

    def test_space_plays_and_pauses(self) -> None:
        self.open(page_cases.example("lost-bulk-frame"), "#main/0")
        self.browser.keys_at("#slider", " ")
        self.assertTrue(self.plays())
        self.browser.wait_until(f"parseInt({page_cases.PLACE}) > 0", 15)
        self.browser.keys_at("#slider", " ")
        self.assertFalse(self.plays())
        paused = self.place()[0]
        with self.assertRaises(AssertionError):
            # (the next event would come after a second)
            self.browser.wait_until(f"parseInt({page_cases.PLACE}) !== arguments[0]", 1.4, paused)

    def test_any_step_pauses(self) -> None:
        self.open(page_cases.example("lost-bulk-frame"), "#main/3")
        for key in ("ArrowRight", "Home", "PageDown", "]"):
            self.browser.keys_at("#slider", " ")
            self.assertTrue(self.plays())
            self.browser.keys_at("#slider", key)
            self.assertFalse(self.plays(), key)

    def test_space_on_a_button_presses_it_once(self) -> None:
        self.open(RUN, "#main/1")
        self.browser.keys_at("#forward", " ")
        self.at(2)
        self.assertFalse(self.plays())


class Addresses(PageCase):
    def test_the_address_follows(self) -> None:
        self.open(RUN, "#main/0")
        self.browser.keys_at("#slider", "ArrowRight", "ArrowRight")
        self.browser.wait_until(f"{HASH} === '#main/2'")
        self.browser.click("#branches button[data-branch='main~1']")
        self.browser.wait_until("/^#main(~|%7E)1\\/\\d+$/.test(location.hash)")

    def test_another_address_is_obeyed(self) -> None:
        self.open(RUN, "#main/0")
        self.go("later", 4)
        self.go("main~1", 5)
        self.go("main", 1)
        for wrong in ("#nobody/7", "#main/999", "#main/-1", "#%", "#%E0%A4%A/1", ""):
            self.browser.evaluate("location.hash = arguments[0]", wrong)
            self.browser.keys_at("#slider", "Home", "ArrowRight")
            self.at(1)
            self.assertEqual(self.browser.errors(), [], wrong)

    def test_the_back_button_leaves_no_trap(self) -> None:
        self.open(RUN, "#main/0")
        before = self.browser.evaluate("history.length")
        self.browser.keys_at("#slider", *["ArrowRight"] * 4, *["ArrowLeft"] * 4, "End")
        self.at(4)
        self.assertLessEqual(self.browser.evaluate("history.length") - before, 1)

    def test_back_from_a_link_shows_what_was_shown(self) -> None:
        self.open(RUN, "#main/1")
        self.go("later", 4)
        self.browser.back()
        self.at(1)
        self.assertEqual(self.browser.evaluate(HASH), "#main/1")

    def test_the_address_is_right_after_many_moves(self) -> None:
        # A browser lets a page write its address two hundred times in ten seconds.
        self.open(RUN, "#main/0")
        click = "document.querySelector('#{}').click()".format
        self.browser.evaluate(f"Array.from({{length: 150}}).forEach(() => {{ {click('last')}; {click('back')}; }}) || {click('back')}")
        self.browser.wait_until(f"{HASH} === '#main/2'", 2)

    def test_a_reload_stays_where_it_was(self) -> None:
        self.open(RUN, "#later/1")
        self.browser.keys_at("#slider", "ArrowRight")
        self.at(2)
        self.browser.reload()
        self.at(2)
        self.assertEqual(self.browser.evaluate(HASH), "#later/2")


if __name__ == "__main__":
    unittest.main()
