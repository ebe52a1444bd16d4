"""Pages that everybody can use: a lesson's page and a live one, as a screen reader, a keyboard and a magnifier have them.

The rules are in `access_rules`, each with its criterion of WCAG 2.2. They are tried on pages that break them, too."""
from __future__ import annotations

import unittest
from typing import Dict, List

from . import access_rules, page_cases
from .access_rules import RULES, Rule, stops, tree
from .browsers import Browser
from .page_cases import PageCase, desk_folder, example, setUpModule
from .page_probes import PIECES
from .test_page_live import Served
from .test_page_looks import clashes

__all__ = ["setUpModule"]

# A pair with 17 states at a and 11 of them at b, and six frames in flight.
PACKETS = "".join(f"step main packet a out udp 10.0.0.{it}:1000 192.0.2.9:53 40\n" for it in range(1, 18))
FRAMES = "step main flush a\n" + "step main repeat 1\n" * 6 + "step main deliver 2\n"
BUSY = f"# A busy pair\n{page_cases.RULES}{PACKETS}{FRAMES}fork main 4 other\n"
# Rules that press keys take long, and are tried in one colour.
SLOW = (access_rules.the_focus_can_be_seen,)
OPENERS = "Array.from(document.querySelectorAll('#tables .opener')).slice(0, 3).forEach(it => it.click())"


class Lesson(PageCase):
    def test_a_lessons_page_keeps_the_rules(self) -> None:
        for dark in (False, True):
            self.browser.dark(dark)
            self.open(example("lost-bulk-frame"), "#main/14")
            for rule in RULES:
                if not (dark and rule in SLOW):
                    with self.subTest(rule.__name__, dark=dark):
                        self.assertEqual(rule(self.browser), [], rule.__doc__)

    def test_at_the_opening_and_on_a_telephone(self) -> None:
        for width, place in ((1440, "#main/0"), (390, "#main/14"), (320, "#late/20")):
            self.browser.size(width)
            self.open(example("lost-bulk-frame"), place)
            for rule in (it for it in RULES if it not in SLOW):
                with self.subTest(rule.__name__, place=place):
                    self.assertEqual(rule(self.browser), [], rule.__doc__)

    def test_the_list_of_the_keys(self) -> None:
        self.open(example("lost-bulk-frame"), "#main/14")
        self.browser.click("#help")
        for rule in (access_rules.controls_have_names, access_rules.targets_are_large, access_rules.texts_can_be_read):
            self.assertEqual(rule(self.browser), [], rule.__doc__)
        self.assertEqual([it.name for it in tree(self.browser) if it.role == "switch"], ["Single-key shortcuts are on"])

    def test_the_stops_of_the_key_tab_are_few(self) -> None:
        self.open(example("lost-bulk-frame"), "#main/14")
        of_top, of_moment = ["skip", "data-branch", "first", "slider", "copy", "help"], ["data-begins", "data-begins"]
        wanted = [*of_top, *of_moment, "chart", "listing-title", "data-place-of", "search"]
        found = stops(self.browser)
        self.assertEqual(len(found), len(wanted), found)
        for name, it in zip(wanted, found):
            self.assertTrue(it == name or f'{name}="' in it, (name, it))

    def test_with_more_space_between_letters_words_and_lines(self) -> None:
        self.open(example("lost-bulk-frame"), "#main/14")
        letters = "letter-spacing: .12em !important; word-spacing: .16em !important; line-height: 1.5 !important"
        spaced = f"* {{ {letters} }} p {{ margin-bottom: 2em !important }}"
        sheet = "(sheet => sheet.replaceSync(arguments[0]) || (document.adoptedStyleSheets = [sheet]))(new CSSStyleSheet())"
        self.browser.evaluate(f"{sheet} && 1", spaced)
        for width in (1440, 1024, 390):
            self.browser.size(width)
            with self.subTest(width=width):
                self.assertEqual(clashes(self.browser.evaluate(PIECES), 4), [])
                self.assertEqual(access_rules.nothing_is_wider_than_the_window(self.browser), [])

    def test_in_forced_colours_the_moment_is_marked(self) -> None:
        self.browser.cdp("Emulation.setEmulatedMedia", features=[{"name": "forced-colors", "value": "active"}])
        self.addCleanup(self.browser.cdp, "Emulation.setEmulatedMedia", features=[])
        self.open(example("lost-bulk-frame"), "#main/14")
        self.assertTrue(self.browser.evaluate("matchMedia('(forced-colors: active)').matches"))
        outlines = "(link => [getComputedStyle(link).outlineStyle, parseFloat(getComputedStyle(link).outlineWidth)])"
        current = f"{outlines}(document.querySelector('#events [aria-current]'))"
        self.assertEqual(self.browser.evaluate(current), ["solid", 2])
        self.assertEqual(self.browser.evaluate(f"{outlines}(document.querySelector('#events a:not([aria-current])'))")[0], "none")
        marked = "(style => [style.stroke, parseFloat(style.strokeWidth)])(getComputedStyle(document.querySelector('.row.now')))"
        stroke, width = self.browser.evaluate(marked)
        self.assertNotIn(stroke, ("none", self.browser.evaluate("getComputedStyle(document.body).backgroundColor")))
        self.assertGreaterEqual(width, 3)
        self.assertEqual(access_rules.texts_can_be_read(self.browser), [])


class LivePage(PageCase):
    served: Served

    @classmethod
    def setUpClass(cls) -> None:
        cls.served = Served(BUSY)
        cls.addClassCleanup(cls.served.close)

    def setUp(self) -> None:
        super().setUp()
        self.addCleanup(self.browser.open, "about:blank")

    def come(self) -> None:
        """Comes to the page, and has some cards and a form be open, and a step be refused."""
        self.browser.open(self.served.steps)
        self.browser.wait_until("document.querySelector(\"[data-event='turn a']\")")
        self.browser.evaluate(OPENERS)
        self.browser.wait_until("document.querySelector('[data-event^=kill]')")
        for it in ("#tables [data-node=a] details.packet-form summary", "#fork", "[data-event='turn a']"):
            self.browser.evaluate("document.querySelector(arguments[0]).click()", it)
        self.browser.wait_until("document.querySelector('.reply.refused')")

    def test_a_live_page_keeps_the_rules(self) -> None:
        for dark in (False, True):
            self.browser.dark(dark)
            self.come()
            for rule in RULES:
                if not (dark and rule in SLOW):
                    with self.subTest(rule.__name__, dark=dark):
                        self.assertEqual(rule(self.browser), [], rule.__doc__)

    def test_on_a_telephone(self) -> None:
        for width in (390, 320):
            self.browser.size(width, 700)
            self.come()
            for rule in (it for it in RULES if it not in SLOW):
                with self.subTest(rule.__name__, width=width):
                    self.assertEqual(rule(self.browser), [], rule.__doc__)

    def test_only_the_controls_stay_in_sight_on_a_telephone(self) -> None:
        for width in (390, 320):
            self.browser.size(width, 794)
            self.browser.open(self.served.steps)
            self.browser.wait_until("document.querySelector(\"[data-event='turn a']\")")
            self.browser.evaluate("scrollTo(0, 1000)")
            self.browser.wait_until("scrollY > 900")
            boxes = "['#title', '#controls', '#top'].map(it => document.querySelector(it).getBoundingClientRect())"
            _, above, top, _, _, bottom = self.browser.evaluate(f"{boxes}.flatMap(it => [it.top, it.bottom])")
            self.assertLess(above, 0)
            self.assertGreaterEqual(top, 0)
            self.assertLess(bottom, 794 / 5)

    def test_a_busy_page_has_few_stops(self) -> None:
        self.browser.open(self.served.steps)
        self.browser.wait_until("document.querySelector(\"[data-event='turn a']\")")
        buttons = sum(it.role == "button" for it in tree(self.browser))
        found = stops(self.browser)
        # (an open frame has two: its buttons, and the field of how many bytes are kept)
        self.assertGreater(buttons, 70)
        self.assertLess(len(found), 40, found)

    def test_the_buttons_say_what_they_are_about(self) -> None:
        self.come()
        names = [it.name for it in tree(self.browser) if it.role == "button"]
        of_frames = ("Deliver 1", "Lose 3", "Repeat 4", "Cut 1 to 694 bytes", "Events of frame 7")
        of_nodes = ("Flush a", "Purge b", "Kill 1.1 at a", "Events of state 1.2 at b", "Send packet to a")
        self.assertEqual([it for it in (*of_frames, *of_nodes) if it not in names], [])

    def test_the_arrows_go_through_a_toolbar(self) -> None:
        self.come()
        self.browser.evaluate("document.querySelector(arguments[0]).focus()", "[data-event='flush a']")
        keys = ("ArrowRight", "ArrowDown", "End", "ArrowRight", "Home", "ArrowLeft")
        for key, event in zip(keys, ("purge a", "turn a", "restart a", "restart a", "flush a", "flush a")):
            self.browser.keys(key)
            self.assertEqual(self.browser.evaluate("document.activeElement.dataset.event"), event)
            # (what would come of it is written below the buttons)
            self.assertTrue(self.browser.text("#tables [data-node=a] .offers-of-node .would").startswith(event))
        self.browser.keys_at("#frames [data-frame='1'] .opener", "ArrowDown")
        self.assertEqual(self.browser.evaluate("document.activeElement.getAttribute('aria-label')"), "Events of frame 3")


# A page that breaks a rule, for each of them; all but the words in the name of the rule are in order.
WRONG: Dict[str, str] = {
    "controls_have_names": "<button></button>",
    "names_differ": "<button>Kill</button><p>and</p><button>Kill</button>",
    "words_are_in_names": "<button aria-label='Deliver'>Send it</button>",
    "headings_are_in_order": "<h1>One</h1><h3>Three</h3>",
    "landmarks_are_few": "<section aria-label='A part'>text</section>",
    "one_region_is_live": "<p role=status>one</p><p aria-live=polite>two</p>",
    "a_group_is_one_stop": "<div role=toolbar aria-label='Both'><button>One</button><button>Two</button></div>",
    "what_scrolls_can_be_reached": "<div aria-hidden=true><button>One</button></div>",
    "texts_can_be_read": "<p style='color: #999'>faint</p>",
    "edges_can_be_seen": "<button style='border: 1px solid #ccc; background: white'>One</button>",
    "the_focus_can_be_seen": "<style>button:focus { outline: 2px solid #ddd }</style><button>One</button>",
    "targets_are_large": "<button style='width: 20px; height: 24px; padding: 0'>x</button>",
    "lists_and_ids_are_whole": "<ul><p>no item</p></ul>",
    "the_page_says_what_it_is": "<meta name=viewport content='maximum-scale=1'>",
    "nothing_is_wider_than_the_window": "<div style='width: 3000px'>wide</div>",
}
RIGHT = """<main><h1>A page</h1><p role=status>said</p><button>One</button><button class=quiet>Two</button></main>"""


class Rules(unittest.TestCase):
    def shown(self, body: str) -> Browser:
        path = f"{desk_folder()}/rule.html"
        with open(path, "w", encoding="utf-8") as file:
            style = "body { background: white } button { padding: 1em; border: 1px solid black; background: white }"
            file.write(f"<!doctype html><html lang=en><meta charset=utf-8><title>A rule</title><style>{style}</style>{body}")
        browser = page_cases.desk.browser
        browser.dark(False)
        browser.size(1440)
        browser.open(f"file://{path}?{next(page_cases.NUMBERS)}")
        return browser

    def test_each_rule_finds_what_breaks_it(self) -> None:
        self.assertEqual([it.__name__ for it in RULES], [*WRONG])
        for rule in RULES:
            with self.subTest(rule.__name__):
                self.assertNotEqual(rule(self.shown(WRONG[rule.__name__])), [])

    def test_a_page_in_order_keeps_nearly_all(self) -> None:
        browser = self.shown(RIGHT)
        found: List[Rule] = [rule for rule in RULES if rule(browser)]
        # (it has neither a banner nor a list of branches)
        self.assertEqual(found, [access_rules.landmarks_are_few])


if __name__ == "__main__":
    unittest.main()
