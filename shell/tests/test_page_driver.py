"""The driver of browsers, over a small page of its own: what it says of a page is so, and what it does there is what a person does."""
from __future__ import annotations

import os
import tempfile
import unittest
from typing import Dict
from unittest import mock

from . import browsers
from .browsers import Browser, boxes_that_overlap
from .page_probes import FAINT_TEXTS, PIECES, REACHABLE

PAGE = """<!doctype html><html lang="en"><meta charset="utf-8"><title>A small page</title><link rel="icon" href="data:,">
<style>body { margin: 0; background: white } #range { display: block; width: 400px; margin: 0 }
@media (prefers-color-scheme: dark) { body { background: black } }
@media (prefers-reduced-motion: reduce) { body { outline: 1px solid red } }</style>
<h1>Two   words</h1><p class="it">one</p><p class="it" hidden>two</p>
<button id="more">More</button><input id="field" value="old"><input id="range" type="range" min="0" max="10" value="0">
<script>
const heard = [], moved = [];
document.addEventListener("keydown", it => heard.push((it.shiftKey ? "shifted " : "") + it.key));
document.querySelector("#more").addEventListener("click", it => heard.push("click " + it.isTrusted));
document.querySelector("#range").addEventListener("input", it => moved.push(Number(it.target.value)));
window.heard = heard; window.moved = moved;
</script></html>"""

browser: Browser
address = ""


def setUpModule() -> None:
    global browser, address
    driver = browsers.driver_of_module()
    browser = driver.browser()
    with open(f"{driver.folder}/small.html", "w", encoding="utf-8") as it:
        it.write(PAGE)
    address = f"file://{driver.folder}/small.html"


class Drives(unittest.TestCase):
    def setUp(self) -> None:
        browser.open(address)

    def test_says_what_is_there(self) -> None:
        self.assertEqual((browser.title, browser.text("h1"), browser.texts(".it")), ("A small page", "Two words", ["one", "two"]))
        self.assertEqual((browser.count("p"), browser.attribute("#range", "max"), browser.attribute("#range", "step")), (2, "10", None))
        self.assertEqual(browser.evaluate("arguments[0] + arguments[1]", 2, 3), 5)
        with self.assertRaisesRegex(AssertionError, "there is no #nobody"):
            browser.click("#nobody")
        with self.assertRaisesRegex(AssertionError, "not within 0 s: false"):
            browser.wait_until("false", 0)

    def test_clicks_and_keys_are_a_persons(self) -> None:
        browser.click("#more")
        browser.keys("a", "Shift+A", "PageDown", "[", "Shift+Tab")
        heard = ["click true", "a", "shifted Shift", "shifted A", "PageDown", "[", "shifted Shift", "shifted Tab"]
        self.assertEqual(browser.evaluate("window.heard"), heard)
        browser.type("#field", "new")
        self.assertEqual(browser.evaluate("document.querySelector('#field').value"), "new")

    def test_drags_by_the_mouse(self) -> None:
        browser.drag("#range", 0, 1)
        moved = browser.evaluate("window.moved")
        self.assertEqual((moved, moved[-1]), (sorted(set(moved)), 10))
        self.assertGreater(len(moved), 2)

    def test_wishes(self) -> None:
        shown = "(it => [it.backgroundColor, it.outlineStyle])(getComputedStyle(document.body))"
        browser.dark()
        self.assertEqual(browser.evaluate(shown), ["rgb(0, 0, 0)", "none"])
        browser.still()
        self.assertEqual(browser.evaluate(shown), ["rgb(0, 0, 0)", "solid"])
        browser.dark(False)
        browser.still(False)
        self.assertEqual(browser.evaluate(shown), ["rgb(255, 255, 255)", "none"])
        browser.size(390, 500)
        self.assertEqual(browser.evaluate("[innerWidth, innerHeight]"), [390, 500])
        browser.size(1440)
        self.assertEqual(browser.evaluate("[innerWidth, innerHeight]"), [1440, 1000])

    def test_paper_and_pictures(self) -> None:
        self.assertEqual(browser.pdf()[:5], b"%PDF-")
        with tempfile.TemporaryDirectory() as folder:
            browser.screenshot(f"{folder}/it.png")
            with open(f"{folder}/it.png", "rb") as it:
                self.assertEqual(it.read(8), b"\x89PNG\r\n\x1a\n")

    def test_errors_and_requests_come_out(self) -> None:
        self.assertEqual((browser.errors(), browser.requests()), ([], [address]))
        browser.evaluate("setTimeout(() => { throw new Error('thrown on purpose'); })")
        browser.evaluate("console.error('said on purpose')")
        browser.evaluate("new Image().src = 'http://127.0.0.1:1/asked.png'")
        browser.wait_until("performance.getEntriesByName('http://127.0.0.1:1/asked.png').length")
        found = browser.errors()
        for word in ("thrown on purpose", "said on purpose", "ERR_"):
            self.assertTrue(any(word in it for it in found), (word, found))
        self.assertEqual((browser.requests(), browser.errors()), (["http://127.0.0.1:1/asked.png"], []))

    def test_what_a_policy_forbids_is_an_error(self) -> None:
        policy = PAGE.replace("<title>", "<meta http-equiv='Content-Security-Policy' content=\"default-src 'none'\"><title>")
        with tempfile.TemporaryDirectory() as folder:
            with open(f"{folder}/it.html", "w", encoding="utf-8") as it:
                it.write(policy)
            browser.open(f"file://{folder}/it.html")
        found = browser.errors()
        self.assertTrue(found and all("Content Security Policy" in it for it in found), found)
        self.assertFalse(browser.evaluate("'heard' in window"))


class Probes(unittest.TestCase):
    """What tests of the page look for is found where it is there."""

    def shown(self, body: str, style: str = "") -> None:
        with tempfile.TemporaryDirectory() as folder:
            with open(f"{folder}/it.html", "w", encoding="utf-8") as it:
                it.write(f"<!doctype html><html lang=en><meta charset=utf-8><style>body {{ background: white; {style} }}</style>{body}")
            browser.open(f"file://{folder}/it.html")

    def test_faint_texts(self) -> None:
        grey = "<p style='color: {}'>{}</p>"
        dark = "<div style='background: #777; opacity: .9'><p>dark</p></div>"
        self.shown(grey.format("#767676", "enough") + grey.format("#777", "faint") + dark)
        # 4.54 and 4.48 to white are known from WCAG's own examples.
        found = browser.evaluate(FAINT_TEXTS)
        self.assertEqual([it[:2] for it in found], [["faint", "4.48"], ["dark", found[1][1]]])
        drawing = "<rect width='200' height='40' fill='black'/><text y='20' fill='{}'>drawn</text>"
        for colour, faint in (("white", 0), ("#333", 1)):
            self.shown(f"<svg width='200' height='40'>{drawing.format(colour)}</svg>")
            self.assertEqual(len(browser.evaluate(FAINT_TEXTS)), faint)

    def test_pieces(self) -> None:
        over = "<p style='position: absolute; left: 8px; top: 10px; margin: 0'>one</p>"
        self.shown(f"<button>Go <b>on</b></button>{over}<p hidden>never</p><details><summary>more</summary><p>later</p></details>")
        pieces = browser.evaluate(PIECES)
        self.assertEqual([piece["text"] for piece in pieces], ["BUTTON Go on", "P one", "SUMMARY more"])
        self.assertEqual([pieces[it]["text"] for pair in boxes_that_overlap(pieces) for it in sorted(pair)], ["BUTTON Go on", "P one"])

    def test_what_can_be_reached(self) -> None:
        buttons = "<button id=a>a</button><button id=b hidden>b</button>"
        self.shown(f"{buttons}<a id=c href='#'>c</a><p id=d tabindex=0>d</p><input id=e disabled>")
        self.assertEqual(browser.evaluate(REACHABLE), ["a", "c", "d"])


class Without(unittest.TestCase):
    def test_names_the_packages_where_there_is_none(self) -> None:
        with mock.patch.dict(os.environ, {"PATH": ""}):
            self.assertEqual(browsers.missing(), f"there is no chromium and no chromedriver on the path: {browsers.PACKAGES}")
            with self.assertRaisesRegex(unittest.SkipTest, "apt-get install chromium chromium-driver"):
                browsers.driver_of_module()

    def test_overlapping(self) -> None:
        def box(left: float, top: float, right: float, bottom: float) -> Dict[str, float]:
            return {"left": left, "top": top, "right": right, "bottom": bottom}

        boxes = [box(0, 0, 10, 10), box(10, 0, 20, 10), box(5, 5, 15, 15), box(0, 20, 9, 30), box(8.5, 20, 20, 30)]
        self.assertEqual(sorted(boxes_that_overlap(boxes)), [(0, 2), (1, 2)])


if __name__ == "__main__":
    unittest.main()
