"""How a page looks: nothing lies over anything else, nothing is too faint or too small to be read, nothing moves where that is not wished,
and it prints."""
from __future__ import annotations

import base64
import re
import shutil
import subprocess
import unittest
from typing import Any, Dict, List

from . import page_cases
from .browsers import boxes_that_overlap
from .page_cases import RUN, PageCase, desk_folder, example, examples, setUpModule
from .page_probes import CHART_TEXTS, FAINT_TEXTS, PIECES

__all__ = ["setUpModule"]

NO_PDFTOTEXT = "there is no pdftotext on the path: apt-get install poppler-utils"
WIDTHS = (1440, 1024, 390)
OVERFLOW = "document.documentElement.scrollWidth - document.documentElement.clientWidth"


def clashes(boxes: List[Dict[str, Any]], slack: float = 1) -> List[str]:
    """The texts of rectangles that overlap, in pairs."""
    found = ((boxes[one], boxes[two]) for one, two in boxes_that_overlap(boxes, slack))
    return [f"{one['text']} | {two['text']}" for one, two in found if "of" not in one or one["of"] != two["of"]]


class Layout(PageCase):
    def test_no_text_of_a_chart_lies_over_another(self) -> None:
        for name in examples():
            with self.subTest(name):
                self.open(example(name))
                # (a line's box is higher than its letters)
                self.assertEqual(clashes(self.browser.evaluate(CHART_TEXTS), 3), [])

    def test_no_control_lies_over_another(self) -> None:
        for script, place in ((RUN, "#later/3"), (example("lost-bulk-frame"), "#main/14")):
            self.open(script, place)
            for width in WIDTHS:
                self.browser.size(width)
                with self.subTest(width=width, place=place):
                    self.assertEqual(clashes(self.browser.evaluate(PIECES), 2), [])
                    self.assertLessEqual(self.browser.evaluate(OVERFLOW), 0)

    def test_with_letters_of_twice_the_size(self) -> None:
        self.browser = page_cases.desk.driver.browser(letters=32)
        self.addCleanup(self.browser.close)
        self.open(example("lost-bulk-frame"), "#main/14")
        self.assertEqual(self.browser.evaluate("getComputedStyle(document.documentElement).fontSize"), "32px")
        for width in WIDTHS:
            self.browser.size(width)
            with self.subTest(width=width):
                self.assertEqual(clashes(self.browser.evaluate(PIECES), 4), [])
                self.assertLessEqual(self.browser.evaluate(OVERFLOW), 0)

    def test_a_long_word_makes_nothing_wider(self) -> None:
        word = "w" * 600
        _, _, rest = RUN.replace("# The query leaves through a.", f"# {word}").partition("\n")
        self.open(f"# {word}\n#\n# {word}\n{rest}", "#main/1")
        for width in WIDTHS:
            self.browser.size(width)
            with self.subTest(width=width):
                self.assertLessEqual(self.browser.evaluate(OVERFLOW), 0)


class Sizes(PageCase):
    # The size in pixels in which most of a chart's text is shown.
    SIZE = """(() => {
      const svg = document.querySelector("#chart svg"), scale = svg.getBoundingClientRect().width / svg.viewBox.baseVal.width;
      const sizes = Array.from(svg.querySelectorAll("text"), it => scale * parseFloat(getComputedStyle(it).fontSize));
      return sizes.sort((one, two) => one - two)[Math.floor(sizes.length / 2)];
    })()"""

    def test_a_chart_can_be_read(self) -> None:
        self.open(example("lost-bulk-frame"), "#main/14")
        for width in (*WIDTHS, 1280, 1184, 600, 320):
            self.browser.size(width)
            with self.subTest(width=width):
                self.assertGreaterEqual(self.browser.evaluate(self.SIZE), 10)


class Colours(PageCase):
    def test_contrast_in_the_light_and_in_the_dark(self) -> None:
        for dark in (False, True):
            self.browser.dark(dark)
            for script, place in ((RUN, "#later/4"), (example("lost-bulk-frame"), "#main/20"), (example("adaptive-timeouts"), "#main/16")):
                with self.subTest(dark=dark, place=place):
                    self.open(script, place)
                    self.assertEqual(self.browser.evaluate(FAINT_TEXTS), [])

    def test_the_dark_is_dark(self) -> None:
        self.open()
        light = "getComputedStyle(document.body).backgroundColor"
        before = self.browser.evaluate(light)
        self.browser.dark()
        after = self.browser.evaluate(light)
        self.assertGreater(sum(map(int, re.findall(r"\d+", before)[:3])), 600)
        self.assertLess(sum(map(int, re.findall(r"\d+", after)[:3])), 200)


class Motion(PageCase):
    RUNNING = "document.getAnimations().filter(it => it.playState === 'running').length"
    # In how many frames of half a second after a step a piece of the drawing is in another place than in the frame before.
    MOVED = """new Promise(done => {
      const from = performance.now();
      const place = box => [box.left, box.top].join();
      const places = () => Array.from(document.querySelectorAll("#chart svg *"), it => place(it.getBoundingClientRect()));
      let before = places(), moved = 0;
      (function look() {
        const now = places();
        moved += now.join(" ") !== before.join(" ");
        before = now;
        if (performance.now() - from > 500) { done(moved); } else { requestAnimationFrame(look); }
      })();
      document.querySelector("#forward").click();
    })"""

    def test_a_frame_goes_its_way(self) -> None:
        self.open(RUN, "#main/2")
        self.assertGreater(self.browser.evaluate(self.MOVED), 3)

    def test_nothing_moves_where_that_is_not_wished(self) -> None:
        self.browser.still()
        self.open(RUN, "#main/2")
        self.browser.evaluate("document.querySelector('#first').click()")
        self.browser.evaluate("document.querySelector('#forward').click()")
        self.browser.evaluate("document.querySelector('#forward').click()")
        # (a dot comes or goes at once)
        self.assertLessEqual(self.browser.evaluate(self.MOVED), 1)
        for key in ("ArrowRight", "ArrowLeft", "End", "Home", "]"):
            self.browser.keys_at("#slider", key)
            self.assertEqual(self.browser.evaluate(self.RUNNING), 0)


class Paper(PageCase):
    def test_prints_the_title_and_the_story(self) -> None:
        self.open(RUN, "#later/2")
        paper = self.browser.pdf()
        self.assertEqual(paper[:5], b"%PDF-")
        self.assertTrue(re.search(rb"/Type\s*/Page\b", paper))
        if not shutil.which("pdftotext"):
            self.skipTest(NO_PDFTOTEXT)
        path = f"{desk_folder()}/paper.pdf"
        with open(path, "wb") as it:
            it.write(paper)
        text = " ".join(subprocess.run(("pdftotext", path, "-"), capture_output=True, text=True, check=True, timeout=60).stdout.split())
        for words in ("A query and its answer", "The second paragraph of what stands before the setup.", "What if the frame is lost?"):
            self.assertIn(words, text)

    def pages(self, height: float = 11) -> List[str]:
        """The text of each page as it is laid out, on paper of this height in inches."""
        if not shutil.which("pdftotext"):
            self.skipTest(NO_PDFTOTEXT)
        path = f"{desk_folder()}/paper.pdf"
        with open(path, "wb") as it:
            it.write(base64.b64decode(self.browser.cdp("Page.printToPDF", printBackground=False, paperHeight=height)["data"]))
        return subprocess.run(("pdftotext", "-layout", path, "-"), capture_output=True, text=True, check=True, timeout=60).stdout.split("\f")[:-1]

    def test_prints_all_branches_and_each_event_once(self) -> None:
        self.open(RUN, "#later/2")
        text = " ".join(" ".join(self.pages()).split())
        heads = ("main: 4 events", "later: 4 events", "main~1 (an earlier run): 5 events")
        stories = ("The story of main", "The story of later", "The story of main~1")
        self.assertEqual([it for it in (*heads, *stories) if it not in text], [])
        for words in ("The first 2 events are those of main.", "The first 3 events are those of", "The pair after event 2 of later"):
            self.assertIn(words, text)
        told = re.findall(r"(?<=\s)(\d) (packet|flush|deliver|lose|tick) [ab1]", text.partition("The story of main")[2])
        of_main = [("1", "packet"), ("2", "flush"), ("3", "deliver"), ("4", "tick")]
        self.assertEqual(told, [*of_main, ("3", "lose"), ("4", "tick"), ("4", "packet"), ("5", "flush")])
        # (what stands before the setup is told once, and so is each paragraph of events that branches share)
        for words in ("The second paragraph of what stands before the setup.", "The query leaves through a.", "What if the frame is lost?"):
            self.assertEqual(text.count(words), 1, words)

    def test_no_heading_is_the_last_thing_on_a_page(self) -> None:
        parts = r"Node [ab]|clock .*|Counters|Numbers|In flight|Waiting to be sent|Changed by this event|at [ab]|Setup|node [ab], boot \d"
        heading = re.compile(rf"{parts}|The story of \S+|\S+( \(an earlier run\))?: \d+ events|The pair .*|[≠=] a and b .*")
        for height in (8, 9.2, 10, 11, 11.7, 13):
            self.open(example("lost-bulk-frame"), "#main/21")
            pages = self.pages(height)
            self.assertGreater(len(pages), 4)
            for number, page in enumerate(pages[:-1], 1):
                with self.subTest(height=height, page=number):
                    last = re.split(r"\s{2,}", page.strip().splitlines()[-1].strip())
                    self.assertFalse(all(heading.fullmatch(it) for it in last), last)

    def test_prints_in_the_dark_too(self) -> None:
        self.browser.dark()
        self.open(RUN, "#main/3")
        self.browser.cdp("Emulation.setEmulatedMedia", media="print", features=[{"name": "prefers-color-scheme", "value": "dark"}])
        self.addCleanup(self.browser.cdp, "Emulation.setEmulatedMedia", media="", features=[])
        self.browser.wait_until("!document.getAnimations().length")
        self.assertEqual(self.browser.evaluate(FAINT_TEXTS), [])


if __name__ == "__main__":
    unittest.main()
