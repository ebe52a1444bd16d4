"""Charts as pictures of their own."""
from __future__ import annotations

import unittest
from typing import Dict, List
from xml.etree import ElementTree

from ..charts.chart import NO_TEXTS, Texts
from ..charts.geometry import PICTURE
from ..charts.picture import draw, picture
from ..charts.rows import Chart
from ..charts.svg import COLOURS
from ..charts.windows import WHOLE, Window
from ..language.names import Name
from .drawings import CROSSING, LONG, LOST_INSERTION, RULES, boxes, drawn, overlaps, random_events, steps

SVG = "{http://www.w3.org/2000/svg}"


def words_of(chart: Chart) -> List[str]:
    """All texts of a picture."""
    return [box.words for box in boxes(picture(chart, "A chart").elements)]


class Pictures(unittest.TestCase):
    def is_clear(self, chart: Chart) -> None:
        self.assertEqual(overlaps(boxes(picture(chart, "A chart").elements), PICTURE.width), [])

    def test_no_text_is_over_another_or_outside(self) -> None:
        packets = f"step main packet a out udp {LONG} 40\nstep main flush a\nstep main packet b in tcp {LONG} SA 1 1 1 1\n"
        for script in (LOST_INSERTION, CROSSING, f"{CROSSING}{packets}"):
            self.is_clear(drawn(script))

    def test_nor_in_300_events_with_notes_and_names_of_branches(self) -> None:
        for seed in range(3):
            script = "set defer 1\n" + steps(*random_events(seed, 600))
            events = drawn(script).events
            notes = {at: ["A story. " * 20, "And more."] for at in range(0, events, 13)}
            forks = {at: ["later", "a-long-name-a-b"] for at in range(0, events + 1, 17)}
            for window in (WHOLE, Window(events // 3, events // 2)):
                self.is_clear(drawn(script, window, notes, forks))
            self.assertGreater(events, 250)

    def test_same_chart_same_bytes(self) -> None:
        self.assertEqual(draw(drawn(CROSSING), "A chart"), draw(drawn(CROSSING), "A chart"))

    def test_texts_stay_texts(self) -> None:
        texts: Texts = {0: ['<script> & "words" of \'it\'']}
        root = ElementTree.fromstring(draw(drawn(LOST_INSERTION, WHOLE, texts, texts), 'a < b & "c"'))
        said = ["".join(it.itertext()) for it in root.iter(f"{SVG}text")]
        self.assertEqual(root.findtext(f"{SVG}title"), 'a < b & "c"')
        self.assertIn('a < b & "c"', said)
        self.assertIn(texts[0][0], said)
        self.assertIn(f"branch {texts[0][0]} begins here", said)
        self.assertEqual({it.tag for it in root.iter()} - {f"{SVG}{it}" for it in ("svg", "title", "text", "tspan")}, {
            f"{SVG}{it}" for it in ("rect", "polyline", "polygon")
        })

    def test_what_happened_is_in_words(self) -> None:
        words = words_of(drawn(LOST_INSERTION))
        for told in ("lost", "#1: insert 1.1", "udp 192.0.2.9:53 → 10.0.0.1:1000", "drop block", "taken 1: asks for 1.1"):
            self.assertIn(told, words)

    def test_the_text_of_an_svg_has_the_elements_with_their_colours(self) -> None:
        chart = drawn(CROSSING, WHOLE, {3: ["A note."]}, {5: ["later"]})
        its_elements = picture(chart, "A chart").elements
        root = ElementTree.fromstring(draw(chart, "A chart"))
        found = [it for it in root if it.tag != f"{SVG}title"]
        self.assertEqual(len(found), len(its_elements))
        for written, element in zip(found, its_elements):
            name, attributes, *spans = element.plain()
            assert isinstance(attributes, dict)
            wanted: Dict[str, str] = {}
            for key, value in attributes.items():
                number = str(value)[:-2] if str(value).endswith(".0") else str(value)
                wanted[key] = COLOURS[value] if key in ("fill", "stroke") else number
            self.assertEqual((written.tag, written.attrib), (f"{SVG}{name}", wanted))
            told = [[it.text, it.attrib["fill"], "font-weight" in it.attrib] for it in written]
            self.assertEqual(told, [[words, COLOURS[tone], bold] for words, tone, bold in element.spans])

    def test_heads_stand_again_after_40_rows_with_the_boots_of_there(self) -> None:
        ticks = [f"tick a {it}" for it in range(1, 45)]
        words = words_of(drawn(steps(*ticks[:20], "restart b", *ticks[20:])))
        heads = ["node a boot 1", "node b boot 2", "node a boot 1", "node b boot 3"]
        self.assertEqual([word for word in words if word.startswith("node ")], heads)
        words = words_of(drawn(steps(*ticks[:40])))
        self.assertEqual(len([word for word in words if word.startswith("node ")]), 2)

    def test_a_window_says_what_comes_in_and_what_leaves(self) -> None:
        words = words_of(drawn(CROSSING, Window(4, 6)))
        self.assertIn("main, events 4 to 6 of 14; #N is frame N", words)
        self.assertIn("sent before event 4: #1", words)
        self.assertIn("under way after event 6: #3, #1", words)

    def test_a_flow_has_its_frames_alone(self) -> None:
        words = words_of(drawn(CROSSING, Window(flow=Name(1, 2))))
        self.assertIn("#2: insert 1.2", words)
        self.assertNotIn("#1: insert 1.1", words)

    def test_a_chart_without_events(self) -> None:
        self.assertIn("main, 0 events", draw(drawn(RULES), "Nothing yet"))
        self.assertIn("A note.", words_of(drawn(RULES, WHOLE, {0: ["A note."]}, NO_TEXTS)))


if __name__ == "__main__":
    unittest.main()
