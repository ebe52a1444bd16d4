"""The drawing of a chart within a page: its sheets, and the frames that cross them."""
from __future__ import annotations

import json
import random
import time
import unittest
from typing import List
from xml.etree import ElementTree

from ..charts.chart import drawn as drawn_of
from ..charts.elements import TONES, Point
from ..charts.geometry import PAGE
from ..charts.picture import ROWS, Drawing, PageChart, sheets
from ..charts.svg import svg
from ..charts.windows import WHOLE, Window
from .drawings import CROSSING, LOST_INSERTION, QUERY, RULES, boxes, drawn, happened, overlaps, random_events, steps

TICKS = [f"tick a {it}" for it in range(1, 251)]
# Frame 1 is sent in the second row, and delivered in the 253rd.
LONG_WAY = steps(QUERY.strip()[len("step main ") :], "flush a", *TICKS, "deliver 1")


def ends(page: PageChart, ticket: int) -> List[List[Point]]:
    """Where the way of a frame begins and ends on each sheet that it crosses, by the heights of the whole drawing."""
    found = [(sheet.top, points) for sheet in page.sheets for at, points in sheet.ways if at == ticket]
    return [[(x, round(top + y, 6)) for x, y in (points[0], points[-1])] for top, points in found]


class Sheets(unittest.TestCase):
    def test_rows_lie_one_below_the_other(self) -> None:
        page = sheets(drawn(LONG_WAY))
        self.assertEqual([len(it.rows) for it in page.sheets], [ROWS, ROWS, 53])
        self.assertEqual([it.rows[0][:2] for it in page.sheets], [(1, 1), (101, 101), (201, 201)])
        tops = [it.top for it in page.sheets]
        self.assertEqual(tops[0], 0)
        for sheet, below in zip(page.sheets, [*tops[1:], page.height]):
            self.assertAlmostEqual(sheet.top + sheet.height, below)
            self.assertAlmostEqual(sheet.rows[-1][3], sheet.height if below < page.height else sheet.height - 14)
            for one, two in zip(sheet.rows, sheet.rows[1:]):
                self.assertAlmostEqual(one[3], two[2])

    def test_a_frame_that_crosses_three_sheets_meets_at_their_edges(self) -> None:
        page = sheets(drawn(LONG_WAY))
        first, second, third = ends(page, 1)
        self.assertEqual((first[1], second[1]), (second[0], third[0]))
        self.assertEqual([it[1][1] for it in (first, second)], [page.sheets[1].top, page.sheets[2].top])
        self.assertEqual((first[0][0], third[1][0]), (PAGE.lanes["a"], PAGE.lanes["b"]))
        # The line is drawn as far as the way on that sheet, and the head of the arrow on the last one alone.
        lines = [[element for element in sheet.elements if element.attributes.get("stroke") == "frame"] for sheet in page.sheets]
        self.assertEqual([len(line) for line in lines], [1, 1, 1])
        heads = [sum(element.name == "polygon" for element in sheet.elements) for sheet in page.sheets]
        self.assertEqual(heads, [1, 0, 1])

    def test_each_sheet_is_of_its_own_heights(self) -> None:
        page = sheets(drawn("set defer 1\n" + steps(*random_events(7, 600))))
        self.assertGreater(len(page.sheets), 1)
        for sheet in page.sheets:
            for it in boxes(sheet.elements):
                self.assertTrue(0 <= it.top and it.bottom <= sheet.height, it)
            for _, points in sheet.ways:
                self.assertTrue(all(-1e-6 <= y <= sheet.height + 1e-6 for _, y in points))
                self.assertTrue(all(one[1] <= two[1] for one, two in zip(points, points[1:])))

    def test_no_text_is_over_another_or_outside(self) -> None:
        for seed in range(3):
            script = "set defer 1\n" + steps(*random_events(seed, 600))
            events = drawn(script).events
            forks = {at: ["later", "a-long-name-a-b"] for at in range(0, events + 1, 17)}
            for window in (WHOLE, Window(events // 3, events // 2)):
                page = sheets(drawn(script, window, {}, forks))
                found = [box for sheet in page.sheets for box in boxes(sheet.elements, sheet.top)]
                self.assertEqual(overlaps(found, PAGE.width), [])

    def test_names_of_branches_are_drawn_and_notes_and_heads_are_not(self) -> None:
        page = sheets(drawn(LONG_WAY, WHOLE, {3: ["A note."]}, {100: ["later"], 253: ["last"]}))
        words = [[box.words for box in boxes(sheet.elements)] for sheet in page.sheets]
        self.assertNotIn("A note.", sum(words, []))
        self.assertIn("branch later begins here", words[0])
        self.assertIn("branch last begins here", words[2])
        self.assertFalse([it for it in sum(words, []) if it.startswith("node ")])
        self.assertEqual(page.heads, {"a": "node a, boot 1", "b": "node b, boot 2"})

    def test_earlier_sheets_stay_as_a_branch_grows(self) -> None:
        frame = ("packet a out udp 10.0.0.1:1 192.0.2.9:53 40", "flush a")
        ticks = "".join(f"step main {it}\n" for it in (*TICKS, *frame, *TICKS, "lose 5"))
        events, _ = happened(f"{LOST_INSERTION}{ticks}")
        grown, before = (sheets(drawn_of("main", events[:to], 0, {}, {5: ["later"]})) for to in (len(events), 240))
        self.assertEqual(grown.sheets[:2], before.sheets[:2])
        # A frame in flight goes down to the end of the drawing: the sheets from that of its sending on are others, and no more.
        in_flight = sheets(drawn_of("main", events[:-1], 0, {}, {5: ["later"]}))
        self.assertEqual([one == two for one, two in zip(grown.sheets, in_flight.sheets)], [True, True, *[False] * 4])

    def test_a_drawing_that_goes_on_is_that_of_the_chart(self) -> None:
        events, _ = happened("set defer 1\nset frames 256\n" + steps(*random_events(11, 420)))
        drawing, dice = Drawing(), random.Random(3)
        for _ in range(12):
            end = dice.randrange(len(events) + 1)
            for last in range(end, min(end + 3, len(events)) + 1):
                chart = drawn_of("main", events[:last], 0, {}, {it: ["later"] for it in dice.sample(range(last + 1), min(last, 2))})
                self.assertEqual(drawing.plain(chart), sheets(chart).plain(), last)

    def test_plain_form(self) -> None:
        page = sheets(drawn(CROSSING))
        plain = json.loads(json.dumps(page.plain()))
        self.assertEqual([*plain], ["width", "height", "lanes", "heads", "sheets"])
        self.assertEqual((plain["width"], plain["lanes"]), (760, {"a": 240.0, "b": 554.0}))
        self.assertEqual([*plain["sheets"][0]], ["top", "height", "rows", "elements", "ways"])
        self.assertEqual(plain["sheets"][0]["rows"][8][:2], [9, 10])
        self.assertEqual([ticket for ticket, _ in plain["sheets"][0]["ways"]], [1, 2, 3, 4])
        tones = {it[1][key] for it in plain["sheets"][0]["elements"] for key in ("fill", "stroke") if key in it[1]}
        self.assertLessEqual(tones, {*TONES, "none"})
        spans = [span for it in plain["sheets"][0]["elements"] if it[0] == "text" for span in it[2]]
        self.assertIn(["#1:", "frame", True], spans)
        self.assertIn(["copy of #1", "note", False], spans)
        self.assertNotIn("\u00a0", json.dumps(plain, ensure_ascii=False))

    def test_a_sheet_can_be_written_as_an_svg(self) -> None:
        sheet = sheets(drawn(LOST_INSERTION)).sheets[0]
        root = ElementTree.fromstring(svg(sheet.elements, PAGE.width, sheet.height, "A sheet"))
        self.assertEqual([it.tag.partition("}")[2] for it in root][1:], [element.name for element in sheet.elements])

    def test_no_events(self) -> None:
        page = sheets(drawn(RULES))
        self.assertEqual([(sheet.top, sheet.rows, sheet.ways) for sheet in page.sheets], [(0, [], [])])

    def test_10000_events_with_3000_frames_are_quick(self) -> None:
        events: List[str] = []
        for at in range(1000):
            ends_of = f"udp 10.0.{at % 3}.{at % 100}:1000 192.0.2.9:53 40"
            ticket = 3 * at
            events += [f"packet a out {ends_of}", "flush a", f"packet a out {ends_of}", "flush a", f"repeat {ticket + 1}"]
            events += [f"deliver {ticket + 1}", f"packet b out {ends_of}", f"deliver {ticket + 3}", f"lose {ticket + 2}"]
            events += ["tick a 1"]
        steps_of, undone = happened(f"set states 1000\nset queue 4096\n{steps(*events)}")
        begin = time.monotonic()
        chart = drawn_of("main", steps_of, undone)
        page = sheets(chart)
        self.assertLess(time.monotonic() - begin, 15)
        self.assertEqual((chart.events, len(chart.flights)), (10000, 3000))
        self.assertEqual(page.sheets[-1].rows[-1][1], 10000)


if __name__ == "__main__":
    unittest.main()
