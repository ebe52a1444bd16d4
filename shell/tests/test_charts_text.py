"""Charts as text."""
from __future__ import annotations

import re
import unittest

from ..charts.text import text
from ..charts.windows import WHOLE, Window
from ..console.colours import PLAIN, Paint
from .drawings import CROSSING, LONG, LOST_INSERTION, QUERY, RULES, drawn, steps

# At 80 columns the link has 26, and each side 19: `192.0.2.9:53 pass 1.1` is too long for a line.
BOXES = """\
main, 14 events; #N is frame N
                        a (boot 1)                 b (boot 2)
    1 udp 10.0.0.1:1000 → ◀──│                          │
             192.0.2.9:53    │                          │
                 pass 1.1    │                          │
    2                        ├─ #1: insert 1.1 ───┄┄    │
    3 udp 10.0.0.2:1000 → ◀──│                          │
             192.0.2.9:53    │                          │
                 pass 1.2    │                          │
    4                        ├─ #2: insert 1.2 ───┄┄    │
    5                        │ ┄┄ #3: copy of #1 ───┄┄  │
    6                        │                ┄┄ #2 ───▶│    taken 1
    7                        │                ┄┄ #1 ───▶│    taken 1
    8                        │                ┄┄ #3 ───▶│    taken 1: 1 bad
 9-10 +1.5 s, clock 1.5 s    ●                          ●    +1.5 s, clock 1.5 s
   11                        │                          ╧    restart: boot 3
                             │                          ╤
                             │   #4: update request 0.0 │
                             │                    (all) │
   12                        │          ┄┄──────────────┤
   13                        │┄┄─ #4: cut to 30 bytes ┄┄│
   14      broken: Length    │◀─── #4 ┄┄                │
"""


SEGMENTS = """\
    1   tcp [S] 10.0.0.17:51512 → ◀──│                              │
             192.0.2.80:443 seq 0    │                              │
                         pass 1.1    │                              │
    2            tcp [SA] 1.1 in, ──▶│                              │
                 seq 0 ack 1 pass    │                              │
"""
NOTES = """\
main, 2 events; #N is frame N
                    a (boot 1)                 b (boot 2)

      The first query. It makes a state.

    1             udp <--|                          |
        10.0.0.1:1000    |                          |
      -> 192.0.2.9:53    |                          |
             pass 1.1    |                          |
      branches later, never begin here

      What now?

      A frame.

    2                    |- #1: insert 1.1 ---..    |
      branch end begins here
still in flight: #1 to b
"""
PART = """\
main, events 4 to 6 of 14; #N is frame N
sent before event 4: #1 to b
                        a (boot 1)                 b (boot 2)
    4                        ├─ #2: insert 1.2 ───┄┄    │
    5                        │ ┄┄ #3: copy of #1 ───┄┄  │
    6                        │                ┄┄ #2 ───▶│    taken 1
under way after event 6: #1 to b, #3 to b
"""


class Texts(unittest.TestCase):
    maxDiff = None

    def test_boxes(self) -> None:
        told = text(drawn(CROSSING), PLAIN, 80, "utf-8")
        self.assertEqual(told, BOXES.splitlines())

    def test_ascii_where_boxes_cannot_be_written(self) -> None:
        told = text(drawn(LOST_INSERTION), PLAIN, 100, "ascii")
        self.assertTrue("\n".join(told).isascii())
        self.assertEqual(told[4], "  2-3                                |- #1: insert 1.1 ---X lost    |")
        update = "  5-6                                |- #2: short update 1.1 ------>|    taken 1: asks for 1.1"
        self.assertEqual(told[7], update)

    def test_lines_keep_the_width(self) -> None:
        for width in (72, 80, 100, 140):
            for script in (LOST_INSERTION, f"{CROSSING}step main packet a out udp {LONG} 40\n"):
                self.assertTrue(all(len(it) <= width for it in text(drawn(script), PLAIN, width, "utf-8")))

    def test_long_numbers_have_room(self) -> None:
        ticks = "step main tick a 1\nstep main tick b 1\n" * 60
        told = text(drawn(f"{RULES}{ticks}"), PLAIN, 80, "utf-8")
        self.assertTrue(told[-1].startswith("119-120 +1 ms, clock 60 ms"), told[-1])

    def test_colours_change_no_word(self) -> None:
        chart = drawn(CROSSING)
        coloured = [re.sub("\033\\[[0-9]*m", "", line) for line in text(chart, Paint(True), 100, "utf-8")]
        self.assertEqual(coloured, text(chart, PLAIN, 100, "utf-8"))
        self.assertNotEqual(coloured, text(chart, Paint(True), 100, "utf-8"))

    def test_a_frame_is_told_from_the_number_of_its_records(self) -> None:
        seconds = "".join(f"step main packet a out udp 10.0.0.{it}:1000 192.0.2.9:53 40\n" for it in range(1, 6))
        told = text(drawn(f"{RULES}{seconds}step main flush a\nstep main deliver 1\n"), PLAIN, 80, "ascii")
        self.assertTrue(told[-1].endswith("|- #1: 5 inserts --------->|    taken 5"), told[-1])
        self.assertEqual(told[0], "main, 7 events; #N is frame N")

    def test_what_is_in_flight_is_told(self) -> None:
        told = text(drawn(f"{RULES}{QUERY}step main flush a\n"), PLAIN, 100, "utf-8")
        self.assertEqual(told[-1], "still in flight: #1 to b")

    def test_heads_stand_again_after_40_rows(self) -> None:
        told = text(drawn(steps("restart b", *(f"tick a {it}" for it in range(1, 81)))), PLAIN, 80, "utf-8")
        heads = [place for place, line in enumerate(told) if "a (boot 1)" in line]
        self.assertEqual([told[place].split(")")[1].strip() for place in heads], ["b (boot 2", "b (boot 3", "b (boot 3"])
        self.assertEqual([told[place + 1].split()[0] for place in heads], ["1", "41", "81"])

    def test_runs_have_their_number(self) -> None:
        told = text(drawn(steps(*["purge b"] * 5)), PLAIN, 80, "utf-8")
        self.assertEqual([it.split()[0] for it in told[-2:]], ["1-5", "│"])
        self.assertTrue(told[-1].endswith("0 states deleted x5"), told[-1])

    def test_segments(self) -> None:
        syn, answer = "tcp 10.0.0.17:51512 192.0.2.80:443 S 0 0 60000 0", "tcp 192.0.2.80:443 10.0.0.17:51512 SA 0 1 60000 0"
        told = text(drawn(steps(f"packet a out {syn}", f"packet a in {answer}")), PLAIN, 100, "utf-8")
        self.assertEqual(told[2:], SEGMENTS.splitlines())

    def test_notes_and_names_of_branches(self) -> None:
        notes = {0: ["The first query. It makes a state."], 1: ["What now?", "A frame."]}
        chart = drawn(steps(QUERY.strip()[10:], "flush a"), WHOLE, notes, {1: ["later", "never"], 2: ["end"]})
        told = text(chart, PLAIN, 72, "ascii")
        self.assertEqual(told, NOTES.splitlines())

    def test_a_window(self) -> None:
        told = text(drawn(CROSSING, Window(4, 6)), PLAIN, 80, "utf-8")
        self.assertEqual(told, PART.splitlines())

    def test_notes_that_cannot_be_written(self) -> None:
        chart = drawn(steps("tick a 1"), WHOLE, {0: ["caf\u00e9"]})
        self.assertIn("      caf?", text(chart, PLAIN, 80, "ascii"))
        self.assertIn("      caf\u00e9", text(chart, PLAIN, 80, "utf-8"))

    def test_notes_keep_the_width(self) -> None:
        notes = {0: ["A long word-" + "x" * 200 + " and more."]}
        for width in (72, 100):
            self.assertTrue(all(len(it) <= width for it in text(drawn(CROSSING, WHOLE, notes), PLAIN, width, "utf-8")))


if __name__ == "__main__":
    unittest.main()
