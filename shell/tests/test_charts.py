"""Charts: their rows, their marks and their frames."""
from __future__ import annotations

import unittest
from typing import List, Tuple

from ..charts.chart import drawn as drawn_of
from ..charts.contents import KEPT, record_words
from ..charts.marks import duration, end_words
from ..charts.rows import Chart
from ..charts.windows import WHOLE
from .drawings import ANSWER, CROSSING, LOST_INSERTION, QUERY, RULES, drawn, happened, steps

FLOW = "tcp 10.0.0.1:1000 192.0.2.9:80"
BACK = "tcp 192.0.2.9:80 10.0.0.1:1000"
SYN = f"packet a out {FLOW} S 100 0 1000 0"


class Models(unittest.TestCase):
    def test_loss_and_request(self) -> None:
        chart = drawn(LOST_INSERTION)
        kinds = [(row.first, row.last, row.kind) for row in chart.rows]
        self.assertEqual(kinds[:4], [(1, 1, "packet"), (2, 3, "flush"), (4, 4, "packet"), (5, 6, "flush")])
        self.assertEqual(kinds[4:], [(7, 7, "packet"), (8, 9, "flush"), (10, 11, "flush")])
        ways = [(way.source, way.to, chart.sent(way), chart.ended(way), way.is_lost) for way in chart.flights.values()]
        self.assertEqual(ways, [("a", "b", 1, 1, True), ("a", "b", 3, 3, False), ("b", "a", 5, 5, False), ("a", "b", 6, 6, False)])
        records = [("insert 1.1",), ("short update 1.1",), ("update request 1.1",), ("update 1.1",)]
        self.assertEqual([record_words(way.frame.records) for way in chart.flights.values()], records)
        self.assertEqual([mark.words for mark in chart.rows[3].marks], [("taken 1:", "asks for 1.1")])
        blocked = chart.rows[4].marks[0]
        self.assertEqual((blocked.node, blocked.kind, blocked.fate, blocked.tone), ("b", "in", "drop block", "bad"))
        self.assertEqual(blocked.words, ("udp", "192.0.2.9:53 ->", "10.0.0.1:1000"))

    def test_out_of_order(self) -> None:
        chart = drawn(CROSSING)
        ways = [(way.ticket, chart.sent(way), chart.ended(way), way.origin) for way in chart.flights.values()]
        self.assertEqual(ways, [(1, 1, 6, None), (2, 3, 5, None), (3, 4, 7, 1), (4, 10, 12, None)])
        cuts = [(chart.places[cut.number], cut.came) for way in chart.flights.values() for cut in way.cuts]
        self.assertEqual(cuts, [(11, "cut 30")])
        # The copy brings a state that b has from the first: the record is bad.
        self.assertEqual(chart.rows[7].marks[0].words, ("taken 1:", "1 bad"))
        self.assertEqual(chart.rows[12].marks[0].fate, "broken: Length")

    def test_ticks_of_both_nodes_are_one_row(self) -> None:
        row = drawn(CROSSING).rows[8]
        self.assertEqual((row.first, row.last), (9, 10))
        self.assertEqual([(mark.node, mark.fate) for mark in row.marks], [("a", "clock 1.5 s"), ("b", "clock 1.5 s")])

    def test_restart_begins_the_next_boot(self) -> None:
        mark = drawn(CROSSING).rows[9].marks[0]
        self.assertEqual((mark.node, mark.kind, mark.fate), ("b", "restart", "boot 3"))

    def test_what_was_undone_is_left_out(self) -> None:
        chart = drawn(f"{LOST_INSERTION}back main 9\n")
        self.assertEqual((chart.events, chart.undone, chart.heading), (2, 9, "main, 2 events, 9 undone and not drawn; #N is frame N"))
        self.assertEqual([(way.ticket, way.ended) for way in chart.leaving], [(1, None)])

    def test_what_befalls_a_frame_later_does_not_matter(self) -> None:
        events, _ = happened(LOST_INSERTION)
        chart = drawn_of("main", events[:2], 0)
        self.assertEqual(([*chart.flights], chart.leaving[0].later), ([1], []))
        self.assertEqual(chart.rows[1].last, 2)

    def test_held_packets(self) -> None:
        frames = "step main flush a\nstep main deliver 1\nstep main flush b\nstep main deliver 2\n"
        chart = drawn(f"set defer 1\n{RULES}{QUERY}{frames}")
        self.assertEqual((chart.rows[0].marks[0].fate, chart.rows[0].marks[0].tone), ("held 1.1", "note"))
        told = [record_words(way.frame.records) for way in chart.flights.values()]
        self.assertEqual(told, [(f"insert 1.1 (wants{KEPT}ack)",), ("insert ack 1.1",)])
        self.assertEqual(chart.rows[2].marks[0].words, ("taken 1:", "1 held released"))

    def test_packets_outside_the_window_have_their_numbers(self) -> None:
        flow = "tcp 10.0.0.1:1000 192.0.2.9:80"
        chart = drawn(
            f"{RULES}step main packet a out {flow} S 100 0 1000 0\n"
            "step main packet a in tcp 192.0.2.9:80 10.0.0.1:1000 SA 500 101 2000 0\n"
            f"step main packet a out {flow} A 900000 501 1000 10\n"
        )
        self.assertEqual(chart.rows[0].marks[0].words[0], "tcp [S]")
        mark = chart.rows[2].marks[0]
        self.assertEqual(mark.fate, "drop window")
        self.assertEqual(mark.words, ("tcp [A]", "1.1 out,", f"seq{KEPT}900000 ack{KEPT}501 len{KEPT}10"))

    def test_words(self) -> None:
        self.assertEqual([duration(it) for it in (0, 20, 1000, 1500, 86400000)], ["0 s", "20 ms", "1 s", "1.5 s", "86400 s"])
        self.assertEqual(end_words("[2001:0db8:0000:0000:0000:0000:0000:0001]:53"), "[2001:db8::1]:53")
        self.assertEqual(end_words("10.0.0.1:53"), "10.0.0.1:53")


def said(chart: Chart) -> List[str]:
    """What the first mark of each row says."""
    return [" ".join((*row.marks[0].words, row.marks[0].fate)).replace(KEPT, " ") for row in chart.rows]


class Segments(unittest.TestCase):
    def test_the_name_of_a_state_stands_for_ends_that_were_shown(self) -> None:
        ways = (SYN, f"packet a in {BACK} SA 500 101 2000 0", "flush a", "deliver 1", f"packet b out {FLOW} PA 101 501 1000 40")
        chart = drawn(steps(*ways))
        self.assertEqual(said(chart)[0], "tcp [S] 10.0.0.1:1000 -> 192.0.2.9:80 seq 100 pass 1.1")
        self.assertEqual(said(chart)[1], "tcp [SA] 1.1 in, seq 500 ack 101 pass")
        self.assertEqual(said(chart)[3], "tcp [PA] 1.1 out, seq 101 ack 501 len 40 pass")

    def test_ends_stand_where_no_state_is_met(self) -> None:
        chart = drawn(steps(SYN, f"packet b in {BACK} SA 500 101 2000 0", f"packet a out {FLOW} S 100 0 1000 0"))
        self.assertEqual(said(chart)[1], "tcp [SA] 192.0.2.9:80 -> 10.0.0.1:1000 seq 500 ack 101 drop block")

    def test_each_state_shows_its_ends_once(self) -> None:
        other = "packet a out tcp 10.0.0.2:1000 192.0.2.9:80 S 7 0 1000 0"
        chart = drawn(steps(SYN, other, f"packet a in {BACK} SA 500 101 2000 0"))
        self.assertEqual(said(chart)[1], "tcp [S] 10.0.0.2:1000 -> 192.0.2.9:80 seq 7 pass 1.2")
        self.assertEqual(said(chart)[2], "tcp [SA] 1.1 in, seq 500 ack 101 pass")
        # In a window it is the first packet there.
        chart = drawn(steps(SYN, other, f"packet a in {BACK} SA 500 101 2000 0"), WHOLE._replace(first=3))
        self.assertEqual(said(chart), ["tcp [SA] 192.0.2.9:80 -> 10.0.0.1:1000 seq 500 ack 101 pass 1.1"])

    def test_translated_ends_are_shown_too(self) -> None:
        rules = RULES.replace("rule a pass out\n", "rule a pass out nat 203.0.113.1:0\n")
        answer = "packet a in tcp 192.0.2.9:80 203.0.113.1:{} SA 500 101 2000 0"
        self.assertNotEqual(rules, RULES)
        outs = [rules, f"step main {SYN}\n", *(f"step main {answer.format(port)}\n" for port in (1000, 1000))]
        told_of = said(drawn("".join(outs)))
        self.assertTrue(told_of[0].endswith("pass 1.1"), told_of)


class Runs(unittest.TestCase):
    def rows(self, *events: str) -> List[Tuple[int, int, int]]:
        return [(row.first, row.last, row.times) for row in drawn(steps(*events)).rows]

    def test_the_same_again_is_one_row(self) -> None:
        query, answer = QUERY.strip()[len("step main ") :], f"packet b in {ANSWER.strip()}"
        self.assertEqual(self.rows(query, query, query, answer, answer, query), [(1, 3, 3), (4, 5, 2), (6, 6, 1)])
        self.assertEqual(self.rows("purge a", "purge a", "clear b", "clear b"), [(1, 2, 2), (3, 4, 2)])
        # The first one shows the ends, and the second would say the name; from the third on the state drops it.
        self.assertEqual(self.rows(SYN, SYN, SYN, SYN), [(1, 2, 2), (3, 4, 2)])

    def test_what_only_looks_equal_is_not(self) -> None:
        query = QUERY.strip()[len("step main ") :]
        self.assertEqual(self.rows("purge a", "purge b", "purge b"), [(1, 1, 1), (2, 3, 2)])
        self.assertEqual(self.rows(query, query.replace("packet a out", "packet a in"), query), [(1, 1, 1), (2, 2, 1), (3, 3, 1)])
        blocked, passed = f"packet b in {ANSWER.strip()}", f"packet b out {ANSWER.strip()}"
        self.assertEqual(self.rows(blocked, passed, blocked), [(1, 1, 1), (2, 2, 1), (3, 3, 1)])
        # Clocks go on, and so no two ticks say the same.
        self.assertEqual(self.rows("tick a 5", "tick a 5"), [(1, 1, 1), (2, 2, 1)])

    def test_ticks_of_both_are_no_run(self) -> None:
        self.assertEqual(self.rows("tick a 5", "tick b 5", "tick a 5", "tick b 5"), [(1, 2, 1), (3, 4, 1)])
        self.assertEqual(self.rows("tick a 0", "tick a 0", "tick b 0", "tick b 0"), [(1, 2, 2), (3, 4, 2)])

    def test_frames_are_rows_of_their_own(self) -> None:
        query = QUERY.strip()[len("step main ") :]
        rows = self.rows(query, "flush a", "repeat 1", "repeat 1", "lose 2", "lose 3", "lose 1")
        self.assertEqual(rows, [(1, 1, 1), (2, 2, 1), (3, 3, 1), (4, 4, 1), (5, 5, 1), (6, 6, 1), (7, 7, 1)])

    def test_texts_part_what_would_be_one_row(self) -> None:
        query = QUERY.strip()[len("step main ") :]
        script = steps("purge a", "purge a", "purge a", query, "flush a", "deliver 1", "tick a 1", "tick b 1")
        chart = drawn(script, WHOLE, {2: ["A note."], 5: ["Another."]}, {7: ["later"]})
        self.assertEqual([(row.first, row.last) for row in chart.rows], [(1, 2), (3, 3), (4, 4), (5, 5), (6, 6), (7, 7), (8, 8)])
        self.assertEqual((chart.notes, chart.forks), ({1: ["A note."], 4: ["Another."]}, {6: ["later"]}))
        self.assertEqual(len(drawn(script).rows), 4)


if __name__ == "__main__":
    unittest.main()
