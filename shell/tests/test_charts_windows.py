"""Parts of a branch as charts: from one event to another, and what is about one state."""
from __future__ import annotations

import unittest
from typing import Dict, List, Optional, Tuple

from ..charts.rows import Chart
from ..charts.text import text
from ..charts.windows import Asked, Window, read_asked
from ..console.colours import PLAIN
from ..language.names import Name
from ..link.laboratory import Unknown
from .drawings import ANSWER, CROSSING, LOST_INSERTION, QUERY, RULES, drawn, steps

# What main has after this are 11 events, the last two of which are undone.
UNDONE = f"{LOST_INSERTION}back main 2\n"
OTHER = "udp 10.0.0.7:7000 192.0.2.9:53 40"
FLOW = QUERY.strip()[len("step main ") :]


def events(chart: Chart) -> List[Tuple[int, int]]:
    """The events of the rows."""
    return [(row.first, row.last) for row in chart.rows]


def frames(chart: Chart) -> Dict[int, Tuple[Optional[int], Optional[int]]]:
    """Of each frame the rows where it is sent and ends."""
    return {flight.ticket: (chart.sent(flight), chart.ended(flight)) for flight in chart.flights.values()}


def left(chart: Chart) -> List[Tuple[str, List[int]]]:
    """What is said of frames that leave."""
    return [(words, [flight.ticket for flight in flights]) for words, flights in chart.left]


class Windows(unittest.TestCase):
    def test_frames_come_in_from_above_and_leave_below(self) -> None:
        chart = drawn(CROSSING, Window(4, 6))
        self.assertEqual(events(chart), [(4, 4), (5, 5), (6, 6)])
        self.assertEqual(frames(chart), {1: (None, None), 2: (0, 2), 3: (1, None)})
        self.assertEqual([flight.ticket for flight in chart.entering], [1])
        self.assertEqual(left(chart), [("under way after event 6:", [1, 3])])

    def test_a_frame_in_flight_at_the_end_is_said_to_be_so(self) -> None:
        chart = drawn(f"{CROSSING}step main packet a out {OTHER}\nstep main flush a\n", Window(7, 16))
        self.assertEqual(left(chart), [("still in flight:", [5])])
        self.assertEqual(drawn(CROSSING, Window(14)).left, [])

    def test_frames_that_ended_before_or_were_sent_later_are_not_there(self) -> None:
        self.assertEqual(frames(drawn(CROSSING, Window(9, 11))), {})
        self.assertEqual(frames(drawn(CROSSING, Window(8, 12))), {3: (None, 0), 4: (3, None)})

    def test_one_event(self) -> None:
        for number in range(1, 15):
            chart = drawn(CROSSING, Window(number, number))
            self.assertEqual(events(chart), [(number, number)])
            self.assertEqual(chart.heading.partition(";")[0], f"main, event {number} of 14")
            # (every window can be drawn)
            self.assertTrue(text(chart, PLAIN, 80, "ascii"))

    def test_all_events_are_no_window(self) -> None:
        self.assertEqual(drawn(CROSSING, Window(1, 14)), drawn(CROSSING))
        self.assertEqual(drawn(CROSSING).heading, "main, 14 events; #N is frame N")

    def test_a_send_at_the_edge_is_a_row_of_its_own(self) -> None:
        self.assertEqual(events(drawn(LOST_INSERTION, Window(1, 2))), [(1, 1), (2, 2)])
        self.assertEqual(events(drawn(LOST_INSERTION, Window(3, 5))), [(3, 3), (4, 4), (5, 5)])

    def test_boots_are_those_of_the_first_event(self) -> None:
        self.assertEqual(drawn(CROSSING, Window(11)).heads(0), {"a": "boot 1", "b": "boot 2"})
        self.assertEqual(drawn(CROSSING, Window(12)).heads(0), {"a": "boot 1", "b": "boot 3"})

    def test_what_is_undone_is_not_there(self) -> None:
        chart = drawn(UNDONE, Window(8, 9))
        self.assertEqual((events(chart), chart.heading), ([(8, 9)], "main, events 8 to 9 of 9, 2 undone and not drawn; #N is frame N"))
        with self.assertRaisesRegex(Unknown, "^main has no event 10 to draw: those that stand are counted from 1 to 9$"):
            drawn(UNDONE, Window(1, 10))

    def test_what_is_wrong_with_a_window(self) -> None:
        for window in (Window(15), Window(1, 15), Window(99, 99)):
            with self.assertRaisesRegex(Unknown, "^main has no event (15|99) to draw: those that stand are counted from 1 to 14$"):
                drawn(CROSSING, window)
        with self.assertRaisesRegex(Unknown, "^there is nothing to draw from event 7 to event 6, which comes before it$"):
            drawn(CROSSING, Window(7, 6))
        with self.assertRaisesRegex(Unknown, "^main has no event 1 to draw: none of its events stands$"):
            drawn(RULES, Window(1, 1))

    def test_texts_belong_to_events_of_the_window(self) -> None:
        notes = {at: [f"above {at + 1}"] for at in range(15)}
        forks = {at: [f"after-{at}"] for at in range(15)}
        chart = drawn(CROSSING, Window(3, 4), notes, forks)
        self.assertEqual(chart.notes, {0: ["above 3"], 1: ["above 4"]})
        self.assertEqual(chart.forks, {0: ["after-2"], 1: ["after-3"], 2: ["after-4"]})
        self.assertEqual(drawn(CROSSING, Window(14), notes).notes, {0: ["above 14"], 1: ["above 15"]})


class Flows(unittest.TestCase):
    def test_packets_and_frames_of_a_state(self) -> None:
        chart = drawn(CROSSING, Window(flow=Name(1, 2)))
        self.assertEqual(events(chart), [(3, 3), (4, 4), (6, 6), (11, 11), (12, 12), (13, 13), (14, 14)])
        # The request for all states asks for this one, too.
        self.assertEqual([*chart.flights], [2, 4])
        self.assertEqual(chart.heading, "main, 14 events, what is about 1.2; #N is frame N")

    def test_copies_are_about_what_the_first_frame_is(self) -> None:
        self.assertEqual([*drawn(CROSSING, Window(flow=Name(1, 1))).flights], [1, 3, 4])
        cut = drawn(steps(FLOW, "flush a", "cut 1 40", "repeat 1", "deliver 2"), Window(flow=Name(1, 1)))
        self.assertEqual([*cut.flights], [1, 2])

    def test_a_blocked_packet_of_the_same_ends_is_there(self) -> None:
        chart = drawn(LOST_INSERTION, Window(flow=Name(1, 1)))
        fates = [mark.fate for row in chart.rows for mark in row.marks if mark.is_packet]
        self.assertEqual(fates, ["pass 1.1", "pass 1.1", "drop block"])
        blocked = drawn(steps(FLOW, f"packet a out {OTHER}", f"packet b in {ANSWER.strip()}"), Window(flow=Name(1, 2)))
        self.assertEqual(events(blocked), [(2, 2)])

    def test_another_name_for_the_same_ends_is_there_where_it_is_made(self) -> None:
        again = FLOW.replace("packet a", "packet b")
        chart = drawn(steps(FLOW, again, again.replace(" 40", " 41"), FLOW.replace(" 40", " 41")), Window(flow=Name(1, 1)))
        self.assertEqual([row.marks[0].fate for row in chart.rows], ["pass 1.1", "pass 2.1", "pass 1.1"])

    def test_what_takes_states(self) -> None:
        taken = (FLOW, f"packet a out {OTHER}", "kill a 1.2", "kill a 1.1", "clear b", "turn b", "restart a", "tick a 1")
        chart = drawn(steps(*taken), Window(flow=Name(1, 1)))
        self.assertEqual([row.kind for row in chart.rows], ["packet", "kill", "clear", "restart"])
        purged = steps(FLOW, "purge a", "tick a 100000", "purge a", "purge a")
        self.assertEqual(events(drawn(purged, Window(flow=Name(1, 1)))), [(1, 1), (4, 4)])

    def test_a_held_packet_is_let_go(self) -> None:
        held = "set defer 1\n" + steps(f"packet a out {OTHER}", FLOW, "tick a 20", "release a", "tick a 1")
        self.assertEqual(events(drawn(held, Window(flow=Name(1, 2)))), [(2, 2), (4, 4)])

    def test_events_that_are_left_out_part_those_beside_them(self) -> None:
        chart = drawn(steps(FLOW, "flush a", "tick a 1", "deliver 1", FLOW, "tick a 1", FLOW), Window(flow=Name(1, 1)))
        self.assertEqual(events(chart), [(1, 1), (2, 2), (4, 4), (5, 5), (7, 7)])

    def test_no_such_state(self) -> None:
        with self.assertRaisesRegex(Unknown, "^no packet of main that stands made a state 1.3; those made are 1.1, 1.2$"):
            drawn(CROSSING, Window(flow=Name(1, 3)))
        with self.assertRaisesRegex(Unknown, "^no packet of main that stands made a state 1.1, nor any other$"):
            drawn(RULES, Window(flow=Name(1, 1)))


class Words(unittest.TestCase):
    def test_what_is_asked_for(self) -> None:
        self.assertEqual(read_asked([]), Asked("", Window(), ""))
        self.assertEqual(read_asked(["main", "x.svg"]), Asked("main", Window(), "x.svg"))
        self.assertEqual(read_asked("later from 3 to 7 flow 1.3 x.svg".split()), Asked("later", Window(3, 7, Name(1, 3)), "x.svg"))
        self.assertEqual(read_asked("to 7".split()), Asked("", Window(1, 7), ""))

    def test_other_forms(self) -> None:
        for words in ("main other", "to 7 from 3", "from 3 from 4", "main from 3 x.svg 7", "main up 3"):
            self.assertIsNone(read_asked(words.split()), words)

    def test_wrong_values(self) -> None:
        with self.assertRaisesRegex(Unknown, "^0: the events of a branch are counted from 1 on$"):
            read_asked("from 0".split())
        with self.assertRaisesRegex(Unknown, "^x: a flow is named by a state's name, CREATOR.ID, such as 1.3$"):
            read_asked("flow x".split())


if __name__ == "__main__":
    unittest.main()
