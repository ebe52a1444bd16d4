"""`whatif` over held packets: how they end, which packets could not have come without them, and what a node sends because of a fault. The
wanted groups are worked out by hand."""
from __future__ import annotations

import unittest
from typing import List

from ..whatif.faults import faults_of
from ..whatif.plays import Player
from ..whatif.tries import course_of
from .test_whatif import ANSWER, FLOW, QUERY, SETUP, Tries

DEFER = f"set defer 1\n{SETUP}"
CLIENT, SERVER = "10.0.0.17:51512", "192.0.2.80:443"
SYN = f"packet a out tcp {CLIENT} {SERVER} S 0 0 60000 0"
SYN_ACK = f"packet b in tcp {SERVER} {CLIENT} SA 0 1 60000 0"
ACK = f"packet a out tcp {CLIENT} {SERVER} A 1 1 60000 0"
TCP_FLOW = f"tcp {CLIENT} -> {SERVER}"
# The SYN is held, and released by the acknowledgement in frame 2. The answer comes over b, which reports it in frame 3.
DEFERRED = [SYN, "flush a", "deliver 1", "flush b", "deliver 2", SYN_ACK, "flush b", "deliver 3"]
# A query is held and released, and its state is acknowledged.
HELD = [QUERY, "flush a", "deliver 1", "flush b", "deliver 2"]
DROPPED = "event 1 held and released -> held and dropped"


class Held(Tries):
    """What became of held packets."""

    def test_a_packet_that_is_held_and_dropped(self) -> None:
        # Without its acknowledgement the SYN is still held when b's update comes, which drops it. The states are as they were.
        lines = self.lines(DEFERRED, "--faults", "lose", "--from", "5", "--to", "5", setup=DEFER)
        self.assertEqual(
            lines[3:7],
            [
                f"1  1 fault: {DROPPED}",
                "   frame 2 lost (event 5)",
                "   event 6 could not have come: it answers event 1, whose packet was held and dropped",
                "   deliver 3: taken 1",
            ],
        )
        self.assertTrue(lines[7].endswith("; its held packet is dropped"))
        self.assertEqual(len(lines), 8)

    def test_a_packet_that_is_still_held(self) -> None:
        lines = self.lines(HELD, "--faults", "lose", setup=DEFER)
        still = "event 1 held and released -> still held; at the end"
        # (only frame 1 brings b the state; while it is not acknowledged, its flag says that it waits)
        self.assertEqual(
            [line for line in lines if line[:1].isdigit()],
            [f"1  1 fault: {still} only on a: {FLOW}", f"2  1 fault: {still} changed on a (flags): {FLOW}"],
        )
        self.assertTrue(lines[6].startswith("     `defer` is on: the packet of a new state waits on its way out"))

    def test_each_event_that_ends_it(self) -> None:
        # Frame 2 is lost, and then: the packet is due; its state is purged, killed, cleared; the node restarts.
        for events, fate in (
            (["tick a 20", "release a"], "held and released"),
            (["tick a 61000", "purge a"], "held and dropped"),
            (["kill a 1.1"], "held and dropped"),
            (["clear a"], "held and dropped"),
            (["restart a"], "held and dropped"),
            ([QUERY], "held and released"),
            (["tick a 1"], "still held"),
        ):
            lab = self.lab([*HELD[:4], "lose 2", *events], DEFER)
            branch = lab.branch("main")
            with lab.beside(branch) as other:
                played = Player(other, branch, course_of(lab, branch)).play(())
            place = 0 if fate == "still held" else 5 + len(events)
            self.assertEqual({number: (*it,) for number, it in played.fates.items()}, {1: (fate, place)}, events)

    def test_a_frame_that_releases_one_packet_and_drops_another(self) -> None:
        # The acknowledgement of the first flow is lost, and its state killed at b: frame 4 deletes it at a, and acknowledges the second.
        second = QUERY.replace(":1000", ":1001")
        events = [QUERY, "flush a", "deliver 1", "flush b", "lose 2", second, "flush a", "deliver 3", "kill b 1.1", "flush b", "deliver 4"]
        lab = self.lab(events, DEFER)
        branch = lab.branch("main")
        with lab.beside(branch) as other:
            played = Player(other, branch, course_of(lab, branch)).play(())
        fates = {number: (*it,) for number, it in played.fates.items()}
        self.assertEqual(fates, {1: ("held and dropped", 11), 6: ("held and released", 11)})

    def test_the_packet_that_makes_room(self) -> None:
        # One packet may be held: the second one of a new flow lets the first go.
        second = QUERY.replace(":1000", ":1001")
        heads = self.heads([QUERY, second], "--faults", "skip", "--from", "2", setup=f"set held 1\n{DEFER}")
        # (at the end both are acknowledged, in one frame)
        self.assertEqual(heads, [f"1  1 fault: at the end on neither node: {FLOW.replace(':1000', ':1001')}"])


class Causes(Tries):
    """Packets that could not have come."""

    def marks(self, events: List[str], *words: str, setup: str = DEFER) -> List[str]:
        return [line.strip() for line in self.lines(events, *words, setup=setup) if "could not have come:" in line]

    def test_an_answer_to_a_packet_that_waits(self) -> None:
        # Frame 2 comes after the answer: the SYN goes, but too late for it.
        lines = self.lines(DEFERRED, "--faults", "late", "--from", "5", setup=DEFER)
        self.assertEqual(
            lines[3:],
            [
                "1  2 faults: every packet and state as it was, but 1 packet could not have come",
                "   frame 2 late by 1 event (event 5); frame 2 late by 2 events (event 5)",
                "   event 6 could not have come: it answers event 1, whose packet was still held then",
            ],
        )

    def test_an_answer_that_lets_the_packet_go(self) -> None:
        # Node a takes the answer itself, with which its held SYN goes out. That is no cause of what follows.
        events = [*DEFERRED[:5], SYN_ACK.replace("packet b", "packet a"), ACK, SYN_ACK.replace("packet b", "packet a")]
        self.assertEqual(
            self.marks(events, "--faults", "lose"),
            [
                # (frame 1 or frame 2 is lost, which is one group)
                "events 6, 8 could not have come: they answer event 1, whose packet was still held then",
                "event 7 could not have come: it answers event 6, which could not have come either",
            ],
        )

    def test_an_answer_to_what_is_left_out_or_dropped(self) -> None:
        events = [SYN, SYN_ACK.replace("packet b", "packet a"), ACK]
        self.assertEqual(
            self.marks(events, "--faults", "skip", setup=SETUP),
            [
                "event 2 could not have come: it answers event 1, which is left out",
                "event 3 could not have come: it answers event 2, which could not have come either",
                "event 3 could not have come: it answers event 2, which is left out",
            ],
        )
        # (a restarts before the answer, which is then dropped; nobody acknowledges it)
        marks = self.marks(events, "--faults", "restart", "--from", "2", "--to", "2", setup=SETUP)
        self.assertEqual(marks, ["event 3 could not have come: it answers event 2, whose packet was dropped"])

    def test_what_is_no_answer(self) -> None:
        # Another query may come without an answer to the first, and so may anything of a connection that is older than the run.
        events = [QUERY, ANSWER.replace("packet b", "packet a"), QUERY]
        self.assertEqual(self.marks(events, "--faults", "skip", "--from", "2", setup=SETUP), [])
        loose = "rule a pass out flags any\nopen\n"
        events = [ACK, SYN_ACK.replace("packet b", "packet a").replace("SA 0", "A 1")]
        self.assertEqual(self.marks(events, "--faults", "skip", setup=loose), [])

    def test_an_answer_to_what_the_run_let_go_by_then(self) -> None:
        # In the run the answer came before the query went out, too.
        events = [QUERY, "flush a", "deliver 1", ANSWER, "flush b", "deliver 2"]
        self.assertEqual(self.marks(events, "--faults", "late,lose"), [])

    def test_the_ends_that_a_packet_is_translated_to(self) -> None:
        # The answer is for the translated end; the state is the same.
        nat = "rule a pass out nat 203.0.113.1:7000\nopen\n"
        events = [QUERY, "packet a in udp 192.0.2.9:53 203.0.113.1:7000 80"]
        self.assertEqual(
            self.marks(events, "--faults", "skip", "--to", "1", setup=nat),
            ["event 2 could not have come: it answers event 1, which is left out"],
        )


class Flushing(Tries):
    """What a fault gives a node to send is sent before the next event of the run."""

    # The frame with the state is lost. Its update is short, so that b has to ask for the state.
    EVENTS = [
        SYN, "flush a", "deliver 1", SYN_ACK.replace("packet b", "packet a"), ACK, "flush a", "deliver 2",
        f"packet b in tcp {SERVER} {CLIENT} A 1 1 60000 100",
    ]

    def test_a_request_is_answered(self) -> None:
        heads = self.heads(self.EVENTS, "--faults", "lose", "--to", "3")
        self.assertEqual(len(heads), 1)
        self.assertTrue(heads[0].startswith("1  1 fault: event 8 pass -> drop block; at the end changed on a and b (numbers)"), heads)
        heads = self.heads(self.EVENTS, "--faults", "lose", "--to", "3", "--flushing")
        self.assertEqual(heads, ["1  1 fault: every packet and state as it was"])

    def test_the_events_that_come_in_between(self) -> None:
        lab = self.lab(self.EVENTS)
        branch = lab.branch("main")
        course = course_of(lab, branch)
        with lab.beside(branch) as other:
            played = Player(other, branch, course, flushes=True).play((faults_of(course, ("lose",), 3, 3)[0],))
        # b asks in frame 3, and a answers in frame 4.
        self.assertEqual([line for number, line in played.steps if not number], ["flush b", "deliver 3", "flush a", "deliver 4"])
        self.assertEqual([line for _, line in played.steps][:5], ["lose 1", *self.EVENTS[3:7]])
        self.assertEqual((played.steps[-1][1], played.places[8]), (self.EVENTS[7], 12))

    def test_what_the_run_itself_lets_wait(self) -> None:
        # Here a has its state to send when the answer comes to b, in the run too: nothing is sent before it.
        events = [QUERY, "tick a 1", ANSWER, "flush a", "deliver 1"]
        self.assertEqual(self.lines(events, "--faults", "clock", "--flushing"), self.lines(events, "--faults", "clock"))
        # (with the flush it goes; left out, it is sent all the same)
        heads = self.heads(events, "--faults", "skip", "--from", "4", "--flushing")
        self.assertEqual(heads, ["1  1 fault: every packet and state as it was"])

    def test_a_restarted_node_gets_its_states(self) -> None:
        # b restarts before the answer: it asks at once, and a's update takes its turn.
        events = [QUERY, "flush a", "deliver 1", ANSWER]
        heads = self.heads(events, "--faults", "restart", "--from", "4", "--flushing")
        self.assertEqual(heads, ["1  2 faults: every packet and state as it was"])

    def test_nodes_that_go_on_answering_each_other(self) -> None:
        tcp = f"packet a out tcp {CLIENT} {SERVER}"
        events = [SYN, "flush a", "deliver 1", SYN_ACK, "flush b", "deliver 2", f"{tcp} PA 1 1 60000 400", "flush a"]
        events += ["deliver 3", f"packet b in tcp {SERVER} {CLIENT} A 1 401 60000 60000", "flush b", "deliver 4", "tick a 1", "tick a 1"]
        lines = self.lines(events, "--faults", "late", "--from", "9", "--to", "9", "--flushing")
        self.assertTrue(any("the nodes keep answering each other; the end was not compared" in line for line in lines), lines)

    def test_a_refusal_is_explained_where_it_was(self) -> None:
        # Without the flush of a, the state is sent before the delivery; so the flush of b is as in the run.
        lines = self.lines(HELD, "--faults", "skip", "--from", "2", "--to", "2", "--flushing", setup=DEFER)
        self.assertEqual(lines[3], "1  1 fault: every packet and state as it was, but refused: event 4 (flush b)")
        self.assertEqual(lines[5], "   flush b: refused 2 NothingPending")


if __name__ == "__main__":
    unittest.main()
