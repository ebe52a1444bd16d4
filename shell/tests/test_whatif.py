"""`whatif`: which faults a run has, how a variant is played, and which faults change the same. The wanted groups are worked out by hand."""
from __future__ import annotations

import unittest
from typing import List, Sequence
from unittest.mock import patch

from ..console.colours import PLAIN
from ..link.laboratory import Laboratory, Unknown
from ..whatif import tries
from ..whatif.answers import Answer, answer
from ..whatif.asked import read
from ..whatif.faults import KINDS, Course, faults_of, pairs_of
from ..whatif.plays import Played, Player
from ..whatif.tries import course_of
from . import TOP, laboratory

SETUP = "rule a block any\nrule a pass out\nrule b block any\nrule b pass out\nopen\n"
QUERY = "packet a out udp 10.0.0.1:1000 192.0.2.9:53 40"
ANSWER = "packet b in udp 192.0.2.9:53 10.0.0.1:1000 80"
FLOW = "udp 10.0.0.1:1000 -> 192.0.2.9:53"
# A query, the frame that tells of its state, and the answer.
ARRIVES = [QUERY, "flush a", "deliver 1", ANSWER]
LOST = [QUERY, "flush a", "lose 1", ANSWER]
# Two frames, of which the second has an update.
TWO = [QUERY, "flush a", "deliver 1", "packet a in udp 192.0.2.9:53 10.0.0.1:1000 80", "flush a", "deliver 2"]


def lab_of(events: Sequence[str], setup: str = SETUP) -> Laboratory:
    return laboratory(setup + "".join(f"step main {event}\n" for event in events))


def quiet_progress(done: int, total: int) -> None:
    pass


class Tries(unittest.TestCase):
    def lab(self, events: Sequence[str], setup: str = SETUP) -> Laboratory:
        lab = lab_of(events, setup)
        self.addCleanup(lab.close)
        return lab

    def course(self, events: Sequence[str], setup: str = SETUP) -> Course:
        lab = self.lab(events, setup)
        return course_of(lab, lab.branch("main"))

    def answer(self, events: Sequence[str], *words: str, setup: str = SETUP) -> Answer:
        lab = self.lab(events, setup)
        return answer(lab, lab.branch("main"), read(words)[1], PLAIN, quiet_progress, lambda: "")

    def lines(self, events: Sequence[str], *words: str, setup: str = SETUP) -> List[str]:
        return self.answer(events, *words, setup=setup).lines

    def heads(self, events: Sequence[str], *words: str, setup: str = SETUP) -> List[str]:
        """The first line of each group."""
        return [line for line in self.lines(events, *words, setup=setup) if line[:1].isdigit()]


class Faults(Tries):
    """The faults of a run."""

    def names(self, course: Course, *kinds: str) -> List[str]:
        return [it.name for it in faults_of(course, kinds or tuple(KINDS), 1, len(course))]

    def test_a_frame_that_is_delivered(self) -> None:
        course = self.course(TWO)
        self.assertEqual(self.names(course, "lose"), ["frame 1 lost (event 3)", "frame 2 lost (event 6)"])
        self.assertEqual(self.names(course, "twice"), ["frame 1 twice (event 3)", "frame 2 twice (event 6)"])
        # (3 events late is last, and so is 4)
        self.assertEqual(self.names(course, "late"), ["frame 1 late by 1 event (event 3)", "frame 1 late by 2 events (event 3)"])
        self.assertEqual(self.names(course, "last"), ["frame 1 last (event 3)"])
        self.assertEqual(self.names(self.course(LOST), "last"), ["frame 1 not lost, but last (event 3)"])

    def test_a_frame_that_is_in_flight_after_the_last_event(self) -> None:
        course = self.course([QUERY, "flush a"])
        self.assertEqual(self.names(course, "lose", "late", "last"), ["frame 1 lost (sent by event 2)"])
        self.assertEqual(faults_of(course, ("lose",), 1, 1), [])

    def test_events_of_nodes_are_left_out(self) -> None:
        course = self.course([*ARRIVES, "tick a 61000", "purge a"])
        self.assertEqual(
            self.names(course, "skip"),
            [
                "without event 1 (packet a out udp 10.0.0.1:1000 192.0.2.9:53)",
                "without event 2 (flush a)",
                "without event 4 (packet b in udp 192.0.2.9:53 10.0.0.1:1000)",
                "without event 6 (purge a)",
            ],
        )

    def test_what_happens_between_events(self) -> None:
        course = self.course(ARRIVES)
        self.assertEqual(self.names(course, "restart"), [f"{node} restarts before event {number}" for node in "ab" for number in range(1, 5)])
        self.assertEqual(self.names(course, "clock")[-1], "the clock of b advances by 61 s before event 4")
        self.assertEqual(len(faults_of(course, ("restart", "clock"), 2, 3)), 8)

    def test_the_faults_of_the_run_itself(self) -> None:
        events = [QUERY, "flush a", "repeat 1", "cut 1 60", "lose 2", "deliver 1", "clear b", "restart a"]
        self.assertEqual(
            self.names(self.course(events), "undone"),
            [
                "frame 1 not repeated (event 3)",
                "frame 1 not cut (event 4)",
                "frame 2 not lost (event 5)",
                "without event 7 (clear b)",
                "without event 8 (restart a)",
            ],
        )
        # (what was lost is not lost again)
        self.assertEqual(self.names(self.course(events), "lose"), ["frame 1 lost (event 6)"])

    def test_all_of_a_small_run(self) -> None:
        # Frame 1 lost, twice, last; three events left out; four places for restarts and for clocks of two nodes.
        self.assertEqual(len(self.names(self.course(ARRIVES))), 1 + 1 + 1 + 3 + 8 + 8)

    def test_two_faults_that_cannot_both_be_make_no_pair(self) -> None:
        course = self.course(ARRIVES)
        one_frame = faults_of(course, ("lose", "twice", "last"), 1, 4)
        self.assertEqual(list(pairs_of(one_frame)), [])
        # Of frame 1 lost and last with each of three events left out.
        both = faults_of(course, ("lose", "last", "skip"), 1, 4)
        self.assertEqual(len(list(pairs_of(both))), 2 * 3 + 3)


class Plays(Tries):
    """How variants are played."""

    def played(self, events: Sequence[str], kind: str, at: int, setup: str = SETUP, more: int = 0) -> Played:
        """How the fault of this kind at an event goes, or one of those behind it."""
        lab = self.lab(events, setup)
        branch = lab.branch("main")
        course = course_of(lab, branch)
        with lab.beside(branch) as other:
            return Player(other, branch, course).play((faults_of(course, (kind,), at, at)[more],))

    def test_a_repeat_before_a_delivery_moves_later_tickets(self) -> None:
        played = self.played(TWO, "twice", 3)
        self.assertEqual(played.place, 2)
        self.assertEqual([line for _, line in played.steps], ["repeat 1", "deliver 1", "deliver 2", TWO[3], "flush a", "deliver 3"])
        self.assertEqual([number for number, _ in played.steps], [0, 3, 0, 4, 5, 6])
        self.assertEqual((played.places[3], played.places[6]), (4, 8))
        self.assertEqual(played.refused, [])

    def test_what_a_flush_left_out_would_have_sent_is_not_delivered(self) -> None:
        played = self.played(TWO, "skip", 2)
        self.assertEqual([line for _, line in played.steps], [TWO[3], "flush a", "deliver 1"])
        self.assertEqual(played.without_subject, [3])

    def test_a_frame_that_is_late(self) -> None:
        played = self.played(TWO, "late", 3, more=1)
        self.assertEqual([line for _, line in played.steps], [TWO[3], "flush a", "deliver 1", "deliver 2"])
        self.assertEqual([number for number, _ in played.steps], [4, 5, 3, 6])

    def test_a_copy_that_was_not_made_is_not_delivered(self) -> None:
        played = self.played([QUERY, "flush a", "repeat 1", "deliver 1", "deliver 2", TWO[3], "flush a", "deliver 3"], "undone", 3)
        self.assertEqual([line for _, line in played.steps], ["deliver 1", TWO[3], "flush a", "deliver 2"])
        self.assertEqual(played.without_subject, [5])

    def test_a_refused_event_did_not_happen(self) -> None:
        # Without the query there is nothing to flush, and no frame.
        played = self.played(ARRIVES, "skip", 1)
        self.assertEqual([(it.number, it.line, it.why) for it in played.refused], [(2, "flush a", "NothingPending")])
        self.assertEqual((played.without_subject, played.places[4]), ([3], 1))

    def test_the_state_to_be_killed_is_that_of_the_same_packets(self) -> None:
        second = QUERY.replace(":1000", ":1001")
        # Without the first packet the second makes 1.1, and not 1.2.
        played = self.played([QUERY, second, "kill a 1.2"], "skip", 1)
        self.assertEqual([line for _, line in played.steps], [second, "kill a 1.1"])
        played = self.played([QUERY, second, "kill a 1.2"], "skip", 2)
        self.assertEqual(([line for _, line in played.steps], played.without_subject), ([], [3]))
        # After a restart the next packet of the flow makes 3.1.
        played = self.played([QUERY, QUERY, "kill a 1.1"], "restart", 2)
        self.assertEqual([line for _, line in played.steps], ["restart a", QUERY, "kill a 3.1"])

    def test_all_is_told_at_the_end(self) -> None:
        played = self.played([QUERY, "flush a"], "skip", 2)
        self.assertEqual(played.until_quiet, ["flush a", "deliver 1"])
        self.assertEqual([len(node.states) for node in played.pair.nodes.values()], [1, 1])

    def test_many_events_are_sent_in_parts(self) -> None:
        packets = [QUERY.replace(":1000", f":{port}") for port in range(1000, 1300)]
        played = self.played([*packets, "flush a", "deliver 1"], "skip", 1, setup=f"set states 400\nset mtu 9000\nset queue 400\n{SETUP}")
        self.assertEqual((len(played.steps), played.refused), (301, []))

    def test_a_variant_goes_as_its_lines_go_in_a_run_of_their_own(self) -> None:
        with open(f"{TOP}/examples/lost-bulk-frame.pfl", encoding="utf-8") as script:
            lab = laboratory("\n".join(line for line in script.read().splitlines() if not line.startswith("#")))
        self.addCleanup(lab.close)
        branch = lab.branch("main")
        course = course_of(lab, branch)
        with lab.beside(branch) as other:
            player = Player(other, branch, course)
            for fault in faults_of(course, tuple(KINDS), 1, len(course))[::3]:
                played = player.play((fault,))
                lines = [*branch.events[: played.place], *(line for _, line in played.steps)]
                outcomes = dict(zip((number for number, _ in played.steps), lab.outcomes(lines)[played.place :]))
                outcomes.pop(0, None)
                self.assertEqual(played.came, outcomes, fault.name)

    def test_a_branch_may_have_the_name_of_a_variants(self) -> None:
        lab = self.lab(ARRIVES)
        lab.ask("fork main 4 variant")
        lines = answer(lab, lab.branch("variant"), read(["--faults", "lose"])[1], PLAIN, quiet_progress, lambda: "").lines
        self.assertEqual(lines[0], "variant, 4 events: 1 single fault (lose), each by itself")


class Groups(Tries):
    """Which faults change the same."""

    def test_a_frame_that_everything_hangs_on(self) -> None:
        other = "at the end changed on a and b (levels, class)"
        self.assertEqual(
            self.lines(ARRIVES),
            [
                "main, 4 events: 22 single faults, each by itself",
                "as it was, once nothing is pending or in flight: a and b agree in 1 state",
                "",
                f"1  1 fault: event 4 pass -> drop block; at the end only on a: {FLOW}",
                "   frame 1 lost (event 3)",
                f"   {ANSWER}: drop block",
                "     rule 0 of b (block any) decided: it is the last rule that matches",
                f"     node a has state 1.1 ({FLOW}) for this flow; b does not: its insertion was lost in frame 1 (event 3)",
                "",
                # The frame comes after the answer, of which the state has then nothing.
                f"2  3 faults: event 4 pass -> drop block; {other}: {FLOW}",
                "   frame 1 last (event 3); without event 2 (flush a); b restarts before event 4",
                f"   {ANSWER}: drop block",
                "     rule 0 of b (block any) decided: it is the last rule that matches",
                f"     node a has state 1.1 ({FLOW}) for this flow; b does not: frame 1, which brings it (event 2), is still in flight",
                "",
                # The state is lost before it is sent.
                f"3  1 fault: event 4 pass -> drop block; at the end on neither node: {FLOW}",
                "   a restarts before event 2",
                f"   {ANSWER}: drop block",
                "     rule 0 of b (block any) decided: it is the last rule that matches",
                "",
                f"4  1 fault: event 4 pass -> drop block; at the end on neither node: {FLOW}",
                "   without event 1 (packet a out udp 10.0.0.1:1000 192.0.2.9:53)",
                "   event 4 could not have come: it answers event 1, which is left out",
                f"     as it was on a and b: 1.1  {FLOW}  MULTIPLE:SINGLE",
                "   refused there: event 2 (flush a): NothingPending",
                "",
                f"5  1 fault: {other}: {FLOW}",
                "   without event 4 (packet b in udp 192.0.2.9:53 10.0.0.1:1000)",
                f"     on a and b: 1.1  {FLOW}  source level MULTIPLE -> SINGLE, destination level SINGLE -> NO_TRAFFIC,"
                " class udp.single -> udp.first",
                "",
                "6  15 faults: every packet and state as it was",
                "   frame 1 twice (event 3); a restarts before event 1; a restarts before events 3 to 4; and 11 more",
            ],
        )

    def test_a_loss_that_had_not_been(self) -> None:
        lines = self.lines(LOST, "--faults", "undone")
        self.assertEqual(lines[1], "as it was, once nothing is pending or in flight: a and b differ in 1 state: 1 only on a, 0 only on b, 0 differ")
        self.assertEqual(lines[3:5], [f"1  1 fault: event 4 drop block -> pass; at the end on both nodes, not only on a: {FLOW}", "   frame 1 not lost (event 3)"])
        self.assertEqual(lines[5], f"   {ANSWER}: pass 1.1")

    def test_a_state_under_another_name_is_no_change(self) -> None:
        # If a restarts before anything comes, the state is 3.1 in place of 1.1.
        self.assertEqual(self.heads(ARRIVES, "--faults", "restart", "--to", "1"), ["1  2 faults: every packet and state as it was"])
        # Without the first query the second one's state is 1.1 in place of 1.2, and is no change.
        second = QUERY.replace(":1000", ":1001")
        heads = self.heads([QUERY, second, "flush a", "deliver 1", second], "--faults", "skip", "--to", "1")
        self.assertEqual(heads, [f"1  1 fault: at the end on neither node: {FLOW}"])

    def test_states_that_are_apart_come_after_verdicts(self) -> None:
        second = QUERY.replace(":1000", ":1001")
        # With the frame lost only a has the first flow; without the second query no node has its flow.
        heads = self.heads([*ARRIVES[:3], second], "--faults", "lose,skip", "--from", "2")
        gone = f"at the end on neither node: {FLOW}"
        self.assertEqual(
            heads,
            [
                f"1  1 fault: {gone.replace(':1000', ':1001')}",
                f"2  1 fault: at the end only on a: {FLOW}",
                "3  1 fault: every packet and state as it was",
            ],
        )
        # Left out, the first of two packets that one rule may have a state of lets the second one pass.
        heads = self.heads([QUERY, "flush a", "deliver 1", second], "--faults", "lose,skip", setup="rule a pass out max 1\nopen\n")
        new = f"at the end new on both nodes: {FLOW.replace(':1000', ':1001')}"
        self.assertEqual(
            heads,
            [
                f"1  1 fault: event 4 drop max -> pass; {new}; {gone}",
                f"2  1 fault: at the end only on a: {FLOW}",
                "3  2 faults: every packet and state as it was",
            ],
        )
        lines = self.lines([*ARRIVES[:3], "tick a 1000"], "--faults", "lose")
        self.assertEqual(lines[5], "   a and b differ in 1 state: 1 only on a, 0 only on b, 0 differ")
        self.assertEqual(lines[6], f"     only on a: 1.1  {FLOW}  SINGLE:NO_TRAFFIC  expires in 59 s")

    def test_a_state_that_is_gone_from_both_nodes(self) -> None:
        # The frame with the state is lost, and then the node that made it restarts: it asks the other one, which has nothing.
        lines = self.lines([*ARRIVES[:3], "restart a"], "--faults", "lose,undone")
        self.assertEqual(lines[1], "as it was, once nothing is pending or in flight: a and b agree in 1 state")
        self.assertEqual(
            lines[3:],
            [
                f"1  1 fault: at the end on neither node: {FLOW}",
                "   frame 1 lost (event 3)",
                f"     as it was on a and b: 1.1  {FLOW}  SINGLE:NO_TRAFFIC",
                "",
                "2  1 fault: every packet and state as it was",
                "   without event 4 (restart a)",
                # (by `kernel rule` a's state has no rule after the restart, and b's has one)
                f"   by kernel all: at the end the same on a and b: {FLOW}",
            ],
        )

    def test_a_state_that_a_purge_takes(self) -> None:
        # a's clock is 61 s on when it purges: the state has expired, and its deletion takes it from b.
        heads = self.heads([*ARRIVES[:3], "purge a"], "--faults", "clock", "--from", "4")
        self.assertEqual(heads, [f"1  1 fault: at the end on neither node: {FLOW}", "2  1 fault: every packet and state as it was"])

    def test_a_node_that_waits_for_a_bulk_update(self) -> None:
        # b restarts; its request comes to a, whose answer is one frame.
        events = [*ARRIVES[:3], "restart b", "flush b", "deliver 2", "turn a", "flush a", "deliver 3"]
        lines = self.lines(events, "--faults", "lose", "--from", "6")
        # (the request lost, no update is begun; its answer lost, the state is lost with it)
        self.assertEqual(
            [line for line in lines if line[:1].isdigit()],
            [f"1  2 faults: at the end only on a: {FLOW}; at the end b waits for a bulk update"],
        )

    def test_a_state_that_is_otherwise_on_one_node(self) -> None:
        # Node b has other rules. Once a has its state back from b, it is of no rule of a's.
        lines = self.lines(ARRIVES[:3], "--faults", "restart", "--from", "3", setup="rule a pass out\nopen\n")
        head = f"1  1 fault: at the end changed on a (rule): {FLOW}"
        self.assertEqual(lines[3:6], [head, "   a restarts before event 3", f"     on a: 1.1  {FLOW}  rule 0 -> none"])

    def test_refused_events_come_before_what_is_as_it_was(self) -> None:
        # With `defer`: b has nothing to acknowledge yet if frame 1 comes after b's flush, and does so at the end.
        events = [*ARRIVES[:3], "flush b", "deliver 2"]
        lines = self.lines(events, "--faults", "late,twice", setup=f"set defer 1\n{SETUP}")
        self.assertEqual(lines[3:5], ["1  1 fault: every packet and state as it was, but refused: event 4 (flush b)", "   frame 1 late by 1 event (event 3)"])
        self.assertEqual(lines[5], "   flush b: refused 2 NothingPending")
        self.assertEqual(lines[8], "2  2 faults: every packet and state as it was")

    def test_a_packet_that_is_refused_is_dropped(self) -> None:
        # One entry may be pending; the restart of a lists a request, and no packet can queue its state any more.
        lines = self.lines([QUERY], "--faults", "restart", setup=f"set queue 1\n{SETUP}")
        head = f"1  1 fault: event 1 pass -> refused QueueFull; at the end on neither node: {FLOW}"
        self.assertEqual(lines[3:6], [head, "   a restarts before event 1", f"   {QUERY}: refused 5 QueueFull"])
        self.assertIn("refused there", lines[-4])
        # If b restarts, a has no room for the start of the update that it asks for and for the state as well.
        self.assertEqual(lines[-2], "2  1 fault: at the end `turn a` is refused; the end was not compared")

    def test_a_fault_that_is_refused_itself(self) -> None:
        # The link carries one frame, so that there is no room for its copy.
        lines = self.lines(ARRIVES, "--faults", "twice", setup=f"set frames 1\n{SETUP}")
        self.assertEqual(lines[3:6], ["1  1 fault: every packet and state as it was, but refused: the fault itself", "   frame 1 twice (event 3)", "   repeat 1: refused 4 LinkFull"])
        self.assertEqual(lines[6], "     the link carries 1 frame, and the limit `frames` is 1")

    def test_nodes_that_go_on_answering_each_other(self) -> None:
        with open(f"{TOP}/examples/asymmetric-routing.pfl", encoding="utf-8") as script:
            lab = laboratory("\n".join(line for line in script.read().splitlines() if not line.startswith("#")))
        self.addCleanup(lab.close)
        lines = answer(lab, lab.branch("main"), read(["--faults", "last", "--from", "10", "--to", "10"])[1], PLAIN, quiet_progress, lambda: "").lines
        self.assertEqual(lines[3], "1  1 fault: at the end the nodes keep answering each other; the end was not compared")
        self.assertTrue(lines[5].startswith("   by kernel all: "), lines[5])
        self.assertNotIn("keep answering", lines[5])
        # One has the destination end in a higher level, and the other with a later number: so each finds the other's stale.
        self.assertIn("the destination end came as SYN_SENT, and is ESTABLISHED here", lines[8])
        self.assertIn("the destination end's lo 60001 here is after the 1 that came", lines[13])

    def test_a_run_that_comes_to_rest_no_more(self) -> None:
        client, server, tcp = "10.0.0.17:51512", "192.0.2.80:443", "packet a out tcp"
        events = [f"{tcp} {client} {server} S 0 0 60000 0", "flush a", "deliver 1", f"packet b in tcp {server} {client} SA 0 1 60000 0"]
        events += ["flush b", "deliver 2", f"{tcp} {client} {server} PA 1 1 60000 400", "flush a"]
        # The request waits in frame 3 while the answer comes to b: then each node has a newer part of the server's end.
        events += [f"packet b in tcp {server} {client} A 1 401 60000 60000", "deliver 3"]
        lines = self.lines(events, "--faults", "skip", "--from", "9")
        self.assertEqual(lines[1], "as it was, at the end the nodes keep answering each other")
        rest = "the end was not compared: the run does not come to rest: at the end the nodes keep answering each other"
        self.assertEqual(lines[3], f"1  1 fault: at the end nothing is pending or in flight any more; {rest}")
        self.assertEqual(lines[4], f"   without event 9 (packet b in tcp {server} {client})")
        # (of another fault it is not known whether anything changes)
        lines = self.lines(events, "--faults", "twice", "--from", "6", "--to", "6")
        self.assertEqual(lines[3], f"1  1 fault: no packet judged differently; {rest}")

    def test_a_run_in_which_what_is_in_flight_cannot_arrive(self) -> None:
        # One entry may be pending: frame 2, b's request, would queue a second one at a, which has its clear to send. Doubled, the
        # first of the copies is refused all the same, and that is no change.
        events = [*ARRIVES[:3], "clear a", "restart b", "flush b"]
        lines = self.lines(events, "--faults", "lose,twice", setup="set queue 1\nrule a pass out\nrule b pass out\nopen\n")
        self.assertEqual(lines[1], "as it was, at the end `deliver 2` is refused")
        rest = "the end was not compared: the run does not come to rest: at the end `deliver 2` is refused"
        self.assertEqual(
            [line for line in lines if line[:1].isdigit()],
            [
                f"1  1 fault: at the end nothing is pending or in flight any more; {rest}",
                f"2  3 faults: no packet judged differently; {rest}",
            ],
        )
        self.assertEqual(lines[4], "   frame 2 lost (sent by event 6)")

    def test_the_same_words_give_the_same_answer(self) -> None:
        self.assertEqual(self.lines(TWO), self.lines(TWO))

    def test_the_pair_is_as_it_was(self) -> None:
        lab = self.lab(ARRIVES)
        before, last = lab._quietly("show main"), lab.last
        answer(lab, lab.branch("main"), read([])[1], PLAIN, quiet_progress, lambda: "")
        self.assertEqual((lab._quietly("show main"), lab.names(), lab.last), (before, ["main"], last))


class Options(Tries):
    """What is tried, and what is shown."""

    def test_kinds_and_events(self) -> None:
        self.assertEqual(self.lines(TWO, "--faults", "lose,late", "--from", "3", "--to", "4")[0], "main, 6 events: 3 single faults at events 3 to 4 (lose, late), each by itself")

    def test_watch(self) -> None:
        # (without the query, the answer that is dropped could not have come)
        self.assertEqual([head[0] for head in self.heads(ARRIVES, "--watch", "drop")], ["1", "2", "3"])
        self.assertEqual([head[0] for head in self.heads(ARRIVES, "--watch", "gone")], ["3", "4"])
        self.assertEqual(self.lines(ARRIVES, "--watch", "pass")[-1], "no fault changes that")
        self.assertEqual([head[0] for head in self.heads(ARRIVES, "--watch", "apart")], ["1"])
        self.assertEqual([head[0] for head in self.heads(ARRIVES, "--watch", "pass,4")], ["1", "2", "3", "4"])
        self.assertEqual(self.heads(ARRIVES, "--watch", "1"), [])
        self.assertEqual(self.heads(LOST, "--watch", "pass", "--faults", "undone")[0][:9], "1  1 faul")

    def test_one_group_has_all_its_faults_and_the_whole_reason(self) -> None:
        lines = self.lines(ARRIVES, "--only", "2")
        head = f"2  3 faults: event 4 pass -> drop block; at the end changed on a and b (levels, class): {FLOW}"
        self.assertEqual([line for line in lines if line[:1].isdigit()], [head])
        self.assertEqual(lines[4], "   frame 1 last (event 3); without event 2 (flush a); b restarts before event 4")
        with self.assertRaisesRegex(Unknown, "there is no group 9: they are numbered from 1 to 6"):
            self.lines(ARRIVES, "--only", "9")

    def test_what_happens_before_one_event_after_another_has_one_name(self) -> None:
        lines = self.lines(ARRIVES, "--faults", "restart", "--only", "3")
        self.assertEqual(lines[4], "   a restarts before event 1; a restarts before events 3 to 4; b restarts before events 1 to 3")

    def test_pairs(self) -> None:
        # The loss alone drops the answer, and the state stays on a alone. If a restarts as well, its request is lost with the frame if
        # it is in there, and the state is new if the query comes after that, and else gone. If b restarts before the answer, it asks for
        # all states, and gets this one after the answer.
        lines = self.lines(ARRIVES, "--pairs", "--faults", "lose,restart")
        self.assertEqual(lines[0], "main, 4 events: 9 single faults (lose, restart), two together: 36 pairs")
        dropped, waits = "event 4 pass -> drop block; at the end", "; at the end a waits for a bulk update"
        self.assertEqual(
            [line for line in lines[:-1] if line[:1].isdigit()],
            [
                f"1  1 pair: {dropped} only on a: {FLOW}{waits}",
                # (lost, and a restarts before event 2; or it does so, and the end of its update waits at b when that restarts)
                f"2  2 pairs: {dropped} on neither node: {FLOW}{waits}",
                # (lost, or b restarts before event 4; and a restarts before event 3 or 4)
                f"3  4 pairs: {dropped} on neither node: {FLOW}",
                # (lost, and b restarts before event 1, 2 or 3; before event 4 it drops the answer by itself)
                f"4  3 pairs: {dropped} changed on a and b (levels, class): {FLOW}",
                f"5  1 pair: {dropped} changed on a and b (levels, class): {FLOW}{waits}",
            ],
        )
        self.assertEqual(lines[-1], "25 more pairs change what one of the two changes alone, or each of them alone")

    def test_a_packet_that_one_fault_of_a_pair_leaves_out_is_no_change(self) -> None:
        # Without the query both answers are dropped. Without the query and one answer, the other one is. Without both answers the state
        # has heard of none, which either answer alone makes up for.
        lines = self.lines([QUERY, "packet a in udp 192.0.2.9:53 10.0.0.1:1000 80", "packet a in udp 192.0.2.9:53 10.0.0.1:1000 90"], "--pairs")
        self.assertEqual(lines[0], "main, 3 events: 3 single faults, two together: 3 pairs")
        self.assertEqual(lines[3], f"1  1 pair: at the end changed on a and b (levels, class): {FLOW}")
        self.assertEqual(lines[-1], "2 more pairs change what one of the two changes alone, or each of them alone")
        self.assertEqual(self.lines([QUERY, "tick a 1"], "--pairs", "--faults", "skip")[-1], "nothing was tried")

    def test_pairs_are_without_restarts_and_clocks_by_default(self) -> None:
        # Six single faults: three of frame 1, and three events left out.
        self.assertEqual(self.lines(ARRIVES, "--pairs")[0], "main, 4 events: 6 single faults, two together: 12 pairs")

    def test_events_that_are_not_there(self) -> None:
        for words, told in (
            (("--from", "5"), "main has no event 5: those that stand are counted from 1 to 4"),
            (("--to", "9"), "main has no event 9"),
            (("--from", "3", "--to", "2"), "there are no events from 3 to 2"),
        ):
            with self.assertRaisesRegex(Unknown, told):
                self.lines(ARRIVES, *words)

    def test_words_that_are_not_understood(self) -> None:
        for words, told in (
            (["--faults", "loose"], r"`loose` is not a kind of fault \(did you mean `lose`\?\)"),
            (["--watch", "fail"], "`fail` is not pass, drop, gone, apart or the number of an event"),
            (["--watch", "0"], "`0` is not"),
            (["--from", "0"], "counted from 1 on"),
            (["--only", "x"], "groups are numbered from 1 on"),
            (["--out", "x.txt"], "the name of a script must end in .pfl"),
            (["--pears"], "unrecognized arguments: --pears; usage: whatif"),
            (["main", "other"], "unrecognized arguments: other"),
        ):
            with self.assertRaisesRegex(Unknown, told):
                read(words)

    def test_no_events(self) -> None:
        with self.assertRaisesRegex(Unknown, "main has no events that stand, and so no faults to try"):
            self.lines([])
        lab = self.lab([QUERY])
        lab.ask("back main 1")
        with self.assertRaisesRegex(Unknown, "all of them are undone"):
            course_of(lab, lab.branch("main"))

    def test_only_events_that_stand_count(self) -> None:
        lab = self.lab(ARRIVES)
        lab.ask("back main 1")
        self.assertEqual(len(course_of(lab, lab.branch("main"))), 3)

    def test_too_many_events(self) -> None:
        with patch.object(tries, "MOST_EVENTS", 10), self.assertRaisesRegex(Unknown, "main has 4 events that stand and 22 single faults, whose runs have .* --from K and --to L"):
            self.lines(ARRIVES)
        # (nobody asks for pairs by mistake, and an interrupt ends them)
        with patch.object(tries, "MOST_EVENTS", 10):
            self.assertEqual(len(self.heads(ARRIVES, "--faults", "lose")), 1)

    def test_an_interrupt_shows_what_was_found(self) -> None:
        def stop(done: int, total: int) -> None:
            if done == 3:
                raise KeyboardInterrupt

        lab = self.lab(ARRIVES)
        found = answer(lab, lab.branch("main"), read([])[1], PLAIN, stop, lambda: "")
        self.assertTrue(found.is_interrupted)
        # Lost, twice and last are tried.
        self.assertEqual(found.lines[2], "interrupted: 3 of 22 were tried")
        self.assertEqual([line for line in found.lines if line[:1].isdigit()][2:], ["3  1 fault: every packet and state as it was"])


if __name__ == "__main__":
    unittest.main()
