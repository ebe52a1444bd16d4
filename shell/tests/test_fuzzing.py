"""What `./fuzz` and `./random-runs` look for with: that a wrong answer is noticed, and that a seed gives its script."""
from __future__ import annotations

import contextlib
import os
import random
import re
import tempfile
import unittest
from typing import Dict, Iterator, List
from unittest import mock

from fuzzing import mutator, trials
from fuzzing.corpora import Script, corpus
from fuzzing.lines import kernel as kernel_line, with_few_runs
from fuzzing.mutations import mutated
from fuzzing.readings import fault_of, read
from fuzzing.timelines import replies_to
from fuzzing.trials import Trial, minimised
from fuzzing.wholes import pieces
from oracle.events import event
from oracle.orders import Tries
from oracle.setups import setup as small_setup, with_kernel
from oracle.subject import Differs, Subject
from oracle.searches import Search, compare_search, is_allowed, line_of, pair_of
from oracle.tallies import Seen
from shell.language.searches import OF_PACKET
from shell.model.setups import Setup

from . import TOP, program

SCRIPT = """set frames 2
rule a pass out
rule b pass out
open
step main packet a out udp 10.0.0.1:01000 192.0.2.9:53 40
step main flush a
show main
why main lose 01
why main flush b
frame main 1
frame main 2
back main 2
forward main 1
excise main 1
restore main
names
why main 1
why main 3
# a comment
step main lose 7
fork main 1 other
step other tick a 2
step main tick a 99999
step main purge a
step main purge a x
log main
drop other
search main 3 90 apart; 1 tick a 2; 1 packet b out udp 10.0.0.1:01000 192.0.2.9:53 40; 1 any lose
search main 2 90 apart; 1 flush a; 1 tick a 5
"""
# A pair with all rules of the kernel: an acknowledgement far off, an update whose destination is stale, a reset with another number than the
# next; and after a close a FIN that passes loosely, and one that does not. Then a connection whose ends offer the scale 7, its insertion, which
# comes to another rule, and an update that is sent a second after its packet.
KERNEL_SCRIPT = """kernel all
rule a pass any flags any timeout tcp.opening 600
rule b pass any flags any
open
step main packet a out tcp 10.0.0.1:1000 192.0.2.9:80 S 100 0 60000 0
step main flush a
step main deliver 1
step main packet a in tcp 192.0.2.9:80 10.0.0.1:1000 SA 500 101 60000 0
step main flush a
step main deliver 2
step main packet a in tcp 192.0.2.9:80 10.0.0.1:1000 A 200000 101 60000 0
step main packet b in tcp 192.0.2.9:80 10.0.0.1:1000 A 501 101 60000 1000
step main packet a out tcp 10.0.0.1:1000 192.0.2.9:80 A 101 501 60000 10
step main flush a
step main deliver 3
step main packet a in tcp 192.0.2.9:80 10.0.0.1:1000 R 600 0 0 0
step main packet a out tcp 10.0.0.1:1000 192.0.2.9:80 FA 111 501 60000 0
step main packet a in tcp 192.0.2.9:80 10.0.0.1:1000 A 501 112 60000 0
step main packet a in tcp 192.0.2.9:80 10.0.0.1:1000 FA 501 112 60000 61000
step main packet a in tcp 192.0.2.9:80 10.0.0.1:1000 FA 129000 112 60000 1000
show main
step main tick b 7000
step main packet a out tcp 10.0.0.1:1001 192.0.2.9:80 S 100 0 65535 0 7
step main packet a in tcp 192.0.2.9:80 10.0.0.1:1001 SA 4000000 101 30001 0 7
step main packet a in tcp 192.0.2.9:80 10.0.0.1:1001 A 3000000 101 512 1000
step main flush a
step main deliver 4
step main tick a 1000
step main packet a out tcp 10.0.0.1:1001 192.0.2.9:80 A 101 4000001 512 0
step main tick a 2000
step main flush a
step main deliver 5
show main
"""
# The same of it.
KERNEL_LIES = (
    ("eased", "right 501 60501 -", 0),
    ("right 501 60501 -", "right 200000 60501 -", 1),
    ("ack 101 4294900361 67135 -", "ack 101 4294900361 67136 -", 0),
    ("reset 600 500 502 98", "reset 600 500 502 -", 0),
    ("reset 600 500 502 98", "reset 600 499 502 98", 0),
    ("loose - -", "loose 1 -", 0),
    ("loose 2465 -", "loose 2466 -", 0),
    ("loose 2465 -", "loose - -", 0),
    ("merged dst 0 both", "merged dst 0 src", 0),
    ("merged dst 0 both", "merged dst 0", 0),
    ("merged dst 0 both", "merged - 0 both", 0),
    # What is shown of a state is not what the update, or a packet, makes of it.
    ("4 - 60000 501 60501 tcp.established", "4 - 60000 501 60502 tcp.established", 0),
    ("step pass 1.1", "step drop window", 2),
    ("step drop window", "step pass 1.1", 0),
    # The windows of SYNs are kept in units, and count at both scales; the old segment is too far back.
    ("left 4000000 3934464 -", "left 4000000 3934465 -", 0),
    ("ack 101 4286386916 67135 -", "ack 101 4294900361 67135 -", 0),
    ("left 3000000 3934465 934465", "left 3000000 3934465 -", 0),
    ("2 7 512 100 102 0 - 0 0 0 tcp.first", "2 7 65535 100 102 0 - 0 0 0 tcp.first", 0),
    ("4 7 512 100 30181 2 7 235 4000001 4065537", "4 7 512 100 30181 2 7 30001 4000001 4065537", 0),
    # b has 30 seconds for what a says has 600 left, and its clock is at 7000. A merge is a use.
    ("imported 577000", "imported 7000", 0),
    ("imported 577000", "imported 576000", 0),
    ("merged - 7000 both", "merged - 5000 both", 0),
)
# The first events of a chance, where packets are near their connections.
FIRST_EVENTS = [
    *("deliver 3", "packet a in icmp 192.0.2.9:7 10.0.0.1:7 76", "lose 3", "packet b in tcp 192.0.2.9:80 10.0.0.1:1000 SA 501 101 1000 0"),
    *("repeat 3", "flush b", "flush b", "purge a", "kill b 1.99", "packet a in tcp 192.0.2.9:80 10.0.0.2:1001 SA 501 101 0 0"),
]
# Of a right answer the text that is changed, what it becomes, and how often it stands as it is before.
LIES = (
    ("step pass 1.1 dropped 0", "step drop max dropped 0", 0),
    ("step sent 1 148", "step sent 2 148", 0),
    ("step sent 1 148 dropped 0", "step sent 1 148 dropped 1", 0),
    ("step clock 2 ", "step clock 3 ", 0),
    ("purged 1", "purged 0", 0),
    ("refused 8 Event 1 NoSuchFrame", "refused 8 Event 3 NoSuchState", 0),
    ("refused 8 Event 1 NoSuchFrame", "step lost dropped 0", 0),
    ("bad 6 Extra", "bad 5 Number", 0),
    ("bad 6 Extra", "step purged 0 dropped 0", 0),
    ("at 0", "at 1", 0),
    ("excised 2", "excised", 0),
    ("restored 1", "restored 2", 0),
    ("names main", "names main other", 0),
    ("forked", "removed", 0),
    ("removed", "forked", 1),
    # What is shown once is believed; it has to be so again, and the log be the events.
    ("count a 1 ", "count a 2 ", 1),
    ("next 2 boot", "next 1 boot", 1),
    ("event 1 step main packet a out udp 10.0.0.1:1000", "event 1 step main packet a out udp 10.0.0.1:01000", 0),
    ("cursor 2", "cursor 1", 0),
    # Reasons.
    ("outcome sent 1 148", "outcome sent 1 149", 0),
    ("rule 0 pass", "rule 1 pass", 0),
    ("new 1.1", "new 1.2", 0),
    ("scaling 1 38 76", "scaling 2 38 76", 0),
    ("udp.first 60 60 60000", "udp.first 60 59 59000", 0),
    ("why main 2", "why main 1", 0),
    # What has not happened.
    ("refused 2 NothingPending", "refused 4 LinkFull", 0),
    ("outcome lost", "outcome cut 0", 0),
    ("ticket 1", "ticket 3", 0),
    ("why main 3", "why main 2", 0),
    # Frames.
    ("frame main 1", "frame main 2", 0),
    ("record ins 1.1 udp out", "record ins 1.1 udp in", 0),
    ("udp.first 60 0 -", "udp.first 60 1 -", 0),
    ("refused 11 NoFrame", "refused 9 NoEvent", 0),
    # A search.
    ("found main events 1", "found main events 2", 0),
    ("found main events 1 runs 4", "found main events 1 runs 91", 0),
    ("found main events 1", "found other events 1", 0),
    ("event 1 step main packet b out", "event 2 step main packet b out", 0),
    ("event 1 step main packet b out", "event 1 step main packet a out", 0),
    ("event 1 step main packet b out udp 10.0.0.1:1000 192.0.2.9:53 40", "event 1 step main tick a 2", 0),
    ("found main events 1 runs 4", "found main events 1 runs 5", 0),
    ("none any 5 5", "none 2 5 5", 0),
    ("none any 5 5", "none any 5 4", 0),
    ("none any 5 5", "none any 4 4", 0),
    ("none any 5 5", "none any 91 91", 0),
    ("none any 5 5", "gave up 90", 0),
)


class Lying(Subject):
    """A run in whose replies one text is changed, the first or a later one."""

    def __init__(self, old: str, new: str, times: int):
        super().__init__(program(), 20)
        self.old, self.new, self.left = old, new, times

    def answer(self, line: str) -> List[str]:
        reply = super().answer(line)
        at = next((at for at, it in enumerate(reply) if self.old in it), None)
        if at is not None:
            if self.left == 0:
                reply[at] = reply[at].replace(self.old, self.new)
            self.left -= 1
        return reply


@contextlib.contextmanager
def program_with(lines: str) -> Iterator[str]:
    """A program that is these lines of a shell, in which $P is the laboratory's."""
    with tempfile.TemporaryDirectory() as folder:
        path = f"{folder}/program"
        with open(path, "w", encoding="utf-8") as it:
            it.write(f"#!/bin/sh\nP='{program()}'\n{lines}\n")
        os.chmod(path, 0o755)
        yield path


class WrongAnswers(unittest.TestCase):
    def test_the_program_answers_as_it_has_to(self) -> None:
        self.assertEqual(Trial(program(), 1).difference(SCRIPT, Seen()), "")

    def test_one_wrong_answer_is_noticed(self) -> None:
        for lie in LIES:
            with self.subTest(lie), contextlib.closing(Lying(*lie)) as lab:
                with self.assertRaises(Differs):
                    replies_to(lab, read(SCRIPT), Seen())
                self.assertLess(lab.left, 0, "the text was there")

    def test_by_rules_of_the_kernel_too(self) -> None:
        self.assertEqual(Trial(program(), 1).difference(KERNEL_SCRIPT, Seen()), "")
        for lie in KERNEL_LIES:
            with self.subTest(lie), contextlib.closing(Lying(*lie)) as lab:
                with self.assertRaises(Differs):
                    replies_to(lab, read(KERNEL_SCRIPT), Seen())
                self.assertLess(lab.left, 0, "the text was there")

    def test_what_whole_runs_do_wrong_is_noticed(self) -> None:
        for lines in (
            '"$P" "$@"; exit 0',
            '"$P" "$@"; status=$?; echo more; exit $status',
            '"$P" "$@"; status=$?; echo pfl_lab: read >&2; exit $status',
            '"$P" "$@"; kill -SEGV $$',
            '"$P" "$@"; status=$?; [ -S /dev/stdin ] && echo more; exit $status',
            'if [ "$1" = check ]; then "$P" check | sed s/good/good 1/; exit 1; fi; exec "$P" "$@"',
            "exec sleep 5",
        ):
            with self.subTest(lines), program_with(lines) as path, mock.patch.object(trials, "SECONDS", 1):
                self.assertNotEqual(Trial(path, 1).difference(SCRIPT, Seen()), "")


QUERY = "packet b out udp 10.0.0.1:1000 192.0.2.9:53 40"
# Of each search what it cannot be answered, on a pair that has had no event.
SEARCHES = (
    (f"1 9 apart; 1 {QUERY}", "none 1 2 2"),
    (f"2 9 apart; 1 {QUERY}; 1 flush b", f"found main events 2 runs 4|event 1 step main {QUERY}|event 2 step main flush b|end"),
    (f"2 9 passed {QUERY}; 1 {QUERY}", f"found main events 1 runs 2|event 1 step main {QUERY}|end"),
    (f"2 9 settled apart; 1 {QUERY}", f"found main events 1 runs 2|event 1 step main {QUERY}|end"),
    (f"2 9 landed unpassed {QUERY}; 1 clear a", "found main events 1 runs 2|event 1 step main clear a|end"),
    (f"0 9 apart; 1 {QUERY}", f"found main events 1 runs 2|event 1 step main {QUERY}|end"),
    (f"2 9 apart; 0 {QUERY}", f"found main events 1 runs 2|event 1 step main {QUERY}|end"),
    (f"2 9 apart; 1 any deliver; 1 {QUERY}", "found main events 1 runs 2|event 1 step main deliver 1|end"),
    (f"2 9 apart; then; 1 {QUERY}; then; 1 flush b", f"found main events 2 runs 4|event 1 step main flush b|event 2 step main {QUERY}|end"),
    ("2 9 apart; 1 clear a", "none 2 10 10"),
    ("2 9 apart; 1 clear a", "none 2 0 0"),
    ("2 9 apart; 1 clear a", "refused 1 NoBranch"),
    ("2 9 apart; 1 clear a", "none 2 x x"),
    ("2 9 apart; 1 clear a", "none 2 5"),
    # How often it was asked: in each pair where it is asked everywhere, in no more pairs than runs were tried, and in the first one here.
    ("2 9 apart; 1 clear a", "none 2 5 4"),
    ("2 9 landed apart; 1 clear a", "none 2 5 6"),
    ("2 9 settled apart; 1 clear a", "none any 5 0"),
    # There is a run of one event, and so all runs do not end before.
    ("1 9 apart; 1 clear a", "none any 3 3"),
)
RIGHT = (
    (f"1 9 apart; 1 {QUERY}", f"found main events 1 runs 2|event 1 step main {QUERY}|end"),
    (f"2 9 passed {QUERY}; 1 {QUERY}", "found main events 0 runs 1|end"),
    (f"2 9 landed unpassed {QUERY}; 1 clear a", "none 2 5 5"),
    ("2 9 apart; 1 clear a", "none any 5 5"),
    ("2 9 apart; 1 clear a", "gave up 9"),
    (
        f"2 99 apart; 1 any lose; 1 {QUERY}; 1 {QUERY.replace('b out', 'a out')}; 1 flush b",
        f"found main events 1 runs 3|event 1 step main {QUERY}|end",
    ),
)


class Searches(unittest.TestCase):
    def compare(self, line: str, reply: str) -> None:
        """What steps tell of a reply."""
        with contextlib.closing(Subject(program(), 20)) as lab:
            lab.open(Setup.of(["rule a pass out", "rule b pass out"]))
            lab.need("fork main 0 spare", "forked")
            compare_search((lab, "spare"), Search.read(f"search main {line}"), reply.split("|"), random.Random(1))

    def test_wrong_answers_are_noticed(self) -> None:
        for line, reply in SEARCHES:
            with self.subTest(line, reply=reply), self.assertRaises(Differs):
                self.compare(line, reply)

    def test_right_answers_are_right(self) -> None:
        for line, reply in RIGHT:
            with self.subTest(line):
                self.compare(line, reply)

    def test_each_event_is_given_to_a_choice_of_its_own(self) -> None:
        both = Search.read("search main 9 9 apart; 1 any cut 05; 1 cut 1 5; 2 lose 07")
        self.assertTrue(is_allowed(both, ["cut 1 5", "cut 2 5", "lose 7", "lose 7"]))
        self.assertTrue(is_allowed(both, ["cut 2 5", "cut 1 5"]))
        self.assertFalse(is_allowed(both, ["cut 2 5", "cut 3 5"]))
        self.assertFalse(is_allowed(both, ["cut 1 6"]))
        self.assertFalse(is_allowed(both, ["lose 7"] * 3))

    def test_no_event_comes_after_one_of_a_later_phase(self) -> None:
        three = Search.read("search main 9 9 apart; 2 lose 7; then; 1 any cut 5; then; 1 any lose")
        for events, wanted in (
            (["lose 7", "lose 7", "cut 1 5", "lose 8"], True),
            (["cut 1 5", "lose 7"], True),
            (["lose 7"] * 3, True),
            (["lose 7"] * 4, False),
            (["cut 1 5", "lose 7", "lose 7"], False),
            (["lose 8", "lose 7"], False),
            (["lose 8", "cut 1 5"], False),
        ):
            self.assertEqual(is_allowed(three, events), wanted, events)

    def test_each_question_is_judged_by_the_pair(self) -> None:
        """At a the query is held, and its answer passes by its state; b drops both. A second query is refused at a, whose queue is full."""
        query, answer, other = "udp 10.0.0.1:1000 192.0.2.9:53 40", "udp 192.0.2.9:53 10.0.0.1:1000 40", "udp 10.0.0.2:1000 192.0.2.9:53 40"
        with contextlib.closing(Subject(program(), 20)) as lab:
            lab.open(Setup.of(["set queue 1", "set defer 1", "rule a block in", "rule a pass out", "rule b block any"]))
            self.judge(lab, {f"{it} packet a out {query}": it in ("admitted", "unpassed") for it in OF_PACKET})
            self.judge(lab, {f"{it} packet b out {query}": it in ("dropped", "unpassed", "split") for it in OF_PACKET})
            self.assertEqual(lab.ask(f"step main packet a out {query}").split()[1:3], ["held", "1.1"])
            self.judge(lab, {f"{it} packet a in {answer}": it in ("admitted", "passed") for it in OF_PACKET})
            self.judge(lab, {f"{it} packet b in {answer}": it in ("dropped", "unpassed", "split") for it in OF_PACKET})
            self.judge(lab, {f"{it} packet a out {other}": it == "unpassed" for it in OF_PACKET})
            self.judge(lab, {f"{it} packet b out {other}": it in ("dropped", "unpassed") for it in OF_PACKET})
            self.judge(lab, {f"{it} tick a 5": it == "unpassed" for it in OF_PACKET})
            self.judge(lab, {"apart": True, "landed apart": True, "quiet apart": False, "settled apart": False, "differ": False})

    def test_what_differs_and_where_it_is_asked(self) -> None:
        with contextlib.closing(Subject(program(), 20)) as lab:
            lab.open(Setup.of(["rule a pass out", "rule a pass out proto icmp no-sync"]))
            for line in ("packet a out udp 10.0.0.1:1000 192.0.2.9:53 40", "flush a", "tick b 1000", "deliver 1"):
                lab.ask(f"step main {line}")
            self.judge(lab, {"apart": False, "differ": False, "settled differ": False})
            for line in ("packet a in udp 192.0.2.9:53 10.0.0.1:1000 80", "flush a", "lose 2"):
                lab.ask(f"step main {line}")
            self.judge(lab, {"apart": False, "differ": True, "settled differ": True})
            for line in ("restart b", "flush b", "lose 3"):
                lab.ask(f"step main {line}")
            self.judge(lab, {"apart": True, "differ": False, "quiet apart": True, "settled apart": False})
            for line in ("tick b 10000", "retry b", "flush b", "deliver 4", "flush a", "deliver 5"):
                lab.ask(f"step main {line}")
            # (a serves, with nothing pending and nothing in flight)
            self.judge(lab, {"landed apart": True, "quiet apart": False})

    def judge(self, lab: Subject, wanted: Dict[str, bool]) -> None:
        """Whether the pair that the first branch shows meets goals."""
        room = lab, "main"
        came = {it: Search.read(f"search main 0 9 {it}").is_met(room, pair_of(room)) for it in wanted}
        self.assertEqual(came, wanted)

    def test_all_runs_are_tried_in_their_order(self) -> None:
        """Numbers worked out by hand: of two events that commute one order is tried, unless they are of two phases."""
        for line, wanted in (
            ("0 9 differ; 1 tick a 5", "none 0 1 1"),
            ("1 9 differ; 1 tick a 5", "none 1 3 3"),
            ("2 9 differ; 1 tick a 5", "none any 5 5"),
            ("2 9 differ; 1 tick a 5; 1 tick a 6", "none 2 9 9"),
            ("2 9 differ; 1 tick b 5; 1 tick a 5", "none 2 8 8"),
            ("2 9 differ; 1 tick b 5; then; 1 tick a 5", "none 2 8 8"),
            ("2 7 differ; 1 tick b 5; then; 1 tick a 5", "gave up 7"),
            ("2 9 differ; 1 restart b; 1 restart a", "none 2 9 9"),
            ("2 9 quiet differ; 1 restart b; 1 restart a", "none 2 9 3"),
            (
                f"3 9 landed apart; then; 1 flush b; then; 1 {QUERY}",
                f"found main events 1 runs 3|event 1 step main {QUERY}|end",
            ),
        ):
            with self.subTest(line), contextlib.closing(Subject(program(), 20)) as lab:
                lab.open(Setup.of(["rule a pass out", "rule b pass out"]))
                self.assertEqual(Tries((lab, "main"), Search.read(f"search main {line}")).answer(), wanted.split("|"))

    def test_lines_by_chance_have_no_fault_and_few_runs(self) -> None:
        chance = random.Random(5)
        lines = [line_of(chance, "main", ["frame 3 b -", "state a 1.1"]) for _ in range(300)]
        self.assertEqual({fault_of(line, False) for line in lines}, {""})
        self.assertEqual(with_few_runs("".join(f"{line}\n" for line in lines)).splitlines(), lines)

    def test_a_script_is_left_with_few_runs(self) -> None:
        for line, wanted in (
            ("search main 8 1000 apart", "search main 8 97 apart"),
            ("\tsearch  main 8 0300 apart; 1000 flush a\r", "\tsearch  main 8 300 apart; 1000 flush a\r"),
            ("search main 8 4294967296 apart", "search main 8 4294967296 apart"),
            ("search main 8 x apart", "search main 8 x apart"),
            ("back main 1000", "back main 1000"),
        ):
            self.assertEqual(with_few_runs(f"open\n{line}\nnames"), f"open\n{wanted}\nnames")


class Setups(unittest.TestCase):
    def test_setups_by_chance_have_no_fault_and_each_form(self) -> None:
        setups = [[*small_setup(random.Random(seed)), "open"] for seed in range(300)]
        self.assertEqual({read("\n".join(setup)).fault for setup in setups}, {""})
        lines = [line for setup in setups for line in setup]
        for form in ("set timeout udp", " nat 203.0.113.1:7000$", " nat 203.0.113.1:7000:70", " rdr 10.0.0.1:1000:1", "port 5[34]:"):
            self.assertTrue(any(re.search(form, line) for line in lines), form)

    def test_rules_of_the_kernel_by_chance(self) -> None:
        """In every other setup, between its lines, in each form."""
        lines = [*small_setup(random.Random(1))]
        setups = [with_kernel(random.Random(f"kernel {seed}"), lines) for seed in range(400)]
        self.assertEqual({read("".join(f"{line}\n" for line in (*setup, "open"))).fault for setup in setups}, {""})
        self.assertEqual([[line for line in setup if not line.startswith("kernel")] for setup in setups], [lines] * 400)
        kernels = [Setup.of(setup).kernel for setup in setups]
        self.assertTrue(150 < sum(kernel.is_profile for kernel in kernels) < 250)
        self.assertGreater(len({*kernels}), 12)
        said = [line for setup in setups for line in setup if line.startswith("kernel")]
        for form in ("kernel all$", r"kernel \w+$", r"kernel \w+ \w+ \w+$", r"kernel .*\b(\w+)\b.* \1\b"):
            self.assertTrue(any(re.match(form, it) for it in said), form)
        self.assertTrue(any(sum(line.startswith("kernel") for line in setup) == 2 for setup in setups))

    def test_a_seed_without_them_is_what_it_was(self) -> None:
        """A pair by the profile gets packets near its connections, from the same chance as ever."""
        chance = random.Random(11)
        found = [event(chance, ["frame 3 b -", "state a 1.1"]) for _ in range(200)]
        self.assertEqual(found[: len(FIRST_EVENTS)], FIRST_EVENTS)
        self.assertFalse(any(re.search(r" tcp .* S \d+ 0 \d+ \d+ \d+$", it) for it in found))
        far = [event(chance, [], True) for _ in range(400)]
        self.assertEqual({fault_of(f"step main {it}", False) for it in (*found, *far)}, {""})
        for form in (r" S \d+ 0 \d+ \d+ 7$", r" RA \d+ 0 ", r" A 4294\d{6} ", r" A 13\d{4} "):
            self.assertTrue(any(re.search(form, it) for it in far), form)

    def test_lines_of_them_by_chance(self) -> None:
        lines = [kernel_line(random.Random(seed)) for seed in range(400)]
        faults = [fault_of(line, True) for line in lines]
        self.assertEqual({*faults}, {"", "1 Long", "3 Unknown", "4 Missing"})
        self.assertGreater(faults.count(""), 150)

    def test_the_fault_that_is_looked_for_first(self) -> None:
        nat, rdr = "nat 198.51.100.1:4:5", "rdr 10.0.0.80:8080"
        for lines, fault in (
            (f"rule a pass in {rdr}\nrule b pass out {nat}", ""),
            (f"rule a pass out {rdr}", "rule 5"),
            (f"rule a block any {rdr}", "rule 5"),
            (f"rule a pass in {nat} {rdr}", "rule 2"),
            (f"rule a pass out {nat} {rdr}", "rule 5"),
            (f"rule a pass out {rdr}\nrule a pass in max 0", "rule 3"),
            (f"rule a pass out {rdr}\nrule b pass in max 0", "rule 5"),
            (f"rule a pass in {rdr} {nat}", "line 6"),
            ("set timeout udp.x 3", "line 5"),
            ("set timeout udp.first", "line 4"),
            ("kernel", "line 4"),
            ("kernel loose\nkernel all reset", ""),
            ("kernel loose scale\nkernel expiry", ""),
            ("kernel clear rule\nkernel revive icmp", ""),
            ("kernel loose max", "line 3"),
            (f"rule a pass out {rdr}\nkernel windows", "line 3"),
        ):
            self.assertEqual(read(f"{lines}\nopen\n").fault, fault, lines)


class Scripts(unittest.TestCase):
    def test_a_seed_gives_its_script(self) -> None:
        scripts = corpus(TOP)
        one, same = ([mutated(random.Random(seed), scripts) for seed in range(60)] for _ in range(2))
        self.assertEqual(one, same)
        self.assertGreater(len({*one}), 50)
        self.assertGreater(sum(not read(it).fault for it in one), 30)

    def test_scripts_without_lines_can_be_changed(self) -> None:
        empty = [Script([], [])]
        self.assertEqual(len([mutated(random.Random(seed), empty) for seed in range(500)]), 500)

    def test_afl_is_given_scripts(self) -> None:
        mutator.init(7)
        for longest in (0, 10, 1000):
            self.assertLessEqual(len(mutator.fuzz(bytearray(SCRIPT.encode()), bytearray(), longest)), longest)

    def test_pieces_are_the_script(self) -> None:
        script = bytes(range(256)) * 500
        for seed in range(20):
            self.assertEqual(b"".join(pieces(script, random.Random(seed))), script)

    def test_the_lines_that_fail_are_left(self) -> None:
        script = "".join(f"line {it}\n" for it in range(100))
        self.assertEqual(minimised(script, lambda it: "line 7\n" in it and "line 93" in it), "line 7\nline 93")


if __name__ == "__main__":
    unittest.main()
