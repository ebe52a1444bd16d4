"""`search`: the line that people's words stand for, what the answers say, and that nothing changes."""
from __future__ import annotations

import io
import tempfile
import unittest

from ..console.colours import PLAIN
from ..dialogue.completion import candidates
from ..dialogue.shell import Shell
from ..link.laboratory import Laboratory, Unknown
from ..link.programs import run_lines
from ..scripts import texts
from ..searches.reading import is_for_people, read, wrong_goal
from . import TOP, laboratory, program
from .standins import ANSWER, NONE, QUERY, SETUP, Dialogue, standin
from .test_fuzzing import program_with

DEFAULTS = "8 any deliver; 8 flush a; 8 flush b"
# Of each search in people's words the line of the last depth.
LINES = [
    (f"search drops {ANSWER}", f"search main 8 1000000 quiet dropped {ANSWER}; {DEFAULTS}"),
    (f"search passes {ANSWER}, anywhere", f"search main 8 1000000 admitted {ANSWER}; {DEFAULTS}"),
    (f"search splits {ANSWER}, settled", f"search main 8 1000000 settled split {ANSWER}; {DEFAULTS}"),
    ("search differ", f"search main 8 1000000 quiet differ; {DEFAULTS}"),
    ("search apart", f"search main 8 1000000 quiet apart; {DEFAULTS}"),
    ("search apart , landed,at most 5", f"search main 8 5 landed apart; {DEFAULTS}"),
    ("search apart, quiet, at most 2,000 runs", f"search main 8 2000 quiet apart; {DEFAULTS}"),
    ("search apart, within 3 events", "search main 3 1000000 quiet apart; 3 any deliver; 3 flush a; 3 flush b"),
    ("search apart, lose 2, within 1", "search main 1 1000000 quiet apart; 1 any deliver; 1 flush a; 1 flush b; 2 any lose"),
    ("search apart, flush b 0, deliver 4", "search main 8 1000000 quiet apart; 4 any deliver; 8 flush a; 0 flush b"),
    ("search apart, repeat, cut 20 3, cut 7", f"search main 8 1000000 quiet apart; {DEFAULTS}; 1 any repeat; 3 any cut 20; 1 any cut 7"),
    ("search apart, lose 2 times, cut 9 2 times", f"search main 8 1000000 quiet apart; {DEFAULTS}; 2 any lose; 2 any cut 9"),
    ("search apart, lose 2 1 times, cut 1 9 once", f"search main 8 1000000 quiet apart; {DEFAULTS}; 1 lose 2; 1 cut 1 9"),
    ("search apart, tick a 500 3 times, purge a", f"search main 8 1000000 quiet apart; {DEFAULTS}; 3 tick a 500; 1 purge a"),
    ("search apart, tick both 60000 2 times", f"search main 8 1000000 quiet apart; {DEFAULTS}; 2 tick a 60000; 2 tick b 60000"),
    (f"search apart, {QUERY} 2 times, deliver all", f"search main 8 1000000 quiet apart; {DEFAULTS}; 2 {QUERY}"),
    # Phases: deliveries and flushes are of each, the rest is of the one in which it is said, and a dead node has no events.
    ("search differ, then", f"search main 8 1000000 quiet differ; {DEFAULTS}; then; {DEFAULTS}"),
    (
        "search differ, lose, flush b 0, then, tick b 5, deliver 1, then, flush b 2",
        "search main 8 1000000 quiet differ; 8 any deliver; 8 flush a; 0 flush b; 1 any lose; "
        "then; 1 any deliver; 8 flush a; 0 flush b; 1 tick b 5; then; 1 any deliver; 8 flush a; 2 flush b",
    ),
    (f"search drops {ANSWER}, dies a", f"search main 8 1000000 dropped {ANSWER}; {DEFAULTS}; then; 8 any deliver; 8 flush b"),
    (
        f"search splits {ANSWER}, within 3, lose 2, dies a, lose 1, quiet",
        f"search main 3 1000000 quiet split {ANSWER}; 3 any deliver; 3 flush a; 3 flush b; 2 any lose; "
        "then; 3 any deliver; 3 flush b; 1 any lose",
    ),
    (
        "search apart, within 2, dies b, dies a",
        "search main 2 1000000 apart; 2 any deliver; 2 flush a; 2 flush b; then; 2 any deliver; 2 flush a; then; 2 any deliver",
    ),
]
# Of each search that cannot be read a part of what is wrong with it.
FAULTS = [
    ("search drops", "`search drops` needs a packet"),
    ("search drops b in udp", "`search drops` needs a packet"),
    ("search passes flush a", "`search passes` needs a packet"),
    ("search splits", "`search splits` needs a packet: `search splits packet NODE in|out ..`"),
    ("search splits kill a 1.1", "`search splits` needs a packet"),
    ("search apart landed", "a comma is missing: `search apart, landed`"),
    ("search differ then", "a comma is missing: `search differ, then`"),
    ("search apart, landed lose 2", "a comma is missing: `landed, lose 2`"),
    ("search apart, then flush b 2", "a comma is missing: `then, flush b 2`"),
    ("search apart, dies a lose", "a comma is missing: `dies a, lose`"),
    ("search apart, dies", "`dies`: expected `a` or `b`, found nothing"),
    ("search apart, dies c", "`dies c`: expected `a` or `b`, found `c`"),
    ("search apart, dies a, then, dies a", "`dies a` is given twice"),
    ("search apart, dies a, flush a", "`flush a`: a does nothing more after `dies a`"),
    ("search apart, dies a, then, tick both 5", "`tick a 5`: a does nothing more after `dies a`"),
    (f"search drops {ANSWER}, dies b", "b does nothing more after `dies b`: ask about a packet at the other node"),
    ("search apart, lose, then, repeat, repeat", "`any repeat` is given twice"),
    ("search apart" + ", then" * 16, "a search has at most 16 phases"),
    ("search apart" + ", then" * 5, "a search has at most 16 choices, but these are 18"),
    ("search apart, dyes a", "no part of a search begins with `dyes` (did you mean `dies`?)"),
    (f"search drops {ANSWER} settled", "the line was complete before `settled`"),
    (f"search drops {ANSWER.replace('in', 'on')}", "expected `in` or `out`, found `on`"),
    (f"search drops {ANSWER.replace(':53', '')}", "`192.0.2.9` has no port"),
    ("search apart, landed, settled", "where it is asked is given twice"),
    ("search apart, within 3, within 4", "`within` is given twice"),
    ("search apart, lose 1, lose 2", "`any lose` is given twice"),
    ("search apart,, lose 1", "a part is empty"),
    ("search apart, within 65", "`65` is not a number from 0 to 64: within N"),
    ("search apart, within", "`within N` takes one number"),
    ("search apart, at least 5", "`at most RUNS` takes one number"),
    ("search apart, at most 4294967296", "is not a number from 0 to 4294967295"),
    ("search apart, lose x", "`x` is not a number from 0 to 4294967295: lose N"),
    ("search apart, flsh a 2", "no part of a search begins with `flsh` (did you mean `flush`?)"),
    ("search apart, flush c", "expected `a` or `b`, found `c`"),
    ("search apart, flush a; 3 any lose", "expected `a` or `b`, found `a;`"),
    ("search apart, " + ", ".join(f"tick a {it}" for it in range(14)), "a search has at most 16 choices, but these are 17"),
    ("search apart, " + ", ".join(QUERY.replace(":1000", f":100{it}") for it in range(9)), "at most 512 are read"),
]


class Words(unittest.TestCase):
    """What people type."""

    def test_the_line_that_words_stand_for(self) -> None:
        for said, line in LINES:
            with self.subTest(said):
                self.assertTrue(is_for_people(said))
                sought = read(said, "main")
                self.assertEqual(sought.line("main", sought.within), line)

    def test_what_is_wrong_is_told(self) -> None:
        for said, part in FAULTS:
            with self.subTest(said), self.assertRaises(Unknown) as raised:
                read(said, "main")
            self.assertIn(part, str(raised.exception))

    def test_a_line_of_the_program_is_none_of_people(self) -> None:
        for line in ("search", "search main 8 10 apart", "search apart 8 10 apart", "search drops 0 5", "search drop packet", "search;"):
            self.assertFalse(is_for_people(line), line)
        for line in ("search differ 8 10 differ", "search splits 8 10 apart", "search quiet 8 10 quiet apart", "search drop 8 10 apart"):
            self.assertFalse(is_for_people(line), line)
            self.assertEqual(wrong_goal(line), "")

    def test_the_goal_that_was_probably_meant(self) -> None:
        for said, meant in (
            *(("drop", "drops"), ("dropped", "drops"), ("unpassed", "drops"), ("passed", "passes"), ("admitted", "passes")),
            *(("split", "splits"), ("differs", "differ")),
        ):
            self.assertIn(f"`{said}` is nothing to search for (did you mean `{meant}`?)", wrong_goal(f"search {said} {ANSWER}"))
        self.assertEqual(wrong_goal("search main packet"), "")

    def test_what_is_left_out_is_told(self) -> None:
        at_rest = "when nothing is in flight or pending, and neither node serves a bulk update"
        self.assertEqual(
            read(f"search drops {ANSWER}, lose 2, cut 20, flush b 0, at most 5000", "main").terms,
            [
                f"asked whether it is dropped, {at_rest}; within 8 events, at most 5,000 runs",
                "allowed: deliver any frame, flush a (up to 8 times each); flush b (never); lose any frame (up to 2 times); "
                "cut any frame to 20 bytes (once); nothing else",
            ],
        )
        apart = "whether one node has a state whose name the other does not have, and nothing else of the states"
        differ = "whether a state at both nodes, and no-sync at neither, has other levels, numbers or class"
        for said, told in (
            ("apart, within 1", f"{apart}, {at_rest}; within 1 event, at most 1,000,000 runs"),
            ("differ, settled", f"{differ}, {at_rest} or waits for one; within 8 events, at most 1,000,000 runs"),
            (f"passes {ANSWER}, landed, at most 1", "whether it passes or is held, when no frame is in flight; within 8 events, at most 1 run"),
        ):
            self.assertEqual(read(f"search {said}", "main").terms[0], f"asked {told}")

    def test_what_is_allowed_is_told_phase_by_phase(self) -> None:
        self.assertEqual(
            read(f"search splits {ANSWER}, lose, deliver 3, dies a, tick b 5 2 times, then", "main").terms,
            [
                "asked whether it is dropped at b, and passes or is held at a, at the cursor of the branch and after each event; "
                "within 8 events, at most 1,000,000 runs",
                "allowed: deliver any frame (up to 3 times); flush a, flush b (up to 8 times each); lose any frame (once)",
                "then, where a does nothing more: deliver any frame (up to 3 times); flush b (up to 8 times); tick b 5 (up to 2 times)",
                "then, where a does nothing more: deliver any frame (up to 3 times); flush b (up to 8 times); nothing else",
            ],
        )
        self.assertIn("then, where b and a do nothing more: ", read("search apart, dies b, dies a", "main").terms[-1])

    def test_the_completing_key(self) -> None:
        lab = laboratory("\n".join([*SETUP, f"step main {QUERY}", "step main flush a", "fork main 1 other"]))
        self.addCleanup(lab.close)
        for line, wanted in (
            ("search ", ["drops", "passes", "splits", "differ", "apart", "main", "other"]),
            ("search drops ", ["packet"]),
            ("search splits ", ["packet"]),
            ("search differ ", []),
            ("search differ, q", ["quiet"]),
            ("search differ, d", ["dies", "deliver"]),
            ("search differ, dies ", ["a", "b"]),
            ("search differ, t", ["then", "tick", "turn"]),
            ("search differ, then ", []),
            ("search differ, then, w", ["within"]),
            ("search drops packet b ", ["in", "out"]),
            (f"search drops {ANSWER}, w", ["within"]),
            ("search apart, at ", ["most"]),
            ("search apart, tick ", ["a", "b", "both"]),
            ("search apart, kill a ", ["1.1"]),
            ("search apart, lose ", []),
            ("search main 8 10 l", ["landed"]),
            ("search main 8 10 landed ", ["apart", "differ", "passed", "unpassed", "dropped", "admitted", "split"]),
            ("search main 8 10 split f", []),
            ("search main 8 10 split p", ["packet", "purge"]),
            ("search main 8 10 differ; ", ["then"]),
            ("search main 8 10 differ; then ", []),
            ("search main 8 10 apart; 3 a", ["any"]),
            ("search main 8 10 apart; 3 any c", ["cut"]),
            ("search main 8 10 apart; 3 lose ", ["1"]),
            ("search other 8 10 apart; 3 lose ", []),
        ):
            before, _, begun = line.rpartition(" ")
            self.assertEqual(candidates(lab, before.split(), begun), wanted, line)


class Answers(Dialogue):
    """What the program finds."""

    def test_a_lost_frame_is_the_shortest_way_to_a_drop(self) -> None:
        said = self.said(self.shell(), f"search drops {ANSWER}, within 4, lose 1")
        self.assertEqual(said[0], f"> search main 2 1000000 quiet dropped {ANSWER}; 4 any deliver; 4 flush a; 4 flush b; 1 any lose")
        self.assertRegex(said[1], r"^found: 2 events, a shortest way \([0-9]+ runs tried\)$")
        self.assertEqual(
            said[2:],
            [
                "  2  flush a  sent 1 148  frame 1 to b: 1 insert",
                "  3  lose 1   lost        frame 1 to b: 1 insert",
                f"  then {ANSWER}: drop block",
                "asked whether it is dropped, when nothing is in flight or pending, and neither node serves a bulk update; "
                "within 4 events, at most 1,000,000 runs",
                "allowed: deliver any frame, flush a, flush b (up to 4 times each); lose any frame (once); nothing else",
                "`take` steps them on a new branch",
            ],
        )

    def test_a_packet_that_passes(self) -> None:
        said = self.said(self.shell(), f"search passes {ANSWER}")
        run = ["  2  flush a    sent 1 148  frame 1 to b: 1 insert", "  3  deliver 1  taken 1     frame 1 to b: 1 insert"]
        self.assertEqual(said[2:4], run)
        self.assertEqual(said[4], f"  then {ANSWER}: pass 1.1")

    def test_without_a_loss_there_is_none_of_any_length(self) -> None:
        # One flush and one delivery, in this order: at depths 0, 1 and 2 these are 1, 2 and 3 runs, and at depth 3 there is no other. The
        # pair is at rest at the end of the longest of them alone, which is tried at depths 2 and 3.
        said = self.said(self.shell(), f"search drops {ANSWER}")
        self.assertEqual(said[0], f"> search main 3 1000000 quiet dropped {ANSWER}; {DEFAULTS}")
        self.assertEqual(
            said[1], "no run of these choices leads there, of any length: proved, over 9 runs, 2 of which end where it is asked"
        )
        self.assertEqual(said[2], "a can die at other moments, too: `dies a` asks at each of them")
        self.assertEqual(len(said), 5)
        said = self.said(self.shell(), f"search drops {ANSWER}, dies a, quiet")
        self.assertEqual(said[2], "a can die at other moments, too: `anywhere` asks at each of them")
        said = self.said(self.shell(), f"search drops {ANSWER}, within 2")
        self.assertEqual(
            said[1], "no run of at most 2 events of these choices leads there: proved, over 6 runs, 1 of which ends where it is asked"
        )

    def test_a_question_that_is_never_asked_is_told(self) -> None:
        said = self.said(self.shell(), f"search drops {ANSWER}, flush a 0")
        self.assertEqual(
            said[1], "no run of these choices leads there, of any length: proved, over 2 runs, none of which ends where it is asked"
        )
        self.assertEqual(said[2], "it was never asked, so this says nothing about it: `anywhere` asks at the end of each run")

    def test_it_can_be_so_at_once(self) -> None:
        said = self.said(self.shell(), f"search drops {ANSWER}, anywhere")
        self.assertEqual(said[1], "found: no event is needed, it is so at the cursor of the branch (1 run tried)")
        self.assertEqual(said[2], f"  then {ANSWER}: drop block")
        self.assertEqual(
            said[3],
            "the pair is not at rest there: `quiet` asks only when nothing is in flight or pending, and neither node serves a bulk update",
        )

    def test_nodes_that_are_apart(self) -> None:
        said = self.said(self.shell(), "search apart, lose 1, within 3")
        self.assertEqual(said[4], "  then a and b are apart by names: 1.1 only on a")

    def test_a_packet_that_one_node_drops_and_the_other_admits(self) -> None:
        said = self.said(self.shell(), f"search splits {ANSWER}, lose 1")
        self.assertEqual(said[4], f"  then {ANSWER}: drop block; at a: pass 1.1")
        # Where a has no state either, nothing is split.
        said = self.said(self.shell(), "clear a", f"search splits {ANSWER}, lose 1")[1:]
        self.assertRegex(said[1], "^no run of these choices leads there, of any length: proved")

    def test_states_that_differ(self) -> None:
        # The answer to the query makes the server SINGLE and the client MULTIPLE at a, and the update that says so is lost.
        shell = self.shell()
        self.said(shell, "flush a", "deliver 1", ANSWER.replace(" b ", " a "))
        said = self.said(shell, "search differ, lose 1", "search apart, lose 1", "diff")
        levels = "source level MULTIPLE | SINGLE, destination level SINGLE | NO_TRAFFIC"
        self.assertEqual(said[4], f"  then a and b differ in 1.1: {levels}, class udp.single | udp.first")
        apart = next(at for at, it in enumerate(said) if " apart; " in it)
        self.assertRegex(said[apart + 1], "^no run of these choices leads there, of any length")

    def test_a_node_that_dies(self) -> None:
        # A frame with the state is in flight. At rest b has the state; if a dies first, b does not have it yet.
        shell = self.shell()
        self.said(shell, "flush a")
        self.assertRegex(self.said(shell, f"search drops {ANSWER}")[1], "^no run of these choices leads there, of any length")
        said = self.said(shell, f"search drops {ANSWER}, dies a")
        self.assertRegex(said[1], "^found: no event is needed")
        self.assertEqual(said[-1], "then, where a does nothing more: deliver any frame, flush b (up to 8 times each); nothing else")
        # After that the query comes to b, which makes a state of its own.
        second = QUERY.replace(" a ", " b ")
        said = self.said(shell, f"search passes {ANSWER}, deliver 0, dies a, {second}")
        self.assertEqual(said[2:4], [f"  3  {second}  pass 2.1", f"  then {ANSWER}: pass 2.1"])

    def test_once_a_later_phase_has_begun_the_earlier_ones_are_over(self) -> None:
        shell = self.shell()
        second, its_answer = QUERY.replace(":1000", ":1001"), ANSWER.replace(":1000", ":1001")
        said = self.said(shell, f"search passes {its_answer}, {second}")
        self.assertRegex(said[1], "^found: 3 events, a shortest way")
        said = self.said(shell, f"search passes {its_answer}, then, {second}")
        self.assertEqual([it.split()[1] for it in said[2:5]], ["packet", "flush", "deliver"])
        # What a has to report of the second query could only be sent before that came.
        said = self.said(shell, f"search passes {its_answer}, then, {second}, flush a 0")
        self.assertRegex(said[1], "^no run of these choices leads there, of any length: proved")

    def test_a_backup_whose_request_is_lost(self) -> None:
        # It waits for a bulk update that will never come, and is at rest; `settled` does not ask there.
        shell = self.shell()
        self.said(shell, "flush a", "deliver 1", "restart b")
        said = self.said(shell, f"search drops {ANSWER}, lose 2, turn a 2 times, within 10")
        self.assertRegex(said[1], "^found: 2 events, a shortest way")
        lost = ["  5  flush b  sent 2 36  frame 2 to a: 1 update request", "  6  lose 2   lost       frame 2 to a: 1 update request"]
        self.assertEqual(said[2:4], lost)
        said = self.said(shell, f"search drops {ANSWER}, lose 2, turn a 2 times, within 10, settled")
        self.assertRegex(said[1], "^no run of these choices leads there, of any length: proved")

    def test_what_is_held_or_refused_is_not_dropped(self) -> None:
        for limit, passes in (("set defer 1", True), ("set queue 1", False)):
            lab = Laboratory(program())
            self.addCleanup(lab.close)
            shell = Shell(lab, io.StringIO(), PLAIN)
            shell.take([limit, *SETUP, QUERY.replace(":1000", ":999")], echo=False)
            for word, is_found in (("drops", False), ("passes", passes)):
                said = self.said(shell, f"search {word} {QUERY}, within 0, anywhere")
                self.assertEqual(said[1].startswith("found: no event is needed"), is_found, (limit, word, said))

    def test_few_runs_are_given_up(self) -> None:
        # No event is 1 run; then no event and a flush are 2 more.
        said = self.said(self.shell(), "search apart, within 4, at most 2")
        self.assertRegex(said[0], "^> search main 1 2 quiet apart; ")
        self.assertEqual(said[1], "gave up after 2 runs at depth 1; up to depth 0 there is none, but it was never asked")
        said = self.said(self.shell(), "search apart, at most 0")
        self.assertEqual(said[1], "gave up after 0 runs at depth 0; nothing is known")

    def test_it_goes_on_from_where_the_branch_in_use_stands(self) -> None:
        shell = self.shell()
        self.said(shell, "flush a", "fork main 2 other", "use other", "lose 1", "back other 1")
        before = shell.lab.branch("other")
        said = self.said(shell, f"search passes {ANSWER}")
        self.assertEqual(said[2], "  3  deliver 1  taken 1  frame 1 to b: 1 insert")
        own = self.said(shell, f"search other 2 99 landed passed {ANSWER}; 1 any deliver", "search othr 2 99 apart")
        self.assertEqual(own[1:], ["event 1 step other deliver 1", "end", "refused 1 NoBranch"])
        self.assertEqual(shell.lab.branch("other"), before)

    def test_what_is_found_can_be_stepped(self) -> None:
        shell = self.shell()
        said = self.said(shell, f"search drops {ANSWER}, settled, lose 1", "take", "names", ANSWER)[-9:]
        self.assertEqual(said[0], "> fork main 1 found")
        self.assertEqual(
            said[1:],
            [
                *("forked", "the branch in use is now found", "> step found flush a", "step sent 1 148 dropped 0"),
                *("> step found lose 1", "step lost dropped 0", "names main found", "step drop block dropped 0"),
            ],
        )
        self.assertRegex("\n".join(self.said(shell, "why")), r"its insertion was lost in frame 1 \(event 3\)")

    def test_the_own_line_of_the_program_is_answered_as_it_is(self) -> None:
        shell = self.shell()
        said = self.said(shell, f"search main 4 100 settled unpassed {ANSWER}; 4 any deliver; 1 any lose; 4 flush a", "take", "log main")
        self.assertRegex(said[0], "^found main events 2 runs [0-9]+$")
        self.assertEqual(said[1:4], ["event 1 step main flush a", "event 2 step main lose 1", "end"])
        self.assertEqual(said[-5:-3], ["> step found lose 1", "step lost dropped 0"])
        self.assertEqual(self.said(shell, "search other 4 100 apart"), ["refused 1 NoBranch"])

    def test_a_word_that_was_nearly_right_is_told(self) -> None:
        said = self.said(self.shell(), f"search split {ANSWER}", "take")
        self.assertEqual(said[0], "`split` is nothing to search for (did you mean `splits`?); `help search` has the forms")
        self.assertRegex(said[1], "^nothing was found yet")


class Kept(Dialogue):
    """A search is a part of the script that `save` writes."""

    def test_what_was_found_and_what_was_not_is_proved_anew(self) -> None:
        shell = self.shell()
        self.said(shell, f"search drops {ANSWER}", f"search drops {ANSWER}, lose", "take", f"search splits {ANSWER}, dies a")
        with tempfile.TemporaryDirectory() as folder:
            path = f"{folder}/kept.pfl"
            self.assertEqual(self.said(shell, f"save {path}"), [f"written: {path}"])
            text = texts.read(path)
            lines = text.splitlines()
            none = lines.index(f"search main 3 1000000 quiet dropped {ANSWER}; {DEFAULTS}")
            self.assertEqual(lines[none + 1], "#> none any 9 2")
            found = lines.index(f"search main 2 1000000 quiet dropped {ANSWER}; {DEFAULTS}; 1 any lose")
            self.assertRegex(lines[found + 1], "^#> found main events 2 runs [0-9]+$")
            run = ["#> event 1 step main flush a", "#> event 2 step main lose 1", "#> end", "fork main 1 found"]
            self.assertEqual(lines[found + 2 : found + 6], run)
            self.assertEqual(self.said(shell, f"verify {path}"), ["1 script: all replies as they say"])
            texts.write(path, text.replace("none any 9 2", "none any 9 3"))
            self.assertEqual(self.said(shell, f"verify {path}")[-1], "1 script: 1 differs")

    def test_a_script_that_was_read_is_saved_with_its_searches(self) -> None:
        shell = Shell(Laboratory(program()), io.StringIO(), PLAIN)
        self.addCleanup(shell.lab.close)
        with tempfile.TemporaryDirectory() as folder:
            path = f"{folder}/read.pfl"
            self.said(shell, f"read {TOP}/examples/one-packet.pfl", "search apart, landed", f"save {path}")
            # (no event can happen, so the runs end at depth 1)
            wanted = "\nsearch main 1 1000000 landed apart; 8 any deliver; 8 flush a; 8 flush b\n#> none any 2 2\n"
            self.assertIn(wanted, texts.read(path))
            self.assertEqual(self.said(shell, f"verify {path}"), ["1 script: all replies as they say"])

    def test_a_search_that_is_asked_by_the_program_s_line_is_kept_once(self) -> None:
        shell = self.shell()
        line = f"search main 2 1000000 quiet dropped {ANSWER}; 2 any deliver; 2 flush a"
        self.said(shell, line)
        self.assertEqual(shell.script().count("search main"), 1)


class Canned(Dialogue):
    """What the shell makes of answers that a stand-in gives."""

    def test_none(self) -> None:
        said = self.said(self.shell(standin(self, NONE)), "search apart", "take")
        self.assertEqual(
            said[1], "no run of at most 8 events of these choices leads there: proved, over 9 runs, 8 of which end where it is asked"
        )
        self.assertEqual(said[4], "the last search found nothing to take")

    def test_none_of_any_length_ends_the_search(self) -> None:
        # (of depth 3 the stand-in has no answer)
        answers = {0: ["none 0 1 0"], 1: ["none 1 4 0"], 2: ["none any 1234 1001"]}
        said = self.said(self.shell(standin(self, answers)), "search apart")
        self.assertRegex(said[0], "^> search main 2 1000000 quiet apart; ")
        self.assertEqual(
            said[1], "no run of these choices leads there, of any length: proved, over 1,234 runs, 1,001 of which end where it is asked"
        )

    def test_it_gave_up(self) -> None:
        answers = {**NONE, 7: ["gave up 1000000"]}
        said = self.said(self.shell(standin(self, answers)), "search apart")
        self.assertEqual(said[1], "gave up after 1,000,000 runs at depth 7; up to depth 6 there is none")

    def test_many_runs_are_told_with_commas(self) -> None:
        answers = {0: ["none 0 1 1"], 1: ["found main events 1 runs 1204", "event 1 step main flush a", "end"]}
        said = self.said(self.shell(standin(self, answers)), "search apart, anywhere")
        self.assertEqual(said[1], "found: 1 event, a shortest way (1,204 runs tried)")

    def test_a_program_without_the_line_is_told(self) -> None:
        for reply in ("bad 3 Unknown", "none 0 1"):
            said = self.said(self.shell(standin(self, {0: [reply]})), "search apart", "take", "names")
            self.assertEqual(said[0], "this program does not know such a search: it is older than the shell")
            self.assertEqual(said[1:], ["nothing was found yet: `search` first", "names main"])

    def test_why_says_what_the_answer_to_a_line_claims(self) -> None:
        shell = self.shell(standin(self, {3: ["none 3 7 5"], 4: ["gave up 10"], 5: ["found main events 0 runs 1", "end"]}))
        for depth, head, *parts in (
            (3, "none 3 7 5", "that is proved", "the last number is how many runs end where the goal is asked for"),
            (4, "gave up 10", "nothing is known"),
            (5, "found", "that is proved", "`take` steps"),
        ):
            told = self.said(shell, f"search main {depth} 10 apart", "why")[-1 - len(parts) :]
            self.assertTrue(told[0].startswith(f"search main {depth} 10 apart: {head}"), told)
            for line, part in zip(told[1:], parts):
                self.assertIn(part, line)

    def test_a_program_that_ends_costs_no_pair(self) -> None:
        with program_with("sed -u '/^search/Q' | \"$P\" \"$@\"") as path:
            said = self.said(self.shell(path), "search apart", "search main 1 9 apart", "names")
        told = "the program has ended: that was a run of its own, and the pair is as it was"
        self.assertEqual(said, [told, told, "names main"])


class Before(unittest.TestCase):
    def test_before_the_pair_is_set_up_nothing_is_searched(self) -> None:
        lab = Laboratory(program())
        self.addCleanup(lab.close)
        shell = Shell(lab, io.StringIO(), PLAIN)
        for line in ("search apart", "search main 1 1 apart"):
            shell.out = out = io.StringIO()
            shell.take([line], echo=False)
            self.assertRegex(out.getvalue(), "^the pair is not set up")


class Scripts(unittest.TestCase):
    def test_a_script_has_the_line_and_not_the_words(self) -> None:
        ran = run_lines(program(), [*SETUP, f"step main {QUERY}", f"search main 1 9 passed {ANSWER}; 1 flush a", "names"])
        self.assertEqual([reply[0].split()[0] for reply in ran.replies], ["step", "none", "names"])
        self.assertEqual(run_lines(program(), ["open", "search apart", "search main 1 9 apart"], "check").replies[0], ["line 2 bad 4 Missing"])


if __name__ == "__main__":
    unittest.main()
