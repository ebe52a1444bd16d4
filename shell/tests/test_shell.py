"""Dialogues of the shell, over the program and over its server."""
from __future__ import annotations

import io
import os
import re
import signal
import socket
import subprocess
import sys
import tempfile
import unittest
from typing import List
from unittest import mock

from ..console.colours import PLAIN
from ..dialogue.shell import Shell, Stopped
from ..language.setups import STATES
from ..link.laboratory import Laboratory
from ..link.programs import Ended
from ..model.setups import Setup
from . import TOP, program
from .children import bounded, take_signals

SETUP = ["rule a pass out", "rule b pass out", "open"]
QUERY = "packet a out udp 10.0.0.1:1000 192.0.2.9:53 40"


class Dialogue(unittest.TestCase):
    def shell(self, strict: bool = False) -> Shell:
        lab = Laboratory(program())
        self.addCleanup(lab.close)
        return Shell(lab, io.StringIO(), PLAIN, strict=strict)

    def said(self, shell: Shell, *lines: str) -> List[str]:
        """What the shell says to the lines."""
        shell.out = io.StringIO()
        shell.take(lines, echo=False)
        return shell.out.getvalue().splitlines()


class Lines(Dialogue):
    def test_lines_are_answered_as_they_are(self) -> None:
        shell = self.shell()
        self.assertEqual(self.said(shell, *SETUP), [])
        self.assertEqual(
            self.said(shell, f"step main {QUERY}", "back main 1", "names"), ["step pass 1.1 dropped 0", "at 0", "names main"]
        )

    def test_an_event_alone_is_of_the_branch_in_use(self) -> None:
        shell = self.shell()
        self.said(shell, *SETUP, "fork main 0 other", "use other")
        self.assertEqual(self.said(shell, QUERY), ["step pass 1.1 dropped 0"])
        self.assertEqual((len(shell.lab.branch("main").events), len(shell.lab.branch("other").events)), (0, 1))

    def test_a_branch_that_is_dropped_is_not_in_use(self) -> None:
        shell = self.shell()
        self.said(shell, *SETUP, "fork main 0 other", "use other")
        self.assertEqual(self.said(shell, "drop other"), ["removed", "the branch in use is now main"])
        self.assertEqual(self.said(shell, "tick a 5"), ["step clock 5 dropped 0"])

    def test_a_faulty_setup_line_is_told_at_once_and_not_taken(self) -> None:
        shell = self.shell()
        said = self.said(shell, "rule a pass out proto nosuch")
        self.assertEqual(said[-1], "this line is left out of the setup: bad 5 Number")
        self.assertEqual(self.said(shell, "set states 0")[-1], "this line is left out of the setup: limits 1 TooSmall")
        self.assertEqual(
            self.said(shell, "rule a pass in nat 192.0.2.1:5000")[-1], "this line is left out of the setup: rules 2 NatNotOut"
        )
        self.assertEqual(
            self.said(shell, "rule a pass out rdr 192.0.2.1:80:81")[-1], "this line is left out of the setup: rules 5 RdrNotIn"
        )
        self.assertEqual(self.said(shell, "set states 9", "rule a pass out", "open", QUERY), ["step pass 1.1 dropped 0"])

    def test_a_form_is_shown_once_in_a_dialogue(self) -> None:
        shell = self.shell()
        shell.is_typed = True
        wanted = ["expected: set LIMIT N", "expected: set timeout CLASS SECONDS"]
        said = [self.said(shell, line) for line in ("set states x", "set batch y", "rule a pas", *SETUP)]
        self.assertEqual(said[0][-3:-1], wanted)
        self.assertEqual(said[1][0], "`y` is not a number of decimal digits")
        self.assertEqual(said[1][-2], "`help set` shows the form")
        self.assertRegex(said[2][-2], "^expected: rule NODE ")
        # Each event has a form, and that of a packet is another one for TCP.
        udp, tcp = QUERY.replace(":53", ""), QUERY.replace("udp", "tcp")
        ends = [self.said(shell, line)[-1] for line in ("flush c", "step main flush", "step main", udp, udp, tcp, tcp)]
        self.assertEqual(ends[:3], ["expected: step BRANCH flush NODE", "`help flush` shows the form", "expected: step BRANCH EVENT"])
        self.assertEqual(ends[3::2], ["expected: step BRANCH packet NODE in|out PROTO SRC DST LEN", self.said(shell, "why")[-1].strip()])
        self.assertEqual(ends[4::2], ["`help packet` shows the form"] * 2)
        # The help of `search` has another form than the program's own.
        lines = [self.said(shell, "search main 65 9 apart") for _ in range(2)]
        self.assertRegex(lines[0][-6], "^expected: search BRANCH DEPTH RUNS ")
        self.assertEqual(lines[1][-1].strip(" "), "^^")

    def test_a_question_before_open_says_what_is_missing(self) -> None:
        self.assertRegex(self.said(self.shell(), "view")[0], "not set up")

    def test_unknown_words_and_branches_are_told(self) -> None:
        shell = self.shell()
        self.assertEqual(self.said(shell, *SETUP, "frob"), ["bad 3 Unknown"])
        self.assertRegex(self.said(shell, "log other")[0], "no branch other")
        self.assertRegex(self.said(shell, "help frob")[0], "no word frob")
        told = "a is a node, and there is no branch of that name: `view a` shows it, and `diff` compares both"
        self.assertEqual(self.said(shell, "log a"), [told])
        self.assertEqual(self.said(shell, "diff a b"), ["a and b agree"])

    def test_words_of_other_programs_are_known(self) -> None:
        shell = self.shell()
        self.assertEqual(self.said(shell, "undo"), ["there is no word undo; did you mean `back`?"])
        self.assertEqual(self.said(shell, "help next"), ["there is no word next; did you mean `forward`?"])

    def test_a_word_before_the_setup_is_matched_with_all_words(self) -> None:
        self.assertEqual(self.said(self.shell(), "veiw"), ["there is no word veiw; did you mean `view`?"])

    def test_a_rule_of_a_pf_conf_is_told_how_one_begins(self) -> None:
        self.assertEqual(self.said(self.shell(), "match in"), ["there is no word match; a rule begins with `rule a` or `rule b`"])

    def test_very_long_words_are_cut(self) -> None:
        shell, end = self.shell(), f"[{'0000:' * 7}0001]:65535"
        self.assertEqual(self.said(shell, "z" * 61), [f"there is no word {'z' * 40}..; `help` lists them"])
        self.assertEqual(self.said(shell, "z" * 60), [f"there is no word {'z' * 60}; `help` lists them"])
        self.assertEqual(self.said(shell, *SETUP, f"why packet c in udp {end}"), [f"`packet c in udp {end}`: expected `a` or `b`, found `c`"])

    def test_odd_places_are_told(self) -> None:
        shell = self.shell()
        self.assertEqual(self.said(shell, *SETUP, "why 1"), ["main has no events"])
        self.said(shell, QUERY)
        for place in ("0", "2", "9" * 5000, "\u0662"):
            self.assertRegex(self.said(shell, f"why {place}")[0], "counted from 1 to 1")
        self.assertRegex(self.said(shell, "changes \u00b2")[0], "no branch")

    def test_a_fault_of_the_shell_costs_no_pair(self) -> None:
        shell = self.shell()
        self.said(shell, *SETUP, QUERY)
        with mock.patch("shell.shows.views.view", side_effect=KeyError("nothing")):
            self.assertRegex(self.said(shell, "view")[0], "the shell failed here, but the pair is as it was: KeyError")
        self.assertEqual(self.said(shell, "names"), ["names main"])

    def test_every_word_has_its_help(self) -> None:
        shell = self.shell()
        listed = [line.split()[0] for line in self.said(shell, "help") if re.match(r"  \w", line)]
        for word in listed:
            self.assertEqual(self.said(shell, f"help {word}")[0].split()[0], word)


class Questions(Dialogue):
    def test_view_tells_the_packet_that_is_held(self) -> None:
        shell = self.shell()
        self.said(shell, "set defer 1", *SETUP, QUERY)
        told = "  held packet of 1.1 (udp 10.0.0.1:1000 192.0.2.9:53 40): since 0 s, due at 0.02 s"
        self.assertIn(told, self.said(shell, "view"))
        # The packet that stands counts, and not one that was undone.
        self.said(shell, "back main 1", QUERY[: -len("40")] + "1400")
        self.assertIn(told.replace("40)", "1400)"), self.said(shell, "view"))
        # Without its setup, as of a server, no outcome of the log is known.
        shell.lab.knows_setup = False
        self.assertIn("  held packet of 1.1: since 0 s, due at 0.02 s", self.said(shell, "view"))

    def test_view_asks_for_no_log_where_nothing_is_held(self) -> None:
        shell = self.shell()
        self.said(shell, *SETUP, QUERY)
        with mock.patch.object(shell.lab, "branch") as asked:
            self.said(shell, "view")
        asked.assert_not_called()

    def test_view_shows_the_pair_at_another_place(self) -> None:
        shell = self.shell()
        self.said(shell, *SETUP, QUERY, "flush a", "tick a 5", "back main 1")
        seen = [self.said(shell, f"view {place}") for place in (0, 1, 2, 3)]
        for place, told in enumerate(seen):
            self.said(shell, f"fork main {place} at{place}", f"use at{place}")
            # All but the first line, which names the branch and counts its events.
            self.assertEqual(self.said(shell, "view")[1:], told[1:])
        self.assertEqual(self.said(shell, "use main", "view main 2"), seen[2])
        self.assertEqual(self.said(shell, "view 4"), ["the program answers `refused 5 NothingForward` to `past main 4`; `log main` lists its events"])
        self.assertEqual(self.said(shell, "view none 1"), ["there is no branch none; `names` lists them"])

    def test_view_shows_a_node_or_a_state_alone(self) -> None:
        shell = self.shell()
        self.said(shell, *SETUP, QUERY, "flush a", "deliver 1")
        head, flow = "branch main  3 events", "  1.1  udp 10.0.0.1:1000 -> 192.0.2.9:53  SINGLE:NO_TRAFFIC"
        more = "       expires in 60 s, udp.first, last used 0 s ago, rule 0: pass out"
        numbers = "clock 0 s, boot 1, next id 2, next queueing number 2"
        seen = [head, f"node a  {numbers}", flow, more, "  counters: packets passed 1; the other 6 are 0"]
        self.assertEqual(self.said(shell, "view a"), seen)
        self.assertEqual(self.said(shell, "view main 3 a"), seen)
        later = more.replace(", rule", ", changed by the peer 0 s ago, rule")
        self.assertEqual(self.said(shell, "view 1.1"), [head, "node a", flow, more, "node b", flow, later])
        head = "branch main  1 event, 2 undone"
        self.assertEqual(self.said(shell, "view 1 1.1"), [head, "node a", flow, more, "node b  no state 1.1"])
        self.assertEqual(self.said(shell, "view 2.1"), ["neither node has a state 2.1"])
        usage = "usage: view [BRANCH] [K], or view [BRANCH] [K] NODE, or view [BRANCH] [K] NAME"
        self.assertEqual(self.said(shell, "view main other"), [usage])
        # A branch that has the name of a node is what it was.
        self.said(shell, "fork main 2 a")
        self.assertEqual(self.said(shell, "view a")[0], "branch a  2 events")
        self.assertEqual(self.said(shell, "view a a")[:2], ["branch a  2 events", f"node a  {numbers}"])

    def test_a_frame_is_shown_with_what_befell_it(self) -> None:
        shell = self.shell()
        self.said(shell, *SETUP, QUERY, "flush a", "repeat 1", "cut 1 40", "deliver 1", "deliver 2", "back main 1", "fork main 3 other")
        insert = "  insert 1.1  udp 10.0.0.1:1000 -> 192.0.2.9:53  SINGLE:NO_TRAFFIC  60 s left of udp.first, rule 0"
        head = "to b, 148 bytes, rules 6d740d4d of a, b has the same: 1 insert"
        copied = ["  event 2, `flush a` (sent 1 148)", "  event 3, `repeat 1` (sent 2 148)"]
        steps = ["  event 4, `cut 1 40` (cut 40)", "  event 5, `deliver 1` (broken 3)"]
        self.assertEqual(self.said(shell, "frame 1"), [f"frame 1 {head}", insert, *copied, *steps])
        self.assertEqual(self.said(shell, "frame other 1"), [f"frame 1 {head}", insert, *copied, "  it is in flight"])
        steps = [copied[1], "  event 6, `deliver 2` (taken 1)  (undone)", "  it is in flight"]
        self.assertEqual(self.said(shell, "frame 2"), [f"frame 2 {head}", insert, *steps])
        told = "no event of main sent a frame 3; `log main` lists its events"
        none, usage = "there is no branch none; `names` lists them", "usage: frame [BRANCH] TICKET"
        asked = ("frame 3", "frame none 1", "frame x", "frame", "frame 4294967296")
        self.assertEqual(self.said(shell, *asked), [told, none, *[usage] * 3])

    def test_what_an_event_would_do_is_told(self) -> None:
        shell = self.shell()
        self.said(shell, *SETUP, QUERY, "flush a", "tick a 5", "back main 1", "fork main 1 other")
        self.assertEqual(self.said(shell, "why deliver 1")[:2], ["deliver 1: taken 1", "  frame 1 came to node b with 1 record:"])
        refused = ["lose 1: refused 1 NoSuchFrame", "  no frame in flight has the ticket 1; in flight: none"]
        self.assertEqual(self.said(shell, "why other lose 01")[:2], refused)
        self.assertEqual(self.said(shell, "why other flush a"), ["flush a: sent 1 148", "  frame 1 goes to b, and carries 1 insert"])
        self.assertEqual(self.said(shell, "why flush c"), ["`flush c`: expected `a` or `b`, found `c`"])
        self.assertEqual(self.said(shell, "log")[0], "main: 3 events, 2 stand")

    def test_questions_change_nothing(self) -> None:
        shell = self.shell()
        self.said(shell, *SETUP, QUERY, "flush a", "fork main 1 other")
        before = [shell.lab.show(it) for it in ("main", "other")]
        self.said(shell, "view", "view 1", "past main 0", "diff", "diff main other", "log", "changes 2", "why", "why 1", "why lose 7", "why deliver 1", "frame 1", "chart", "names", "show main")
        self.assertEqual(before, [shell.lab.show(it) for it in ("main", "other")])


class Several(Dialogue):
    def test_tick_both_ticks_each_node(self) -> None:
        shell = self.shell()
        said = self.said(shell, *SETUP, "tick both 500")
        wanted = ["> step main tick a 500", "step clock 500 dropped 0", "> step main tick b 500", "step clock 500 dropped 0"]
        self.assertEqual(said, wanted)

    def test_deliver_all_delivers_by_ticket(self) -> None:
        shell = self.shell()
        self.said(shell, *SETUP, QUERY, "flush a", "repeat 1")
        said = self.said(shell, "step main deliver all")
        self.assertEqual(said[::2], ["> step main deliver 1", "> step main deliver 2"])
        self.assertEqual(self.said(shell, "deliver all"), ["no frame is in flight"])

    def test_quiet_ends_where_nothing_is_pending_or_in_flight(self) -> None:
        shell = self.shell()
        self.said(shell, *SETUP, QUERY, "flush a", "deliver 1", "restart b")
        self.said(shell, "quiet")
        pair = shell.lab.show("main")
        self.assertEqual((pair.a.pending, pair.b.pending, pair.frames, pair.a.serve), (0, 0, {}, "-"))
        self.assertEqual(list(pair.b.states), list(pair.a.states))
        self.assertEqual(self.said(shell, "quiet"), ["quiet: nothing is pending or in flight, after 0 steps"])

    def test_quiet_stops_at_a_refusal(self) -> None:
        shell = self.shell()
        # One entry may be pending at b, which has to acknowledge two states that a holds packets of.
        self.said(shell, "set queue 2", "set defer 1", *SETUP, QUERY, QUERY.replace("1000", "1001"))
        self.said(shell, "flush a", "step main tick b 1", "packet b out udp 10.0.0.9:7 192.0.2.9:53 40")
        self.assertEqual(self.said(shell, "quiet")[-1], "`deliver 1` is refused")


class Files(Dialogue):
    def test_a_saved_session_is_a_script_that_verifies(self) -> None:
        shell = self.shell()
        with tempfile.TemporaryDirectory() as folder:
            path = f"{folder}/saved.pfl"
            self.said(shell, "# A story.", *SETUP, QUERY, "quiet", f"save {path}")
            self.assertEqual(self.said(shell, f"verify {path}"), ["1 script: all replies as they say"])
            with open(path, encoding="utf-8") as file:
                self.assertEqual(
                    file.read().splitlines()[:6], ["# A story.", *SETUP, f"step main {QUERY}", "#> step pass 1.1 dropped 0"]
                )

    def test_comments_that_were_typed_stay_in_what_is_saved(self) -> None:
        shell = self.shell()
        with tempfile.TemporaryDirectory() as folder:
            self.said(shell, "# Before.", "open", "# Then.", "names", f"save {folder}/saved.pfl")
            with open(f"{folder}/saved.pfl", encoding="utf-8") as it:
                self.assertEqual(it.read().splitlines(), ["# Before.", "open", "# Then.", "names", "#> names main"])
        self.assertIn("It keeps comments that were typed (`# ..`)", " ".join(self.said(shell, "help save")))

    def test_verify_tells_its_time_to_who_types(self) -> None:
        shell = self.shell()
        shell.is_typed = True
        said = self.said(shell, f"verify {TOP}/examples/one-packet.pfl")
        self.assertRegex("\n".join(said), r"^1 script: all replies as they say, in \d+\.\d\d s$")

    def test_a_file_is_read_as_if_it_were_typed(self) -> None:
        shell = self.shell()
        said = self.said(shell, f"read {TOP}/examples/one-packet.pfl")
        self.assertIn("> step main packet a out udp 10.0.0.1:1000 192.0.2.9:53 40", said)
        self.assertEqual(shell.lab.branch("main").cursor, 0)

    def test_a_file_that_is_not_there_is_told(self) -> None:
        self.assertEqual(self.said(self.shell(), "read nowhere.pfl"), ["nowhere.pfl: No such file or directory"])
        for word in ("read", "save", "verify", "annotate", "use"):
            self.assertRegex(self.said(self.shell(), word)[0], f"^usage: {word}")

    def test_a_name_that_no_file_can_have_is_told(self) -> None:
        told = "'a\\x00b': no file can have this name"
        for word in ("read", "annotate"):
            self.assertEqual(self.said(self.shell(), f"{word} a\0b"), [told])
        self.assertEqual(self.said(self.shell(), "verify a\0b"), [told, "1 script: 1 could not be read"])
        self.assertEqual(self.said(self.shell(), "open", "save a\0b"), [told])

    def test_a_picture_that_is_none_is_told(self) -> None:
        self.assertEqual(self.said(self.shell(), "open", "chart out.png"), ["out.png: the name of a picture must end in .svg"])

    def test_a_dry_run_of_annotate_writes_nothing(self) -> None:
        shell = self.shell()
        with tempfile.TemporaryDirectory() as folder:
            path = f"{folder}/case.pfl"
            self.said(shell, *SETUP, "names", f"save {path}")
            with open(path, "a", encoding="utf-8") as it:
                it.write("names\n")
            for option in ("-n", "--dry-run"):
                said = self.said(shell, f"annotate {option} {path}")
                self.assertEqual(said[-2:], ["+#> names main", f"{path}: replies would be written"])
            self.assertEqual(self.said(shell, f"annotate {path}"), [f"{path}: replies written"])
            self.assertEqual(self.said(shell, f"annotate -n {path}"), [f"{path}: as it was"])
        self.assertEqual(self.said(shell, "annotate -n"), ["usage: annotate [--dry-run] FILE.."])

    def test_annotate_reports_slips(self) -> None:
        shell = self.shell()
        with tempfile.TemporaryDirectory() as folder:
            path = f"{folder}/case.pfl"
            with open(path, "w", encoding="utf-8") as it:
                it.write("open\nback main 1\n")
            self.assertEqual(
                self.said(shell, f"annotate {path}"),
                [
                    f"{path}: replies written",
                    f"{path}: line 2: 1 event cannot be undone: main has 0 events before the cursor",
                    "1 line is faulty or refused, and had no such reply before",
                ],
            )
        self.assertTrue(shell.has_faults)

    def test_a_file_that_reads_itself_is_read_once(self) -> None:
        with tempfile.TemporaryDirectory() as folder:
            path = f"{folder}/self.pfl"
            with open(path, "w", encoding="utf-8") as it:
                it.write(f"open\nread {path}\nnames\n")
            said = self.said(self.shell(), f"read {path}")
        self.assertEqual(said[-3:], [f"{path} is already being read", "> names", "names main"])

    def test_slips_are_no_part_of_what_is_saved(self) -> None:
        shell = self.shell()
        with tempfile.TemporaryDirectory() as folder:
            path = f"{folder}/saved.pfl"
            self.said(shell, *SETUP, "flsh a", QUERY, "# \udcff", f"save {path}")
            self.assertEqual(self.said(shell, f"verify {path}"), ["1 script: all replies as they say"])


class Foreign(Dialogue):
    """Lines in another form than the program's, and characters that are none for a terminal."""

    def test_ipv6_addresses_are_written_out(self) -> None:
        one, two = "2001:0db8:0000:0000:0000:0000:0000:0001", "2001:0db8:0000:0000:0000:0000:0000:00ff"
        shell = self.shell()
        self.assertEqual(
            self.said(shell, "rule a pass out from 2001:DB8::/32", "open"),
            ["> rule a pass out from 2001:0db8:0000:0000:0000:0000:0000:0000/32"],
        )
        whole = f"packet a out udp [{one}]:1000 [{two}]:53 60"
        self.assertEqual(
            self.said(shell, "packet a out udp [2001:db8::1]:1000 [2001:DB8::FF]:53 60"), [f"> {whole}", "step pass 1.1 dropped 0"]
        )
        self.assertEqual(self.said(shell, f"why {whole}")[0], f"{whole}: pass 1.1")
        self.assertEqual(self.said(shell, "packet a out udp [2001:db8::1::]:1 [::]:5 60")[-1], "bad 5 Number")
        self.assertEqual(self.said(shell, "# [::1]"), [])

    def test_control_characters_do_not_reach_a_terminal(self) -> None:
        shell = self.shell()
        with mock.patch.object(Shell, "columns", 80):
            self.said(shell, "open")
            shell.out = io.StringIO()
            shell.take(["# \x1b[2J\x9b\udc9b\r", "names\r"], echo=True)
            self.assertEqual(shell.out.getvalue(), "> # \ufffd[2J\ufffd\ufffd\n> names\nnames main\n")
            self.assertNotIn("\x1b", "".join(self.said(shell, "use \x1b[2J", "frob\x1b[2J", "help \x1b")))

    def test_the_mark_of_utf_8_is_not_read(self) -> None:
        with tempfile.TemporaryDirectory() as folder:
            with open(f"{folder}/marked.pfl", "w", encoding="utf-8-sig") as it:
                it.write("open\nnames\n")
            self.assertEqual(self.said(self.shell(), f"read {folder}/marked.pfl"), ["> open", "> names", "names main"])


class Typed(Dialogue):
    """What a dialogue at a terminal has besides."""

    def typed(self) -> Shell:
        shell = self.shell()
        shell.is_typed = True
        return shell

    def read(self, text: str, *before: str) -> List[str]:
        """What is said to a file that is read."""
        shell = self.typed()
        self.said(shell, *before)
        with tempfile.TemporaryDirectory() as folder:
            with open(f"{folder}/case.pfl", "w", encoding="utf-8") as it:
                it.write(text)
            return self.said(shell, f"read {folder}/case.pfl")

    def test_a_reply_that_the_script_repeats_is_shown_once(self) -> None:
        script = f"# A story.\nstep main {QUERY}\n#> step pass 1.1 dropped 0\nnames\n#> names other\nnames\n#> names main\n#> end\n"
        self.assertEqual(
            self.read(script, *SETUP),
            [
                *("> # A story.", f"> step main {QUERY}", "step pass 1.1 dropped 0"),
                *("> names", "names main", "> #> names other", "> names", "names main", "> #> end"),
                "1 event; try: view, diff, why 1, chart",
            ],
        )

    def test_outside_a_dialogue_a_script_is_shown_as_it_is(self) -> None:
        shell = self.shell()
        with tempfile.TemporaryDirectory() as folder:
            with open(f"{folder}/case.pfl", "w", encoding="utf-8") as it:
                it.write("open\nnames\n#> names main\n")
            said = self.said(shell, f"read {folder}/case.pfl")
        self.assertEqual(said, ["> open", "> names", "names main", "> #> names main"])

    def test_a_comment_is_folded(self) -> None:
        shell = self.typed()
        with mock.patch.object(Shell, "columns", 24):
            shell.out = io.StringIO()
            shell.echo("# One two three four five six.")
            shell.echo(f"step main {QUERY}")
        self.assertEqual(
            shell.out.getvalue().splitlines(), ["> # One two three four", "    five six.", f"> step main {QUERY}"]
        )

    def test_what_to_ask_after_a_file(self) -> None:
        self.assertEqual(self.read("names\n", "open")[-1], "names main")
        self.assertEqual(self.read("back main 1\n", *SETUP, QUERY)[-1], "1 event; try: view, diff, why 1, chart")
        self.assertEqual(self.read("rule a pass out\n")[-1], "> rule a pass out")

    def test_how_to_begin(self) -> None:
        shell = self.typed()
        for folder, wanted in ((TOP, "`read examples/lost-insertion.pfl` shows one; "), (f"{TOP}/docs", "")):
            before, shell.out = os.getcwd(), io.StringIO()
            os.chdir(folder)
            try:
                shell.greet()
            finally:
                os.chdir(before)
            self.assertEqual(shell.out.getvalue(), f"enter rules, then `open`; {wanted}`help`\n")
        self.said(shell, "open")
        shell.out = io.StringIO()
        shell.greet()
        self.assertEqual(shell.out.getvalue(), "")

    def test_a_refusal_says_why_at_once(self) -> None:
        shell = self.typed()
        self.said(shell, *SETUP)
        none = "no frame in flight has the ticket 9; in flight: none"
        self.assertEqual(self.said(shell, "lose 9"), ["refused 8 Event 1 NoSuchFrame", f"  {none}"])
        self.assertEqual(
            self.said(shell, "back main 2"), ["refused 4 TooFarBack", "  2 events cannot be undone: main has 0 events before the cursor"]
        )
        self.assertEqual(self.said(self.shell(), *SETUP, "lose 9"), ["refused 8 Event 1 NoSuchFrame"])


class Strict(Dialogue):
    def test_it_stops_at_the_first_refused_or_faulty_line(self) -> None:
        for line in ("step main flush a", "step main flush", "view other"):
            shell = self.shell(strict=True)
            self.said(shell, *SETUP)
            shell.out = out = io.StringIO()
            with self.subTest(line), self.assertRaises(Stopped):
                shell.take((line, "names"), echo=False)
            self.assertNotIn("names main", out.getvalue())


class Command(unittest.TestCase):
    """`./lab shell` as a program."""

    def ran(self, *words: str, given: str = "") -> "subprocess.CompletedProcess[str]":
        command = (sys.executable, f"{TOP}/lab", *words)
        environment = {**os.environ, "PFL_LAB": program()}
        return subprocess.run(command, input=given, env=environment, capture_output=True, text=True, timeout=60)

    def test_a_script_on_a_pipe_is_answered_as_by_a_run(self) -> None:
        with open(f"{TOP}/examples/two-orders.pfl", encoding="utf-8") as it:
            script = it.read()
        run = subprocess.run((program(), "run"), input=script, capture_output=True, text=True, timeout=60)
        shell = self.ran("shell", given=script)
        self.assertEqual((shell.stdout, shell.returncode), (run.stdout, 0))

    def test_echo_tells_each_line_before_its_reply(self) -> None:
        ran = self.ran("shell", "--echo", given="open\nnames\n")
        self.assertEqual(ran.stdout, "> open\n> names\nnames main\n")

    def test_strict_ends_with_status_4(self) -> None:
        ran = self.ran("shell", "--strict", given="open\nstep main flush a\nnames\n")
        self.assertEqual((ran.returncode, ran.stdout), (4, "refused 8 Event 2 NothingPending\n"))
        self.assertIn("stopped at `step main flush a`: refused 8 Event 2 NothingPending", ran.stderr)

    def test_a_script_is_read_before_the_lines_on_a_pipe(self) -> None:
        ran = self.ran("shell", f"{TOP}/examples/two-orders.pfl", given="names\n")
        self.assertEqual(ran.stdout.splitlines()[-1], "names main other")

    def test_a_setup_is_for_a_server_and_has_no_faults(self) -> None:
        self.assertEqual(self.ran("shell", "--setup", "/dev/null").returncode, 2)
        self.assertEqual(self.ran("shell", "--port", "0").returncode, 2)
        with tempfile.TemporaryDirectory() as folder:
            with open(f"{folder}/setup", "w", encoding="utf-8") as it:
                it.write("rule c pass\n")
            ran = self.ran("shell", "--port", "9", "--setup", f"{folder}/setup")
            self.assertEqual((ran.returncode, ran.stderr), (1, f"lab: {folder}/setup: line 1: expected `a` or `b`, found `c`\n"))

    def test_a_picture_has_a_name_of_its_own(self) -> None:
        ran = self.ran("chart", f"{TOP}/examples/one-packet.pfl", f"{TOP}/examples/restart.pfl")
        self.assertEqual(ran.returncode, 2)
        self.assertIn("must end in .svg", ran.stderr)

    def test_options_may_be_between_other_words(self) -> None:
        with tempfile.TemporaryDirectory() as folder:
            ran = self.ran("chart", f"{TOP}/examples/two-orders.pfl", "--branch", "other", f"{folder}/other.svg")
            self.assertEqual((ran.returncode, ran.stderr, os.listdir(folder)), (0, "", ["other.svg"]))
        ran = self.ran("compare", "nowhere.txt", "--all", "nowhere-too.txt")
        self.assertEqual((ran.returncode, ran.stderr), (2, "lab: nowhere.txt: No such file or directory\n"))

    def test_a_fault_is_answered_with_the_usage_of_its_own_word(self) -> None:
        for words, wanted in (
            (["shell", "--prt", "4000"], "unrecognized arguments: --prt"),
            (["chart", "one.pfl", "--nots", "one.svg"], "unrecognized arguments: --nots"),
            (["compare", "one.txt", "--all"], "the following arguments are required: FILE"),
            (["compare", "one.txt", "two.txt", "--rules", "x"], "--rules and --flow say what the script of --out has, and need --out"),
            (["page", "one.pfl"], "a page needs SCRIPT and OUT.html, or --serve PORT"),
            (["shell", "--name", "Ann"], "--name is for the others at a pair, and needs --port or --page"),
        ):
            with self.subTest(words):
                ran = self.ran(*words)
                self.assertEqual(ran.returncode, 2)
                self.assertRegex(ran.stderr, f"^usage: .*lab {words[0]} ")
                self.assertEqual(ran.stderr.splitlines()[-1].partition("error: ")[2], wanted)

    def test_a_script_with_faulty_lines_is_not_drawn(self) -> None:
        with tempfile.TemporaryDirectory() as folder:
            with open(f"{folder}/wrong.pfl", "w", encoding="utf-8") as it:
                it.write("open\n\nstp main flush a\n")
            ran = self.ran("chart", f"{folder}/wrong.pfl")
            self.assertEqual((ran.returncode, ran.stdout, ran.stderr), (1, "", f"lab: {folder}/wrong.pfl: line 3: `stp` is no command (did you mean `step`?)\n"))

    def test_bytes_that_are_no_text_are_for_the_program_to_judge(self) -> None:
        command = (sys.executable, f"{TOP}/lab", "shell")
        environment = {**os.environ, "PFL_LAB": program(), "PYTHONIOENCODING": "utf-8:strict"}
        ran = subprocess.run(command, input=b"open\nn\xff\nnames\n", env=environment, capture_output=True, timeout=60)
        self.assertEqual(ran.stdout, b"bad 2 NotAscii\nnames main\n")

    def test_a_reader_that_has_enough_ends_it_quietly(self) -> None:
        words = f"{sys.executable} {TOP}/lab shell < {TOP}/examples/two-orders.pfl | head -1"
        ran = subprocess.run(
            words, shell=True, env={**os.environ, "PFL_LAB": program()}, capture_output=True, text=True, timeout=60
        )
        self.assertEqual((ran.stdout, ran.stderr), ("forked\n", ""))

    def test_an_interrupt_outside_a_dialogue_ends_it_quietly(self) -> None:
        command = (sys.executable, f"{TOP}/lab", "shell", "--echo")
        environment, pipe = {**os.environ, "PFL_LAB": program()}, subprocess.PIPE
        with subprocess.Popen(command, env=environment, stdin=pipe, stdout=pipe, stderr=pipe, preexec_fn=take_signals) as ran, bounded(ran):
            assert ran.stdin and ran.stdout and ran.stderr
            ran.stdin.write(b"open\nnames\n" * 3000)
            ran.stdin.flush()
            ran.stdout.read(1)
            ran.send_signal(signal.SIGINT)
            ran.stdout.read()
            self.assertEqual((ran.wait(timeout=20), ran.stderr.read()), (130, b""))

    def test_faulty_lines_end_with_status_1(self) -> None:
        self.assertEqual(self.ran("shell", given="open\nfrob\n").returncode, 1)

    def test_verify_tells_by_its_status(self) -> None:
        self.assertEqual(self.ran("verify", f"{TOP}/examples/one-packet.pfl").returncode, 0)
        with tempfile.TemporaryDirectory() as folder:
            with open(f"{folder}/wrong.pfl", "w", encoding="utf-8") as it:
                it.write("open\nnames\n#> names other\n")
            ran = self.ran("verify", f"{folder}/wrong.pfl")
        told = f"{folder}/wrong.pfl:3: reply\n  expected: names other\n  got:      names main\n1 script: 1 differs\n"
        self.assertEqual((ran.stdout, ran.returncode), (told, 1))

    def test_a_dry_run_of_annotate_shows_what_would_change(self) -> None:
        with tempfile.TemporaryDirectory() as folder:
            with open(f"{folder}/bare.pfl", "w", encoding="utf-8") as it:
                it.write("open\nnames\n")
            for option in ("-n", "--dry-run"):
                ran = self.ran("annotate", option, f"{folder}/bare.pfl")
                self.assertEqual(ran.stdout.splitlines()[-2:], ["+#> names main", f"{folder}/bare.pfl: replies would be written"])
                self.assertEqual((ran.stderr, ran.returncode), ("", 0))

    def test_annotate_reports_slips_by_its_status(self) -> None:
        with tempfile.TemporaryDirectory() as folder:
            path = f"{folder}/slip.pfl"
            with open(path, "w", encoding="utf-8") as it:
                it.write("open\nstep main flsh a\n")
            said = (
                f"lab: {path}: line 2: `flsh` is no event (did you mean `flush`?)\n"
                "lab: 1 line is faulty or refused, and had no such reply before\n"
            )
            ran = self.ran("annotate", path)
            self.assertEqual((ran.stdout, ran.stderr, ran.returncode), (f"{path}: replies written\n", said, 1))
            ran = self.ran("annotate", path)
            self.assertEqual((ran.stdout, ran.stderr, ran.returncode), (f"{path}: as it was\n", "", 0))

    def ran_by(self, named: str, *words: str) -> "subprocess.CompletedProcess[str]":
        """What `./lab` does where PFL_LAB names this."""
        command, environment = (sys.executable, f"{TOP}/lab", *words), {**os.environ, "PFL_LAB": named}
        return subprocess.run(command, input="open\nnames\n", env=environment, capture_output=True, text=True, timeout=60)

    def test_a_program_that_cannot_be_run_is_told_once_by_every_word(self) -> None:
        script = f"{TOP}/examples/one-packet.pfl"
        faults = {"/nowhere": "No such file or directory", TOP: "Is a directory", f"{TOP}/README.md": "Permission denied"}
        for words in (["shell"], ["verify", script, script], ["chart", script], ["run"], ["check"], ["--version"]):
            for named, why in faults.items():
                with self.subTest(words[0], named=named):
                    ran = self.ran_by(named, *words)
                    said = f"lab: PFL_LAB names no program that can be run: {named}: {why}\n"
                    self.assertEqual((ran.stdout, ran.stderr, ran.returncode), ("", said, 125))

    def test_what_is_no_program_is_no_fault_of_a_script(self) -> None:
        with tempfile.TemporaryDirectory() as folder:
            path = f"{folder}/text"
            with open(path, "w", encoding="utf-8") as it:
                it.write("No program.\n")
            os.chmod(path, 0o755)
            for words in (["verify", f"{TOP}/examples/one-packet.pfl"], ["run"]):
                self.assertEqual(self.ran_by(path, *words).stderr, f"lab: {path}: Exec format error\n")

    def test_words_that_run_no_program_ask_for_none(self) -> None:
        self.assertEqual([self.ran_by("/nowhere", "help", it).returncode for it in ("shell", "run", "import")], [0, 0, 0])

    def test_every_word_runs_the_program_that_is_named(self) -> None:
        for word in ("run", "shell"):
            self.assertEqual(self.ran_by(program(), word).stdout, "names main\n")


def free_port() -> int:
    with socket.socket() as listening:
        listening.bind(("127.0.0.1", 0))
        return int(listening.getsockname()[1])


class Server(Dialogue):
    """Sessions of one server, each with a shell of its own."""

    def setUp(self) -> None:
        self.port = free_port()
        words = (program(), "serve", "--port", str(self.port), "--sessions", "2")
        self.server = subprocess.Popen(words, text=True, stdin=subprocess.PIPE, stdout=subprocess.PIPE)
        assert self.server.stdin and self.server.stdout
        self.server.stdin.write("".join(f"{line}\n" for line in SETUP))
        self.server.stdin.close()
        with bounded(self.server):
            self.server.stdout.readline()
        self.shells = [Shell(Laboratory(program(), self.port), io.StringIO(), PLAIN) for _ in range(2)]

    def tearDown(self) -> None:
        for it in self.shells:
            it.lab.close()
        self.server.wait(timeout=20)
        if self.server.stdout:
            self.server.stdout.close()

    def test_two_sessions_share_their_branches(self) -> None:
        one, two = self.shells
        self.assertEqual(self.said(one, QUERY), ["step pass 1.1 dropped 0"])
        self.assertEqual(self.said(two, "diff")[0], "a and b differ in 1 state: 1 only on a, 0 only on b, 0 differ")
        self.assertTrue(any("1.1" in line for line in self.said(two, "view")))
        self.said(two, "quiet")
        self.assertEqual(self.said(one, "diff")[0], "a and b agree in 1 state")

    def test_another_place_is_seen_without_the_setup(self) -> None:
        one, two = self.shells
        self.said(one, QUERY, "flush a")
        self.assertTrue(any("frame 1 to b" in line for line in self.said(two, "view")))
        self.assertFalse(any("frame" in line for line in self.said(two, "view 1")))
        self.assertEqual(self.said(two, "past main 1")[0], "branch main events 2 cursor 1")
        said = self.said(two, "changes 2")
        self.assertEqual(said[0], "event 2: flush a: sent 1 148")
        self.assertIn("  link: frame 1 new: to b, 148 bytes: 1 insert", said)

    def test_a_summary_is_no_command(self) -> None:
        one, two = self.shells
        self.said(one, QUERY)
        told = "after 1 commands of all sessions: branches 1, events 1, their cursors together 1, states at a 1, states at b 0, frames in flight 0, pending 1"
        self.assertEqual(self.said(two, "summary", "summary"), [told, told])
        self.assertRegex(self.said(self.shell(), "summary")[0], "asks a server")

    def test_a_server_does_not_search(self) -> None:
        one, two = self.shells
        told = (
            "a server does not search: its `log` shows the events of a branch; in a shell of your own, after the same setup, step them "
            "and search there"
        )
        self.assertEqual(self.said(one, "search apart", "search main 3 100 apart", QUERY), [told, told, "step pass 1.1 dropped 0"])
        self.assertRegex(self.said(two, "take", "summary")[1], "after 1 commands of all sessions")

    def test_a_server_that_has_ended_is_told(self) -> None:
        self.server.kill()
        self.server.wait(timeout=20)
        with self.assertRaisesRegex(Ended, "the server has ended"):
            self.said(self.shells[0], "names")

    def test_the_events_are_those_of_all_sessions(self) -> None:
        one, two = self.shells
        self.said(one, QUERY)
        self.said(two, "flush a")
        said = self.said(one, "log")
        self.assertRegex(said[0], "^main: 2 events, 2 stand; the outcomes are known with --setup FILE")
        self.assertEqual(said[1:], [f"  1  {QUERY}", f"  2  flush a{' ' * (len(QUERY) - 7)}".rstrip(), "  >  cursor at 2"])

    def test_a_reason_and_a_chart_need_no_setup(self) -> None:
        one, two = self.shells
        self.said(one, QUERY)
        self.said(two, "flush a")
        rule = "  no state matched; rule 0 of a passed it, and made state 1.1"
        self.assertEqual(self.said(one, "why 1"), [f"{QUERY}: pass 1.1", rule])
        told = "another session has changed main since; its newest event is this:"
        self.assertEqual(self.said(one, "why")[:2], [told, "flush a: sent 1 148"])
        self.assertRegex("\n".join(self.said(one, "chart")), "#1: insert 1.1")
        self.assertEqual(self.said(one, "frame 1")[2:], ["  event 2, `flush a` (sent 1 148)", "  it is in flight"])
        ahead = "  it would be accepted; with --setup FILE, or once it is stepped, `why` says more"
        self.assertEqual(self.said(one, "why lose 1"), ["lose 1: lost", ahead])
        self.assertEqual(self.said(one, "why deliver 1"), ["deliver 1: taken 1", "  record ins 1.1 imported 0", ahead])

    def test_a_refusal_is_explained_without_the_setup(self) -> None:
        one, two = self.shells
        self.said(one, QUERY, "restart b", "retry b")
        told = ["retry b: refused 9 TooEarly", "  b can ask for all states again at 10000 ms: it has waited since 0 ms, and `bulk_ms` is 10000 ms"]
        self.assertEqual(self.said(one, "why")[:2], told)
        self.assertEqual(self.said(two, "why retry b")[:2], told)

    def test_with_the_setup_all_questions_are_answered(self) -> None:
        one, two = self.shells
        one.lab.setup, one.lab.knows_setup = Setup.of(SETUP[:-1]), True
        self.said(two, QUERY, "flush a")
        self.assertEqual(self.said(one, "log")[2].split()[-3:], ["sent", "1", "148"])
        self.assertRegex(self.said(one, "why 1")[1], "rule 0 of a")
        self.assertRegex("\n".join(self.said(one, "changes 2")), "frame 1 new: to b")


class KnownSetup(unittest.TestCase):
    def test_a_setup_gives_the_timeouts_of_its_rules(self) -> None:
        setup = Setup.of(["set states 9", "rule a pass out timeout udp.first 5"])
        self.assertEqual(
            (setup.limits[STATES], setup.seconds("a", 0, "udp.first"), setup.seconds("b", None, "udp.first")), (9, 5, 60)
        )


if __name__ == "__main__":
    unittest.main()
