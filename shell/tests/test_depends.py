"""`depends`: which replies depend on whose rules a run goes by. The wanted answers are worked out by hand, after docs/KERNEL.md."""
from __future__ import annotations

import glob
import os
import re
import unittest
from contextlib import closing
from typing import List, Sequence, Tuple

from ..console.colours import PLAIN
from ..depends.answers import Answer, of_branch, of_script
from ..depends.choices import by_rules, tried
from ..depends.comparing import compared
from ..depends.replayed import Script
from ..language.lines import lines_of
from ..language.setups import LOOSE, MERGE, SCALE, SWITCHES, WINDOW
from ..model.kernels import EVERY, PROFILE, Kernel
from ..scripts.texts import read
from . import TOP, laboratory, program
from .dependings import MARK, said_by
from .standins import Dialogue

RULES = ["rule a block any", "rule a pass out", "rule b block any", "rule b pass out"]
CLIENT, SERVER = "tcp 10.0.0.1:1000 192.0.2.9:80", "tcp 192.0.2.9:80 10.0.0.1:1000"
SYN = f"step main packet a out {CLIENT} S 100 0 60000 0"
# The night of a failover between a SYN and the first update: b has not heard the server when the client's data comes there.
NIGHT = [
    *RULES, "open", SYN, "step main flush a", "step main deliver 1",
    f"step main packet a in {SERVER} SA 500 101 60000 0", f"step main packet b out {CLIENT} PA 101 501 60000 400",
]
# An established session, and a keepalive of the server's whose number is far off.
SESSION = ["rule a pass out", "open", SYN, f"step main packet a in {SERVER} SA 500 101 60000 0", f"step main packet a out {CLIENT} A 101 501 60000 0"]
KEEPALIVE = f"step main packet a in {SERVER} A 99000 101 60000 0"
BLIND = f"step main packet a in {SERVER} R 3000000000 0 0 0"


def by(*words: str) -> Kernel:
    return PROFILE.with_words(words)


def of_lines(lines: Sequence[str], shows_all: bool = False) -> Answer:
    return of_script(program(), lines, "it", shows_all, PLAIN)


class Kernels(unittest.TestCase):
    def test_rules_are_put_in_the_place_of_each_other(self) -> None:
        self.assertEqual(PROFILE.toggled((LOOSE, WINDOW)), by("window", "loose"))
        self.assertEqual(by("window", "reset").toggled((WINDOW, MERGE)), by("merge", "reset"))
        self.assertEqual(EVERY.toggled(tuple(SWITCHES.values())), PROFILE)
        self.assertEqual(by("window", "reset").apart(by("reset", "scale")), (WINDOW, SCALE))

    def test_rules_are_named_by_what_they_are_otherwise_than_the_scripts_own(self) -> None:
        for own, other, wanted in (
            (PROFILE, by("loose", "window"), "by kernel window, loose"),
            (PROFILE, EVERY, "by kernel all"),
            (by("merge"), by("merge", "expiry"), "also with kernel expiry"),
            (by("merge", "expiry"), by("merge"), "without kernel expiry"),
            (by("merge", "expiry"), by("merge", "scale"), "also with kernel scale and without kernel expiry"),
            (by("merge"), PROFILE, "by the profile"),
            (by("merge"), EVERY, "by kernel all"),
        ):
            self.assertEqual(by_rules(own, other), wanted)


class Scripts(unittest.TestCase):
    def test_its_line_is_in_the_place_of_the_scripts_own(self) -> None:
        script = Script.of(program(), ["# a story", "kernel merge", *RULES, "kernel loose", "", "open", "# more", SYN])
        self.assertEqual(script.own, by("loose", "merge"))
        self.assertEqual(script.setup(by("window")).lines, ["kernel window", *RULES])
        self.assertEqual(script.setup(PROFILE).lines, RULES)
        self.assertEqual([tuple(command) for command in script.commands], [(SYN, 11)])

    def test_comments_of_an_import_stay_with_their_rules(self) -> None:
        script = Script.of(program(), ["# pf.conf:21 @7 pass in", "rule a pass in", "open"])
        self.assertEqual(script.setup(EVERY).rules["a"][0].origin, "pf.conf:21 @7")

    def test_events_are_counted_on_their_branches(self) -> None:
        lines = [*RULES, "open", SYN, "step main flush a", "fork main 1 other", "step other flush a", "back main 1", "step main flush a", "show main"]
        spots = Script.of(program(), lines).spots
        wanted = [("main", 1), ("main", 2), ("main", 1), ("other", 2), ("main", 0), ("main", 2), ("main", 0)]
        self.assertEqual([(spot.branch, spot.number) for spot in spots], wanted)
        self.assertEqual([command.number for command in Script.of(program(), lines).commands], [6, 7, 8, 9, 10, 11, 12])

    def test_it_is_played_once_by_each_set_of_rules(self) -> None:
        script = Script.of(program(), NIGHT)
        tried(script)
        # (its own rules, ten words, and all)
        self.assertEqual(script.played, 12)


class Comparing(unittest.TestCase):
    def changes(self, lines: Sequence[str], kernel: Kernel) -> List[str]:
        """Each reply that changes, by its event or line."""
        script = Script.of(program(), lines)
        its = compared(script, kernel).differences
        return [f"{script.spots[it.place].command.line}: {it.before[0]} -> {it.after[0]}" for it in its]

    def test_a_verdict(self) -> None:
        data = NIGHT[-1]
        self.assertEqual(self.changes(NIGHT, by("loose")), [f"{data}: step drop window dropped 0 -> step pass 1.1 dropped 0"])
        self.assertEqual(self.changes(NIGHT, by("window")), [])

    def test_after_an_event_that_is_refused_nothing_is_compared(self) -> None:
        """By the kernel nothing is stale at b, so that it has nothing to send and nothing can come of it."""
        merge = read(f"{TOP}/crates/test_cases/data/cases/merge-comes-to-rest.kernel.pfl")
        script = Script.of(program(), [it for it in lines_of(merge) if not it.startswith("kernel")])
        its = compared(script, by("merge"))
        parted = [(parting.branch, parting.number) for parting in its.partings]
        self.assertEqual(len(parted), 1)
        (branch, number), last = parted[0], its.differences[-1]
        self.assertEqual((branch, script.spots[last.place].number), ("main", number))
        self.assertIn("refused", (last.before[0].split()[0], last.after[0].split()[0]))

    def test_a_branch_of_the_first_events_is_the_same_run(self) -> None:
        """The kernel passes the reset, the state goes at the purge, and a kill of it is refused from event 6 on."""
        lines = [*SESSION, BLIND, "step main tick a 200000", "step main purge a", "step main kill a 1.1", "show main"]
        tail = ["fork main 3 early", f"step early {BLIND[10:]}", "fork main 7 late", "step late flush a"]
        script = Script.of(program(), [*lines, *tail])
        its = compared(script, by("window"))
        self.assertEqual([(parting.branch, parting.number) for parting in its.partings], [("main", 7)])
        places = [(script.spots[difference.place].branch, script.spots[difference.place].number) for difference in its.differences]
        self.assertEqual(places, [("main", 4), ("main", 6), ("main", 7), ("early", 4)])

    def test_of_a_search_the_answer_counts(self) -> None:
        lines = [*NIGHT[:-1], f"search main 2 1000 dropped {NIGHT[-1][10:]}"]
        answers = [Script.of(program(), lines).replies(it)[-1] for it in (PROFILE, by("loose"), by("window"))]
        self.assertEqual([answer[0].split()[0] for answer in answers], ["found", "none", "found"])
        self.assertEqual([len(self.changes(lines, it)) for it in (by("loose"), by("window"))], [1, 0])

    def test_of_why_the_outcome_counts(self) -> None:
        """By `window` the program names more tests of the same packet."""
        lines = [*SESSION, "why main 3"]
        script = Script.of(program(), lines)
        self.assertNotEqual(script.replies(PROFILE)[-1], script.replies(by("window"))[-1])
        self.assertEqual(self.changes(lines, by("window")), [])
        self.assertEqual(len(self.changes([*SESSION, KEEPALIVE, "why main 4"], by("window"))), 2)

    def test_the_end(self) -> None:
        its = compared(Script.of(program(), [*SESSION, KEEPALIVE]), by("window"))
        self.assertEqual([(it.branch, it.changes) for it in its.ends], [("main", ("changed on a (numbers): tcp 10.0.0.1:1000 -> 192.0.2.9:80",))])


# A session that both ends have closed. Then a segment of the server's without data, whose own number is far off, and what it acknowledges
# is too: the number does not count by `window`, and what it acknowledges does not by `loose`.
CLOSED = [
    *SESSION, f"step main packet a out {CLIENT} FA 101 501 60000 0", f"step main packet a in {SERVER} FA 501 102 60000 0",
    f"step main packet a out {CLIENT} A 102 502 60000 0", f"step main packet a in {SERVER} A 3000000000 1000000 60000 0",
]


class Together(unittest.TestCase):
    """Words that change together what none of them changes alone."""

    def test_the_least_set(self) -> None:
        trial = tried(Script.of(program(), CLOSED))
        self.assertTrue(all(one.is_same for one in trial.singles))
        (far,) = trial.far
        self.assertEqual([(two.its.kernel, [*two.places]) for two in far.together], [(by("window", "loose"), [6])])

    def test_it_is_looked_for_only_where_no_word_does_it_alone(self) -> None:
        for lines in (NIGHT, [*SESSION, BLIND]):
            script = Script.of(program(), lines)
            self.assertEqual([two for far in tried(script).far for two in far.together], [])
            self.assertEqual(script.played, 12)

    def test_from_the_kernels_rules_to_the_profiles(self) -> None:
        """By `window` and `loose` each alone the segment is dropped: so either of them taken away drops it."""
        trial = tried(Script.of(program(), ["kernel window loose", *CLOSED]))
        self.assertEqual([one.kernel for one in trial.singles if not one.is_same], [by("loose"), by("window")])
        self.assertEqual([far.its.kernel for far in trial.far], [EVERY, PROFILE])

    def test_what_a_word_changes_and_all_do_not(self) -> None:
        trial = tried(Script.of(program(), [*SESSION, BLIND]))
        self.assertEqual([one.kernel for one in trial.singles if not one.is_same], [by("window")])
        self.assertEqual([*trial.far[0].undone], [3])


class Answers(unittest.TestCase):
    maxDiff = None

    def test_the_night_of_a_failover(self) -> None:
        found = of_lines(NIGHT)
        self.assertTrue(found.depends)
        self.assertEqual(found.lines, [
            "it: 5 events, by the profile; then by each word of `kernel` and all of them",
            "by kernel loose: 1 packet gets a different verdict",
            "  event 5 (line 10): drop window -> pass 1.1",
            "    packet b out tcp 10.0.0.1:1000 192.0.2.9:80 PA 101 501 60000 400",
            "    by kernel loose it passes nevertheless: where the other end was not heard, a packet may begin 67035 before lo, and end 67035"
            " after hi",
            "  main ends differently: changed on b (numbers): tcp 10.0.0.1:1000 -> 192.0.2.9:80",
            "by kernel all: as by kernel loose",
            "no other word changes anything: window, merge, rule, expiry, reset, scale, clear, revive, icmp",
            "how sure we are that FreeBSD has loose: 95%; that it moves the other end's hi: 85% (docs/REAL.md)",
        ])

    def test_nothing_depends(self) -> None:
        found = of_lines([*RULES, "open", "step main packet a out udp 10.0.0.1:1000 192.0.2.9:53 40", "show main"])
        self.assertFalse(found.depends)
        self.assertEqual(found.lines, [
            "it: 1 event, by the profile; then by each word of `kernel` and all of them",
            "no reply changes: the same by the profile and by the kernel, as far as we know it",
        ])

    def test_several_words_together(self) -> None:
        lines = of_lines(CLOSED).lines
        at = lines.index("by kernel window, loose together: 1 packet gets a different verdict")
        self.assertEqual(lines[at + 1], "  event 7 (line 9): drop window -> pass 1.1")
        self.assertIn("by kernel all: as by kernel window, loose together", lines)

    def test_what_only_a_shown_pair_has_comes_last(self) -> None:
        """By `window` the state has another `lo` after the last acknowledgement, which `show` prints, and the keepalive passes besides."""
        lines = of_lines([*NIGHT[:-1], "show main", NIGHT[-1]]).lines
        heads = [line.split(":")[0] for line in lines if line.startswith("by kernel")]
        self.assertEqual(heads, ["by kernel loose", "by kernel all"])
        lines = of_lines([*SESSION, "show main", BLIND]).lines
        self.assertIn("by kernel window: 1 packet gets a different verdict, 1 reply that shows the pair", lines)

    def test_an_earlier_event_made_the_difference(self) -> None:
        lines = of_script(program(), lines_of(read(f"{TOP}/examples/late-update.pfl")), "it", False, PLAIN).lines
        at = next(at for at, line in enumerate(lines) if line.startswith("  event 13"))
        self.assertEqual(lines[at].split(": ", 1)[1], "pass 1.1 -> drop window")
        self.assertIn("seq 120001 ends at 121461, 61460 above 60001 (hi of the destination end)", lines[at + 2])
        self.assertTrue(lines[at + 3].startswith("    since event 12, `deliver 2`: 1. short update 1.1: merged, counted as stale: by kernel merge"))

    def test_another_run(self) -> None:
        lines = of_lines([*SESSION, BLIND, "step main tick a 200000", "step main purge a", "step main kill a 1.1", "step main tick a 1"]).lines
        self.assertIn("  from event 7 on it is a different run, and nothing after it is compared", lines)
        self.assertIn("by kernel all: every reply as it was", lines)

    def test_each_reply(self) -> None:
        first, every = (of_lines([*SESSION, KEEPALIVE, KEEPALIVE, "show main"], it).lines for it in (False, True))
        self.assertEqual([it for it in first if it.startswith("  event")], ["  event 4 (line 6): drop window -> pass 1.1"])
        self.assertEqual(
            [it for it in every if it.startswith("  event")],
            ["  event 4 (line 6): drop window -> pass 1.1", "  event 5 (line 7): drop window -> pass 1.1"],
        )
        self.assertIn("  `show main` (line 8): a: counter packets dropped: 2 -> 0", every)

    def test_a_line_of_its_own(self) -> None:
        """The night by `kernel loose`: without it the packet is dropped, as by the profile."""
        lines = of_lines(["kernel loose", *NIGHT]).lines
        self.assertEqual(lines[0], "it: 5 events, by kernel loose; then by each word added or removed, all of them, and none")
        self.assertIn("by the profile: 1 packet gets a different verdict", lines)
        self.assertIn("  event 5 (line 11): pass 1.1 -> drop window", lines)
        self.assertIn("by kernel all: every reply as it was", lines)
        # (by `window` what was not heard is acknowledged as well, and moves the other end's `hi`)
        self.assertIn("also with kernel window: only the end", lines)
        self.assertIn("no other word changes anything: merge, rule, expiry, reset, scale, clear, revive, icmp", lines)

    def test_branches(self) -> None:
        lines = of_lines([*SESSION, "fork main 3 late", f"step late {KEEPALIVE[10:]}"]).lines
        self.assertEqual(lines[0], "it: 4 events on 2 branches, by the profile; then by each word of `kernel` and all of them")
        self.assertIn("  event 4 of late (line 7): drop window -> pass 1.1", lines)


class Branches(Dialogue):
    def test_the_events_of_a_branch_that_stand(self) -> None:
        lab = laboratory("\n".join([*SESSION, KEEPALIVE]))
        with closing(lab):
            found = of_branch(lab, lab.branch("main"), False, PLAIN)
            self.assertTrue(found.depends)
            self.assertIn("  event 4: drop window -> pass 1.1", found.lines)
            lab.ask("back main 1")
            self.assertFalse(of_branch(lab, lab.branch("main"), False, PLAIN).depends)

    def test_in_a_dialogue(self) -> None:
        shell = self.shell()
        before = self.said(shell, "log main")
        same = "no reply changes: the same by the profile and by the kernel, as far as we know it"
        wanted = ["main: 1 event, by the profile; then by each word of `kernel` and all of them", same]
        self.assertEqual(self.said(shell, "depends"), wanted)
        self.assertEqual(self.said(shell, "depends main --all-replies"), wanted)
        self.assertEqual(self.said(shell, "log main"), before)
        self.assertEqual(self.said(shell, "depends nowhere"), ["there is no branch nowhere; `names` lists them"])
        (fault,) = self.said(shell, "depends main --every")
        self.assertIn("usage: depends [BRANCH] [--all-replies]", fault)


class Command(unittest.TestCase):
    def test_the_status_says_which(self) -> None:
        one, other = "examples/one-packet.pfl", "examples/late-update.pfl"
        cases: List[Tuple[List[str], int]] = [
            ([one], 0), ([other], 1), ([one, other], 1), ([other, one], 1), (["nothing.pfl"], 2), ([one, "--every"], 2), ([], 2),
        ]
        for words, wanted in cases:
            self.assertEqual(said_by(*words)[0], wanted, words)

    def test_several_scripts(self) -> None:
        _, lines, told = said_by("examples/one-packet.pfl", "examples/held-packet.pfl")
        same = "no reply changes: the same by the profile and by the kernel, as far as we know it"
        self.assertEqual([lines[1], lines[2], lines[4], told], [same, "", same, ""])

    def test_a_faulty_script(self) -> None:
        path = "crates/test_cases/data/cases/setup-kernel-alone.pfl"
        status, lines, told = said_by(path, "examples/one-packet.pfl")
        self.assertEqual((status, len(lines)), (2, 3))
        self.assertRegex(told, rf"\Alab: {path}: line 2: the rule of the kernel is missing: .*\n\Z")

    def test_what_the_pages_print_is_what_comes(self) -> None:
        found = {}
        for path in (f"{TOP}/README.md", f"{TOP}/examples/README.md", *glob.glob(f"{TOP}/docs/*.md")):
            found.update({it[1]: it[2] for it in MARK.finditer(read(path))})
        self.assertTrue(found)
        for words, printed in found.items():
            self.assertEqual(said_by(*words.split())[1], printed.splitlines(), words)


class Lessons(unittest.TestCase):
    """Each example by each word, as the table of examples/README.md has it."""

    def test_the_table(self) -> None:
        found, paths = {}, sorted(glob.glob(f"{TOP}/examples/*.pfl"))
        for path in paths:
            trial = tried(Script.of(program(), lines_of(read(path))))
            changing = [word for word, one in zip(SWITCHES, trial.singles) if not one.is_same]
            found.update({os.path.basename(path): changing} if changing else {})
        text = read(f"{TOP}/examples/README.md").partition("## Whose rules they depend on")[2]
        rows = re.findall(r"(?m)^\| \[([a-z-]+\.pfl)\]\(\1\) \| ([^|]+) \|", text)
        self.assertEqual({name: re.findall("`([a-z]+)`", words) for name, words in rows}, found)
        self.assertIn(f"Of the {len(paths)} files {len(paths) - len(found)} have the same replies", text)
        headings = re.findall(r"(?m)^### (\w+)$", read(f"{TOP}/docs/REAL.md"))
        self.assertEqual([it for it in headings if it in SWITCHES], [*SWITCHES])
        for _, words in rows:
            for word, heading in re.findall(r"\[`([a-z]+)`\]\(../docs/REAL.md#([a-z]+)\)", words):
                self.assertEqual(word, heading)


if __name__ == "__main__":
    unittest.main()
