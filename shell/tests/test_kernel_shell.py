"""The shell over a pair whose setup has a line `kernel`: the prompt, `kernel` alone, `view`, what is saved, charts, pages, searches and
`whatif`. A failover comes between a SYN and its answer: the client's first data comes to b, which has not heard the server, and is dropped
by the profile."""
from __future__ import annotations

import io
import os
import tempfile
import unittest
from contextlib import closing
from typing import List

from ..charts.picture import draw
from ..console.colours import PLAIN
from ..dialogue.shell import Shell
from ..link.laboratory import Laboratory
from ..main import drawn_from
from ..pages.runs import run_of
from ..scripts import texts
from . import program
from .followers import ProvedFollowers
from .imports import taken_in

RULES = ["rule a block any", "rule a pass out", "rule b block any", "rule b pass out", "open"]
SYN = "packet a out tcp 10.0.0.1:1000 192.0.2.9:80 S 100 0 60000 0"
DATA = "packet b out tcp 10.0.0.1:1000 192.0.2.9:80 PA 101 501 60000 400"
FAILOVER = [SYN, "flush a", "deliver 1"]
BY_LOOSE = "by kernel loose: not the profile (see: help kernel)"
SYN_ACK, ACK = (f"packet a {it}" for it in ("in tcp 192.0.2.9:80 10.0.0.1:1000 SA 500 101 60000 0", "out tcp 10.0.0.1:1000 192.0.2.9:80 A 101 501 60000 0"))
RESET = "packet a in tcp 192.0.2.9:80 10.0.0.1:1000 R 1000 0 0 0"
QUERY = "packet a out udp 10.0.0.1:1000 192.0.2.9:53 40"
ANSWER = "packet b in udp 192.0.2.9:53 10.0.0.1:1000 80"
# What is said where a line has the rule `window` alone.
ANY_NUMBER = (
    "by kernel window without reset a reset passes with any number: so it did before FreeBSD 13.2-RELEASE-p7, as far as we know its sources"
)


def script_of(kernel: str, *events: str) -> List[str]:
    return [*([kernel] if kernel else []), *RULES, *(f"step main {event}" for event in events)]


class Dialogue(unittest.TestCase):
    def shell(self, *lines: str, is_typed: bool = True) -> Shell:
        """A shell in which these lines were typed."""
        lab = Laboratory(program())
        self.addCleanup(lab.close)
        shell = Shell(lab, io.StringIO(), PLAIN, is_typed=is_typed)
        shell.take(lines, echo=False)
        return shell

    def said(self, shell: Shell, *lines: str) -> List[str]:
        """What it says to more of them."""
        shell.out = io.StringIO()
        shell.take(lines, echo=False)
        return shell.out.getvalue().splitlines()

    def prompt(self, shell: Shell) -> str:
        shell.set_prompt()
        return shell.prompt


class Prompts(Dialogue):
    def test_it_names_the_rules_of_a_pair(self) -> None:
        for line, wanted in (
            ("kernel merge", "main 0/0 (kernel merge)> "),
            ("kernel loose window loose", "main 0/0 (kernel window loose)> "),
            ("kernel all", "main 0/0 (kernel all)> "),
            ("# kernel all", "main 0/0> "),
        ):
            self.assertEqual(self.prompt(self.shell(line, *RULES)), wanted)

    def test_there_are_none_before_the_pair_is_set_up(self) -> None:
        self.assertEqual(self.prompt(self.shell("kernel all")), "setup> ")

    def test_it_is_that_of_the_branch_in_use(self) -> None:
        shell = self.shell("kernel merge", *RULES, *FAILOVER, "fork here other", "use other", "back other 2")
        self.assertEqual(self.prompt(shell), "other 1/3 (kernel merge)> ")


class Kernels(Dialogue):
    def test_the_word_alone_says_which_rules_are_the_kernels(self) -> None:
        shell = self.shell()
        self.assertEqual(self.said(shell, "kernel"), ["the profile; no switch is on"])
        self.assertEqual(self.said(shell, "kernel loose", "kernel"), ["kernel loose"])
        self.assertEqual(self.said(shell, " kernel  window", "kernel "), ["kernel window loose", ANY_NUMBER])
        self.said(shell, *RULES)
        self.assertEqual(self.said(shell, "kernel"), ["kernel window loose", ANY_NUMBER])
        self.assertFalse(shell.has_faults)
        self.assertEqual(self.said(self.shell("kernel all", *RULES), "kernel"), ["kernel window loose merge rule expiry reset scale clear revive icmp"])
        self.assertEqual(self.said(self.shell(*RULES), "kernel"), ["the profile; no switch is on"])

    def test_who_opens_a_pair_without_the_rule_for_resets_is_told(self) -> None:
        opened = "the pair is set up; its branch is main. `help` lists the words."
        self.assertEqual(self.said(self.shell("kernel window", *RULES[:-1]), "open"), [opened, ANY_NUMBER])
        for line in ("kernel all", "kernel merge", ""):
            self.assertEqual(self.said(self.shell(line, *RULES[:-1]), "open"), [opened])
        self.assertEqual(self.said(self.shell("kernel window", is_typed=False), *RULES), [])

    def test_a_faulty_line_is_explained_and_not_taken(self) -> None:
        shell = self.shell()
        self.assertEqual(
            self.said(shell, "kernel loose takeover"),
            [
                "`takeover` is no rule of the kernel: expected `window`, `loose`, `merge`, `rule`, `expiry`, `reset`, `scale`, `clear`, `revive`, "
                "`icmp` or `all`",
                "  kernel loose takeover",
                "               ^^^^^^^^",
                "expected: kernel WORD..",
                "this line is left out of the setup: bad 3 Unknown",
            ],
        )
        self.assertEqual(self.said(shell, "kernel"), ["the profile; no switch is on"])

    def test_it_is_no_command(self) -> None:
        said = self.said(self.shell(*RULES), "kernel loose")
        self.assertEqual(said[:2], ["bad 3 Unknown", "`kernel` is no command: it belongs to the setup, before `open`"])

    def test_it_has_its_help(self) -> None:
        said = self.said(self.shell(), "help kernel")
        self.assertEqual(said[0], "kernel WORD..")
        self.assertTrue(any(it.startswith("  merge: unless both ends") for it in said))
        self.assertTrue(any(it.startswith("  kernel ") for it in self.said(self.shell(), "help")))


class Answers(Dialogue):
    def test_the_rule_decides(self) -> None:
        self.assertEqual(self.said(self.shell("kernel loose", *RULES, *FAILOVER), DATA), ["step pass 1.1 dropped 0"])
        self.assertEqual(self.said(self.shell(*RULES, *FAILOVER), DATA), ["step drop window dropped 0"])

    def test_a_view_ends_with_them(self) -> None:
        shell = self.shell("kernel loose", *RULES, *FAILOVER)
        for words in ("view", "view main", "view a", "view 1.1", "view 1", "view main 2 b"):
            self.assertEqual(self.said(shell, words)[-1], BY_LOOSE, words)
        for line, wanted in (
            ("kernel window reset", "by kernel window, reset: not the profile (see: help kernel)"),
            ("kernel all", "by kernel all: not the profile (see: help kernel)"),
        ):
            self.assertEqual(self.said(self.shell(line, *RULES), "view")[-1], wanted)
        self.assertNotIn("kernel", "".join(self.said(self.shell(*RULES, *FAILOVER), "view")))

    def test_what_would_come_of_a_packet(self) -> None:
        loosely = [
            "  seq 101 ends at 501, 399 above 102 (hi of the source end)",
            "  by kernel loose it passes nevertheless: where the other end was not heard, a packet may begin 67035 before lo, and end 67035 "
            "after hi",
            "  such a packet does not renew the state: it was last used at 0 ms, as tcp.first",
        ]
        shell = self.shell("kernel loose", *RULES, *FAILOVER)
        ahead = self.said(shell, f"why {DATA}")
        self.assertEqual((ahead[0], ahead[2:]), (f"{DATA}: pass 1.1", loosely))
        self.said(shell, DATA)
        self.assertEqual(self.said(shell, "why"), ahead)
        self.assertEqual(self.said(shell, "why 4"), ahead)

    def test_a_search_is_of_them(self) -> None:
        """After the SYN's insertion has come, b never drops the data by `loose`, and always by the profile."""
        asked = f"search passes {DATA}, landed, within 2"
        self.assertRegex(self.said(self.shell("kernel loose", *RULES, SYN), asked)[1], "^found: 2 events, a shortest way")
        self.assertRegex(self.said(self.shell(*RULES, SYN), asked)[1], "^no run of at most 2 events")
        shell = self.shell("kernel loose", *RULES, SYN)
        said = self.said(shell, asked, "take", DATA)
        self.assertEqual(said[-1], "step pass 1.1 dropped 0")

    def test_a_search_is_asked_again_by_all_rules_of_the_kernel(self) -> None:
        """The client's data, which b drops by the profile in whatever way, passes by the kernel from where the branch stands on."""
        drops = f"search drops {DATA}, anywhere, dies a"
        self.assertEqual(self.said(self.shell(*RULES, *FAILOVER), drops)[-1], "by kernel all: no run of any length")
        self.assertEqual(self.said(self.shell("kernel all", *RULES, *FAILOVER), drops)[-1], "by the profile: found, 0 events")
        passes = self.said(self.shell(*RULES, *FAILOVER), f"search passes {DATA}, anywhere, dies a")
        self.assertTrue(passes[1].startswith("no run of these choices leads there"))
        self.assertEqual(passes[-1], "by kernel all: found, 0 events")

    def test_nothing_is_said_where_a_search_finds_the_same(self) -> None:
        for line in ("", "kernel all"):
            said = self.said(self.shell(line, *RULES, QUERY), f"search drops {ANSWER}, lose 1")
            self.assertEqual(said[-1], "`take` steps them on a new branch")

    def test_a_search_after_another_run_is_not_asked(self) -> None:
        """By the profile the reset in the window closes the state, which is purged; by the kernel it is there and can be killed."""
        night = [*FAILOVER, SYN_ACK, ACK, RESET, "tick a 200000", "purge a"]
        said = self.said(self.shell("kernel all", *RULES, *night, "kill a 1.1"), f"search drops {DATA}, anywhere")
        self.assertEqual(said[-1], "by the profile this branch is a different run from event 9 on, and is not searched")

    def test_faults_are_tried_by_them(self) -> None:
        shell = self.shell("kernel loose", *RULES, *FAILOVER, DATA)
        wanted = "1  1 fault: event 4 pass -> drop block; at the end only on a: tcp 10.0.0.1:1000 -> 192.0.2.9:80"
        self.assertIn(wanted, self.said(shell, "whatif --faults lose"))

    def test_the_first_fault_of_a_group_is_tried_again_by_all_rules_of_the_kernel(self) -> None:
        """An update of the server's answer has told b of the server, and the client's data passes there. Without it the data is dropped by
        the profile, and passes by `loose`."""
        night = [*FAILOVER, SYN_ACK, "flush a", "deliver 2", DATA]
        said = self.said(self.shell(*RULES, *night), "whatif --faults lose")
        at = next(at for at, line in enumerate(said) if "event 7 pass -> drop window" in line)
        self.assertTrue(said[at + 2].startswith("   by kernel all: at the end changed on "), said[at + 2])
        said = self.said(self.shell("kernel all", *RULES, *night), "whatif --faults lose")
        (line,) = [it for it in said if it.startswith("   by the profile: event 7 pass -> drop window")]

    def test_faults_of_another_run_are_not_tried(self) -> None:
        night = [*FAILOVER, SYN_ACK, ACK, RESET, "tick a 200000", "purge a", "kill a 1.1"]
        said = self.said(self.shell("kernel all", *RULES, *night), "whatif --faults lose")
        self.assertEqual(said[-1], "by the profile the run is a different one from event 9 on, and its faults are not tried")
        self.assertFalse([it for it in said if it.startswith("   by ")])

    def test_an_import_has_all_of_them(self) -> None:
        """Whoever has a pf.conf has a real pair."""
        for words in ((), ("--unopened",), ("--node", "b")):
            imported = taken_in("pass in proto tcp to port 22 keep state\n", *words)
            self.assertEqual([line for line in imported.setup if line.startswith("kernel")], ["kernel all"], words)
            at = imported.setup.index("kernel all")
            said = "# By `kernel all` FreeBSD's rules hold where the laboratory has them, as far as we know them, and else its profile."
            self.assertEqual(imported.setup[at - 1], said)


class Files(Dialogue):
    def setUp(self) -> None:
        folder = tempfile.TemporaryDirectory()
        self.addCleanup(folder.cleanup)
        self.path = os.path.join(folder.name, "saved.pfl")

    def test_what_is_saved_has_the_lines(self) -> None:
        shell = self.shell("kernel loose", "kernel", "kernel reset loose", *RULES, *FAILOVER, DATA, "kernel", f"save {self.path}")
        lines = texts.read(self.path).splitlines()
        self.assertEqual(lines[:8], ["kernel loose", "kernel reset loose", *RULES, f"step main {SYN}"])
        self.assertEqual(lines[-2:], [f"step main {DATA}", "#> step pass 1.1 dropped 0"])
        self.assertEqual(self.said(self.shell(is_typed=False), f"verify {self.path}"), ["1 script: all replies as they say"])
        self.assertIn("by kernel loose, reset: not the profile (see: help kernel)", self.said(shell, "view"))

    def test_so_has_what_a_fault_writes(self) -> None:
        shell = self.shell("kernel loose", *RULES, *FAILOVER, DATA)
        self.said(shell, f"whatif --faults lose --out {self.path}")
        self.assertEqual(texts.read(self.path).splitlines()[0], "kernel loose")
        self.assertEqual(self.said(self.shell(is_typed=False), f"verify {self.path}"), ["1 script: all replies as they say"])

    def test_replies_are_written_into_a_script(self) -> None:
        texts.write(self.path, "".join(f"{it}\n" for it in script_of("kernel loose", *FAILOVER, DATA)))
        self.said(self.shell(), f"annotate {self.path}")
        self.assertEqual(texts.read(self.path).splitlines()[-1], "#> step pass 1.1 dropped 0")
        self.assertEqual(self.said(self.shell(is_typed=False), f"verify {self.path}"), ["1 script: all replies as they say"])


class Drawn(Dialogue):
    def test_a_chart_names_them(self) -> None:
        shell = self.shell("kernel loose", *RULES, *FAILOVER, DATA)
        self.assertEqual(self.said(shell, "chart")[0], "main, 4 events, by kernel loose; #N is frame N")
        part = "main, events 2 to 3 of 3, what is about 1.1, by kernel loose, 1 undone and not drawn; #N is frame N"
        self.assertEqual(self.said(shell, "back main 1", "chart from 2 flow 1.1")[1], part)
        self.assertEqual(self.said(self.shell(*RULES, *FAILOVER, DATA), "chart")[0], "main, 4 events; #N is frame N")

    def test_so_does_a_picture(self) -> None:
        for line, wanted in (("kernel all", "main, 4 events, by kernel all; #N is frame N"), ("", "main, 4 events; #N is frame N")):
            self.assertIn(wanted, draw(drawn_from(program(), script_of(line, *FAILOVER, DATA), "main"), "A title"))

    def test_a_page_has_them_at_its_head(self) -> None:
        for line, wanted in (("kernel loose", "by kernel loose"), ("kernel all", "by kernel all"), ("", "by the profile")):
            with closing(run_of(program(), script_of(line, *FAILOVER, DATA), "a-script.pfl")) as run:
                data = run.as_data()
            self.assertEqual(data["by"], wanted)
            self.assertEqual(data["setup"], [*([line] if line else []), *RULES[:-1]])


class Servers(ProvedFollowers):
    def test_a_session_knows_them_from_the_servers_setup(self) -> None:
        (one,) = self.shells(self.serve(1, ["kernel merge window", *RULES]), 1)
        one.set_prompt()
        self.assertEqual(one.prompt, "main 0/0 (kernel window merge)> ")
        self.assertEqual(self.said(one, "kernel"), ["kernel window merge", ANY_NUMBER])
        self.assertEqual(self.said(one, "view")[-1], "by kernel window, merge: not the profile (see: help kernel)")
        self.assertEqual(self.said(one, SYN), ["step pass 1.1 dropped 0"])

    def test_without_its_setup_they_are_not_known(self) -> None:
        lab = self.laboratory(self.serve(1, ["kernel merge", *RULES]))
        shell = Shell(lab, io.StringIO(), PLAIN, is_typed=True)
        unknown = "which rules are the kernel's is in the server's setup, which is not known here: see --setup"
        self.assertEqual(self.said(shell, "kernel"), [unknown])


if __name__ == "__main__":
    unittest.main()
