"""`./lab whatif` and the shell's word: what they say, write and refuse; an interrupt; and what the pages print of them."""
from __future__ import annotations

import io
import os
import pty
import re
import select
import shlex
import signal
import subprocess
import sys
import tempfile
import unittest
from contextlib import redirect_stderr, redirect_stdout
from glob import glob
from typing import Dict, List, Tuple
from unittest.mock import Mock, patch

from ..console.colours import PLAIN
from ..dialogue.completion import candidates
from ..dialogue.shell import Shell
from ..link.laboratory import Laboratory
from ..main import main
from ..scripts import texts, verifying
from . import TOP, program
from .children import take_signals
from .standins import ANSWER, QUERY, SETUP, Dialogue

SCRIPT = "\n".join([*SETUP, *(f"step main {it}" for it in (QUERY, "flush a", "deliver 1", ANSWER)), ""])
MARK = re.compile(r"<!-- whatif (.*) -->\n```text\n((?:.|\n)*?)```")


def said_by(*words: str) -> Tuple[int, List[str], str]:
    """The status, the lines and the faults of the command."""
    out, told = io.StringIO(), io.StringIO()
    with redirect_stdout(out), redirect_stderr(told):
        try:
            status = main(["--program", program(), "whatif", *words])
        except SystemExit as ended:
            status = int(ended.code or 0)
    return status, out.getvalue().splitlines(), told.getvalue()


class Written(unittest.TestCase):
    """A test with a folder, and a script in it."""

    def setUp(self) -> None:
        folder = tempfile.TemporaryDirectory()
        self.addCleanup(folder.cleanup)
        self.folder = folder.name
        self.script = self.file("night.pfl", SCRIPT)

    def file(self, name: str, text: str) -> str:
        path = os.path.join(self.folder, name)
        texts.write(path, text)
        return path

    def read(self, name: str) -> List[str]:
        return texts.read(os.path.join(self.folder, name)).splitlines()


class Command(Written):
    def test_it_says_what_it_found(self) -> None:
        status, lines, told = said_by(self.script, "--faults", "lose")
        self.assertEqual((status, told, lines[0]), (0, "", "main, 4 events: 1 single fault (lose), each by itself"))

    def test_another_branch(self) -> None:
        self.file("night.pfl", f"{SCRIPT}fork main 3 other\n")
        self.assertEqual(said_by(self.script, "--branch", "other")[1][0], "other, 3 events: 16 single faults, each by itself")
        self.assertEqual(said_by(self.script, "--branch", "otter")[2], "lab: there is no branch otter; `names` lists them\n")

    def test_what_cannot_be_read_is_named(self) -> None:
        faulty = self.file("faulty.pfl", f"{SCRIPT}step main flsh a\n")
        self.assertEqual(said_by(faulty), (1, [], f"lab: {faulty}: line 10: `flsh` is no event (did you mean `flush`?)\n"))
        self.assertEqual(said_by(self.file("empty.pfl", ""))[::2], (1, f"lab: {self.folder}/empty.pfl: line 0: the setup ends without a line `open`\n"))
        self.assertEqual(said_by(self.file("none.pfl", "open\n")), (1, [], "lab: main has no events that stand, and so no faults to try\n"))
        self.assertEqual(said_by(f"{self.folder}/no.pfl")[2], f"lab: {self.folder}/no.pfl: No such file or directory\n")
        self.assertEqual(said_by(self.folder)[2], f"lab: {self.folder}: Is a directory\n")
        with open(f"{self.folder}/bytes.pfl", "wb") as it:
            it.write(b"\xff\x00\n")
        self.assertRegex(said_by(f"{self.folder}/bytes.pfl")[2], "character 1, .* is neither a tab nor printable ASCII\n$")

    def test_a_wrong_option_is_named(self) -> None:
        status, _, told = said_by(self.script, "--faults", "loose")
        self.assertEqual(status, 2)
        self.assertIn("argument --faults: `loose` is not a kind of fault (did you mean `lose`?)", told)

    def test_an_interrupt_ends_it_with_what_was_found(self) -> None:
        flows = [QUERY.replace(":1000", f":{port}") for port in range(1000, 1050)]
        steps = [it for number, flow in enumerate(flows, 1) for it in (flow, "flush a", f"deliver {number}")]
        script = self.file("long.pfl", "\n".join([*SETUP, *(f"step main {step}" for step in steps), ""]))
        command, env = (sys.executable, f"{TOP}/lab", "whatif", script, "--pairs", "--faults", "skip"), {**os.environ, "PFL_LAB": program()}
        ours, its = pty.openpty()
        self.addCleanup(os.close, ours)
        # 50 packets and 50 flushes are left out, two at a time: 100 * 99 / 2 pairs.
        with subprocess.Popen(
            command, env=env, stdout=subprocess.PIPE, stderr=its, text=True, start_new_session=True, preexec_fn=take_signals
        ) as ran:
            os.close(its)
            shown = ""
            while not re.search(r"[1-9]\d* of 4,950 tried", shown):
                self.assertTrue(select.select([ours], [], [], 60)[0], shown)
                shown += os.read(ours, 4096).decode()
            ran.send_signal(signal.SIGINT)
            out = ran.communicate(timeout=60)[0]
        self.assertEqual(ran.returncode, 130)
        self.assertRegex(out.splitlines()[2], r"^interrupted: [1-9][\d,]* of 4,950 were tried$")


class Out(Written):
    """Variants as branches of a copy."""

    def written(self, *words: str) -> List[str]:
        status, lines, told = said_by(self.script, *words, "--out", f"{self.folder}/new.pfl")
        self.assertEqual((status, told), (0, ""))
        self.assertEqual(verifying.verify(program(), texts.read(f"{self.folder}/new.pfl")), [])
        self.assertRegex(lines[-1], rf"^written: {self.folder}/new.pfl, with the branch(es)? whatif-\d")
        return self.read("new.pfl")

    def test_one_group(self) -> None:
        lines = self.written("--only", "1")
        self.assertEqual(lines[:6], [*SETUP, f"step main {QUERY}"])
        at = lines.index("fork main 2 whatif-1")
        self.assertEqual(lines[at - 2], "")
        self.assertTrue(lines[at - 1].startswith("# What if: frame 1 lost (event 3)? Then event 4 pass -> drop block; at the end only on a:"))
        self.assertEqual(
            lines[at + 1 : at + 8],
            [
                *("#> forked", "step whatif-1 lose 1", "#> step lost dropped 0", "# On main this is pass."),
                *(f"step whatif-1 {ANSWER}", "#> step drop block dropped 0", "show whatif-1"),
            ],
        )
        # The nodes are apart, and that is shown.
        self.assertIn("#> count b 0 1 0 0 0 0 0", lines[at:])

    def test_each_group_but_that_in_which_all_is_as_it_was(self) -> None:
        lines = self.written()
        self.assertEqual([it for it in lines if it.startswith("fork")], [f"fork main {place} whatif-{group}" for group, place in enumerate((2, 2, 1, 0, 3), 1)])
        self.assertEqual([it for it in self.written("--only", "6") if it.startswith("fork")], ["fork main 2 whatif-6"])

    def test_names_that_are_taken(self) -> None:
        self.script = self.file("night.pfl", f"{SCRIPT}fork main 0 whatif-1\n")
        self.assertIn("fork main 2 whatif-1-2", self.written("--only", "1"))

    def test_refused_events_are_written_with_their_refusals(self) -> None:
        lines = self.written("--faults", "skip", "--to", "1")
        at = lines.index("fork main 0 whatif-1")
        self.assertEqual(lines[at + 2 : at + 4], ["step whatif-1 flush a", "#> refused 8 Event 2 NothingPending"])

    def test_a_script_without_a_last_line_end_and_with_other_replies(self) -> None:
        self.script = self.file("night.pfl", f"# A night.\n{SCRIPT}#> step pass 1.1 dropped 0\nnames")
        lines = self.written("--only", "1")
        self.assertEqual(lines[0], "# A night.")
        self.assertEqual(lines[lines.index("names") + 1], "#> names main")

    def test_each_example_gives_scripts_that_verify(self) -> None:
        for path in sorted(glob(f"{TOP}/examples/*.pfl"))[::4]:
            self.script = path
            if said_by(path)[0] == 0 and said_by(path, "--faults", "lose")[1][3:]:
                with self.subTest(path):
                    self.written("--only", "1")

    def test_what_is_not_written(self) -> None:
        self.assertIn("is the script itself", said_by(self.script, "--out", self.script)[2])
        self.assertEqual(self.read("night.pfl"), SCRIPT.splitlines())
        for words, told in (
            (("--watch", "pass"), "nothing is written: no group that is shown changes anything"),
            (("--faults", "clock"), "nothing is written: no group that is shown changes anything"),
        ):
            status, lines, fault = said_by(self.script, *words, "--out", f"{self.folder}/new.pfl")
            self.assertEqual((status, lines), (1, said_by(self.script, *words)[1]))
            self.assertIn(told, fault)
        forks = "".join(f"fork main 0 b-{number}\n" for number in range(14))
        full = self.file("full.pfl", f"{SCRIPT}{forks}")
        told = said_by(full, "--out", f"{self.folder}/new.pfl")[2]
        self.assertIn("nothing is written: 5 groups need a branch each, and 1 of 16 are free", told)
        self.assertFalse(os.path.exists(f"{self.folder}/new.pfl"))
        told = said_by(self.script, "--out", f"{self.folder}/no/new.pfl")[2]
        self.assertEqual(told, f"lab: {self.folder}/no/new.pfl: No such file or directory\n")

    def test_a_full_disk_is_told(self) -> None:
        if not os.path.exists("/dev/full"):
            return
        os.symlink("/dev/full", f"{self.folder}/full.pfl")
        self.assertEqual(said_by(self.script, "--out", f"{self.folder}/full.pfl")[2], f"lab: {self.folder}/full.pfl: No space left on device\n")


class Word(Dialogue):
    """The word of the shell."""

    def ready(self) -> Shell:
        shell = self.shell()
        self.said(shell, "flush a", "deliver 1", ANSWER)
        return shell

    def test_the_branch_in_use_as_far_as_it_stands(self) -> None:
        shell = self.ready()
        self.assertEqual(self.said(shell, "whatif")[0], "main, 4 events: 22 single faults, each by itself")
        self.assertEqual(self.said(shell, "back main 1", "whatif --faults lose")[1], "main, 3 events: 1 single fault (lose), each by itself")
        self.assertEqual(self.said(shell, "fork main 2 other", "whatif other")[1], "other, 2 events: 12 single faults, each by itself")

    def test_nothing_changes(self) -> None:
        shell = self.ready()
        before = (shell.lab.branch("main"), shell.lab.last, list(shell.lines))
        self.said(shell, "whatif", "whatif --pairs")
        self.assertEqual((shell.lab.branch("main"), shell.lab.last, shell.lines), before)

    def test_what_is_wrong_is_told(self) -> None:
        shell = self.ready()
        self.assertEqual(self.said(shell, "whatif otter")[0], "there is no branch otter; `names` lists them")
        self.assertRegex(self.said(shell, "whatif --fault lose")[0], "^unrecognized arguments: --fault; usage: whatif \\[BRANCH\\] \\[--faults KINDS\\]")
        self.assertRegex(self.said(shell, "whatif --only")[0], "^argument --only: expected one argument; usage: ")
        self.assertRegex(self.said(shell, "help whatif")[0], "^whatif \\[BRANCH\\] ")

    def test_an_interrupt_ends_it_and_not_the_dialogue(self) -> None:
        def stop(done: int, total: int) -> None:
            if done == 2:
                raise KeyboardInterrupt

        shell = self.ready()
        with patch("shell.whatif.answers.Counter", return_value=Mock(side_effect=stop)):
            shell.is_typed = True
            said = self.said(shell, "whatif", "names")
            self.assertEqual((said[2], said[-1]), ("interrupted: 2 of 22 were tried", "names main"))
            shell.is_typed = False
            with self.assertRaises(KeyboardInterrupt):
                self.said(shell, "whatif")

    def test_before_the_pair_is_set_up(self) -> None:
        lab = Laboratory(program())
        self.addCleanup(lab.close)
        self.assertRegex(self.said(Shell(lab, io.StringIO(), PLAIN), "whatif")[0], "^the pair is not set up")

    def test_a_server_without_its_setup(self) -> None:
        shell = self.ready()
        shell.lab.knows_setup = False
        self.assertRegex(self.said(shell, "whatif")[0], "^a server does not report its setup: with --setup FILE")

    def test_the_dialogue_is_written_with_a_branch(self) -> None:
        shell = self.ready()
        with tempfile.TemporaryDirectory() as folder:
            said = self.said(shell, f"whatif --only 1 --out {folder}/found.pfl")
            self.assertEqual(said[-1], f"written: {folder}/found.pfl, with the branch whatif-1")
            text = texts.read(f"{folder}/found.pfl")
        self.assertEqual(text.splitlines()[:7], [*SETUP, f"step main {QUERY}", "#> step pass 1.1 dropped 0"])
        self.assertEqual(verifying.verify(program(), text), [])

    def test_the_completing_key(self) -> None:
        shell = self.ready()
        for line, wanted in (
            ("whatif m", ["main"]),
            ("whatif --f", ["--faults", "--from", "--flushing"]),
            ("whatif main --pairs --p", []),
            ("whatif --faults l", ["lose", "late", "last"]),
            ("whatif --watch ", ["pass", "drop", "gone", "apart"]),
            ("whatif --only ", []),
        ):
            before, _, begun = line.rpartition(" ")
            self.assertEqual(candidates(shell.lab, before.split(), begun), wanted, line)


class Pages(unittest.TestCase):
    def test_what_they_print_is_so(self) -> None:
        found: Dict[str, str] = {}
        for path in ("README.md", "docs/SHELL.md"):
            found.update(MARK.findall(texts.read(f"{TOP}/{path}")))
        self.assertTrue(found)
        for words, text in found.items():
            script, *options = shlex.split(words)
            self.assertEqual("".join(f"{it}\n" for it in said_by(f"{TOP}/{script}", *options)[1]), text, words)


if __name__ == "__main__":
    unittest.main()
