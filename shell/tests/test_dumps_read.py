"""Each form of a line that `compare` reads, and each file that is none."""
from __future__ import annotations

import os
import re
import subprocess
import sys
import unittest
from pathlib import Path
from random import Random
from typing import IO, Union
from unittest import mock

from installing.archive import archive
from installing.files import START

from ..dumps.files import BLOCK, MOST_REPORTED
from . import TOP
from .dump_cases import ALL, ECHO, NAT, QUERY, SIX, TUNNEL, WEB, DumpCase

NOTHING = ["a and b agree in 6 states", "a: 6 states in a; b: 6 states in b"]


class Forms(DumpCase):
    """Two files that say the same."""

    def agree(self, a: str, b: str) -> None:
        said = self.compared(a, b)
        self.assertEqual(said, (0, NOTHING, []))

    def test_the_same_states(self) -> None:
        self.agree("".join(ALL), "".join(ALL))

    def test_the_same_file_twice(self) -> None:
        path = self.file("a", "".join(ALL))
        said = self.run_with(path, path)
        self.assertEqual((said.status, said.out[0], said.err), (0, NOTHING[0], []))

    def test_in_another_order(self) -> None:
        self.agree("".join(ALL), "".join(reversed(ALL)))

    def test_lines_end_with_cr_and_lf_and_the_last_one_with_nothing(self) -> None:
        self.agree("".join(ALL).replace("\n", "\r\n"), "".join(ALL).rstrip("\n"))

    def test_what_windows_makes_of_a_capture(self) -> None:
        text = "".join(ALL).replace("\n", "\r\n")
        for content in (text.encode("utf-16"), text.encode("utf-8-sig"), text.replace("\r", "\r\r").encode()):
            self.assertEqual(self.compared("".join(ALL), content), (0, NOTHING, []))

    def test_blanks_are_no_matter(self) -> None:
        self.agree("".join(ALL), "".join(ALL).replace("   ", "\t"))
        self.agree("".join(ALL), "".join(ALL).replace("   ", ""))
        self.agree("".join(ALL), "\n\n".join(f"  {it}" for it in ALL))

    def test_line_by_line_reads_the_same_as_whole_states(self) -> None:
        usual = "all udp 10.0.0.9:9 -> 192.0.2.9:9       SINGLE:SINGLE\n"
        others = [it.replace(" 00", "  00") for it in ALL]
        said = self.compared("".join(f"{usual}{it}" for it in ALL), "".join(f"{it}{usual}" for it in others))
        self.assertEqual((said.status, said.err), (0, []))
        self.assertEqual(said.out[0], "a and b agree in 7 states")

    def test_the_gateway_and_the_interface_of_origin_on_one_line_or_on_their_own(self) -> None:
        apart = "".join(ALL).replace(" gateway:", "\n   gateway:")
        joined = "".join(ALL).replace("\n   origif:", " origif:")
        self.agree(apart, joined)

    def test_what_stands_after_the_times_comes_in_any_order(self) -> None:
        self.agree("".join(ALL), "".join(ALL).replace(", 1:2 pkts, 3:4 bytes, anchor 1, rule 5", ", rule 5, 3:4 bytes, anchor 1, 1:2 pkts"))

    def test_files_of_many_blocks(self) -> None:
        states = [QUERY.replace(":1000 ", f":{it} ").replace("00000005", f"{it:08x}") for it in range(1, 4001)]
        self.assertGreater(len("".join(states)), 2 * BLOCK)
        said = self.compared("".join(states), "x\n" + "".join(states))
        self.assertEqual((said.status, said.out[0]), (0, "a and b agree in 4000 states"))
        self.assertEqual(said.err, ["lab: b:1: not understood: x", "lab: b: 1 line was not understood and skipped"])


class WithoutNames(DumpCase):
    """What pfctl prints with fewer options."""

    NOTE = "{}: {}, paired by flow alone; `pfctl -ss -vv` prints names"

    def brief(self, state: str) -> str:
        return state.partition("\n")[0] + "\n"

    def test_no_names_at_either_node(self) -> None:
        brief = "".join(map(self.brief, ALL))
        said = self.compared(brief, brief)
        notes = [self.NOTE.format(it, "6 states without names") for it in "ab"]
        self.assertEqual(said, (0, [*NOTHING, *notes], []))

    def test_no_names_at_one_node(self) -> None:
        brief = "".join(map(self.brief, ALL))
        for a, b, node in ((brief, "".join(ALL), "a"), ("".join(ALL), brief, "b")):
            said = self.compared(a, b)
            self.assertEqual(said, (0, [*NOTHING, self.NOTE.format(node, "6 states without names")], []))

    def test_a_state_that_lost_its_name_meets_its_flow(self) -> None:
        said = self.compared(WEB + QUERY, WEB.replace("   id:", "   ix:") + QUERY)
        self.assertEqual(said.status, 0)
        self.assertEqual(said.out[0], "a and b agree in 2 states")
        self.assertEqual(said.out[2], self.NOTE.format("b", "1 state without a name"))
        self.assertEqual(said.err[0], "lab: b:4: not understood: ix: 5f00a1b200000003 creatorid: 8a1b2c3d gateway: 192.0.2.1")

    def test_a_dump_that_is_cut_within_a_name(self) -> None:
        # Each has all 16 digits of an id and all 8 of a creator, or is no name.
        text = WEB[: WEB.index("   id:")]
        for name in ("   id: 5f00a1b2", "   id: 5f00a1b200000003", "   id: 5f00a1b200000003 creatorid: 8a1b2"):
            said = self.compared(WEB, text + name)
            self.assertEqual((said.status, said.out[0]), (0, "a and b agree in 1 state"), name)
            self.assertEqual(said.out[2:], [self.NOTE.format("b", "1 state without a name")])
            self.assertEqual(said.err[0], f"lab: b:4: not understood: {name.strip()}")

    def test_a_state_without_a_name_is_called_by_its_line(self) -> None:
        said = self.compared(self.brief(QUERY) + self.brief(WEB), self.brief(QUERY))
        self.assertEqual(said.status, 1)
        self.line(said, "line 2  tcp 192.0.2.80:443 <- 198.51.100.17:51512  ESTABLISHED:ESTABLISHED")

    def test_levels_differ(self) -> None:
        said = self.compared(self.brief(WEB), self.brief(WEB).replace("ESTABLISHED\n", "FIN_WAIT_2\n"))
        self.assertEqual(said.status, 1)
        self.line(said, "1: ESTABLISHED:ESTABLISHED | ESTABLISHED:FIN_WAIT_2")


class NotUnderstood(DumpCase):
    """Lines that are passed over, each with its number."""

    def passed_over(self, bad: str, number: int, shown: str = "") -> None:
        """A dump whose line of this number is bad agrees with one without that line."""
        lines = "".join(ALL).splitlines(keepends=True)
        with_bad = "".join([*lines[: number - 1], f"{bad}\n", *lines[number - 1 :]])
        said = self.compared("".join(ALL), with_bad)
        self.assertEqual((said.status, said.out), (0, NOTHING), bad)
        first = f"lab: b:{number}: not understood: {shown or bad.strip()}"
        self.assertEqual(said.err, [first, "lab: b: 1 line was not understood and skipped"])

    def test_each_bad_line(self) -> None:
        for bad in (
            "fw1# pfctl -ss -vv",
            "No ALTQ support in kernel",
            "all tcp 192.0.2.80:443 <- 198.51.100.17:51512",
            "all tcp 192.0.2.80:443 <> 198.51.100.17:51512       ESTABLISHED:ESTABLISHED",
            "all tcp 192.0.2.80:443 <- 198.51.100.17:51512 <- 10.0.0.1:1       ESTABLISHED:ESTABLISHED",
            "all tcp 192.0.2.80:443 <- 198.51.100.17:51512       established",
            "all 192.0.2.80:443 <- 198.51.100.17:51512       ESTABLISHED:ESTABLISHED",
            "   [3058113415 + 65535] wscale 6",
            "   [3058113415 - 65535]  [1 + 2]",
            "   [30581134150000 + 65535]  [1 + 2]",
            "   age 00:01:40",
            "   age 00:01:60, expires in 23:59:57",
            "   age 1 day, expires in 23:59:57",
            "   age 00:01:40, expires in 23:59:57, rule x",
            "   age 00:01:40, expires in 23:59:57, 1:2:3 pkts",
            "   age 00:01:40, expires in 23:59:57 rule 1",
            "   id: 5f00a1b200000003",
            "   id: 5f00a1b2000000030 creatorid: 8a1b2c3d",
            "   id: 5f00a1b20000000 creatorid: 8a1b2c3d",
            "   id: 5f00a1b200000003 creatorid: 8a1b2c3",
            "   id: 5f00a1b200000003 creatorid: 8a1b2c3dx",
            "   id: xyz creatorid: 8a1b2c3d",
            "   gateway: ",
            "TRANSLATION RULES:",
            "pass in quick on em0 proto tcp from any to any port = https flags S/SA keep state",
            "  [ Evaluations: 12        Packets: 1         Bytes: 40          States: 0     ]",
        ):
            self.passed_over(bad, 6)
            self.passed_over(bad, 1)

    def test_between_the_lines_of_a_state(self) -> None:
        for number in (2, 3, 4, 5):
            self.passed_over("Nov 28 03:12:45 fw1 kernel: em0: link state changed to DOWN", number)

    def test_a_second_line_of_its_kind(self) -> None:
        self.passed_over("   [1 + 2]  [3 + 4]", 3)
        self.passed_over("   age 00:00:01, expires in 00:00:01", 4)
        self.passed_over("   id: 1 creatorid: 1", 5)

    def test_lines_after_a_first_line_that_was_not_understood(self) -> None:
        broken = WEB.replace("all tcp", "all")
        said = self.compared(QUERY, QUERY + broken)
        self.assertEqual((said.status, said.out[0]), (0, "a and b agree in 1 state"))
        self.assertEqual([it.split(": ")[1] for it in said.err], ["b:4", "b:5", "b:6", "b:7", "b:8", "b"])
        self.assertEqual(said.err[-1], "lab: b: 5 lines were not understood and skipped")

    def test_control_characters_and_bytes_that_are_no_text(self) -> None:
        said = self.compared(WEB, b"\x1b[31mred\x07\n\xff\xfe\x00\n" + WEB.encode())
        self.assertEqual((said.status, said.out[0]), (0, "a and b agree in 1 state"))
        self.assertEqual(said.err[0], "lab: b:1: not understood: \\x1b[31mred\\x07")
        self.assertEqual(said.err[1], "lab: b:2: not understood: \\xff\\xfe\\x00")

    def test_a_long_line_is_cut_and_counts_once_in_the_numbers(self) -> None:
        said = self.compared(WEB, "x" * (3 * BLOCK) + "\nbad\n" + WEB)
        self.assertEqual((said.status, said.out[0]), (0, "a and b agree in 1 state"))
        self.assertEqual(said.err[0], f"lab: b:1: not understood: {'x' * 100}..")
        self.assertIn("lab: b:2: not understood: bad", said.err)

    def test_a_text_is_reported_once_and_only_the_first_texts(self) -> None:
        said = self.compared(WEB, "again\n" * 5 + WEB)
        self.assertEqual(said.err[0], "lab: b:1: not understood: again")
        self.assertEqual(len(said.err), 2)
        self.assertIn("b: 5 lines were not understood and skipped; each text is reported once", said.err[1])
        said = self.compared(WEB, "".join(f"bad {it}\n" for it in range(100)) + WEB)
        self.assertEqual(len(said.err), MOST_REPORTED + 1)
        self.assertIn("b: 100 lines were not understood", said.err[-1])

    def test_numbers_with_thousands_of_digits(self) -> None:
        nines = "9" * 5000
        times = f"   age {nines}:00:00, expires in 00:00:01"
        for bad in (f"   [{nines} + 1]  [1 + 2]", times, f"   age 00:00:01, expires in 00:00:01, rule {nines}"):
            said = self.compared(WEB, WEB + bad)
            self.assertEqual((said.status, len(said.err)), (0, 2))

    def test_digits_of_other_scripts_are_no_digits(self) -> None:
        said = self.compared(WEB, WEB + QUERY.replace("rule 12", "rule \u0661"))
        self.assertEqual(len(said.err), 2)

    def test_states_that_come_again(self) -> None:
        said = self.compared(WEB + QUERY + WEB, WEB + QUERY + WEB + NAT + NAT)
        self.assertEqual(said.out[0], "a and b differ in 1 state: 0 only on a, 1 only on b (1 established TCP)")
        self.assertIn("a: 1 state appears again; the first of each counts", said.out)
        self.assertIn("b: 2 states appear again; the first of each counts", said.out)


class Damaged(DumpCase):
    """Dumps with random damage."""

    def damaged(self, chance: Random) -> str:
        """Some states, of which lines or characters are missing, doubled or changed."""
        lines = "".join(chance.choices(ALL, k=3)).splitlines(keepends=True)
        for _ in range(chance.randrange(4)):
            at = chance.randrange(len(lines))
            lines[at] = chance.choice(("", 2 * lines[at], lines[at][: chance.randrange(9)], lines[at].replace(":", "::", 1)))
        return "".join(lines)

    def test_whole_states_and_single_lines_are_read_as_the_same(self) -> None:
        chance = Random(1)
        for _ in range(150):
            text = self.damaged(chance)
            whole = self.compared(text, "".join(ALL), "--all")
            with mock.patch("shell.dumps.reading.RECORD", re.compile("(?!)")):
                self.assertEqual(self.compared(text, "".join(ALL), "--all"), whole, text)
            self.assertRegex(whole.out[0], "^a and b (agree|differ) in ")


class Files(DumpCase):
    """Files that are no dumps; the status is that of diff(1)."""

    def test_a_file_that_is_not_there_or_is_a_folder(self) -> None:
        path = self.file("a", WEB)
        for other, why in (("nothing", "No such file or directory"), ("", "Is a directory")):
            for words in ((path, f"{self.room}/{other}"), (path, path, "--stats", path, f"{self.room}/{other}")):
                said = self.run_with(*words)
                self.assertEqual((said.status, said.out), (2, []))
                self.assertRegex(said.err[-1], f"^lab: .*: {why}$")

    def test_an_empty_file_has_no_states(self) -> None:
        said = self.compared(WEB, "")
        self.assertEqual((said.status, said.err), (1, []))
        self.assertEqual(said.out[0], "a and b differ in 1 state: 1 only on a (1 established TCP), 0 only on b")
        self.assertEqual(said.out[1], "a: 1 state in a; b: 0 states in b")

    def test_two_files_without_anything(self) -> None:
        for a, b in (("", ""), ("\n\n", ""), ("x", "y")):
            said = self.compared(a, b)
            self.assertEqual((said.status, said.out), (2, []))
            self.assertEqual(said.err[-1], "lab: a and b have neither states (pfctl -ss -vv) nor counters (netstat -s -p pfsync)")


class Command(DumpCase):
    """The command by itself, from a checkout where nothing is built."""

    def lab(self, *words: str, stdout: Union[int, IO[str]] = subprocess.PIPE, given: str = "") -> "subprocess.CompletedProcess[str]":
        environment = {it: value for it, value in os.environ.items() if it != "PFL_LAB"}
        command = (sys.executable, f"{TOP}/lab", "compare", *words)
        return subprocess.run(
            command, env=environment, input=given, stdout=stdout, stderr=subprocess.PIPE, text=True, timeout=30, check=False
        )

    def test_it_needs_no_program(self) -> None:
        a, b = self.file("a", WEB), self.file("b", WEB + ECHO)
        ran = self.lab(a, b)
        self.assertEqual((ran.returncode, ran.stderr), (1, ""))
        self.assertTrue(ran.stdout.startswith("a and b differ in 1 state: 0 only on a, 1 only on b\n"))

    def test_the_installed_shell_needs_none_either(self) -> None:
        shell = self.room / "pfl_shell"
        shell.write_bytes(archive(Path(TOP, "shell"), Path(TOP, "page"), START))
        command = (sys.executable, str(shell), "compare", self.file("a", WEB), self.file("b", WEB))
        ran = subprocess.run(command, capture_output=True, text=True, timeout=30, check=False)
        self.assertEqual((ran.returncode, ran.stderr, ran.stdout[:26]), (0, "", "a and b agree in 1 state\na"))

    def test_faulty_words(self) -> None:
        path = self.file("a", WEB)
        both = (path, path)
        for words in ((), (path,), (*both, path), (*both, "--apart", "x"), (*both, "--apart", "-1"), (*both, "--stats", path)):
            ran = self.lab(*words)
            self.assertEqual((ran.returncode, ran.stdout), (2, ""), words)
            self.assertIn("usage: ./lab", ran.stderr)

    def test_a_full_disk_and_a_closed_pipe(self) -> None:
        path = self.file("a", WEB)
        with open("/dev/full", "w", encoding="utf-8") as full:
            ran = self.lab(path, path, stdout=full)
        self.assertEqual((ran.returncode, ran.stderr), (2, "lab: standard output: No space left on device\n"))
        reading, writing = os.pipe()
        os.close(reading)
        ran = self.lab(path, path, stdout=writing)
        os.close(writing)
        self.assertEqual((ran.returncode, ran.stderr), (2, ""))

    def test_a_pipe_is_read(self) -> None:
        ran = self.lab(self.file("a", SIX + TUNNEL), "/dev/stdin", given=TUNNEL + SIX)
        self.assertEqual((ran.returncode, ran.stderr), (0, ""))
        self.assertTrue(ran.stdout.startswith("a and b agree in 2 states\n"))


if __name__ == "__main__":
    unittest.main()
