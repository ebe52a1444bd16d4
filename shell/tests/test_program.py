"""What the program makes of its words, and of lines wherever the blocks end in which it reads its input."""
from __future__ import annotations

import subprocess
import tempfile
import unittest

from . import program

# So many bytes are read at once.
BLOCK = 65536


def ran(*words: str, given: bytes = b"") -> "subprocess.CompletedProcess[bytes]":
    """What the program gives with these words; its input is a file, of which it gets whole blocks."""
    with tempfile.TemporaryFile() as file:
        file.write(given)
        file.seek(0)
        return subprocess.run((program(), *words), stdin=file, capture_output=True, timeout=60)


class Words(unittest.TestCase):
    def test_words_that_ask_for_nothing(self) -> None:
        for words in (
            "",
            "fly",
            "run now",
            "check now",
            "run --port 4000",
            "serve",
            "serve --port 4000",
            "serve --sessions 3",
            "serve --port=4000 --sessions=3 now",
            "serve --port 0 --sessions 3",
            "serve --port 65536 --sessions 3",
            "serve --port high --sessions 3",
            "serve --port 4000 --sessions 0",
            "serve --port 4000 --sessions 9",
            "serve --port 4000 --port 4001",
        ):
            with self.subTest(words):
                answer = ran(*words.split())
                self.assertEqual((answer.returncode, answer.stdout, answer.stderr[:7]), (2, b"", b"error: "))

    def test_what_the_first_fault_of_words_is(self) -> None:
        for words, fault in (("fly", b"unrecognized subcommand 'fly'"), ("run now", b"unexpected argument 'now' found")):
            with self.subTest(words):
                self.assertTrue(ran(*words.split()).stderr.startswith(b"error: " + fault))

    def test_help_is_no_fault(self) -> None:
        for words, first in (("--help", b"A laboratory for a pair of pf firewalls that share states by pfsync\n"), ("serve --help", b"")):
            with self.subTest(words):
                answer = ran(*words.split())
                self.assertEqual((answer.returncode, answer.stderr), (0, b""))
                self.assertTrue(answer.stdout.startswith(first))

    def test_a_run_goes_on_after_a_faulty_line_and_a_check_counts_the_others(self) -> None:
        script = b"rule a pass out\nopen\n# nothing to undo\nback main 0\nview\nnames\n"
        for word, written in (("run", b"at 0\nbad 3 Unknown\nnames main\n"), ("check", b"line 5 bad 3 Unknown\ngood 2\n")):
            with self.subTest(word):
                answer = ran(word, given=script)
                self.assertEqual((answer.returncode, answer.stdout, answer.stderr), (1, written, b""))

    def test_words_with_an_empty_script(self) -> None:
        for words in (
            "run",
            "check",
            "serve --port 4000 --sessions 3",
            "serve --sessions 8 --port 65535",
            "serve --port 1 --sessions 1",
            "serve --port=4000 --sessions=3",
        ):
            with self.subTest(words):
                answer = ran(*words.split())
                self.assertEqual((answer.returncode, answer.stdout, answer.stderr), (1, b"", b"pfl_lab: setup line 0: no open\n"))


def way_back(length: int) -> bytes:
    """A way back by no event, as a line of so many bytes."""
    return b"back main ".ljust(length, b"0") + b"\n"


class Blocks(unittest.TestCase):
    def told(self, left: int, lines: bytes) -> bytes:
        """What is told of lines that begin where so many bytes are left of the first block."""
        setup = b"open\n"
        comment = b"#".ljust(BLOCK - len(setup) - left - 1) + b"\n"
        answer = ran("run", given=setup + comment + lines)
        self.assertEqual(answer.stderr, b"")
        return answer.stdout

    def test_a_line_ends_at_each_place_about_the_end_of_a_block(self) -> None:
        # (a carriage return is dropped before a line feed alone)
        lines = b"names\r\nback main 0\n\n# names\nnames\r"
        for left in range(len(lines) + 2):
            with self.subTest(left):
                self.assertEqual(self.told(left, lines), b"names main\nat 0\nbad 2 NotAscii\n")

    def test_the_longest_line_goes_on_in_the_next_block(self) -> None:
        for left in (0, 1, 2, 100, 511, 512, 513, 514, 1000, 2000):
            with self.subTest(left):
                lines = way_back(512) + way_back(513) + b"x"
                self.assertEqual(self.told(left, lines), b"at 0\nbad 1 Long\nbad 3 Unknown\n")

    def test_a_script_without_commands(self) -> None:
        answer = ran("check", given=b"open\n# the end")
        self.assertEqual((answer.returncode, answer.stdout, answer.stderr), (0, b"good 0\n", b""))


if __name__ == "__main__":
    unittest.main()
