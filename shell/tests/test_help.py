"""What `./lab` answers without the program is what the program answers."""
from __future__ import annotations

import os
import re
import subprocess
import sys
import unittest
from typing import List, Sequence

from proving import releases

from . import TOP, program
from .test_completed_words import shell_options

# What each of the program's words reads.
READS = {"run": "SCRIPT", "check": "SCRIPT", "serve": "SETUP"}


def lab(*words: str, given: str = "") -> "subprocess.CompletedProcess[str]":
    """What `./lab` answers to words; it has seconds, in which nothing could be proved."""
    command = (sys.executable, f"{TOP}/lab", *words)
    return subprocess.run(command, input=given, capture_output=True, text=True, timeout=20)


class StoredHelp(unittest.TestCase):
    def own(self, *words: str) -> str:
        # (the program calls itself by the name of its file)
        ran = subprocess.run((program(), *words), capture_output=True, text=True, timeout=20)
        return ran.stdout

    def stored(self, name: str) -> str:
        with open(os.path.join(TOP, "shell", "texts", f"{name}.txt"), encoding="utf-8") as it:
            return it.read()

    def same(self, name: str, words: Sequence[str]) -> None:
        self.assertEqual(self.stored(name), self.own(*words))

    def test_the_programs_help(self) -> None:
        self.same("help", ["--help"])

    def test_the_help_of_each_word(self) -> None:
        for word in ("run", "check", "serve"):
            with self.subTest(word):
                self.same(word, [word, "--help"])
                told = self.stored(word).replace(f"Usage: pfl_lab {word}", f"Usage: ./lab {word}")
                self.assertEqual(lab(word, "--help").stdout, re.sub("(?m)^Usage.*", rf"\g<0> < {READS[word]}", told))

    def test_it_says_how_a_script_is_given(self) -> None:
        self.assertIn("\nUsage: ./lab run < SCRIPT\n", lab("run", "--help").stdout)
        self.assertIn("\nUsage: ./lab serve --port <PORT> --sessions <N> < SETUP\n", lab("help", "serve").stdout)


class Version(unittest.TestCase):
    def test_it_names_the_release(self) -> None:
        told = f"pfl_lab {releases.Release.read().version()}\n"
        for words in (("--version",), ("-V",)):
            self.assertEqual(subprocess.run((program(), *words), capture_output=True, text=True, timeout=20).stdout, told)
            self.assertEqual(lab(*words).stdout, told)
            self.assertEqual(lab("shell", *words).stdout, told)


class AtOnce(unittest.TestCase):
    def test_help_lists_the_programs_words_and_its_own(self) -> None:
        ran = lab("--help")
        self.assertEqual((ran.returncode, ran.stderr), (0, ""))
        for word in ("run", "check", "serve", "try", "build", "release", "install", "uninstall"):
            self.assertRegex(ran.stdout, rf"(?m)^  {word} +\w")

    def test_help_that_could_not_be_written_is_reported_by_every_word(self) -> None:
        asked: List[List[str]] = [[], ["--help"], ["help", "shell"], *([it, "--help"] for it in (*READS, "build", *shell_options()))]
        for words in asked:
            with self.subTest(words), open("/dev/full", "w", encoding="utf-8") as full:
                ran = subprocess.run((sys.executable, f"{TOP}/lab", *words), stdout=full, stderr=subprocess.PIPE, text=True, timeout=20)
                self.assertEqual((ran.returncode, ran.stderr), (1, "lab: help could not be written: No space left on device\n"))

    def test_a_reader_of_help_that_has_enough_ends_it_quietly(self) -> None:
        for words in ("--help", "whatif --help"):
            ran = subprocess.run(f"{sys.executable} {TOP}/lab {words} | :", shell=True, capture_output=True, text=True, timeout=20)
            self.assertEqual((ran.stdout, ran.stderr), ("", ""))

    def test_no_word_asks_for_the_help_and_an_empty_one_is_a_fault(self) -> None:
        ran = lab()
        self.assertEqual((ran.returncode, ran.stdout, ran.stderr), (0, lab("--help").stdout, ""))
        ran = lab("")
        self.assertEqual((ran.returncode, ran.stdout, ran.stderr), (2, "", "lab: there is no command ''\n"))

    def test_an_unknown_word_is_named(self) -> None:
        ran = lab("rum")
        self.assertEqual((ran.returncode, ran.stdout), (2, ""))
        self.assertEqual(ran.stderr, "lab: there is no command 'rum'; did you mean 'run'?\n")

    def test_help_and_options_may_be_meant(self) -> None:
        for word, near in (("helpp", "help"), ("version", "--version"), ("--relese", "--release"), ("verfy", "verify")):
            self.assertEqual(lab(word).stderr, f"lab: there is no command {word!r}; did you mean {near!r}?\n")

    def test_a_word_that_is_like_no_other_is_told_too(self) -> None:
        ran = lab("xyzzy")
        self.assertEqual((ran.returncode, ran.stderr), (2, "lab: there is no command 'xyzzy'\n"))
        script = f"{TOP}/examples/one-packet.pfl"
        self.assertIn(f"./lab shell {script}", lab(script).stderr)

    def test_help_of_a_word_is_that_words(self) -> None:
        self.assertEqual(lab("help", "serve").stdout, lab("serve", "--help").stdout)
        self.assertIn("--port", lab("help", "shell").stdout)
        self.assertEqual(lab("help", "xyzzy").returncode, 2)

    def test_try_and_the_installer_know_their_words(self) -> None:
        self.assertEqual(lab("try", "serve").returncode, 2)
        for word in ("install", "uninstall"):
            ran = lab(word, "a", "b")
            self.assertEqual((ran.returncode, ran.stdout, ran.stderr), (2, "", f"lab: usage: ./lab {word} [PREFIX]\n"))

    def test_help_of_the_words_that_run_no_program_is_on_standard_output(self) -> None:
        ran = lab("build", "--help")
        self.assertEqual((ran.returncode, ran.stdout), (0, "Proves and builds the program, and says where it is\n\nUsage: ./lab build\n"))
        for word in ("try", "build", "release", "install", "uninstall"):
            for words in ((word, "--help"), (word, "-h"), ("help", word)):
                ran = lab(*words)
                self.assertEqual((ran.returncode, ran.stderr), (0, ""), words)
                self.assertIn(f"\nUsage: ./lab {word}", ran.stdout)


if __name__ == "__main__":
    unittest.main()
