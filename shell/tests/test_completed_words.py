"""What bash and zsh complete behind the installed commands: each word and option that there is, and no other."""
from __future__ import annotations

import argparse
import os
import re
import subprocess
import unittest
from typing import Dict, List, Set

from ..arguments import parser
from . import TOP
from .children import needs

COMPLETIONS = f"{TOP}/installing/completions"
OPTION = re.compile(r"--[a-z]+(?:-[a-z]+)*")
LETTER = re.compile(r"(?<![\w-])-[a-zA-Z]\b")
# Asks bash for what its words complete to: the last of them is the one that has begun.
ASKING = """
source "$0"
COMP_WORDS=("$@") COMP_CWORD=$(($# - 1))
_$1
printf '%s\\n' "${COMPREPLY[@]}"
"""

# By the words of a command, the options behind each.
Options = Dict[str, Set[str]]


def read(path: str) -> str:
    with open(f"{TOP}/{path}", encoding="utf-8") as it:
        return it.read()


def program_options() -> Options:
    """What the program's own help says."""
    commands = read("shell/texts/help.txt").partition("Commands:\n")[2].partition("\n\n")[0]
    words = re.findall(r"^  (\w+)", commands, re.M)
    return {word: {*OPTION.findall(read(f"shell/texts/{word}.txt").partition("Options:")[2])} for word in words}


def shell_options() -> Options:
    """What the shell's parser takes."""
    kinds = next(action for action in parser("pfl_shell")._actions if isinstance(action, argparse._SubParsersAction))
    return {
        word: {option for action in its._actions for option in action.option_strings if option.startswith("--")}
        for word, its in kinds.choices.items()
    }


OPTIONS = {"pfl_lab": program_options(), "pfl_shell": shell_options()}
# The options of each command itself.
_of_program = read("shell/texts/help.txt").partition("Options:")[2]
OWN = {"pfl_lab": {*OPTION.findall(_of_program), *LETTER.findall(_of_program)}, "pfl_shell": {"-h", "--help", "-V", "--version"}}


def long_options(command: str) -> Set[str]:
    """All options of a command and of its words that have two dashes."""
    return {it for it in OWN[command].union(*OPTIONS[command].values()) if it.startswith("--")}


class Words(unittest.TestCase):
    """The words in the files."""

    def test_there_are_words(self) -> None:
        self.assertEqual({*OPTIONS["pfl_lab"]}, {"run", "check", "serve"})
        words = {"shell", "verify", "annotate", "chart", "page", "sheet", "frames", "whatif", "depends", "compare", "capture", "import"}
        self.assertEqual({*OPTIONS["pfl_shell"]}, words)
        self.assertIn("--port", OPTIONS["pfl_lab"]["serve"])
        self.assertIn("--strict", OPTIONS["pfl_shell"]["shell"])

    def test_zsh_has_each_word_and_each_option(self) -> None:
        for command, options in OPTIONS.items():
            text = read(f"installing/completions/zsh/_{command}")
            self.assertTrue(text.startswith(f"#compdef {command}\n"))
            self.assertEqual({*re.findall(r"^    '(\w+):", text, re.M)}, {*options})
            self.assertEqual({*OPTION.findall(text)}, long_options(command))

    def test_bash_has_each_word_and_each_option(self) -> None:
        for command, options in OPTIONS.items():
            text = read(f"installing/completions/bash/{command}")
            for word in options:
                self.assertRegex(text, rf"\b{word}\b")
            self.assertEqual({*OPTION.findall(text)}, long_options(command))
            self.assertTrue(text.endswith(f"\ncomplete -F _{command} {command}\n"))


class Completed(unittest.TestCase):
    """What bash and zsh make of the files, where they are there."""

    def completed(self, *words: str) -> List[str]:
        """What bash completes the last word to."""
        command = ("bash", "--norc", "-c", ASKING, f"{COMPLETIONS}/bash/{words[0]}", *words)
        ran = subprocess.run(command, cwd=f"{TOP}/examples", capture_output=True, text=True, timeout=20)
        self.assertEqual(ran.stderr, "")
        return [line for line in ran.stdout.splitlines() if line]

    @needs("bash")
    def test_bash_completes_words_and_options(self) -> None:
        for command, options in OPTIONS.items():
            self.assertEqual({*self.completed(command, "")}, {*OWN[command], *options})
            for word, its in options.items():
                self.assertEqual({*self.completed(command, word, "--")}, its, word)
        self.assertEqual(self.completed("pfl_lab", "serve", "--sessions", ""), [*"12345678"])
        self.assertEqual(self.completed("pfl_lab", "serve", "--port", ""), [])

    @needs("bash")
    def test_bash_completes_scripts_and_pictures(self) -> None:
        scripts = sorted(it for it in os.listdir(f"{TOP}/examples") if it.endswith(".pfl"))
        pictures = sorted(it for it in os.listdir(f"{TOP}/examples") if it.endswith(".svg"))
        for words in (("pfl_lab", "run", "<"), ("pfl_shell", "shell"), ("pfl_shell", "verify", "a.pfl"), ("pfl_shell", "chart")):
            self.assertEqual(sorted(self.completed(*words, "")), scripts, words)
        self.assertEqual(sorted(self.completed("pfl_shell", "chart", "restart.pfl", "")), pictures)
        self.assertEqual(self.completed("pfl_shell", "annotate", "conn"), ["connection.pfl"])
        self.assertEqual(sorted(self.completed("pfl_shell", "compare", "README.md", "")), sorted(os.listdir(f"{TOP}/examples")))

    @needs("bash")
    def test_bash_reads_its_files(self) -> None:
        self.assert_read("bash", "")

    @needs("zsh")
    def test_zsh_reads_its_files(self) -> None:
        self.assert_read("zsh", "_")

    def assert_read(self, shell: str, mark: str) -> None:
        for command in OPTIONS:
            ran = subprocess.run((shell, "-n", f"{COMPLETIONS}/{shell}/{mark}{command}"), capture_output=True, text=True, timeout=20)
            self.assertEqual((ran.returncode, ran.stderr), (0, ""))


if __name__ == "__main__":
    unittest.main()
