"""The manual pages: they name each word, option, limit, refusal and variable, their examples are so, and their macros are right."""
from __future__ import annotations

import re
import subprocess
import unittest
from glob import glob
from pathlib import Path
from typing import List

from ..console.endings import INTERRUPTED_STATUS, STRICT_STATUS
from ..installed import NO_PROGRAM_STATUS
from ..language import helps
from ..language.faults import LIMIT_FAULTS, LINE_FAULTS, RULE_FAULTS
from ..language.setups import CLASSES, LIMITS
from ..scripts import verifying
from . import TOP, program
from .children import needs
from .dialogues import printed, typed
from .test_completed_words import OPTIONS, long_options

PAGES = ("pfl_lab", "pfl_shell")
# The macros of mdoc(7) that stand at the start of a line here, and those that begin and end a block.
MACROS = {
    *("Dd", "Dt", "Os", "Sh", "Ss", "Pp", "Nm", "Nd", "It", "Xr", "Fx", "Cm", "Ic", "Fl", "Ar", "Op", "Li", "Dq", "Ql", "Pq"),
    *("Pa", "Ev", "Sx", "Dl", "Bl", "El", "Bd", "Ed", "Xo", "Xc"),
}
BLOCKS = {"El": "Bl", "Ed": "Bd", "Xc": "Xo"}
# The order of mdoc(7); a page's own sections stand behind DESCRIPTION.
FIRST_SECTIONS = ["NAME", "SYNOPSIS", "DESCRIPTION"]
SECTIONS = [*FIRST_SECTIONS, "ENVIRONMENT", "FILES", "EXIT STATUS", "EXAMPLES", "DIAGNOSTICS", "SEE ALSO", "CAVEATS"]
MISSING = "STYLE: referenced manual not found: Xr "


def source(page: str) -> str:
    with open(f"{TOP}/docs/man/{page}.1", encoding="utf-8") as it:
        return it.read()


def display(page: str, mark: str) -> str:
    """The literal text that stands behind a comment of a page."""
    text = source(page).partition(f'.\\" {mark}\n')[2]
    return re.sub(r"^\.Bd.*\n", "", text).partition(".Ed\n")[0].replace("\\e", "\\")


def section(page: str, name: str) -> str:
    return source(page).partition(f".Sh {name}\n")[2].partition("\n.Sh ")[0]


class Named(unittest.TestCase):
    """What the pages have to name."""

    def item(self, text: str, word: str, forms: int = 1) -> None:
        """The text has an item for each form of a word."""
        self.assertEqual(len(re.findall(rf"(?m)^\.(?:It |It Xo\n\.)Ic {word}\b", text)), forms, word)

    def test_each_word_of_the_language(self) -> None:
        for name, words in (("SETUP", helps.SETUP), ("COMMANDS", helps.COMMANDS), ("EVENTS", helps.EVENTS)):
            for word, it in words.items():
                self.item(section("pfl_lab", name), word, len(it.form.split("\n")))
        for word, forms in (("log", 1), ("why", 2), ("frame", 1)):
            self.item(section("pfl_lab", "COMMANDS"), word, forms)
        self.item(section("pfl_lab", "SESSIONS"), "view")

    def test_each_word_of_the_language_in_the_shells_page(self) -> None:
        text = section("pfl_shell", "WORDS")
        for word in (*helps.SETUP, *helps.COMMANDS):
            self.assertRegex(text, rf"Ic .*\b{word}\b")

    def test_each_command_and_option(self) -> None:
        for page, options in OPTIONS.items():
            for word in options:
                self.assertRegex(source(page), rf"(?m)^\.It Cm {word}\b")
            for option in long_options(page):
                self.assertRegex(source(page), rf"(?m)^\.It Fl (\w , )?{option[1:]}\b")

    def test_each_refusal_of_an_event_is_that_of_the_help(self) -> None:
        text = section("pfl_lab", "EVENTS")
        for word, about in helps.EVENTS.items():
            item = re.search(rf"(?ms)^\.(?:It )?Ic {word}\b.*?Refused: ([\d, ]+)\.$", text)
            told = about.more.partition("Refused: ")[2]
            self.assertEqual(item and item[1].split(", "), re.findall(r"(\d+) [A-Z]", told), word)

    def test_each_limit_and_class(self) -> None:
        text = section("pfl_lab", "SETUP")
        for word, limit in LIMITS.items():
            default = "states" if limit.fifths else limit.default
            self.assertRegex(text, rf"(?m)^\.It Cm {word} Ta {limit.least} (to|or) {limit.most} Ta {default}\b")
        for it in CLASSES:
            self.assertRegex(text, rf"(It|Ta) {re.escape(it.word)} Ta {it.seconds}\b")
        for it in re.findall(r"\[([a-z-]+)", helps.SETUP["rule"].form):
            self.assertRegex(text, rf"(?m)^\.Op Cm {it}\b")

    def test_each_fault_by_its_number(self) -> None:
        text = section("pfl_lab", "REFUSALS AND FAULTS").replace("\\ ", " ").replace("\n", " ")
        for of, names in (("a line", LINE_FAULTS), ("the rules", RULE_FAULTS), ("the limits", LIMIT_FAULTS)):
            faults = ", ".join(f"{number} {name}" for number, name in enumerate(names, 1))
            self.assertIn(f".It {of} Ta {faults} ", f"{text} ")
        for number, name in {it for event in helps.EVENTS.values() for it in re.findall(r"(\d+) ([A-Z]\w+)", event.more)}:
            self.assertIn(f" {number} {name}", text.partition(".It a command")[0])

    def test_each_variable_of_the_environment(self) -> None:
        found = set()
        for path in glob(f"{TOP}/shell/**/*.py", recursive=True):
            if "/tests/" not in path:
                found |= {*re.findall(r"environ(?:\.get\(|\[)\"(\w+)\"", Path(path).read_text(encoding="utf-8"))}
        self.assertGreaterEqual(len(found), 3)
        self.assertEqual(found, {*re.findall(r"(?m)^\.It Ev (\w+)$", source("pfl_shell"))})

    def test_each_status(self) -> None:
        wanted = [0, 1, 2, STRICT_STATUS, NO_PROGRAM_STATUS, INTERRUPTED_STATUS]
        self.assertEqual(re.findall(r"(?m)^\.It (\d+)$", section("pfl_shell", "EXIT STATUS")), [*map(str, wanted)])
        self.assertEqual(re.findall(r"(?m)^\.It (\d+)$", section("pfl_lab", "EXIT STATUS")), [*"0123"])


class Examples(unittest.TestCase):
    """What the pages print is what comes."""

    def test_the_script_is_answered_so(self) -> None:
        text = display("pfl_lab", "script")
        self.assertIn("#> ", text)
        self.assertEqual(verifying.verify(program(), text), [])

    def test_the_dialogue_is_so(self) -> None:
        text = display("pfl_shell", "dialogue")
        self.assertIn("> why", text)
        self.assertEqual(text, printed(typed(text)))


class Macros(unittest.TestCase):
    """The form of the pages."""

    def test_they_begin_as_pages_do(self) -> None:
        for page in PAGES:
            self.assertRegex(source(page), rf"\A\.Dd [A-Z][a-z]+ \d+, \d{{4}}\n\.Dt {page.upper()} 1\n\.Os\n\.Sh NAME\n\.Nm {page}\n")
            self.assertRegex(section(page, "NAME"), r"\n\.Nd \S.*\Z")

    def test_sections_stand_in_their_order(self) -> None:
        for page in PAGES:
            found = re.findall(r"(?m)^\.Sh (.+)$", source(page))
            self.assertEqual(found[:3], FIRST_SECTIONS)
            self.assertEqual([it for it in found if it in SECTIONS], [it for it in SECTIONS if it in found])
            self.assertEqual(len({*found}), len(found))

    def test_macros_are_known_and_blocks_end(self) -> None:
        for page in PAGES:
            opened: List[str] = []
            for line in source(page).splitlines():
                macro = line[1:].split(" ")[0]
                if not line.startswith(".") or line.startswith('.\\"'):
                    self.assertFalse(opened[-1:] != ["Bd"] and re.search(r"[a-z)]\. +[A-Z]", line), line)
                    continue
                self.assertIn(macro, MACROS, line)
                if macro in BLOCKS:
                    self.assertEqual(opened.pop(), BLOCKS[macro], line)
                elif macro in BLOCKS.values():
                    opened.append(macro)
                elif " Xo" in line:
                    opened.append("Xo")
            self.assertEqual(opened, [], page)

    def test_lines_have_no_blanks_at_their_ends_and_none_is_empty(self) -> None:
        for page in PAGES:
            for line in source(page).splitlines():
                self.assertRegex(line, r"\S$")

    @needs("mandoc")
    def test_mandoc_warns_of_nothing(self) -> None:
        for page in PAGES:
            ran = subprocess.run(("mandoc", "-T", "lint", f"{TOP}/docs/man/{page}.1"), capture_output=True, text=True, timeout=20)
            self.assertEqual([line for line in ran.stdout.splitlines() if MISSING not in line], [])
            ran = subprocess.run(("mandoc", "-T", "ascii", f"{TOP}/docs/man/{page}.1"), capture_output=True, text=True, timeout=20)
            self.assertGreater(len(ran.stdout.splitlines()), 100)


if __name__ == "__main__":
    unittest.main()
