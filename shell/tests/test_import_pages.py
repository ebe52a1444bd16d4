"""What docs/FIELD.md and FIELD-DETAILS.md show of an import is what it makes."""
from __future__ import annotations

import unittest

from ..scripts.texts import read
from . import TOP, reasons
from .imports import taken_in


def block(mark: str) -> str:
    """A block that one of the pages shows, by its mark."""
    pages = read(f"{TOP}/docs/FIELD.md") + read(f"{TOP}/docs/FIELD-DETAILS.md")
    return pages.partition(f"<!-- import {mark} -->\n```text\n")[2].partition("```")[0]


class Page(unittest.TestCase):
    def test_what_is_said(self) -> None:
        its = taken_in(block("conf"))
        self.assertEqual("".join(f"{it}\n" for it in its.said), block("said"))

    def test_what_why_says(self) -> None:
        setup = "\n".join(taken_in(block("conf")).setup)
        rule, _, asked = block("why").partition("\n\n")
        self.assertIn(rule, setup)
        packet, *said = asked.splitlines()
        # (a port range and a timeout of a class are in no rule that this packet meets)
        old = "\n".join(line for line in setup.splitlines() if not line.startswith("set timeout "))
        self.assertEqual(reasons(f"{old}\nstep main {packet}"), [it.strip() for it in said])

    def test_the_sections_of_translations(self) -> None:
        its = taken_in(block("gateway"), "--node", "a")
        self.assertEqual("".join(f"{it}\n" for it in its.setup[7:-1]), block("sections"))


if __name__ == "__main__":
    unittest.main()
