"""The pages tell of the shell what is so: their dialogues, and the pictures and pages beside the lessons."""
from __future__ import annotations

import os
import subprocess
import sys
import unittest
from contextlib import closing
from glob import glob

from ..charts.picture import draw
from ..language.lines import lines_of
from ..main import drawn_from
from ..pages.packing import page as page_of
from ..pages.runs import run_of
from ..scripts import texts
from . import TOP, program
from .dialogues import dialogues, printed, typed


def read(path: str) -> str:
    with open(os.path.join(TOP, path), encoding="utf-8") as it:
        return it.read()


class Pages(unittest.TestCase):
    def test_dialogues_are_what_the_shell_says(self) -> None:
        pages = ["docs/SHELL.md", "docs/TUTORIAL.md", "README.md"]
        found = [dialogue for page in pages for dialogue in dialogues(read(page))]
        self.assertTrue(found)
        for it in found:
            self.assertEqual(it, printed(typed(it)))

    def test_pictures_are_those_of_the_scripts(self) -> None:
        pictures = glob(f"{TOP}/examples/*.svg")
        self.assertTrue(pictures)
        for picture in pictures:
            script = lines_of(texts.read(picture.replace(".svg", ".pfl")))
            self.assertEqual(texts.read(picture), draw(drawn_from(program(), script, "main"), texts.title_of(script)), picture)

    def test_pages_of_the_lessons_are_those_of_the_scripts(self) -> None:
        pages = glob(f"{TOP}/examples/*.html")
        self.assertEqual(len(pages), 4)
        for written in pages:
            path = written.replace(".html", ".pfl")
            with closing(run_of(program(), lines_of(texts.read(path)), os.path.basename(path))) as run:
                is_same = read(written) == page_of(run.as_data())
            self.assertTrue(is_same, f"{written}: ./lab page writes it otherwise")

    def test_lists_of_the_shells_words_are_what_its_help_says(self) -> None:
        ran = subprocess.run((sys.executable, f"{TOP}/docs/words.py", "--check"), capture_output=True, text=True, timeout=20)
        self.assertEqual((ran.returncode, ran.stderr), (0, ""))


if __name__ == "__main__":
    unittest.main()
