"""`docs/prose.py` reads Markdown, Python and text, and finds long sentences and translated phrases where they are."""
from __future__ import annotations

import subprocess
import sys
import tempfile
import unittest
from pathlib import Path
from typing import List, Tuple

from . import TOP

sys.path.insert(0, f"{TOP}/docs")
import prose


def read(text: str) -> List[Tuple[int, int, str]]:
    """The sentences of a document: the line of each, how many words it has, and the last of them."""
    return [(it.line, len(it.words), it.words[-1]) for block in prose.markdown(text) if block.is_prose for it in prose.sentences(block)]


def found(text: str) -> List[str]:
    """The faults of a document, each with its line."""
    return [f"{fault.line}: {fault.what}" for fault in prose.faults(prose.markdown(text))]


class Sentences(unittest.TestCase):
    def test_they_end_at_full_stops_and_other_marks(self) -> None:
        self.assertEqual(read("One two three. Four five? (Six.) Seven!\n"), [(1, 3, "three."), (1, 2, "five?"), (1, 1, "(Six.)"), (1, 1, "Seven!")])

    def test_they_go_over_lines_and_end_with_their_paragraph(self) -> None:
        self.assertEqual(read("One two\nthree. Four\nfive\n\nSix seven:\n"), [(1, 3, "three."), (2, 2, "five"), (5, 2, "seven:")])

    def test_each_item_of_a_list_is_by_itself(self) -> None:
        text = "It has these:\n- one two\n  three\n- four; and\n\n  1. five. Six\n* seven\n"
        self.assertEqual(read(text), [(1, 3, "these:"), (2, 3, "three"), (4, 2, "and"), (6, 1, "five."), (6, 1, "Six"), (7, 1, "seven")])

    def test_abbreviations_numbers_and_ellipses_do_not_end_them(self) -> None:
        self.assertEqual(read("Use e.g. tcp (i.e. TCP) etc. and 1.5 s of FILE.. here. Then 13.2.\n"), [(1, 12, "here."), (1, 2, "13.2.")])

    def test_a_code_span_is_one_word_wherever_its_line_ends(self) -> None:
        self.assertEqual(read("Type `flush a. Then`. And `step main\nflush a` or ``a `b` c`` here.\n"), [(1, 2, "`."), (1, 5, "here.")])

    def test_a_link_has_the_words_of_its_text(self) -> None:
        self.assertEqual(read("See [the\nlist](docs/a.b.md#x) now. ![A picture](a.svg)\n"), [(1, 4, "now."), (2, 2, "picture")])

    def test_signs_are_no_words(self) -> None:
        self.assertEqual(read("One - two / three -> four.\n"), [(1, 4, "four.")])

    def test_emphasis_may_end_one(self) -> None:
        self.assertEqual(read("**What it is.** *One two.* Three.\n"), [(1, 3, "is.**"), (1, 2, "two.*"), (1, 1, "Three.")])

    def test_code_comments_tables_and_headings_have_none(self) -> None:
        text = "# A heading\n```text\nOne.\n```\n<!-- two\nthree -->\n| four | five |\n|---|---|\nSix.\n"
        self.assertEqual(read(text), [(9, 1, "Six.")])

    def test_a_fence_ends_by_its_own_sign(self) -> None:
        self.assertEqual(read("~~~\n```\nOne.\n~~~\nTwo.\n"), [(5, 1, "Two.")])


class Faults(unittest.TestCase):
    def test_a_sentence_may_have_35_words(self) -> None:
        words = " ".join(["word"] * 34)
        self.assertEqual(found(f"\nIt {words}.\n"), [])
        self.assertEqual(found(f"\nWell. It\n{words} ends.\n"), ["2: a sentence of 36 words: It word word word word word word word .."])

    def test_phrases_are_found_with_their_lines(self) -> None:
        for text, wanted in (
            ("We reckon.", ['1: "reckon" reads like a translation: count, think']),
            ("One\nthat comes\nto something else.", ['2: "comes to something" reads like a translation: is, has another outcome']),
            ("It goes on. He went\non.", 2),
            ("| a cell | it stands in a table |", 1),
            ("# What is left", 1),
            ("The word behind the colon.", 1),
            ("The frame tells node b of it.", 1),
            ("So many of them.", 1),
            ("Each look costs.", 1),
        ):
            self.assertEqual(found(text) if isinstance(wanted, list) else len(found(text)), wanted, text)

    def test_right_uses_pass(self) -> None:
        for text in (
            "A packet comes to a node.",
            "The nodes come to rest.",
            "It stands for `step main`; the first four events stand.",
            "This is what is left out.",
            "See what is going on.",
            "There are so many that it fails, and so many frames that it stops.",
            "The server behind the page; a page that is behind.",
            "It tells you; tell the client from the server; tell the two apart.",
            "You cannot tell whether it is.",
            "Take a look at it.",
            "Type `goes on` here.",
            "[a text](it-stands-in-the-way.md)",
        ):
            self.assertEqual(found(text), [], text)


class Files(unittest.TestCase):
    def test_strings_of_python_are_read_line_by_line(self) -> None:
        text = '"""One two."""\nA = "name"\nB = (\n    "three four "\n    f"five {A} six\\nseven eight"\n)\n'
        blocks = [(string.line, string.text) for string in prose.strings(text)]
        self.assertEqual(sorted(blocks), [(1, "One two."), (4, "seven eight"), (4, "three four five ` six")])

    def test_lines_of_text_are_by_themselves(self) -> None:
        self.assertEqual([it.text for it in prose.plain("One two\nthree\n")], ["One two", "three"])

    def test_the_command_reports_places_and_its_status(self) -> None:
        with tempfile.TemporaryDirectory() as folder:
            good, bad = Path(folder) / "good.md", Path(folder) / "bad.md"
            good.write_text("All is well.\n")
            bad.write_text("Fine.\n\nIt goes on.\n")
            for paths, wanted in (([good], (0, "")), ([good, bad], (1, f'{bad}:3: "goes on" reads like a translation: continues, advances, keeps\n'))):
                ran = subprocess.run((sys.executable, f"{TOP}/docs/prose.py", *paths), capture_output=True, text=True, timeout=20)
                self.assertEqual((ran.returncode, ran.stdout), wanted)


if __name__ == "__main__":
    unittest.main()
