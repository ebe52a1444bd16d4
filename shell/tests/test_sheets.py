"""`./lab sheet`: what the sheet of a student and that of a teacher have."""
from __future__ import annotations

import io
import os
import re
import shutil
import tempfile
import unittest
from contextlib import redirect_stderr, redirect_stdout
from html.parser import HTMLParser
from typing import Dict, List, Optional, Sequence, Tuple
from xml.etree import ElementTree

from ..main import main
from ..sheets.drawing import TALLEST, pieces
from . import TOP, program
from .drawings import drawn, steps

SETUP = ["rule a block any", "rule a pass out", "rule b block any", "open"]
QUERY = "step main packet a out udp 10.0.0.1:1000 192.0.2.9:53 40"
# The lesson of most tests: an event that is undone, one that is refused, two branches, and a question.
LESSON = [
    *("# A lost frame.", "# It is `sent` once.", "", *SETUP, "# The query leaves.", QUERY, "#> step pass 1.1 dropped 0"),
    *("step main flush a", "step main lose 1", "step main deliver 7", "back main 1", "# Now it comes.", "step main deliver 1"),
    *("fork main 1 other", "step other kill a 1.1", "names", "# The end."),
]
# What only a reply of the program, or what is made of it, can have said of that lesson.
OF_REPLIES = (
    *("dropped", "refused", "NoSuchFrame", "pass 1.1", "sent 1 148", "taken", "insert 1.1", "forked", "at 2", "killed", "names main other"),
    *("Why", "Reply", "Outcome", "svg", "chart", "clock 0 s"),
)


class Reader(HTMLParser):
    """The names of the elements, their texts, and whether each that begins also ends."""

    def __init__(self, text: str) -> None:
        super().__init__()
        self.open: List[str] = []
        self.found: List[Tuple[str, Dict[str, Optional[str]]]] = []
        self.texts: List[Tuple[str, str]] = []
        self.feed(text)
        self.close()

    def handle_starttag(self, tag: str, attrs: List[Tuple[str, Optional[str]]]) -> None:
        self.found.append((tag, dict(attrs)))
        if tag != "meta":
            self.open.append(tag)

    def handle_startendtag(self, tag: str, attrs: List[Tuple[str, Optional[str]]]) -> None:
        self.found.append((tag, dict(attrs)))

    def handle_endtag(self, tag: str) -> None:
        assert self.open.pop() == tag, f"{tag} ends, and another element is open"

    def handle_data(self, data: str) -> None:
        self.texts.append((self.open[-1] if self.open else "", data))

    def of(self, name: str) -> List[str]:
        """The texts that lie in elements of a name themselves."""
        return [text for it, text in self.texts if it == name]


class Room(unittest.TestCase):
    def setUp(self) -> None:
        self.room = os.path.realpath(tempfile.mkdtemp())
        self.addCleanup(shutil.rmtree, self.room)

    def lab(self, *words: str) -> Tuple[int, str, str]:
        out, err = io.StringIO(), io.StringIO()
        with redirect_stdout(out), redirect_stderr(err):
            status = main(("--program", program(), *words), "./lab")
        return status, out.getvalue(), err.getvalue().replace(f"{self.room}/", "")

    def script(self, lines: Sequence[str]) -> str:
        path = os.path.join(self.room, "script.pfl")
        with open(path, "w", encoding="utf-8", errors="surrogateescape") as it:
            it.write("".join(f"{line}\n" for line in lines))
        return path

    def sheet(self, lines: Sequence[str], *options: str) -> str:
        path = os.path.join(self.room, "sheet.html")
        self.assertEqual(self.lab("sheet", self.script(lines), path, *options), (0, "", ""))
        with open(path, encoding="utf-8") as it:
            return it.read()


class Both(Room):
    """What both forms have in common."""

    def test_headings_are_in_order_and_elements_end(self) -> None:
        for options in ((), ("--replies",)):
            its = Reader(self.sheet(LESSON, *options))
            self.assertEqual(its.open, [])
            levels = [int(name[1]) for name, _ in its.found if re.fullmatch("h[1-6]", name)]
            self.assertEqual(levels[0], 1)
            self.assertEqual(levels.count(1), 1)
            self.assertTrue(all(after <= before + 1 for before, after in zip(levels, levels[1:])), levels)

    def test_language_title_and_no_script(self) -> None:
        for options, title in (((), "A lost frame"), (("--replies",), "A lost frame, with the replies")):
            text = self.sheet(LESSON, *options)
            its = Reader(text)
            self.assertEqual(its.found[0], ("html", {"lang": "en"}))
            self.assertEqual(its.of("title")[0], title)
            self.assertEqual(its.of("h1"), ["A lost frame"])
            self.assertNotIn("script", [name for name, _ in its.found])
            self.assertNotRegex(text, r"<[^>]+\son\w+=|javascript:|https?://(?!www\.w3\.org/2000/svg\b)")

    def test_comments_are_where_they_were_and_marks_are_not(self) -> None:
        for options in ((), ("--replies",)):
            its = Reader(self.sheet(LESSON, *options))
            order = [text for name, text in its.texts if name in ("p", "h3", "code") and text.strip()]
            wanted = ["A lost frame. It is ", "sent", " once.", "The query leaves.", "Event 1 of main", "Now it comes.", "Event 3 of main"]
            wanted.append("The end.")
            places, at = [], 0
            for text in wanted:
                at = order.index(text, at)
                places.append(at)
            self.assertEqual(places, sorted(places))

    def test_the_table_of_rules(self) -> None:
        for options in ((), ("--replies",)):
            its = Reader(self.sheet(["set defer 1", *LESSON], *options))
            heads = [attributes.get("scope") for name, attributes in its.found if name == "th"]
            self.assertEqual(heads, ["col", "col", "col", "row", "row"])
            self.assertEqual([it for it in its.of("th") if it], ["Rule", "Node a", "Node b", "0", "1"])
            self.assertEqual([it for it in its.of("code") if it in ("block any", "pass out")], ["block any", "block any", "pass out"])
            self.assertEqual(its.of("td"), ["none"])
            self.assertIn("set defer 1", its.of("pre"))

    def test_numbers_are_those_of_charts(self) -> None:
        for options in ((), ("--replies",)):
            heads = [it for it in Reader(self.sheet(LESSON, *options)).of("h3") if it not in ("Chart", "State tables")]
            wanted = ["Event 1 of main", "Event 2 of main", "Event 3 of main", "Event 4 of main", "Command back", "Event 3 of main"]
            self.assertEqual(heads, [*wanted, "Command fork", "Event 2 of other", "Command names"])
        self.assertIn("Event 1", Reader(self.sheet([*SETUP, QUERY])).of("h3"))

    def test_hostile_comments_are_text(self) -> None:
        hostile = "</title><script>alert(1)</script><img src=x onerror=alert(2)>&amp;\"'"
        lines = [f"# {hostile}", "", *SETUP, f"# `{hostile}` \udcff\u202e", QUERY]
        for options in ((), ("--replies",)):
            text = self.sheet(lines, *options)
            its = Reader(text)
            names = {name for name, _ in its.found}
            self.assertFalse(names & {"script", "img"})
            self.assertEqual(its.of("h1"), [hostile])
            self.assertIn(hostile, its.of("code"))
            self.assertIn(" \ufffd\ufffd", its.of("p"))

    def test_a_faulty_script_is_reported_as_by_page(self) -> None:
        path = self.script([*SETUP, "step main nothing", QUERY, "bak main 1"])
        wanted = self.lab("page", path, f"{self.room}/page.html")
        self.assertEqual(wanted[0], 1)
        self.assertIn("script.pfl: line 5: ", wanted[2])
        self.assertEqual(self.lab("sheet", path, f"{self.room}/sheet.html"), wanted)
        self.assertFalse(os.path.exists(f"{self.room}/sheet.html"))

    def test_standard_output_has_the_same_in_ascii(self) -> None:
        path = self.script(["# Gr\u00f6\u00dfe", *SETUP, QUERY])
        status, out, err = self.lab("sheet", path)
        self.assertEqual((status, err), (0, ""))
        self.assertTrue(out.isascii())
        self.assertEqual(Reader(out).of("h1"), ["Gr\u00f6\u00dfe"])

    def test_a_script_without_events(self) -> None:
        for options in ((), ("--replies",)):
            its = Reader(self.sheet(["# Nothing.", "open"], *options))
            self.assertIn("The script has no events.", its.of("p"))
            self.assertNotIn("table", [name for name, _ in its.found])


class Student(Room):
    def test_it_has_no_reply(self) -> None:
        text = re.sub("<style>.*</style>", "", self.sheet(LESSON), flags=re.S)
        for it in OF_REPLIES:
            self.assertNotIn(it, text)

    def test_it_has_room_for_answers_and_for_a_name(self) -> None:
        text = self.sheet(LESSON)
        # Six events with two lines each, and three other commands.
        self.assertEqual(text.count("Expected outcome:"), 9)
        self.assertEqual(text.count('<div class="room">'), 6 * 2 + 3)
        self.assertIn("Name:", text)

    def test_lessons_have_no_reply(self) -> None:
        for name in ("lost-insertion", "failover-in-mid-stream"):
            status, text, _ = self.lab("sheet", f"{TOP}/examples/{name}.pfl")
            self.assertEqual(status, 0)
            with open(f"{TOP}/examples/{name}.pfl", encoding="utf-8") as it:
                replies = {line[3:].strip() for line in it if line.startswith("#> ")}
            self.assertGreater(len(replies), 2)
            self.assertEqual({reply for reply in replies if reply in Reader(text).of("pre") or f">{reply}<" in text}, set())
            self.assertNotIn("<svg", text)


class Teacher(Room):
    def answers(self, lines: Sequence[str]) -> Dict[str, str]:
        """The text of each answer, by the line and its place."""
        text = self.sheet(lines, "--replies")
        found = re.findall(r'<pre class="line">([^<]*)</pre>(<dl>.*?</dl>)', text, re.S)
        return {line: " | ".join(re.findall(r">([^<]+)<", said)) for line, said in found}

    def test_reply_outcome_and_reason(self) -> None:
        its = self.answers(LESSON)
        why = "no state matched; rule 1 of a (pass out) passed it, and made state 1.1 | the same packet at b gives  | drop block"
        why += " | : rule 0 of b (block any) decides there"
        self.assertEqual(its[QUERY], f"Reply | step pass 1.1 dropped 0 | Outcome | pass 1.1 | Why | {why}")
        sent = "Reply | step sent 1 148 dropped 0 | Outcome | #1: insert 1.1 | Why | frame 1 goes to b, and carries 1 insert"
        self.assertEqual(its["step main flush a"], sent)
        taken = "Reply | step taken 1 dropped 1 | Outcome | #1: taken 1 | Why | frame 1 came to node b with 1 record: | "
        self.assertTrue(its["step main deliver 1"].startswith(taken), its["step main deliver 1"])
        self.assertIn("Reply | step killed dropped 0 | Outcome | killed", its["step other kill a 1.1"])
        refused = "Reply | refused 8 Event 1 NoSuchFrame | Outcome | refused: NoSuchFrame | Why | "
        self.assertTrue(its["step main deliver 7"].startswith(refused), its["step main deliver 7"])
        self.assertEqual(its["back main 1"], "Reply | at 2 | Outcome | event 3 of main is undone")
        self.assertEqual(its["fork main 1 other"], "Reply | forked | Outcome | branch other begins after event 1 of main")
        self.assertEqual(its["names"], "Reply | names main other")

    def test_what_was_undone_is_in_no_chart(self) -> None:
        gone = "It is in no branch at the end, and in no chart."
        its = self.answers(LESSON)
        self.assertEqual([line for line, said in its.items() if gone in said], ["step main lose 1"])
        self.assertEqual(self.sheet(LESSON, "--replies").count(gone), 1)
        its = self.answers([*SETUP, QUERY, "step main flush a", "back main 1", "forward main 1", "step main tick a 5", "back main 1"])
        self.assertEqual([line for line, said in its.items() if gone in said], ["step main tick a 5"])
        self.assertIn("event 2 of main happens again", its["forward main 1"])
        # What an excision takes out is back after it is restored.
        excised = [*SETUP, QUERY, "step main tick a 5", "excise main 1"]
        self.assertEqual([line for line, said in self.answers(excised).items() if gone in said], [QUERY])
        self.assertEqual([line for line, said in self.answers([*excised, "restore main"]).items() if gone in said], [])

    def test_outcomes_are_those_of_charts(self) -> None:
        lines = ["flush a", "repeat 1", "cut 1 30", "deliver 1", "lose 2", "tick a 1500", "purge a", "clear a", "restart b"]
        its = self.answers([*SETUP, QUERY, *(f"step main {line}" for line in lines)])
        outcomes = [re.split(r" \| ", its[f"step main {line}"])[3] for line in lines]
        wanted = ["#1: insert 1.1", "#2: copy of #1", "#1: cut to 30 bytes", outcomes[3], "#2: lost", "clock 1.5 s", "0 states deleted"]
        self.assertEqual(outcomes, [*wanted, "1 state cleared", "boot 3"])
        self.assertRegex(outcomes[3], "^#1: broken: ")

    def test_charts_and_tables_of_all_branches(self) -> None:
        text = self.sheet(LESSON, "--replies")
        its = Reader(text)
        self.assertEqual([it for it in its.of("h2") if it], ["Rules", "Events", "Branch main at the end", "Branch other at the end"])
        labels = [attributes["aria-label"] or "" for _, attributes in its.found if attributes.get("role") == "img"]
        self.assertEqual([label.partition(":")[0] for label in labels], ["Chart of main, events 1 to 3", "Chart of other, events 1 to 2"])
        tables = [it for it in its.of("pre") if it.startswith("branch ")]
        self.assertEqual([table.partition("\n")[0] for table in tables], ["branch main  3 events", "branch other  2 events"])
        self.assertIn("\nnode b  clock 0 s", tables[0])
        for it in re.findall("<svg.*?</svg>", text, re.S):
            self.assertEqual(ElementTree.fromstring(it).tag, "{http://www.w3.org/2000/svg}svg")

    def test_a_long_reason_is_cut(self) -> None:
        status, text, _ = self.lab("sheet", f"{TOP}/examples/failover-in-mid-stream.pfl", "--replies")
        self.assertEqual(status, 0)
        self.assertIn("and more: see <code>why main 11</code> in the shell", text)


class Pieces(unittest.TestCase):
    """A chart on several pages."""

    def test_each_piece_has_room_on_a_page(self) -> None:
        # (each tick is another one, so that no two rows become one)
        chart = drawn(steps(*(f"tick a {it}" for it in range(1, 101))))
        its = pieces(chart)
        self.assertGreater(len(its), 2)
        self.assertEqual([its[0].first, its[-1].last], [1, 100])
        self.assertEqual([it.first for it in its[1:]], [it.last + 1 for it in its[:-1]])
        for piece in its:
            height = float(str(ElementTree.fromstring(piece.pictures[1]).get("height")))
            self.assertLessEqual(height, TALLEST + 40)
        self.assertEqual(pieces(drawn(steps())), [])


if __name__ == "__main__":
    unittest.main()
