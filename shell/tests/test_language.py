"""The tables of the language are those of docs/FORMATS.md, and who has something of his own for each row has it for all."""
from __future__ import annotations

import re
import unittest
from typing import List

from fuzzing.outcomes import _CHECKS
from fuzzing.timelines import Timeline

from oracle.frames import _READERS, Bytes

from ..language import faults
from ..language.commands import COMMANDS, MOST_BRANCHES, SETUP, STEP
from ..language.events import DELIVER, EVENTS, LAST_MILLISECOND, OF_FRAME, PACKET
from ..language.forms import GREATEST, GREATEST_LONG, NODE, TICKET
from ..language.lines import LONGEST_LINE
from ..language.records import BY_WORD, KINDS, QUEUES
from ..language.searches import ANY, DEEPEST, MOST_CHOICES, MOST_PHASES, OF_PACKET, OF_PAIR, SCOPES, SEARCH, THEN
from ..language.setups import CLASSES, LIMITS, MOST_RULES, RULE_FORM, STATES
from ..link.programs import FOLLOW, SETUP_WORD, VIEW
from ..model.frames import Record
from ..reasons import commands, events, refusals
from . import TOP

Table = List[List[str]]


def section(title: str) -> str:
    """A part of the page, up to the next one of its rank."""
    with open(f"{TOP}/docs/FORMATS.md", encoding="utf-8") as it:
        rank, text = re.fullmatch(r"(#+) .*", title), it.read()
    assert rank and f"\n{title}\n" in text
    return re.split(rf"\n#{{1,{len(rank[1])}}} ", text.partition(f"\n{title}\n")[2])[0]


def table(title: str, first: str) -> Table:
    """The table of a part of the page whose first column has this head, row by row."""
    lines = section(title).split("\n")
    begin = next(at for at, line in enumerate(lines) if line.startswith(f"| {first} |"))
    rows: Table = []
    for line in lines[begin + 2 :]:
        if not line.startswith("|"):
            break
        rows.append([it.strip().replace(r"\|", "|") for it in re.split(r"(?<!\\)\|", line)[1:-1]])
    return rows


def halves(rows: Table) -> Table:
    """The rows of a table that is two columns of rows side by side."""
    width = len(rows[0]) // 2
    return [it for row in rows for it in (row[:width], row[-width:])]


def codes(cell: str) -> List[str]:
    return re.findall("`([^`]+)`", cell)


class Page(unittest.TestCase):
    def test_classes(self) -> None:
        rows = halves(table("## Classes and default timeouts", "No"))
        page = {int(number): (word, int(seconds)) for number, word, seconds in rows}
        self.assertEqual(page, {number: (it.word, it.seconds) for number, it in enumerate(CLASSES)})

    def test_limits(self) -> None:
        rows = table("## Limits", "Name")
        page = {}
        for name, its_range, default in (it for row in rows for it in (row[:3], row[-3:])):
            page[name] = tuple(map(int, re.split(" to | or ", its_range))), default
        for limit in LIMITS.values():
            default = f"`{STATES.word}` * {limit.fifths} / 5" if limit.fifths else str(limit.default)
            self.assertEqual(page.pop(limit.word), ((limit.least, limit.most), default))
        self.assertEqual(page, {})

    def test_rules(self) -> None:
        text = section("## Rules")
        self.assertIn(f"\n```text\n{RULE_FORM}\n```\n", text)
        self.assertIn(f"TooMany (above {MOST_RULES})", section("## Other faults"))

    def test_records(self) -> None:
        page = [(int(number), name, int(size)) for name, number, size, _ in table("## Frames", "Message")]
        self.assertEqual(page, [(kind.number, kind.name, kind.size) for kind in KINDS.values()])
        self.assertIn(f"`queue N {'|'.join(QUEUES)} NUMBER NAME`", section("### Replies"))
        explained = codes(section("### What `why` answers").partition("RECORD is")[2].partition("FATE is")[0])
        self.assertEqual([it.split()[0] for it in explained], [kind.word for kind in KINDS.values()])
        shown = [code.split()[0] for row in table("### What `frame` answers", "RECORD") for code in codes(row[0])]
        self.assertEqual({*shown}, {*BY_WORD})

    def test_lines_of_a_setup_and_commands(self) -> None:
        setup = [codes(row[0])[0] for row in table("### Setup", "Line")]
        self.assertEqual(setup, [form.replace(RULE_FORM, "RULE") for it in SETUP.values() for form in it.form.split("\n")])
        commands = [form for command in COMMANDS.values() for form in command.form.split("\n")]
        self.assertEqual([codes(row[0])[0] for row in table("### Commands", "Line")], commands)
        self.assertIn(f"There are at most {MOST_BRANCHES} branches", section("### Commands"))
        self.assertIn(f"of more than {LONGEST_LINE} bytes", section("## Lines and replies"))

    def test_replies_of_commands(self) -> None:
        rows = table("### Replies", "Reply")
        page = {code for what, cell in rows for code in codes(cell) if "refused" not in what and "faulty" not in what}
        shown = codes(section("### Replies").partition("A shown branch is many lines")[2].partition("\n1. ")[2])[0]
        others = {"excised", "event K step NAME EVENT", "outcome OUTCOME", "refused N REFUSAL", "end"}
        self.assertEqual(page - others | {shown}, {reply for command in COMMANDS.values() for reply in command.replies})

    def test_events(self) -> None:
        page = [codes(row[0])[0] for row in table("### Commands", "Event")]
        self.assertEqual(page, [form for event in EVENTS.values() for form in event.forms])
        for it in EVENTS.values():
            self.assertIs(it.values[0], TICKET if it.word in OF_FRAME else NODE)
        for number in (GREATEST, GREATEST_LONG):
            self.assertIn(f"{number} for ", section("### Commands"))
        self.assertIn(f"from 0 to {LAST_MILLISECOND}.", section("## Times, names and numbers"))

    def test_outcomes(self) -> None:
        page = {}
        for words, cell in table("### Replies", "Event"):
            of, forms = words.split(", "), codes(cell)
            page.update({of[0]: forms} if len(of) == 1 else {word: [form] for word, form in zip(of, forms)})
        self.assertEqual(page, {event.word: [outcome.form for outcome in event.outcomes] for event in EVENTS.values()})

    def test_refusals(self) -> None:
        names = [name for _, name, _ in table("## Refusals", "No")]
        self.assertEqual(names, list(faults.EVENT_REFUSALS))
        lines = section("## Refusals").partition("```text\n")[2].partition("```")[0].splitlines()
        page = {word: [int(number) for number in numbers] for word, *numbers in map(str.split, lines)}
        self.assertEqual(page, {event.word: [names.index(name) + 1 for name in event.refusals] for event in EVENTS.values()})

    def test_faults(self) -> None:
        page = {of: re.sub(r"\([^)]*\)|; NoMemory.*", "", names).strip() for of, names in table("## Other faults", "Of")}
        for of, names in (
            ("a line", faults.LINE_FAULTS),
            ("rules", faults.RULE_FAULTS),
            ("a frame's bytes", faults.FRAME_FAULTS),
            ("limits", faults.LIMIT_FAULTS),
            ("a command", faults.COMMAND_REFUSALS),
        ):
            self.assertEqual(tuple(it.strip() for it in page[of].split(",")), names, of)
        self.assertEqual({name for command in COMMANDS.values() for name in command.refusals}, {*faults.COMMAND_REFUSALS})

    def test_searches(self) -> None:
        text = section("### Searches")
        self.assertIn(f"\n```text\n{SEARCH} BRANCH DEPTH RUNS [SCOPE] QUESTION; PART; PART ..\n```\n", text)
        self.assertIn(f"from 0 to {DEEPEST} |", text)
        self.assertIn(f"There are at most {MOST_CHOICES} choices, in at most {MOST_PHASES} phases", text)
        # A row is about the forms before its colon.
        said = [code for row in table("### Searches", "Word") if row[1].startswith("`") for code in codes(row[1].partition(": ")[0])]
        choices = [it for it in said if it.startswith("N ")]
        self.assertEqual({it for it in said if it not in choices}, {*SCOPES, *OF_PAIR, *(f"{it} EVENT" for it in OF_PACKET), THEN})
        anything = [choice.removeprefix(f"N {ANY} ") for choice in choices if choice != "N EVENT"]
        wanted = [" ".join([it.word, *(value.name for value in it.values[1:])]) for it in OF_FRAME.values()]
        self.assertEqual(anything, wanted)


class Complete(unittest.TestCase):
    """Who has something of his own for each row."""

    def test_events(self) -> None:
        rows = {*EVENTS.values()}
        self.assertEqual({*_CHECKS}, rows)
        self.assertEqual({*events._OTHERS}, rows - {PACKET, DELIVER})

    def test_commands(self) -> None:
        for word in COMMANDS:
            self.assertTrue(word == STEP.word or callable(getattr(Timeline, word)), word)

    def test_refusals(self) -> None:
        self.assertEqual({*refusals._REFUSALS}, {*faults.EVENT_REFUSALS})
        self.assertEqual({*commands._REFUSALS, "Event"}, {*faults.COMMAND_REFUSALS})

    def test_records(self) -> None:
        for kind in KINDS.values():
            # (the direction is 1 or 2)
            data = Bytes(bytes([0] * 14 + [1] + [0] * kind.size)[: kind.size])
            words = [kind.word, *_READERS.get(kind, Bytes.name)(data).split()]
            self.assertEqual((data.data.strip(b"\0"), Record.read(words).kind), (b"", kind))

    def test_words_of_sessions(self) -> None:
        """A server takes a first line such as `show /` for a session's and not for a browser's, whichever word of sessions it begins with."""
        with open(f"{TOP}/crates/pfl_doors/src/request.rt", encoding="utf-8") as it:
            body = it.read().partition("\nfn is_command(")[2].partition("\n}\n")[0]
        self.assertEqual(sorted(re.findall(r'is_word\(word, "([^"]*)"\)', body)), sorted([*COMMANDS, SETUP_WORD, FOLLOW, VIEW]))


if __name__ == "__main__":
    unittest.main()
