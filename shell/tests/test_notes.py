"""Notes of what other sessions do: what they say, when they come, and that they leave the line alone that somebody types."""
from __future__ import annotations

import io
import sys
import time
import unittest
from typing import List
from unittest import mock

from ..console.colours import PLAIN
from ..dialogue.notes import MOST, PATIENCE, PAUSE, Notes, all_of, in_short
from ..dialogue.shell import Shell
from ..dialogue.terminal import above
from ..link.laboratory import Laboratory
from ..link.mirror import Entry
from . import TOP, program
from .followers import QUERY, STEP, Followers, ProvedFollowers, shared
from .terminals import Terminal

NOTE = "[session 2] step main flush a -> sent 1 148"


class Told(Followers):
    def test_commands_of_others_come_before_the_prompt(self) -> None:
        one, two = self.shells(self.serve(2), 2)
        self.said(one, QUERY)
        self.said(two, "flush a", "view", "show main", "back main 9", "frob", "step main flush")
        refused = "[session 2] back main 9 -> refused 4 TooFarBack"
        self.assertEqual(self.said(one, "names"), ["names main", NOTE, refused])
        self.assertEqual(one.prompt, "main 2/2> ")
        self.assertEqual(self.said(one, "names"), ["names main"])
        self.said(two, "back main 2", "tick a 7", "fork main 1 other", "excise other 1")
        notes = ["back main 2 -> at 0", "step main tick a 7 -> clock 7 dropped 2", "fork main 1 other -> forked", "excise other 1 -> excised"]
        self.assertEqual(self.said(one, ""), [f"[session 2] {note}" for note in notes])

    def test_own_commands_are_no_notes(self) -> None:
        one, two = self.shells(self.serve(2), 2)
        said: List[str] = []
        for number in range(5):
            self.said(two, f"tick b {number}")
            said += self.said(one, f"tick a {number}", "flush a")
        said += self.said(one, "")
        notes = [it for it in said if it.startswith("[")]
        self.assertEqual([note.split(" ->")[0] for note in notes], [f"[session 2] step main tick b {it}" for it in range(5)])

    def test_many_are_one_line(self) -> None:
        one, two = self.shells(self.serve(2), 2)
        for _ in range(MOST):
            two.lab.ask("step main tick a 1")
        self.assertEqual(len(self.said(one, "")), MOST)
        for _ in range(MOST + 1):
            two.lab.ask("step main tick a 1")
        newest = f"[session 2] step main tick a 1 -> clock {2 * MOST + 1}"
        self.assertEqual(self.said(one, ""), [f"{MOST + 1} commands of session 2; the newest: {newest}"])

    def test_they_can_be_turned_off(self) -> None:
        one, two = self.shells(self.serve(2), 2)
        self.assertEqual(self.said(one, "notes"), ["notes are on"])
        self.assertEqual(self.said(one, "notes off"), ["notes are off"])
        self.said(two, QUERY)
        self.assertEqual(self.said(one, "", "notes", "notes on"), ["notes are off", "notes are on"])
        self.said(two, "flush a")
        self.assertEqual(self.said(one, ""), [NOTE])
        self.assertEqual(self.said(one, "notes maybe"), ["usage: notes on, or notes off"])

    def test_a_shell_that_reads_a_script_has_none(self) -> None:
        port = self.serve(2)
        one, two = self.shells(port, 2, is_typed=False)
        self.said(two, QUERY)
        self.assertEqual(self.said(one, "names"), ["names main"])
        self.assertRegex(self.said(one, "notes")[0], "^notes show what other sessions of a server do, in a dialogue")

    def test_a_pair_of_ones_own_has_none(self) -> None:
        lab = Laboratory(program())
        self.addCleanup(lab.close)
        self.assertRegex(self.said(Shell(lab, io.StringIO(), PLAIN, is_typed=True), "notes")[0], "^notes show what other sessions")

    def test_a_branch_in_use_that_another_session_dropped(self) -> None:
        one, two = self.shells(self.serve(2), 2)
        self.said(one, "fork main 0 other", "use other")
        self.assertEqual(one.prompt, "other 0/0> ")
        self.said(two, "drop other")
        self.assertEqual(self.said(one, ""), ["[session 2] drop other -> removed"])
        self.assertEqual(one.prompt, "other> ")

    def test_replies_in_short(self) -> None:
        replies = {"step pass 1.1 dropped 0": "pass 1.1", "step sent 1 148 dropped 3": "sent 1 148 dropped 3", "at 0": "at 0"}
        replies.update({"step drop block dropped 0": "drop block", "refused 8 Event 2 NothingPending": "refused 8 Event 2 NothingPending"})
        self.assertEqual({reply: in_short(reply) for reply in replies}, replies)


class Due(Followers):
    """When notes come while somebody types."""

    def test_a_few_come_at_once_and_many_in_a_pause(self) -> None:
        lab = self.laboratory(self.serve(1))
        lab.join()
        said: List[str] = []
        notes = Notes(shared(lab), said.extend, PLAIN)

        def hear(number: int) -> None:
            shared(lab).heard(Entry(number, 2, "step main tick a 1"), ["step clock 1 dropped 0"])

        with mock.patch("time.monotonic", return_value=100.0) as clock:
            self.assertFalse(notes.are_due)
            for number in range(MOST):
                hear(number)
                self.assertTrue(notes.are_due)
                notes.show()
            self.assertEqual(len(said), MOST)
            for number in range(200):
                hear(number)
                self.assertFalse(notes.are_due)
                clock.return_value += PAUSE / 2
            clock.return_value += PAUSE
            self.assertTrue(notes.are_due)
            shared(lab).behind = 100
            self.assertFalse(notes.are_due)
            shared(lab).behind = 0
            notes.show()
            self.assertEqual(said[MOST:], ["200 commands of session 2; the newest: [session 2] step main tick a 1 -> clock 1"])
            hear(1)
            self.assertTrue(notes.are_due)


class Late:
    """Names that are known once they are let come."""

    def __init__(self) -> None:
        self.have_come = False
        self.waited: List[float] = []

    def knows(self, entry: Entry, seconds: float = 0) -> bool:
        self.waited.append(seconds)
        return self.have_come

    def name(self, entry: Entry) -> str:
        return "Ann" if self.have_come else ""

    def close(self) -> None:
        pass


class NamesDue(Followers):
    """How long notes wait for names."""

    def setUp(self) -> None:
        super().setUp()
        lab = self.laboratory(self.serve(1))
        lab.join()
        self.shown: List[str] = []
        self.names = Late()
        self.notes = Notes(shared(lab), self.shown.extend, PLAIN, self.names)
        self.clock = self.ends.enter_context(mock.patch("time.monotonic", return_value=100.0))

    def hear(self) -> None:
        self.notes.shared.heard(Entry(1, 2, "back main 1"), ["at 0"])

    def test_a_note_is_due_with_its_name(self) -> None:
        self.hear()
        self.assertFalse(self.notes.are_due)
        self.names.have_come = True
        self.assertTrue(self.notes.are_due)
        self.notes.show()
        self.assertEqual(self.shown, ["[Ann] back main 1 -> at 0"])

    def test_a_name_that_does_not_come_is_not_awaited_for_long(self) -> None:
        self.hear()
        self.clock.return_value += PATIENCE / 2
        self.assertFalse(self.notes.are_due)
        self.clock.return_value += PATIENCE / 2
        self.assertTrue(self.notes.are_due)
        self.notes.show()
        self.assertEqual(self.shown, ["[session 2] back main 1 -> at 0"])
        self.assertEqual(self.names.waited[-1], 0)

    def test_a_prompt_waits_for_what_is_left_of_that_time(self) -> None:
        self.hear()
        self.clock.return_value += PATIENCE / 4
        self.notes.show()
        self.assertEqual(self.names.waited, [PATIENCE * 3 / 4])

    def test_the_name_in_an_entry_is_taken(self) -> None:
        self.notes.shared.heard(Entry(1, 0, "back main 1", "Bob"), ["at 0"])
        self.notes.show()
        self.assertEqual(self.shown, ["[Bob] back main 1 -> at 0"])

    def test_all_who_gave_many(self) -> None:
        people = {("", 3), ("Bob", 0), ("", 2), ("Ann", 0)}
        self.assertEqual(all_of(people), "Ann, Bob, sessions 2, 3")
        self.assertEqual([all_of({it}) for it in [("", 3), ("Ann", 0)]], ["session 3", "Ann"])


class Typing(Followers):
    """A shell at a terminal, beside another session."""

    def terminal(self, port: int, **more: str) -> Terminal:
        words = [sys.executable, f"{TOP}/lab", "shell", "--port", str(port)]
        terminal = Terminal(words, {"PFL_LAB": program(), "PFL_LAB_HISTORY": "", "PYTHONDONTWRITEBYTECODE": "1", **more})
        self.ends.callback(terminal.close)
        return terminal

    def test_what_is_typed_stays_as_it_is(self) -> None:
        port = self.serve(2)
        terminal = self.terminal(port)
        other = self.client(port)
        terminal.wait_for("main 0/0>")
        terminal.type(QUERY[:-1])
        terminal.wait_for(f"main 0/0> {QUERY[:-1]}")
        # The cursor goes to the second word.
        terminal.type("\x01\x1bf\x1bf")
        notes: List[str] = []
        # (the screen scrolls before the last of them)
        for number in range(1, 16):
            other.ask("step main tick a 1")
            other.ask("show main")
            notes.append(f"[session {self.number(notes, terminal)}] step main tick a 1 -> clock {number}")
            rows = terminal.wait(lambda rows: rows[-2] == notes[-1])
            self.assertEqual(rows[-1], f"main 0/0> {QUERY[:-1]}")
            time.sleep(0.05 if number % 5 else PAUSE)
        self.assertEqual(terminal.screen.text[1:-1], notes)
        self.assertEqual(terminal.screen.column, len("main 0/0> packet a"))
        terminal.type("\x050\r")
        terminal.wait_for("main 16/16>")
        self.assertEqual(terminal.screen.text[-3:-1], [f"main 0/0> {QUERY}", "step pass 1.1 dropped 0"])

    def number(self, notes: List[str], terminal: Terminal) -> int:
        """The number of the other session: that of the first note."""
        if notes:
            return int(notes[0].split("]")[0].split()[1])
        rows = terminal.wait(lambda rows: len(rows) > 2)
        return int(rows[-2].split("]")[0].split()[1])

    def test_a_line_of_several_rows_has_its_notes_later(self) -> None:
        port = self.serve(2)
        terminal = self.terminal(port)
        other = self.client(port)
        terminal.wait_for("main 0/0>")
        terminal.type("x" * 120)
        terminal.wait(lambda rows: rows[-1] == "x" * 30)
        other.ask(STEP)
        time.sleep(0.4)
        terminal.type("\x15")
        rows = terminal.wait(lambda rows: rows[-1] == "main 0/0>" and "pass 1.1" in rows[-2])
        self.assertEqual(len(rows), 3)
        terminal.type("names\r")
        terminal.wait_for("main 1/1>")
        self.assertEqual(terminal.screen.text[-2], "names main")

    def test_a_terminal_that_inserts_no_lines_has_them_before_the_next_prompt(self) -> None:
        port = self.serve(2)
        terminal = self.terminal(port, TERM="dumb")
        other = self.client(port)
        terminal.wait_for("main 0/0>")
        other.ask(STEP)
        terminal.type("names\r")
        self.assertRegex(terminal.wait_for("main 1/1>")[-2], "step main packet .* -> pass 1.1$")

    def test_many_are_one_line_and_an_interrupt_gives_up_the_line(self) -> None:
        port = self.serve(2)
        terminal = self.terminal(port)
        other = self.client(port)
        terminal.wait_for("main 0/0>")
        terminal.type("view")
        for _ in range(300):
            other.ask("step main tick a 1")
        rows = terminal.wait(lambda rows: "clock 300" in rows[-2])
        self.assertEqual(rows[-1], "main 0/0> view")
        self.assertLess(len(rows), 100)
        terminal.type("\x03")
        terminal.wait_for("main 300/300>")
        self.assertEqual(terminal.screen.text[-2], "main 0/0> view^C")
        terminal.type("notes off\r")
        terminal.wait(lambda rows: rows[-2:] == ["notes are off", "main 300/300>"])
        other.ask("step main tick a 1")
        terminal.type("\r")
        terminal.wait_for("main 301/301>")
        self.assertEqual(terminal.screen.text[-2], "main 300/300>")

    def test_the_end_of_the_server_comes_above_the_line(self) -> None:
        port = self.serve(1)
        terminal = self.terminal(port)
        terminal.wait_for("main 0/0>")
        terminal.type("vi")
        terminal.wait_for("main 0/0> vi")
        self.end_server()
        rows = terminal.wait(lambda rows: rows[-2] == "the server has ended, or has ended this session")
        self.assertEqual(rows[-1], "main 0/0> vi")

    def end_server(self) -> None:
        for it in self.server.visits:
            it.connection.shutdown(2)


class TypingProved(ProvedFollowers, Typing):
    """The same over the program's own server."""

    def end_server(self) -> None:
        self.proved.process.kill()


class Sequences(unittest.TestCase):
    def test_rows_are_made_for_all_of_a_text(self) -> None:
        self.assertEqual(above(["a", "b"], 80), "\033D\033D\033[2A\0337\r\033[2La\r\nb\0338\033[2B")
        self.assertIn("\033[3L", above(["x" * 80, "x" * 81], 80))
        self.assertIn("\033[1L", above(["\033[33m" + "x" * 80 + "\033[0m"], 80))


if __name__ == "__main__":
    unittest.main()
