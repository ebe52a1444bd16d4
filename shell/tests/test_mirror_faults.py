"""What becomes of the mirror of a server's pair where something is wrong, and how entries and replies are told apart."""
from __future__ import annotations

import io
import time
import unittest
from contextlib import closing, redirect_stderr
from typing import List, Tuple
from unittest import mock

from ..link.laboratory import Laboratory
from ..link.mirror import Shared
from ..link.programs import Client, Ended
from . import program
from .bridges import PROMPT
from .followers import QUERY, STEP, Followers, Scripted, shared


class Broken(Followers):
    """A mirror that can be used no more."""

    def setUp(self) -> None:
        super().setUp()
        # What is said of mirrors.
        self.complaints: List[str] = []

    def joined(self) -> Laboratory:
        lab = self.laboratory(self.serve(1))
        lab.join()
        shared(lab).say = self.complaints.append
        return lab

    def with_rule(self, port: int, rule: str) -> Shared:
        """A session whose mirror has another setup than the server."""
        shared = Shared(self.client(port), program(), [rule])
        self.ends.callback(shared.close)
        shared.say = self.complaints.append
        return shared

    def kill(self, lab: Laboratory) -> None:
        mirror = shared(lab)._mirror
        assert mirror
        mirror.process.kill()
        mirror.process.wait(10)

    def test_one_whose_program_ended(self) -> None:
        lab, said = self.joined(), self.complaints
        lab.ask(STEP)
        self.kill(lab)
        self.assertEqual(lab.show("main").events, 1)
        told = "the mirror of the server's pair is no longer used, and the server answers questions: the program has ended"
        self.assertEqual(said, [told])
        self.assertEqual(lab.ask("step main flush a"), ["step sent 1 148 dropped 0"])
        self.assertEqual(lab.show("main").events, 2)
        self.assertEqual((said, self.server.asked[1].count("show main")), ([told], 2))

    def test_one_whose_program_ended_before_a_step(self) -> None:
        lab = self.joined()
        self.kill(lab)
        self.assertEqual(lab.ask(STEP), ["step pass 1.1 dropped 0"])
        self.assertEqual((len(self.complaints), lab.show("main").events), (1, 1))

    def test_one_that_replies_otherwise_than_the_server(self) -> None:
        session = self.with_rule(self.serve(1), "rule a block any")
        self.assertEqual(session.ask("step main tick a 1"), ["step clock 1 dropped 0"])
        self.assertEqual(session.ask(STEP), ["step pass 1.1 dropped 0"])
        self.assertRegex(self.complaints[0], f"to entry 2, `{STEP}`, it replied `step drop block dropped 0`, but the server `step pass 1.1 dropped 0`$")
        self.assertIn("state a 1.1 ", "\n".join(session.ask("show main")))
        self.assertEqual(self.server.asked[1][-1], "show main")

    def test_one_that_replies_otherwise_to_what_came_between_others(self) -> None:
        port = self.serve(2)
        other = self.client(port)
        session = self.with_rule(port, "rule a block any")
        for number in range(5):
            other.ask(f"step main tick b {number}")
        # (the mirror has none of these yet)
        self.assertEqual(session.ask(STEP), ["step pass 1.1 dropped 0"])
        session.ask("names")
        self.assertRegex(self.complaints[0], "to entry 6, ")

    def test_entries_that_do_not_come(self) -> None:
        its = self.scripted("view 0 1 0 0 0 0 0 0\n", "rule a pass any\nopen\n", "following 0\n", "followed 0\nview 1 1 1 1 1 0 0 0\n", "", "names main\n")
        lab = self.laboratory(its.port)
        assert isinstance(lab.session, Client)
        lab.session.wait()
        with mock.patch("shell.link.mirror.PATIENCE", 0.2):
            lab.join()
            shared(lab).say = self.complaints.append
            self.assertEqual(lab.names(), ["main"])
        self.assertRegex(self.complaints[0], "the server has 1 entries, but sent none after entry 0 in 0 seconds$")

    def test_entries_with_a_gap(self) -> None:
        its = self.scripted("view 0 1 0 0 0 0 0 0\n", "rule a pass any\nopen\n", f"following 0\nentry 2 1 {STEP}\n", "view 2 1 1 1 1 0 0 0\n", "", "names main\n")
        lab = self.laboratory(its.port)
        assert isinstance(lab.session, Client)
        lab.session.wait()
        with redirect_stderr(io.StringIO()) as told:
            lab.join()
            self.assertEqual(lab.names(), ["main"])
        self.assertRegex(told.getvalue(), "after entry 0 the server sent entry 2\n$")
        self.assertEqual(its.asked[-1], "names")

    def test_a_dialogue_says_so_and_goes_on(self) -> None:
        port = self.serve(2)
        one, two = self.shells(port, 2)
        self.said(one, QUERY)
        self.kill(one.lab)
        self.assertRegex(self.said(one, "diff")[0], "^the mirror of the server's pair is no longer used")
        self.assertEqual(one.prompt, "main> ")
        self.said(two, "flush a")
        # (nothing waits for it where there is no mirror)
        said, end = self.said(one, "names"), time.monotonic() + PROMPT
        while said == ["names main"] and time.monotonic() < end:
            said = self.said(one, "names")
        self.assertEqual(said, ["names main", "[session 2] step main flush a"])
        self.assertRegex(self.said(one, "log")[2], "sent 1 148$")
        self.assertRegex(self.said(one, "save x")[0], "this server does not report them$")


class Numbers(Followers):
    """Which session this one is, and which entries are its own."""

    def joined(self, *texts: str) -> Tuple[Shared, Scripted]:
        its = self.scripted("following 0\n", *texts)
        session = Shared(self.client(its.port), program(), ["rule a pass any", "rule b pass any"])
        self.ends.callback(session.close)
        return session, its

    def test_an_own_command_after_which_another_came_is_known_once_a_later_one_is(self) -> None:
        tick = "step main tick a 1"
        session, _ = self.joined(
            "view 0 1\n",
            "step clock 2 dropped 0\n",
            f"view 2 1\nentry 1 2 {tick}\nentry 2 1 {tick}\n",
            "view 2 1\n",
            "step clock 3 dropped 0\n",
            "view 3 1\n",
            f"view 4 1\nentry 3 1 {tick}\nentry 4 2 {tick}\n",
        )
        heard: List[Tuple[int, int]] = []
        session.heard = lambda entry, reply: heard.append((entry.number, entry.session))
        self.assertEqual(session.ask(tick), ["step clock 2 dropped 0"])
        self.assertEqual((session.number, session.is_level), (None, False))
        self.assertEqual(session.ask(tick), ["step clock 3 dropped 0"])
        self.assertTrue(session.is_level)
        self.assertEqual(session.ask("names"), ["names main"])
        self.assertEqual((session.number, session.entries, session.has_mirror), (1, 4, True))
        # Which of the first two was its own could not be known.
        self.assertEqual(heard, [(1, 2), (2, 1), (4, 2)])

    def test_a_view_that_was_overtaken_says_how_far_to_go(self) -> None:
        tick = "step main tick a 1"
        session, its = self.joined("overtaken 1 3\n" + "".join(f"entry {it} 2 {tick}\n" for it in (1, 2, 3)))
        self.assertEqual(session.ask("why main 3")[2], "outcome clock 3")
        self.assertEqual(its.asked, ["follow 0", "view"])

    def test_a_full_journal_and_faulty_lines_have_no_entries(self) -> None:
        session, _ = self.joined(*["view 0 1\n", "bad 4 Missing\n", "view 0 1\n"], *["view 0 1\n", "full\n", "view 0 1\n"], "view 0 1\n")
        self.assertEqual((session.ask("step main"), session.ask("drop main"), session.ask("names")), (["bad 4 Missing"], ["full"], ["names main"]))
        self.assertEqual((session.entries, session.has_mirror), (0, True))


class Lines(Followers):
    """What comes over a connection."""

    def test_entries_before_and_after_a_reply_are_put_aside(self) -> None:
        show = ["branch main events 0 cursor 0", "link next 1 boot 3", "end"]
        its = self.scripted("entry 1 2 back main 0\nbehind 100 250\nat 0\nentry 2 1 back main 0\n", "entry 3 2 names\n" + "\n".join(show) + "\n", "x", ends=True)
        client = self.client(its.port)
        self.assertEqual(client.ask("back main 0"), ["at 0"])
        self.assertEqual(client.ask("show main"), show)
        came = ["entry 1 2 back main 0", "behind 100 250", "entry 2 1 back main 0", "entry 3 2 names"]
        self.assertEqual((client.come(), client.come()), (came, []))
        # A line without its end is none.
        with self.assertRaises(Ended):
            client.ask("names")
        with self.assertRaises(Ended):
            client.come(1)

    def test_replies_that_come_in_pieces(self) -> None:
        its = self.scripted("entry 1 2 na", "")
        client = self.client(its.port)
        with mock.patch.object(client.incoming, "_connection") as connection:
            connection.recv.side_effect = [b"entry 1 2 na", b"mes\nnames ma", b"in\nentry 2 1 na", b"mes\n", BlockingIOError]
            self.assertEqual(client.ask("names"), ["names main"])
            with mock.patch.object(client.incoming, "is_there", side_effect=[True, True, False]):
                self.assertEqual(client.come(), ["entry 1 2 names", "entry 2 1 names"])

    def test_a_setup_ends_with_its_line_open(self) -> None:
        its = self.scripted("\n# open\nrule a pass any\n\topen \r\nentry 1 2 names\n", "names main\n")
        client = self.client(its.port)
        self.assertEqual(client.ask("setup"), ["", "# open", "rule a pass any", "\topen \r"])
        self.assertEqual(client.ask("names"), ["names main"])
        client = self.client(self.scripted("setup too long\n", "names main\n").port)
        self.assertEqual((client.ask("setup"), client.ask("names")), (["setup too long"], ["names main"]))
        its = self.scripted("rule a pass any\n", ends=True)
        with closing(Client(its.port)) as cut, self.assertRaises(Ended):
            cut.ask("setup")


if __name__ == "__main__":
    unittest.main()
