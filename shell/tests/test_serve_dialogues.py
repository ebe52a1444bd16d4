"""Dialogues of one session with the program's own server, byte for byte: what is said to it, what it answers, and how it ends."""
from __future__ import annotations

import socket
import subprocess
import unittest
from typing import Sequence

from . import program
from .followers import STEP
from .served import End, Served
from .servers import RULES

# A server whose two nodes pass what goes out, and nothing else.
OUT = ["rule a pass out", "rule b pass out", "open"]
SECOND = "step main packet a out udp 10.0.0.1:1001 192.0.2.9:53 40"
# Two names of 16 bytes, which is as many as a name may have, and a word of 32.
ONE, TWO, LONG = "abcdefghijklmnop", "p-9876543210-zyx", "this-word-is-of-thirty-two-bytes"
# A segment of TCP over IPv6 that opens a connection, as large in each of its fields as there is one.
NEAR, FAR = "[2001:0db8:0000:0000:ffff:ffff:ffff:ffff]:65535", "[2001:0db8:0000:0000:0000:0000:0000:0001]:443"
SEGMENT = f"packet a out tcp {NEAR} {FAR} S 4294967295 4294967295 65535 65495 14"
# Events of each kind, on a new pair.
EVENTS = [SEGMENT, "flush a", "repeat 1", "cut 1 19", "deliver 1", "lose 2", "kill a 1.1", "purge a", "clear a", "turn a", "tick a 549755813888", "restart a"]
# Commands of each other kind; and some with a word that no branch can have as its name.
OTHERS = [f"fork {ONE} 3 {TWO}", f"back {ONE} 2", f"forward {ONE} 1", f"excise {ONE} 1", f"show {ONE}", f"past {ONE} 1", f"why {TWO} 1"]
OTHERS += [f"frame {TWO} 1", f"log {ONE}", "names", f"restore {ONE}", f"drop {TWO}"]
NO_BRANCH = [f"fork {ONE} 3 {LONG}", f"fork {LONG} 3 {TWO}", f"step {LONG} flush b", f"drop {LONG}", f"log {LONG}"]


class OneSession(Served):
    """A server of one session, which says all that it says at once."""

    def told(self, said: str, setup: Sequence[str] = OUT) -> str:
        """What a session is answered that says this."""
        caller = self.caller(self.serve(1, setup))
        caller.say(said)
        return caller.rest()

    def assert_told(self, said: Sequence[str], answers: Sequence[str], commands: int, setup: Sequence[str] = OUT) -> None:
        """That a session which says these lines has these answers, and as many of them are commands."""
        self.assertEqual(self.told("".join(f"{it}\n" for it in said), setup).splitlines(), answers)
        self.assertEqual(self.end(), End.after(commands))


class Dialogues(OneSession):
    """What a session is answered."""

    def test_lines_of_each_kind(self) -> None:
        # (the packet makes a state of node a, which is to be announced to node b)
        said = f"{STEP}\nview\n# a comment\n\nview now\nfly\n \tview \r\nback main 1\nview\nnames"
        view = "view 1 1 1 1 1 0 0 1\n"
        answers = f"step pass 1.1 dropped 0\n{view}bad 6 Extra\nbad 3 Unknown\n{view}at 0\nview 2 1 1 0 0 0 0 0\nnames main\n"
        self.assertEqual(self.told(said), answers)
        self.assertEqual(self.end(), End.after(3))

    def test_an_excision_and_its_restoration(self) -> None:
        # (without the first packet there is nothing to send or to deliver, and the state of the second packet is the first of node a)
        said = [STEP, "step main flush a", "step main deliver 1", SECOND, "excise main 1", "view", "restore main", "view", "restore main"]
        answers = ["step pass 1.1 dropped 0", "step sent 1 148 dropped 0", "step taken 1 dropped 0", "step pass 1.2 dropped 0"]
        answers += ["excised 2 3", "view 5 1 1 1 1 0 0 1", "restored 4", "view 6 1 4 4 2 1 0 1", "refused 10 NothingExcised"]
        self.assert_told(said, answers, 7)

    def test_the_setup_and_the_journal(self) -> None:
        setup = ["# two nodes", "rule a pass out", "", "rule b pass out", "open"]
        said = ["setup", "back main 0", "follow 0", "names", "follow 1"]
        answers = [*setup, "at 0", "following 0", "entry 1 1 back main 0", "followed 1", "names main", "following 1", "entry 2 1 names"]
        self.assert_told(said, [*answers, "followed 2"], 2, setup)

    def test_the_journal_is_followed_from_each_place(self) -> None:
        # (where there are fewer commands than are asked for, `follow` begins at the end)
        said = ["step main tick a 1", "follow 0", "back main 1", "follow 1", "follow", "follow 7", "follow x", "follow 0 0", "setup main", "view"]
        answers = ["step clock 1 dropped 0", "following 0", "entry 1 1 step main tick a 1", "followed 1", "at 0", "following 1"]
        answers += ["entry 2 1 back main 1", "followed 2", *["following 2", "followed 2"] * 2, "bad 5 Number", *["bad 6 Extra"] * 2]
        self.assert_told(said, [*answers, "view 2 1 1 0 0 0 0 0"], 2)

    def test_who_is_far_behind_hears_how_far(self) -> None:
        # (after each hundredth command, where a hundred are still to come)
        entries = [f"entry {it} 1 names" for it in range(99, 251)]
        answers = [*["names main"] * 250, "following 98", *entries[:2], "behind 100 250", *entries[2:], "followed 250"]
        self.assert_told([*["names"] * 250, "follow 98"], answers, 250)

    def test_the_journal_has_each_command_as_it_was_said(self) -> None:
        steps = [f"{word} {ONE} {event}" for event in EVENTS for word in ("why", "step")]
        commands = [f"fork main 0 {ONE}", *steps, *OTHERS, *NO_BRANCH]
        told = self.told("".join(f"{it}\n" for it in (*commands, "follow 0"))).splitlines()
        entries = [f"entry {number} 1 {it}" for number, it in enumerate(commands, 1)]
        self.assertEqual([it for it in told if it.startswith("entry ")], entries)
        # (the turn of a node that nobody asked for an update, which is asked about before it is stepped; and each of those with the long word)
        refused = [it for it in told if it.startswith("refused ")]
        self.assertEqual(refused[:2], ["refused 8 NotSyncing", "refused 8 Event 8 NotSyncing"])
        self.assertEqual(refused[2:], ["refused 3 BadName", *["refused 1 NoBranch"] * 4])
        self.assertEqual(self.end(), End.after(len(commands)))


class Endings(OneSession):
    """How sessions end."""

    def test_at_once(self) -> None:
        self.assertEqual(self.told(""), "")
        self.assertEqual(self.end(), End.after(0))

    def test_amid_a_line(self) -> None:
        # (a last line counts although no line feed ends it)
        self.assertEqual(self.told("names"), "names main\n")
        self.assertEqual(self.end(), End.after(1))

    def test_a_line_of_a_million_bytes(self) -> None:
        self.assertEqual(self.told(f"names {'x' * 1_000_000}"), "bad 1 Long\n")
        self.assertEqual(self.end(), End.after(0))


class Beginnings(Served):
    """Servers that do not begin, and where they listen."""

    def refused(self, setup: Sequence[str], port: int) -> End:
        """The end of a server that does not come to listen."""
        words = [program(), "serve", "--sessions", "1", "--port", str(port)]
        ran = subprocess.run(words, input="".join(f"{it}\n" for it in setup), capture_output=True, text=True, timeout=60)
        return End(ran.stdout.splitlines(), ran.stderr.splitlines(), ran.returncode)

    def test_a_port_in_use_is_reported(self) -> None:
        self.assertEqual(self.refused(RULES, self.serve()), End([], ["pfl_lab: network"], 1))

    def test_a_setup_without_its_end_is_reported(self) -> None:
        with socket.create_server(("127.0.0.1", 0)) as it:
            port: int = it.getsockname()[1]
        self.assertEqual(self.refused(RULES[:1], port), End([], ["pfl_lab: setup line 1: no open"], 1))

    def test_it_listens_at_no_other_address(self) -> None:
        port = self.serve(2)
        callers = self.callers(port, 1)
        with self.assertRaises(ConnectionRefusedError):
            socket.create_connection(("127.0.0.2", port))
        for it in [*callers, self.caller(port)]:
            it.close()
        self.assertEqual(self.end(), End.after(0))


if __name__ == "__main__":
    unittest.main()
