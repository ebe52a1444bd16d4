"""The mirror of a server's pair: what it answers, what the server is asked, and servers of older releases."""
from __future__ import annotations

import io
import threading
import unittest
from typing import List

from ..console.colours import PLAIN
from ..dialogue.shell import Shell
from ..language.commands import CHANGING
from ..link.laboratory import Laboratory
from ..link.programs import Client, Ended
from ..model.setups import Setup
from .children import SECONDS
from .followers import QUERY, STEP, Followers, ProvedFollowers, shared
from .servers import LONGEST, MANY, RULES, TOO_LONG_BY_ONE, standin_server

# Lines that look, some of them refused or faulty.
LOOKS = ["show main", "show nobody", "past main 1", "past main 99", "log main", "names", "frame main 1", "frame main 77", "why main 1"]
LOOKS += ["why main flush a", "why main deliver 9", "why main 99", "show", "past main x", "why main step", "log main main"]
IMPORTED = ["# pf.conf:11 @8 pass in proto tcp to port 443", "rule a pass out", "", "  # " + "x" * 600, "\trule b pass out \r", " open\r"]
# The same as a server shows it: without carriage returns, and the first 512 bytes of each line.
SHOWN = [*IMPORTED[:3], "  # " + "x" * 508, "\trule b pass out ", " open"]


class Mirrored(Followers):
    """What is so over any server that reports its setup and its journal."""

    def test_looks_are_answered_as_the_server_answers_them(self) -> None:
        port = self.serve(2)
        one, two = self.laboratory(port), self.client(port)
        one.join()
        for line in (STEP, "step main flush a", "back main 1", "fork main 1 other", "step other restart b", "excise main 1", "restore main"):
            reply = two.ask(line) if "other" in line else one.ask(line)
            self.assertEqual(reply[0].split()[0], self.word(line))
            for look in LOOKS:
                self.assertEqual(one.ask(look), two.ask(look), f"{look} after {line}")
        self.assertTrue(shared(one).has_mirror)

    def word(self, line: str) -> str:
        """The first word of the reply to a command that is carried out."""
        word = line.split()[0]
        return {"back": "at", "fork": "forked", "excise": "excised", "restore": "restored"}.get(word, word)

    def test_sessions_that_step_at_the_same_time_have_one_pair(self) -> None:
        port = self.serve(4)
        labs = [self.laboratory(port) for _ in range(4)]
        said: List[str] = []
        for lab in labs:
            lab.join()
            shared(lab).say = said.append

        def steps(lab: Laboratory, number: int) -> None:
            for at in range(60):
                lab.ask(f"step main tick a {number}")
                lab.ask("back main 1" if at % 7 == number else f"step main packet b out udp 10.0.0.{number}:{at} 192.0.2.9:53 40")
                if at % 5 == 0:
                    lab.show("main")

        threads = [threading.Thread(target=steps, args=(lab, number), daemon=True) for number, lab in enumerate(labs)]
        for one in threads:
            one.start()
        for one in threads:
            one.join(SECONDS)
        shown = [it.ask("show main") for it in labs]
        self.assertEqual(shown, [shown[0]] * 4)
        self.assertEqual(shared(labs[0]).client.ask("show main"), shown[0])
        self.assertEqual(said, [])
        self.assertEqual([shared(it).number for it in labs], [1, 2, 3, 4])
        self.assertEqual([it for it, _ in shared(labs[0]).journal], [it for it, _ in shared(labs[3]).journal])

    def test_a_question_is_of_one_moment(self) -> None:
        port = self.serve(2)
        lab, other = self.laboratory(port), self.client(port)
        lab.join()
        other.ask(STEP)
        with lab.one_moment():
            shown = lab.ask("show main")
            other.ask("step main flush a")
            self.assertEqual(lab.ask("show main"), shown)
            self.assertEqual(lab.ask("step main deliver 1")[0], "step taken 1 dropped 0")
            self.assertIn("branch main events 3 cursor 3", lab.ask("show main")[0])
        self.assertEqual(other.ask("back main 3"), ["at 0"])
        self.assertIn("cursor 0", lab.ask("show main")[0])

    def test_the_setup_is_the_servers(self) -> None:
        port = self.serve(1, IMPORTED)
        lab = self.laboratory(port)
        self.assertEqual(lab.join(), "")
        self.assertEqual(shared(lab).client.ask("setup"), SHOWN)
        self.assertEqual([it.origin for it in lab.setup.rules["a"] + lab.setup.rules["b"]], ["pf.conf:11 @8", ""])
        shell = Shell(lab, io.StringIO(), PLAIN)
        self.said(shell, QUERY)
        self.assertIn("rule 0 of a (pass out; pf.conf:11 @8)", self.said(shell, "why 1")[1])

    def test_what_wanted_the_setup_is_answered(self) -> None:
        port = self.serve(1, ["set defer 1", *RULES])
        [shell] = self.shells(port, 1)
        self.said(shell, QUERY)
        self.assertIn(f"  held packet of 1.1 ({QUERY[len('packet a out ') :]}): since 0 s, due at 0.02 s", self.said(shell, "view"))
        self.assertEqual(self.said(shell, "flush a", "log")[2].split()[-2:], ["held", "1.1"])
        self.assertIn("rule 0 of a (pass any)", "".join(self.said(shell, "why 1")))
        self.assertRegex(self.said(shell, "whatif")[0], "^main, 2 events: [0-9]+ single faults")
        self.assertRegex(self.said(shell, "search apart, anywhere")[1], "^found: no event is needed")
        self.assertEqual(self.said(shell, "take"), ["> fork main 2 found", "forked", "the branch in use is now found"])

    def test_a_saved_script_has_the_commands_of_all_sessions(self) -> None:
        port = self.serve(2, IMPORTED)
        one, two = self.shells(port, 2)
        self.said(one, QUERY, "view", "frob")
        self.said(two, "flush a", "fork main 1 other")
        script = one.script()
        self.assertEqual(script, two.script())
        lines = [*SHOWN[:-1], "open", STEP, "#> step pass 1.1 dropped 0", "step main flush a", "#> step sent 1 148 dropped 0", "fork main 1 other", "#> forked"]
        self.assertEqual(script.split("\n"), [*lines, ""])
        self.assertIn("other", "\n".join(self.said(one, "chart")))

    def test_an_end_of_the_server_is_reported(self) -> None:
        port = self.serve(1)
        lab = self.laboratory(port)
        lab.join()
        client = shared(lab).client
        assert isinstance(client, Client)
        client.connection.shutdown(2)
        for line in ("show main", STEP):
            with self.assertRaisesRegex(Ended, "^the server has ended, or has ended this session$"):
                lab.ask(line)


class MirroredProved(ProvedFollowers, Mirrored):
    """The same over the program's own server."""

    def test_looks_leave_the_servers_memory_where_it_was(self) -> None:
        port = self.serve(2)
        lab, other = self.laboratory(port), self.client(port)
        lab.join()

        def steps() -> int:
            for _ in range(100):
                for line in ("step main tick a 1", "back main 1"):
                    other.ask(line)
                    lab.show("main")
            with open(f"/proc/{self.proved.process.pid}/statm", encoding="ascii") as it:
                return int(it.read().split()[1]) * 4096

        before = steps()
        # (a show would take 130 KB)
        self.assertLess(steps() - before, 10_000_000)
        self.assertEqual(other.ask("view")[0].split()[1], "400")


class Asked(Followers):
    """What the server is asked."""

    def test_who_looks_after_each_step_of_another_asks_for_views_alone(self) -> None:
        port = self.serve(2)
        one, two = self.shells(port, 2)
        del self.server.asked[2][:]
        for number in range(1, 301):
            self.said(one, "tick a 1000")
            said = self.said(two, "view", "diff", "why")
            self.assertEqual((said[0], said[1].split(",")[0]), (f"branch main  {number} event{'s' * (number > 1)}", f"node a  clock {number} s"))
        self.assertEqual({*self.server.asked[2]}, {"view"})

    def test_a_session_is_asked_for_what_changes_the_pair_and_for_views(self) -> None:
        port = self.serve(1)
        [shell] = self.shells(port, 1)
        for line in (QUERY, "flush a", "view", "diff", "log", "changes 1", "why 2", "frame 1", "chart", "show main", "names", "summary"):
            self.said(shell, line)
        for line in ("quiet", "search apart", "fork main 1 other", "diff main other", "past main 1", "drop other", "whatif"):
            self.said(shell, line)
        [begun, *words] = [it.split()[0] for it in self.server.asked[1]]
        self.assertEqual((begun, words[0], {*words[1:]}), ("setup", "follow", {"view", "step", "fork", "drop"}))
        self.assertEqual([it for _, it in self.server.entries if it.split()[0] not in CHANGING], [])

    def test_a_line_that_the_server_has_to_itself(self) -> None:
        [shell] = self.shells(self.serve(1), 1)
        self.assertEqual(self.said(shell, "setup"), RULES)
        self.assertRegex(self.said(shell, "follow 0")[0], "^this shell follows the server's journal already")
        self.assertEqual(self.said(shell, "names"), ["names main"])

    def test_looks_of_others_are_counted_and_not_carried_out(self) -> None:
        port = self.serve(2)
        lab, other = self.laboratory(port), self.client(port)
        lab.join()
        heard: List[str] = []
        shared(lab).heard = lambda entry, reply: heard.append(entry.command)
        for line in ("show main", "names", "step main tick a 007", "why main flush a", "log main"):
            other.ask(line)
        lab.names()
        self.assertEqual((shared(lab).entries, heard), (5, ["step main tick a 7"]))
        self.assertEqual([it for it, _ in shared(lab).journal], [*RULES, "step main tick a 7"])

    def test_who_joins_late_has_all_that_came_before(self) -> None:
        port = self.serve(2)
        lab, other = self.laboratory(port), self.client(port)
        for number in range(3 * MANY):
            other.ask(f"step main tick a {number % 9}")
        lab.join()
        self.assertEqual(lab.ask("show main"), other.ask("show main"))
        self.assertEqual(shared(lab).behind, 3 * MANY)
        self.assertFalse(shared(lab).is_behind)


class Older(Followers):
    """A server of an older release, which knows neither word."""

    def serve_older(self, sessions: int) -> int:
        self.server = self.ends.enter_context(standin_server(sessions, knows=False))
        return self.server.port

    def test_all_is_asked_of_the_server(self) -> None:
        lab = self.laboratory(self.serve_older(1))
        self.assertEqual((lab.join(), lab.shared, lab.knows_setup), ("", None, False))
        shell = Shell(lab, io.StringIO(), PLAIN, is_typed=True)
        self.assertEqual(shell.prompt, "main> ")
        self.said(shell, QUERY)
        self.assertRegex(self.said(shell, "log")[0], "the outcomes are known with --setup FILE")
        self.assertRegex(self.said(shell, "whatif")[0], "^a server does not report its setup")
        self.assertRegex(self.said(shell, "search apart")[0], "^a server does not search")
        self.assertRegex(self.said(shell, "notes off")[0], "^notes show what other sessions")
        self.assertRegex(self.said(shell, "save x")[0], "this server does not report them$")
        self.assertEqual(self.said(shell, "setup")[0], "bad 3 Unknown")
        self.assertEqual(self.server.asked[1][:3], ["setup", STEP, "log main"])

    def test_the_setup_of_a_file_is_taken(self) -> None:
        lab = self.laboratory(self.serve_older(1), Setup.of(RULES[:-1]))
        self.assertEqual((lab.join(), lab.shared, lab.knows_setup), ("", None, True))
        shell = Shell(lab, io.StringIO(), PLAIN)
        self.said(shell, QUERY)
        self.assertRegex(self.said(shell, "log")[1], "pass 1.1$")


class Long(Followers):
    """A server whose setup has as many lines as it keeps, or more."""

    def test_the_longest_one_that_is_kept_is_taken(self) -> None:
        lab = self.laboratory(self.serve(1, LONGEST))
        self.assertEqual(lab.join(), "")
        self.assertEqual((shared(lab).client.ask("setup") == LONGEST, lab.setup.lines, lab.is_mirrored), (True, RULES[:-1], True))

    def test_of_a_longer_one_all_is_asked_of_the_server(self) -> None:
        lab = self.laboratory(self.serve(1, TOO_LONG_BY_ONE))
        looks = "the server's setup is too long for it to send; the server answers questions"
        told = f"{looks}, and what needs the setup needs --setup FILE, the file that it read"
        self.assertEqual((lab.join(), lab.shared, lab.knows_setup), (told, None, False))
        shell = Shell(lab, io.StringIO(), PLAIN)
        self.assertEqual(self.said(shell, QUERY), ["step pass 1.1 dropped 0"])
        self.assertRegex(self.said(shell, "log")[0], "the outcomes are known with --setup FILE")
        self.assertEqual(self.said(shell, "setup", "  setup "), ["setup too long"] * 2)
        self.assertEqual(lab.ask("names"), ["names main"])

    def test_the_setup_of_a_file_is_taken_for_a_longer_one(self) -> None:
        lab = self.laboratory(self.serve(1, TOO_LONG_BY_ONE), Setup.of(RULES[:-1]))
        told = "the server's setup is too long for it to send; the server answers questions, and the setup is that of --setup"
        self.assertEqual((lab.join(), lab.shared, lab.setup), (told, None, Setup.of(RULES[:-1])))
        shell = Shell(lab, io.StringIO(), PLAIN)
        self.said(shell, QUERY)
        self.assertRegex(self.said(shell, "log")[1], "pass 1.1$")


class LongProved(ProvedFollowers, Long):
    """The same over the program's own server."""


class Given(Followers):
    """A setup that is given by --setup, too."""

    def test_another_one_than_the_servers_is_said_and_not_taken(self) -> None:
        for lines in (["rule a block any"], [*RULES[:-1], "set states 9"], ["# pf.conf:1 @1 pass", *RULES[:-1]]):
            lab = self.laboratory(self.serve(1), Setup.of(lines))
            self.assertEqual(lab.join(), "the server's setup differs from the file of --setup, and is used")
            self.assertEqual(lab.setup, Setup.of(RULES[:-1]))

    def test_the_same_one_is_taken_in_silence(self) -> None:
        lab = self.laboratory(self.serve(1), Setup.of(["# Rules.", " rule  a pass any", "", *RULES[1:-1]]))
        self.assertEqual(lab.join(), "")

    def test_one_that_the_program_here_does_not_take_leaves_all_to_the_server(self) -> None:
        its = self.scripted("view 0 1 0 0 0 0 0 0\n", "rule a pass any\nset colour 5\nopen\n", "names main\n")
        lab = self.laboratory(its.port)
        shared_by = lab.session
        assert isinstance(shared_by, Client)
        shared_by.wait()
        told = "the program here does not take the server's setup: bad 3 Unknown; the server answers questions"
        self.assertEqual((lab.join(), lab.knows_setup, lab.names()), (told, False, ["main"]))


if __name__ == "__main__":
    unittest.main()
