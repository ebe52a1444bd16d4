"""A live page of a server that reports its setup and its journal: what others step is seen, and what the server is asked."""
from __future__ import annotations

import contextlib
import io
import time
import unittest
from typing import List

from ..link.laboratory import Unknown
from ..link.mirror import Shared, joined as joined_to
from ..model.setups import Setup
from ..pages.door import Door
from ..pages.live import joined, serve
from ..pages.session import FollowedBranches
from . import program
from .bridges import PACKET, PROMPT, Bridged
from .servers import RULES, TOO_LONG_BY_ONE, Server, proved_server, standin_server

IMPORTED = ["# pf.conf:11 @8 pass in proto tcp to port 443", *RULES]


class Pages(Bridged):
    """Pages of the stand-in."""

    server: Server

    def begin(self, sessions: int, setup: List[str]) -> int:
        self.server = self.ends.enter_context(standin_server(sessions, setup))
        return self.server.port

    def joining(self, port: int) -> Door:
        """A page of the server, which has no other word of its setup."""
        return self.served(joined(program(), port, None, io.StringIO()))

    def shared(self, door: Door) -> Shared:
        branches = door.bridge._branches
        assert isinstance(branches, FollowedBranches)
        return branches._shared


class Followed(Pages):
    """What is so over any server that reports both."""

    def test_what_another_session_steps_is_seen_with_its_rule(self) -> None:
        port = self.begin(2, IMPORTED)
        shell = self.session(port)
        door = self.joining(port)
        self.assertEqual(self.page(door)["setup"], RULES[:-1])
        watcher, begun = self.watcher(door), time.monotonic()
        shell.ask(PACKET)
        update = watcher.update()
        self.assertLess(time.monotonic() - begun, PROMPT)
        self.assertEqual((update["who"], update["branches"][0]["moments"][0]["outcome"]), ("another session", "pass 1.1"))
        self.assertIn("rule 0 of a (pass any; pf.conf:11 @8)", update["branches"][0]["moments"][0]["why"][0])
        self.assertEqual(self.step(door, "step main flush a")["reply"], ["step sent 1 148 dropped 0"])
        self.assertEqual(watcher.update()["who"], "Ann")
        for line in ("fork main 1 other", "drop main"):
            shell.ask(line)
        self.assertEqual(self.order(watcher, ["other"]), ["other"])
        self.assertEqual(self.step(door, "step main tick a 1")["reply"], ["refused 1 NoBranch"])

    def test_a_step_of_another_session_right_before_ours_is_seen(self) -> None:
        port = self.begin(2, RULES)
        shell = self.session(port)
        door = self.joining(port)
        for number in range(1, 4):
            shell.ask("step main tick a 1")
            self.step(door, "step main tick a 2")
            moments = self.page(door)["branches"][0]["moments"]
            self.assertEqual([moment["who"] for moment in moments], ["another session", "Ann"] * number)
            self.assertEqual(moments[-1]["outcome"], f"clock {3 * number}")

    def test_who_undoes_after_another_session_stepped_is_refused(self) -> None:
        port = self.begin(2, RULES)
        shell = self.session(port)
        door = self.joining(port)
        self.step(door, PACKET)
        shell.ask("step main tick a 1")
        answer = self.asked(door, "POST", f"/{door.tokens.step}/do", '{"line": "back main 1", "version": 1}')
        self.assertEqual((answer.status, answer.body), (409, "somebody was faster: main has changed since this page last heard of it\n"))

    def test_the_branches_are_those_of_the_log_whatever_comes_between(self) -> None:
        port = self.begin(2, RULES)
        shell = self.session(port)
        session = joined_to(self.session(port), program(), None).session
        assert isinstance(session, Shared)
        self.addCleanup(session.close)
        own = FollowedBranches(session)
        lines = ["step main tick a 1", "step  main tick a 007", PACKET, "back main 2", "forward main 1", "fork main 02 x"]
        lines += ["step main tick b 1", "excise main 1", "restore main", "excise x 1", "drop main"]
        for line in lines:
            self.assert_known(own, line)
            shell.ask("fork x 0 y" if line == "drop main" else "back main 0")
            if len(line) % 2:
                own.look()
        own.look()
        self.assertEqual([*own.by_name], ["x", "y"])
        self.assertTrue(session.has_mirror)

    def test_a_page_whose_mirror_ended_goes_on(self) -> None:
        port = self.begin(2, RULES)
        shell = self.session(port)
        door = self.joining(port)
        watcher = self.watcher(door)
        self.step(door, PACKET)
        said: List[str] = []
        self.shared(door).say = said.append
        mirror = self.shared(door)._mirror
        assert mirror
        mirror.process.kill()
        mirror.process.wait(10)
        shell.ask("step main flush a")
        self.step(door, "step main deliver 1")
        self.assertEqual([watcher.update()["who"] for _ in range(3)], ["Ann", "another session", "Ann"])
        self.assertEqual(len(self.page(door)["branches"][0]["moments"]), 3)
        self.assertEqual(len(said), 1)


class FollowedProved(Followed):
    """Over the program's own server."""

    def begin(self, sessions: int, setup: List[str]) -> int:
        self.proved = self.ends.enter_context(proved_server(sessions, setup))
        return self.proved.port

    def test_a_page_that_looks_after_each_step_leaves_the_servers_memory_where_it_was(self) -> None:
        port = self.begin(2, RULES)
        shell = self.session(port)
        door = self.joining(port)
        watcher = self.watcher(door)

        def steps(number: int) -> int:
            for _ in range(number):
                for line in ("step main tick a 1", "back main 1"):
                    shell.ask(line)
                    watcher.update()
            with open(f"/proc/{self.proved.process.pid}/statm", encoding="ascii") as it:
                return int(it.read().split()[1]) * 4096

        before = steps(50)
        # (a log or a show would take 130 KB each)
        self.assertLess(steps(200) - before, 5_000_000)
        self.assertEqual(shell.ask("view")[0].split()[1], "500")


class Idle(Pages):
    """What the server is asked meanwhile."""

    def test_nothing_is_asked_while_nobody_steps(self) -> None:
        port = self.begin(2, RULES)
        shell = self.session(port)
        door = self.joining(port)
        watcher = self.watcher(door)
        shell.ask(PACKET)
        watcher.update()
        number = len(self.server.asked[2])
        time.sleep(1.0)
        self.assertEqual(len(self.server.asked[2]), number)
        self.step(door, "step main flush a")
        self.page(door)
        words = {it.split()[0] for it in self.server.asked[2]}
        self.assertEqual(words, {"setup", "follow", "view", "step"})
        self.assertEqual([it for _, it in self.server.entries], [PACKET, "step main flush a"])


class Setups(Pages):
    def test_another_setup_that_is_given_is_not_taken(self) -> None:
        out = io.StringIO()
        door = self.served(joined(program(), self.begin(1, RULES), Setup.of(["rule a block any"]), out))
        self.step(door, PACKET)
        self.assertEqual(self.page(door)["branches"][0]["moments"][0]["outcome"], "pass 1.1")
        self.assertEqual(out.getvalue().splitlines()[1:], ["the server's setup differs from the file of --setup, and is used"])

    def test_a_server_of_an_older_release_needs_one(self) -> None:
        with contextlib.ExitStack() as ends:
            port = ends.enter_context(standin_server(1, knows=False)).port
            with self.assertRaisesRegex(Unknown, "^this server does not report its setup, which a page needs: --setup FILE"):
                serve(program(), 0, joined(program(), port, None, io.StringIO()), io.StringIO())

    def test_a_server_whose_setup_is_too_long_needs_one(self) -> None:
        out = io.StringIO()
        with self.assertRaisesRegex(Unknown, "^this server does not report its setup, which a page needs: --setup FILE"):
            serve(program(), 0, joined(program(), self.begin(1, TOO_LONG_BY_ONE), None, out), io.StringIO())
        door = self.served(joined(program(), self.begin(1, TOO_LONG_BY_ONE), Setup.of(RULES[:-1]), out))
        self.step(door, PACKET)
        self.assertEqual(self.page(door)["branches"][0]["moments"][0]["outcome"], "pass 1.1")
        self.assertRegex(out.getvalue().splitlines()[1], "^the server's setup is too long for it to send; the server answers questions, and what needs")
        self.assertRegex(out.getvalue().splitlines()[3], "the setup is that of --setup$")


if __name__ == "__main__":
    unittest.main()
