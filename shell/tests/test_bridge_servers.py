"""The server behind a live page: one of its own, or one that others use too; and the end of either."""
from __future__ import annotations

import contextlib
import io
import json
import shutil
import signal
import socket
import subprocess
import sys
import tempfile
import time
import unittest
import urllib.request
from typing import ContextManager, Iterator
from unittest import mock

from ..link.laboratory import Unknown
from ..link.programs import Run as ProgramRun
from ..model.setups import Setup
from ..pages.door import Door
from ..pages.live import OPENING, begun, joined, live, serve, watch
from ..pages.runs import Run
from ..pages.session import PolledBranches
from . import TOP, program
from .bridges import PACKET, PROMPT, Bridged, Data
from .children import SECONDS, bounded, take_signals
from .servers import proved_server, standin_server

RULES = ["rule a pass any", "rule b pass any"]


class Joined(Bridged):
    def server(self, sessions: int) -> ContextManager[int]:
        """A server that others use too, by its port."""
        return served_by_program(sessions)

    def joining(self, port: int, *rules: str) -> Door:
        return self.served(joined(program(), port, Setup.of(rules or RULES), io.StringIO()))

    def test_what_another_session_steps_is_seen(self) -> None:
        with self.server(2) as port:
            shell = self.session(port)
            door = self.joining(port)
            watcher, begun = self.watcher(door), time.monotonic()
            shell.ask(PACKET)
            update = watcher.update()
            self.assertLess(time.monotonic() - begun, PROMPT)
            self.assertEqual((update["version"], update["who"], update["line"], update["reply"]), (1, "another session", "", []))
            self.assertEqual(update["branches"][0]["moments"][0]["outcome"], "pass 1.1")
            self.assertEqual(self.step(door, "step main flush a")["reply"], ["step sent 1 148 dropped 0"])
            self.assertEqual(shell.ask("names"), ["names main"])
            self.assertEqual(watcher.update()["who"], "Ann")
            shell.ask("fork main 1 other")
            shell.ask("drop main")
            self.assertEqual(self.order(watcher, ["other"]), ["other"])
            self.assertEqual(self.step(door, "step main tick a 1")["reply"], ["refused 1 NoBranch"])
            self.ends.close()

    def test_a_step_of_another_session_right_before_ours_is_seen(self) -> None:
        with self.server(2) as port:
            shell = self.session(port)
            door = self.joining(port)
            shell.ask("step main tick a 1")
            self.step(door, "step main tick a 2")
            moments = self.page(door)["branches"][0]["moments"]
            self.assertEqual([(it["outcome"], it["who"]) for it in moments], [("clock 1", "another session"), ("clock 3", "Ann")])
            self.ends.close()

    def test_the_branches_are_those_of_the_log_whatever_comes_between(self) -> None:
        with self.server(2) as port:
            shell, own = self.session(port), PolledBranches(self.session(port))
            lines = ["step main tick a 1", "step  main tick a 007", PACKET, "back main 2", "forward main 1", "fork main 02 x"]
            lines += ["step main tick b 1", "step x packet a in tcp 10.0.0.1:1000 192.0.2.9:80 S 100 0 1000 0 07"]
            lines += ["excise main 1", "restore main", "excise x 1", "drop main"]
            for line in lines:
                self.assert_known(own, line)
                shell.ask("fork x 0 y" if line == "drop main" else "back main 0")
                own.look()
            own.read()
            self.assertEqual([*own.by_name], ["x", "y"])

    def test_two_pages_of_a_server_do_not_keep_each_other_busy(self) -> None:
        with self.server(3) as port, mock.patch("shell.pages.bridge.PERIOD", 0.01):
            shell = self.session(port)
            session = self.session(port)
            own = PolledBranches(session)
            door = self.joining(port)
            own.look()
            shell.ask(PACKET)
            end = time.monotonic() + 1.5
            while time.monotonic() < end:
                own.look()
                time.sleep(0.01)
            commands = int(session.ask("view")[0].split()[1])
            self.assertLess(commands, 30)
            self.assertEqual(len(self.page(door)["branches"][0]["moments"]), 1)
            self.ends.close()

    def test_a_setup_that_is_not_the_servers_is_found(self) -> None:
        with self.server(3) as port:
            shell, own, again = (self.session(port) for _ in range(3))
            shell.ask(PACKET)
            run = Run("", [], Setup.of(["rule a block any"]), [])
            with self.assertRaisesRegex(Unknown, "main is not the same here as at the server: the server has another setup"):
                serve(program(), 0, contextlib.nullcontext((own, run)), io.StringIO())
            shell.ask("step main flush a")
            refused = "`flush a` was answered `refused 8 Event 2 NothingPending` when main was played again"
            with self.assertRaisesRegex(Unknown, refused):
                serve(program(), 0, contextlib.nullcontext((again, run)), io.StringIO())


class JoinedOlder(Joined):
    """The same at a server of an earlier release, which is polled."""

    def server(self, sessions: int) -> ContextManager[int]:
        return served_by_standin(sessions)


@contextlib.contextmanager
def served_by_program(sessions: int) -> Iterator[int]:
    with proved_server(sessions) as its:
        yield its.port


@contextlib.contextmanager
def served_by_standin(sessions: int) -> Iterator[int]:
    with standin_server(sessions, knows=False) as its:
        yield its.port


class Ends(Bridged):
    def test_the_end_of_the_server_comes_to_all(self) -> None:
        with served_by_program(1) as port:
            door = self.served(joined(program(), port, Setup.of(RULES), io.StringIO()))
            self.step(door, PACKET)
            watchers = [self.watcher(door, 1) for _ in range(5)]
        ended = {"ended": "the server has ended, or has ended this session"}
        self.assertEqual([watcher.update() for watcher in watchers], [ended] * 5)
        self.assertEqual([watcher.next() for watcher in watchers], [{}] * 5)
        answer = self.asked(door, "POST", f"/{door.tokens.step}/do", '{"line": "back main 0"}')
        self.assertEqual((answer.status, answer.body), (503, "the server has ended, or has ended this session\n"))
        self.assertEqual(len(self.page(door)["branches"][0]["moments"]), 1)

    def test_a_record_whose_program_is_gone_is_made_anew(self) -> None:
        door = self.live(PACKET)
        watcher = self.watcher(door)
        session = door.bridge._records["main"].laboratory.session
        assert isinstance(session, ProgramRun)
        session.process.kill()
        self.step(door, "step main flush a")
        update: Data = watcher.update()["branches"][0]
        self.assertEqual((update["keep"], [one["outcome"] for one in update["moments"]]), (0, ["pass 1.1", "sent 1 148"]))

    def test_a_program_that_went_away_ends_the_page(self) -> None:
        with tempfile.TemporaryDirectory() as folder:
            copied = shutil.copy(program(), folder)
            door = self.ends.enter_context(live(copied, 0, begun(copied, [*OPENING, PACKET], "A pair")))
            self.addCleanup(self.ends.close)
        watcher = self.watcher(door)
        answer = self.asked(door, "POST", f"/{door.tokens.step}/do", '{"line": "fork main 1 other"}')
        missing = f"[Errno 2] No such file or directory: '{copied}'"
        self.assertEqual((answer.status, answer.body), (503, f"the page cannot continue: {missing}\n"))
        with self.assertRaises(FileNotFoundError):
            watch(door.bridge)
        self.assertEqual(watcher.update(), {"ended": missing})


PROGRAM = """
import sys
sys.path.insert(0, {top!r})
from shell.pages.live import OPENING, begun, serve

try:
    serve({program!r}, {port}, begun({program!r}, OPENING, "A pair"), sys.stdout)
except KeyboardInterrupt:
    sys.exit(130)
"""


class Processes(unittest.TestCase):
    def serving(self, port: int = 0, before: str = "") -> "subprocess.Popen[str]":
        words = [sys.executable, "-c", before + PROGRAM.format(top=TOP, program=program(), port=port)]
        process = subprocess.Popen(words, stdout=subprocess.PIPE, stderr=subprocess.PIPE, text=True, preexec_fn=take_signals)
        self.addCleanup(process.communicate, timeout=SECONDS)
        self.addCleanup(process.kill)
        return process

    def test_an_interrupt_ends_the_page_and_its_server(self) -> None:
        for end in (signal.SIGINT, signal.SIGTERM, signal.SIGHUP):
            its = self.serving()
            assert its.stdout
            with bounded(its):
                lines = [its.stdout.readline() for _ in range(2)]
            self.assertRegex(lines[0], r"^http://127\.0\.0\.1:[0-9]+/[\w-]{22}/ for those who step$")
            self.assertRegex(lines[1], r"^http://127\.0\.0\.1:[0-9]+/[\w-]{22}/ for those who only watch$")
            with urllib.request.urlopen(f"{lines[1].split()[0]}events?after=0", timeout=10) as events:
                its.send_signal(end)
                self.assertIn(b'data: {"ended":"the page is no longer served: its bridge was stopped"}', events.read())
            self.assertEqual((its.wait(5), its.communicate(timeout=5)[1]), (130, ""), end)

    def test_a_crowd_takes_no_files_from_the_branches(self) -> None:
        its = self.serving(before="import resource as r\nr.setrlimit(r.RLIMIT_NOFILE, (64, r.getrlimit(r.RLIMIT_NOFILE)[1]))")
        assert its.stdout
        with bounded(its):
            address = its.stdout.readline().split()[0]
        port = int(address.split(":")[2].split("/")[0])
        with contextlib.ExitStack() as ends:
            for _ in range(100):
                ends.enter_context(socket.create_connection(("127.0.0.1", port), 5))
            body, kind = b'{"line": "fork main 0 other"}', {"Content-Type": "application/json"}
            with urllib.request.urlopen(urllib.request.Request(f"{address}do", body, kind), timeout=5) as answer:
                self.assertEqual(json.load(answer)["reply"], ["forked"])

    def test_a_port_in_use_is_named(self) -> None:
        with socket.socket() as listening:
            listening.bind(("127.0.0.1", 0))
            listening.listen()
            port = listening.getsockname()[1]
            its = self.serving(port)
            _, said = its.communicate(timeout=5)
        self.assertIn(f"Address already in use: '127.0.0.1:{port}'", said.splitlines()[-1])

    def test_a_program_that_is_missing_is_named(self) -> None:
        with self.assertRaises(FileNotFoundError) as found:
            serve("/nowhere/pfl_lab", 0, begun("/nowhere/pfl_lab", OPENING, ""), io.StringIO())
        self.assertEqual(found.exception.filename, "/nowhere/pfl_lab")
