"""Shells at a served page: late comers who step, look and follow by way of its bridge, and the names of all who step."""
from __future__ import annotations

import contextlib
import io
import json
import os
import socket
import subprocess
import sys
import threading
import time
import unittest
from typing import Iterator, List, Optional, Tuple
from unittest import mock

from ..console.colours import PLAIN
from ..dialogue.shell import Shell
from ..link.laboratory import Laboratory, Unknown
from ..link.mirror import Shared
from ..link.programs import Ended
from ..link.seats import Journal, introduced, seated
from ..link.visits import Address, Page, cleaned, printable
from ..model.setups import Setup
from ..pages.door import Door
from ..pages.journal import MOST_CLAIMS, MOST_TOLD, Names
from ..pages.live import joined, live
from ..pages.server import free_port
from . import TOP, program
from .bridges import PACKET, PROMPT, Bridged
from .servers import RULES, proved_server, standin_server

IMPORTED = ["# pf.conf:11 @8 pass in proto tcp to port 443", *RULES]
QUERY = PACKET[len("step main ") :]


class AtPage(Bridged):
    """Tests with shells at a page."""

    def address(self, door: Door, may: str = "step") -> Address:
        return Address(door.port, getattr(door.tokens, may))

    def seat(self, door: Door, name: str = "", may: str = "step") -> Shell:
        """A shell at a page."""
        lab = seated(program(), Page(self.address(door, may)), name, self.heard.append)
        self.ends.callback(lab.close)
        return Shell(lab, io.StringIO(), PLAIN, is_typed=True)

    def direct(self, port: int, door: Optional[Door] = None, name: str = "") -> Shell:
        """A shell at the server of a page, which exchanges names there if it is given the page."""
        lab = Laboratory(program(), port)
        self.ends.callback(lab.close)
        self.assertEqual(lab.join(), "")
        self.heard.append(introduced(lab, Page(self.address(door)) if door else None, name, "./lab"))
        return Shell(lab, io.StringIO(), PLAIN, is_typed=True)

    def setUp(self) -> None:
        super().setUp()
        self.addCleanup(self.ends.close)
        # What the shells said when they came.
        self.heard: List[str] = []

    def said(self, shell: Shell, *lines: str) -> List[str]:
        """What a shell says to typed lines, and before the next prompt."""
        shell.out = io.StringIO()
        for line in lines:
            shell.postcmd(shell.onecmd(line), line)
        return shell.out.getvalue().splitlines()

    def shared(self, shell: Shell) -> Shared:
        assert shell.lab.shared
        return shell.lab.shared


class Seated(AtPage):
    """Shells at a page that has a pair of its own."""

    def test_who_comes_late_has_all(self) -> None:
        door = self.live(PACKET)
        self.step(door, "step main flush a", "Cid")
        ann = self.seat(door, "Ann")
        self.assertEqual(self.heard, ["connected to the page: 2 commands so far"])
        self.assertEqual(ann.prompt, "main 2/2> ")
        self.assertEqual(self.said(ann, "lose 1"), ["step lost dropped 0"])
        self.assertIn("rule 0 of a (pass any)", "\n".join(self.said(ann, "why 1")))
        self.assertIn("only on a: 1.1", "\n".join(self.said(ann, "diff")))
        self.assertIn("lost", "\n".join(self.said(ann, "log")))
        self.assertRegex(self.said(ann, "search apart, anywhere")[1], "^found: no event is needed")
        self.assertEqual(self.said(ann, "quit"), [])
        moments = self.page(door)["branches"][0]["moments"]
        self.assertEqual([moment.get("who", "") for moment in moments], ["", "Cid", "Ann"])

    def test_who_left_comes_back(self) -> None:
        door = self.live()
        ann = self.seat(door, "Ann")
        self.said(ann, QUERY)
        ann.lab.close()
        self.step(door, "step main flush a", "Bob")
        again = self.seat(door, "Ann")
        self.assertEqual(again.prompt, "main 2/2> ")
        self.assertEqual(self.said(again, "deliver 1"), ["step taken 1 dropped 0"])

    def test_each_sees_the_others_by_name(self) -> None:
        door = self.live()
        watcher = self.watcher(door)
        ann, bob, nameless = self.seat(door, "Ann"), self.seat(door, "Bob"), self.seat(door)
        self.assertEqual(self.said(ann, QUERY), ["step pass 1.1 dropped 0"])
        self.assertEqual(watcher.update()["who"], "Ann")
        first = f"[Ann] {PACKET} -> pass 1.1"
        self.assertEqual(self.said(bob, "flush  a"), ["step sent 1 148 dropped 0", first])
        self.said(nameless, "back  main 09")
        self.step(door, "step main lose 01", "Cid")
        refused, lost = "[somebody] back main 9 -> refused 4 TooFarBack", "[Cid] step main lose 1 -> lost"
        self.assertEqual(self.said(bob, "names"), ["names main", refused, lost])
        self.assertEqual(self.said(ann, "names"), ["names main", "[Bob] step main flush a -> sent 1 148", refused, lost])
        self.assertEqual(ann.prompt, "main 3/3> ")

    def test_a_script_of_all(self) -> None:
        door = self.live(PACKET)
        ann = self.seat(door, "Ann")
        self.said(ann, "flush a", "frob", "view", "step main flush")
        self.step(door, "back main 1")
        wanted = [*RULES, PACKET, "#> step pass 1.1 dropped 0", "step main flush a", "#> step sent 1 148 dropped 0", "back main 1", "#> at 1"]
        self.assertEqual(ann.script().splitlines(), wanted)

    def test_the_comments_of_the_setup_say_where_rules_are_from(self) -> None:
        with mock.patch("shell.tests.bridges.OPENING", IMPORTED):
            door = self.live(PACKET)
        self.assertIn("rule 0 of a (pass any; pf.conf:11 @8)", "\n".join(self.said(self.seat(door), "why 1")))

    def test_who_watches_sees_all_and_steps_nothing(self) -> None:
        door = self.live(PACKET)
        guest = self.seat(door, "Ann", "watch")
        refusal = "the page answers: this address is for watching, not for stepping"
        self.assertEqual(self.heard, ["connected to the page: 1 command so far; this address is for watching, not for stepping, and nobody sees your name"])
        self.assertEqual(self.said(guest, "flush a"), [refusal])
        self.step(door, "step main flush a", "Bob")
        self.assertEqual(self.said(guest, "names"), ["names main", "[Bob] step main flush a -> sent 1 148"])
        self.assertIn("log main", self.said(guest, "log")[0].replace("main:", "log main"))
        self.assertEqual(len(self.page(door)["branches"][0]["moments"]), 2)

    def test_faulty_lines_and_questions_to_a_server(self) -> None:
        guest = self.seat(self.live())
        self.assertEqual(self.said(guest, "step main flush")[0], "bad 4 Missing")
        self.assertEqual(self.said(guest, "frob")[0], "bad 3 Unknown")
        self.assertEqual(self.said(guest, "summary"), ["`summary` asks a server; here `view` shows the pair"])
        self.assertRegex(self.said(guest, "follow 0")[0], "^this shell follows the server's journal already")

    def test_many_who_step_have_one_pair(self) -> None:
        door = self.live()
        shells = [self.seat(door, f"Ann{number}") for number in range(3)]

        def steps(shell: Shell, number: int) -> None:
            for at in range(8):
                shell.lab.ask(f"step main tick a {number}")
                shell.lab.ask("back main 1" if at % 7 == number else f"step main packet b out udp 10.0.0.{number}:{at} 192.0.2.9:53 40")

        threads = [threading.Thread(target=steps, args=(it, number)) for number, it in enumerate(shells)]
        for one in threads:
            one.start()
        for one in threads:
            one.join()
        shown = [it.lab.ask("show main") for it in shells]
        self.assertEqual(shown, [shown[0]] * 3)
        self.assertEqual([self.shared(it).entries for it in shells], [48] * 3)
        names = {it["who"] for it in self.page(door)["branches"][0]["moments"]}
        self.assertLessEqual(names, {"Ann0", "Ann1", "Ann2"})

    def test_a_long_journal_comes_in_parts(self) -> None:
        door = self.live(*[f"step main tick a {it}" for it in range(MOST_TOLD + 10)])
        self.assertEqual(self.seat(door).prompt, f"main {MOST_TOLD + 10}/{MOST_TOLD + 10}> ")

    def test_people_are_counted(self) -> None:
        door = self.live()
        watcher = self.watcher(door)
        self.assertEqual(watcher.next(), {"people": 1})
        guest = self.seat(door)
        self.assertEqual(watcher.next(), {"people": 2})
        guest.lab.close()
        self.assertEqual(watcher.next(), {"people": 1})

    def test_the_end_of_the_page_comes_to_all(self) -> None:
        door = self.live()
        guest = self.seat(door)
        door.bridge.end("the page is no longer served: its bridge was stopped")
        with self.assertRaisesRegex(Ended, "^the page is no longer served: its bridge was stopped$"):
            self.shared(guest).hear(PROMPT)
            self.shared(guest).hear(PROMPT)


class Named(AtPage):
    """Shells at the server of a page."""

    @contextlib.contextmanager
    def server(self, sessions: int) -> Iterator[int]:
        with standin_server(sessions) as its:
            yield its.port

    def join(self, sessions: int) -> int:
        return self.ends.enter_context(self.server(sessions))

    def joining(self, port: int) -> Door:
        return self.served(joined(program(), port, None, io.StringIO()))

    def introduced_two(self) -> Tuple[Door, Shell, Shell]:
        """A page of a server, and the shells of Ann and Bob there, whose names it knows."""
        port = self.join(3)
        clients = [Laboratory(program(), port) for _ in range(2)]
        door = self.joining(port)
        shells = []
        for name, lab in zip(("Ann", "Bob"), clients):
            self.ends.callback(lab.close)
            lab.join()
            self.assertEqual(introduced(lab, Page(self.address(door)), name, "./lab"), "")
            shells.append(Shell(lab, io.StringIO(), PLAIN, is_typed=True))
        return door, shells[0], shells[1]

    def test_names_come_to_shells_and_to_the_page(self) -> None:
        door, ann, bob = self.introduced_two()
        watcher = self.watcher(door)
        self.said(ann, QUERY)
        self.assertEqual(watcher.update()["who"], "Ann")
        self.assertEqual(self.said(bob, "flush a")[1:], [f"[Ann] {PACKET} -> pass 1.1"])
        self.step(door, "step main lose 1", "Cid")
        self.assertEqual(self.said(ann, "names")[1:], ["[Bob] step main flush a -> sent 1 148", "[Cid] step main lose 1 -> lost"])
        dora = self.seat(door, "Dora")
        self.said(dora, "tick a 5")
        self.assertEqual(self.said(bob, "names")[1:], ["[Cid] step main lose 1 -> lost", "[Dora] step main tick a 5 -> clock 5"])
        self.said(bob, "back main 1")
        self.assertEqual(self.said(dora, "names")[1:], ["[Bob] back main 1 -> at 3"])
        moments = self.page(door)["branches"][0]["moments"]
        self.assertEqual([moment["who"] for moment in moments], ["Ann", "Bob", "Cid"])

    def test_each_event_has_its_name_though_they_come_at_once(self) -> None:
        port = self.join(3)
        ann, bob = (self.session(port) for _ in range(2))
        door = self.joining(port)
        busy = threading.Event()
        door.bridge._worker.submit(busy.wait)
        door.bridge._names._of.update({1: "Ann", 2: "Bob"})
        watcher = self.watcher(door)
        for number, it in enumerate((ann, bob, bob, ann)):
            it.ask(f"step main tick a {number}")
        bob.ask("back main 1")
        bob.ask("step main tick b 7")
        ann.ask("fork main 3 other")
        time.sleep(0.2)
        busy.set()
        self.assertEqual(self.order(watcher, ["main", "other"]), ["main", "other"])
        main, other = self.page(door)["branches"][:2]
        self.assertEqual([it["who"] for it in main["moments"]], ["Ann", "Bob", "Bob", "Bob"])
        self.assertEqual([it["who"] for it in other["moments"]], ["Ann", "Bob", "Bob"])

    def test_a_session_without_a_name_is_a_number_to_shells(self) -> None:
        port = self.join(2)
        other = self.session(port)
        door = self.joining(port)
        ann = self.seat(door, "Ann")
        other.ask(PACKET)
        self.assertEqual(self.said(ann, "names")[1:], [f"[session 1] {PACKET} -> pass 1.1"])
        self.assertEqual(self.page(door)["branches"][0]["moments"][0]["who"], "another session")

    def test_many_are_one_line_with_their_names(self) -> None:
        port = self.join(2)
        other = self.session(port)
        door = self.joining(port)
        ann, bob = self.seat(door, "Ann"), self.seat(door, "Bob")
        for number in range(8):
            self.said(bob, f"tick a {number}")
            other.ask(f"step main tick b {number}")
        [line] = self.said(ann, "")
        self.assertRegex(line, r"^16 commands of Bob, session 1; the newest: \[session 1\] step main tick b 7 -> clock 28$")

    def test_a_page_of_another_server_gives_no_names(self) -> None:
        door = self.live()
        self.direct(self.join(1), door, "Ann")
        self.assertEqual(self.heard, ["names are not exchanged: the page does not follow this server"])

    def test_without_a_page_a_name_stays(self) -> None:
        port = self.join(2)
        labs = [Laboratory(program(), port) for _ in range(2)]
        for lab in labs:
            self.ends.callback(lab.close)
            lab.join()
        wanted = "the name Ann stays here: the server takes no names; a page of it does (`./lab page --serve`), by --page URL"
        self.assertEqual([introduced(labs[0], None, it, "./lab") for it in ("Ann", "")], [wanted, ""])

    def test_names_are_kept_by_those_who_heard_them_when_the_page_has_ended(self) -> None:
        door, ann, bob = self.introduced_two()
        self.said(ann, QUERY)
        self.said(bob, "names")
        door.bridge.end("it is over")
        self.said(ann, "flush a")
        begun = time.monotonic()
        self.assertEqual(self.said(bob, "names")[1:], ["[Ann] step main flush a -> sent 1 148"])
        self.assertLess(time.monotonic() - begun, PROMPT)


class NamedProved(Named):
    """The same over the program's own server."""

    @contextlib.contextmanager
    def server(self, sessions: int) -> Iterator[int]:
        with proved_server(sessions) as its:
            yield its.port


class Claims(AtPage):
    """Who can claim a name."""

    SIGN = "s123456789abcdef"

    def claim(self, door: Door, body: str, may: str = "step") -> List[object]:
        answer = self.asked(door, "POST", f"/{getattr(door.tokens, may)}/name", body)
        return [answer.status, answer.data.get("session") if answer.status == 200 else answer.body.strip()]

    def test_a_session_is_named_by_what_it_says_itself(self) -> None:
        with standin_server(2) as its:
            session = self.session(its.port)
            door = self.served(joined(program(), its.port, None, io.StringIO()))
            body = json.dumps({"name": "Ann\u001b[31m\u202e" + "x" * 50, "sign": self.SIGN})
            self.assertEqual(self.claim(door, body), [200, None])
            session.ask("log s999999999999999")
            self.assertEqual(self.claim(door, body), [200, None])
            session.ask(f"log {self.SIGN}")
            self.assertEqual(self.claim(door, body), [200, 1])
            # (a sign that was said names nobody anew)
            self.assertEqual(self.claim(door, json.dumps({"name": "Eve", "sign": self.SIGN})), [200, 1])
            session.ask(f"log {self.SIGN}")
            session.ask(PACKET)
            self.step(door, "step main flush a")
            self.assertEqual(self.page(door)["branches"][0]["moments"][0]["who"], "Ann[31m" + "x" * 33)
            self.ends.close()

    def test_who_watches_claims_nothing(self) -> None:
        door = self.live()
        body = json.dumps({"name": "Eve", "sign": self.SIGN})
        self.assertEqual(self.claim(door, body, "watch"), [403, "this address is for watching, not for stepping"])

    def test_faulty_claims(self) -> None:
        door = self.live()
        for body in ("", "[]", "{}", '{"name": 1, "sign": "s123456789abcdef"}', '{"name": "a", "sign": "main"}', '{"name": "a", "sign": "s1234\\n6789abcdef"}'):
            self.assertEqual(self.claim(door, body)[0], 400, body)

    def test_only_the_newest_claims_wait(self) -> None:
        names = Names()
        for number in range(MOST_CLAIMS + 1):
            names.claim(f"s{number}", f"name {number}")
        names.hear(1, "log s0")
        self.assertEqual(names.of(1), "")
        names.hear(1, f"log s{MOST_CLAIMS}")
        self.assertEqual(names.of(1), f"name {MOST_CLAIMS}")


class Doors(AtPage):
    """Pages that are not there, not begun, or of another kind."""

    def test_addresses(self) -> None:
        wanted = Address(8080, "x-Y_0")
        for text in ("http://127.0.0.1:8080/x-Y_0/", " http://localhost:8080/x-Y_0\n", "http://127.0.0.1:8080/x-Y_0/#main/11"):
            self.assertEqual(Address.read(text), wanted)
        for text in ("", "8080", "https://127.0.0.1:8080/x/", "http://192.0.2.1:8080/x/", "http://127.0.0.1:99999/x/", "http://127.0.0.1:80/x/y", "http://127.0.0.1:80/"):
            self.assertIsNone(Address.read(text), text)

    def test_a_wrong_address(self) -> None:
        door = self.live()
        with self.assertRaisesRegex(Unknown, "^the page does not know this address: it may be one of a page that has ended$"):
            seated(program(), Page(Address(door.port, "x")), "", print)

    def test_nobody_serves(self) -> None:
        port = free_port()
        with self.assertRaisesRegex(Ended, f"^nobody serves a page at 127.0.0.1:{port}: its bridge has ended, or was never begun$"):
            seated(program(), Page(Address(port, "x")), "", print)

    def test_requests(self) -> None:
        door = self.live(PACKET)
        token = door.tokens.watch
        self.assertEqual(self.asked(door, "GET", f"/{token}/level").data, {"entries": 1})
        statuses = {
            ("GET", "journal"): 400,
            ("GET", "journal?after=x"): 400,
            ("POST", "journal?after=0"): 405,
            ("POST", "level"): 405,
            ("GET", "name"): 405,
            ("GET", "journal/x"): 404,
        }
        for (method, path), status in statuses.items():
            body = "{}" if method == "POST" else None
            self.assertEqual(self.asked(door, method, f"/{token}/{path}", body).status, status, path)
        self.assertEqual(self.asked(door, "GET", "/x/journal?after=0").status, 404)

    def test_a_journal_begins_where_it_is_asked_to(self) -> None:
        door = self.live(PACKET, "step main flush a")
        for after, first in ((0, [1, 0, "", PACKET]), (1, [2, 0, "", "step main flush a"])):
            its = Page(self.address(door)).follow(f"journal?after={after}")
            self.addCleanup(its.close)
            came = its.messages(PROMPT)
            came += [] if came[1:] else its.messages(PROMPT)
            self.assertEqual(came[0], {"may": "step", "setup": RULES[:-1]})
            self.assertEqual(came[1]["told"][0], first)
        its = Page(self.address(door)).follow("journal?after=99")
        self.addCleanup(its.close)
        self.assertEqual(len(its.messages(PROMPT)), 1)
        self.step(door, "step main lose 1")
        self.assertEqual(its.messages(PROMPT), [{"told": [[3, 0, "Ann", "step main lose 1"]]}])

    def test_a_server_without_a_journal(self) -> None:
        with standin_server(1, knows=False) as its:
            door = self.served(joined(program(), its.port, Setup.of(RULES[:-1]), io.StringIO()))
            with self.assertRaisesRegex(Unknown, "^the page answers: the server of this page does not report its journal, which a shell needs$"):
                self.seat(door)
            self.ends.close()

    def test_a_page_that_has_not_begun(self) -> None:
        doors: List[Door] = []
        with standin_server(2) as its, mock.patch("shell.pages.serving.READ_SECONDS", 0.2):
            pair = joined(program(), its.port, None, io.StringIO())
            with mock.patch("shell.pages.live.Bridge") as bridge:
                thread = threading.Thread(target=self._serve, args=(pair, doors))
                thread.start()
                end = time.monotonic() + PROMPT
                while not doors and time.monotonic() < end:
                    time.sleep(0.01)
                with self.assertRaisesRegex(Unknown, "^the page answers: the page has not begun: it begins once"):
                    seated(program(), Page(self.address(doors[0])), "", print)
                answer = self.asked(doors[0], "GET", f"/{doors[0].tokens.watch}/")
                self.assertEqual((answer.status, answer.headers["Refresh"]), (503, "2"))
                self.session(its.port)
                thread.join()
            self.assertTrue(bridge.return_value.begin.called)

    def _serve(self, pair: "contextlib.AbstractContextManager[object]", doors: List[Door]) -> None:
        with live(program(), 0, pair, doors.append):  # type: ignore[arg-type]
            pass

    def test_what_is_no_page(self) -> None:
        hello = 'HTTP/1.1 200 OK\r\n\r\ndata: {"setup": ["rule a pass any"], "may": "step"}\n\n'
        for text in ("", "HTTP/1.1 200 OK\r\n\r\n", "220 ready\r\n\r\n", "HTTP/1.1 200 OK\r\n\r\ndata: []\n\n", hello.replace("rule", "ru\\nle")):
            with self.subTest(text), self.assertRaises((Ended, Unknown)):
                seated(program(), Page(Address(self.once(text), "x")), "", print)
        for told in ("[[1, 1, 2, \"names\"]]", "[[1, 1, \"a\", \"step main tick a 1\\nnames\"]]", "[[1, 1, \"a\", \"\"]]", "7", "[7]"):
            with self.subTest(told), self.assertRaises(Ended):
                guest = self.guest(hello + f'data: {{"told": {told}}}\n\n')
                guest.come(PROMPT)
                guest.come(PROMPT)

    def guest(self, text: str) -> Journal:
        journal = Journal(Page(Address(self.once(text), "x")))
        self.addCleanup(journal.messages.close)
        return journal

    def once(self, text: str) -> int:
        """The port at which whoever comes first is answered with a text."""
        listener = socket.create_server(("127.0.0.1", 0))
        self.addCleanup(listener.close)

        def answer() -> None:
            with contextlib.suppress(OSError):
                connection, _ = listener.accept()
                with connection:
                    connection.recv(1 << 16)
                    connection.sendall(text.encode())

        threading.Thread(target=answer, daemon=True).start()
        return int(listener.getsockname()[1])

    def test_what_is_shown_of_a_name(self) -> None:
        self.assertEqual(cleaned(" A\u001b[1mnn\u202e\n" + "x" * 50), "A[1mnn" + "x" * 33)
        self.assertEqual(printable("a\u001b[1m\nb"), "a [1m b")


class Commands(unittest.TestCase):
    """The words of the command line."""

    def ran(self, *words: str, given: str = "") -> "subprocess.CompletedProcess[str]":
        command = [sys.executable, f"{TOP}/lab", "shell", *words]
        return subprocess.run(command, input=given, capture_output=True, text=True, timeout=60, env={**os.environ, "PFL_LAB": program()})

    def test_a_port_where_nobody_listens(self) -> None:
        port = free_port()
        there = "a page of the seminar (`./lab page --serve`) takes late comers: `./lab shell --page URL`"
        ran = self.ran("--port", str(port))
        self.assertEqual((ran.returncode, ran.stderr), (1, f"lab: nobody listens at {port}, or all seats of its server are taken: {there}\n"))
        with proved_server(1) as its, socket.create_connection(("127.0.0.1", its.port)) as first:
            first.sendall(b"view\n")
            first.recv(100)
            self.assertIn("all seats of its server are taken", self.ran("--port", str(its.port)).stderr)

    def test_words_that_do_not_go_together(self) -> None:
        self.assertIn("--name is for the others at a pair, and needs --port or --page", self.ran("--name", "Ann").stderr)
        self.assertIn("a name has a character that prints", self.ran("--name", "\t", "--port", "1").stderr)
        ran = self.ran("--page", "http://example.org/SECRET/")
        self.assertIn("URL is an address that a page of this machine printed", ran.stderr)
        self.assertNotIn("SECRET", ran.stderr)

    def test_an_address_that_is_asked_for(self) -> None:
        port = free_port()
        self.assertIn(f"nobody serves a page at 127.0.0.1:{port}", self.ran("--page", "-", given=f"http://127.0.0.1:{port}/x/\n").stderr)
        self.assertIn("URL is an address", self.ran("--page", "-").stderr)


if __name__ == "__main__":
    unittest.main()
