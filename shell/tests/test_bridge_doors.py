"""Who may come to a live page, and with what."""
from __future__ import annotations

import json
import socket
import time
from unittest import mock

from ..pages import packing
from .bridges import PACKET, PROMPT, Answer, Bridged

LINE = json.dumps({"name": "Ann", "line": PACKET})


class Doors(Bridged):
    def setUp(self) -> None:
        super().setUp()
        self.door = self.live()

    def do(self, body: object = LINE, **headers: str) -> Answer:
        """The answer to a body that is sent to be stepped."""
        text = body if isinstance(body, str) else json.dumps(body)
        return self.asked(self.door, "POST", f"/{self.door.tokens.step}/do", text, **headers)

    def raw(self, request: str) -> bytes:
        """All that comes to bytes that are sent as they are, and after which nothing comes."""
        with socket.create_connection(("127.0.0.1", self.door.port), 5) as connection:
            connection.sendall(request.replace("\n", "\r\n").replace("HOST", self.door.hosts[0]).encode())
            connection.shutdown(socket.SHUT_WR)
            return b"".join(iter(lambda: connection.recv(65536), b""))

    def is_untouched(self) -> None:
        self.assertEqual(self.door.bridge.news.version, 0)

    # ---- tokens

    def test_who_may_watch_may_not_step(self) -> None:
        answer = self.asked(self.door, "POST", f"/{self.door.tokens.watch}/do", LINE)
        self.assertEqual((answer.status, answer.body), (403, "this address is for watching, not for stepping\n"))
        self.is_untouched()

    def test_the_page_says_what_its_reader_may_do(self) -> None:
        for may, token in zip(("step", "watch"), self.door.tokens):
            self.assertEqual(self.asked(self.door, "GET", f"/{token}/").data["live"]["may"], may)

    def test_another_token_or_path_leads_nowhere(self) -> None:
        token = self.door.tokens.step
        for target in ("/", "/favicon.ico", "/x/", f"/{token[:-1]}/", f"/{token}", f"/{token}/page.js", f"/{token}/../", "*"):
            self.assertEqual(self.asked(self.door, "GET", target).status, 404, target)
        self.assertEqual(self.asked(self.door, "GET", "/%ff%00/").status, 404)
        self.assertEqual(self.asked(self.door, "POST", "/x/do", LINE).status, 404)
        self.assertIn(b" 404 ", self.raw("GET /\xfc/ HTTP/1.1\nHost: HOST\n\n").partition(b"\n")[0])

    def test_other_methods_are_not_there(self) -> None:
        token = self.door.tokens.step
        wrong = (("PUT", "do"), ("HEAD", ""), ("OPTIONS", "do"), ("GET", "do"), ("POST", ""), ("POST", "events?after=0"))
        for method, target in wrong:
            answer = self.asked(self.door, method, f"/{token}/{target}", b"")
            self.assertEqual((answer.status, answer.headers["Allow"]), (405, "GET, POST"), f"{method} {target}")
        self.is_untouched()

    # ---- senders

    def test_another_name_of_this_place_is_refused(self) -> None:
        port = self.door.port
        for host in ("evil.example", f"evil.example:{port}", "127.0.0.1", "localhost", "", f"127.0.0.1:{port + 1}"):
            self.assertEqual(self.do(Host=host).status, 403, host)
            self.assertEqual(self.asked(self.door, "GET", f"/{self.door.tokens.step}/", Host=host).status, 403, host)
        two = "GET /%s/ HTTP/1.1\nHost: HOST\nHost: evil.example\n\n" % self.door.tokens.step
        self.assertIn(b" 403 ", self.raw(two).partition(b"\n")[0])
        self.assertIn(b" 403 ", self.raw("GET /%s/ HTTP/1.0\n\n" % self.door.tokens.step).partition(b"\n")[0])
        self.assertEqual(self.asked(self.door, "GET", f"/{self.door.tokens.step}/", Host=self.door.hosts[1]).status, 200)
        self.is_untouched()

    def test_another_origin_is_refused(self) -> None:
        host = self.door.hosts[0]
        for origin in ("http://evil.example", "null", f"https://{host}", f"http://{host}.evil.example", ""):
            self.assertEqual(self.do(Origin=origin).status, 403, origin)
        for site in ("cross-site", "same-site", "none"):
            self.assertEqual(self.do(Sec_Fetch_Site=site).status, 403, site)
        self.is_untouched()
        for host in self.door.hosts:
            self.assertEqual(self.do(Origin=f"http://{host}", Sec_Fetch_Site="same-origin").status, 200)
        self.assertEqual(self.do(Sec_Fetch_Site="same-origin").status, 200)

    def test_a_form_is_refused(self) -> None:
        kinds = ("text/plain", "application/x-www-form-urlencoded", "multipart/form-data; boundary=x", "text/plain; application/json")
        for kind in kinds:
            self.assertEqual(self.do(Content_Type=kind).status, 415, kind)
        none = self.raw(f"POST /{self.door.tokens.step}/do HTTP/1.1\nHost: HOST\nContent-Length: {len(LINE)}\n\n{LINE}")
        self.assertIn(b" 415 ", none.partition(b"\n")[0])
        self.is_untouched()
        self.assertEqual(self.do(Content_Type="application/json; charset=utf-8").status, 200)

    # ---- bodies

    def test_a_great_body_is_refused_without_being_read(self) -> None:
        begun = time.monotonic()
        said = self.raw(f"POST /{self.door.tokens.step}/do HTTP/1.1\nHost: HOST\nContent-Length: 10000000\n\n")
        self.assertIn(b" 413 ", said.partition(b"\n")[0])
        with self.assertRaises(OSError), socket.create_connection(("127.0.0.1", self.door.port), 5) as connection:
            connection.sendall("POST / HTTP/1.1\r\nHost: x\r\nContent-Length: 10000000\r\n\r\n".encode())
            for _ in range(1000):
                connection.sendall(b"x" * 10_000)
        self.assertLess(time.monotonic() - begun, PROMPT)

    def test_a_body_has_one_length(self) -> None:
        head = f"POST /{self.door.tokens.step}/do HTTP/1.1\nHost: HOST\nContent-Type: application/json\n"
        for lengths, status in (
            ("", b"411"),
            ("Transfer-Encoding: chunked\n", b"411"),
            ("Content-Length: 3\nContent-Length: 4\n", b"411"),
            ("Content-Length: 3\nTransfer-Encoding: chunked\n", b"411"),
            ("Content-Length: -3\n", b"400"),
            ("Content-Length: +3\n", b"400"),
        ):
            self.assertEqual(self.raw(f"{head}{lengths}\n").split()[1], status, lengths)
        self.is_untouched()

    def test_a_body_that_ends_early_is_refused(self) -> None:
        head = f"POST /{self.door.tokens.step}/do HTTP/1.1\nHost: HOST\nContent-Type: application/json\n"
        said = self.raw(f"{head}Content-Length: {len(LINE) + 1}\n\n{LINE}")
        self.assertIn(b" 400 ", said.partition(b"\n")[0])
        self.is_untouched()

    def test_what_is_no_line_that_changes_the_pair_is_refused(self) -> None:
        lines = ["show main", "open", "set states 5", "log main", "view", "search main 1 1 apart", "", "#", " ", "steps main tick a 1"]
        lines += [f"{PACKET}{it}" for it in ("\nback main 1", "\r", "\t", "\0", "\x85", "\ud800")]
        for line in lines:
            self.assertEqual(self.do({"name": "Ann", "line": line}).status, 400, repr(line))
        wrong = ('{"name": 3, "line": "back main 0"}', '{"line": ["back main 0"]}')
        for body in ("", "{", "[" * 60000, "null", "3", "[]", "{}", *wrong):
            self.assertEqual(self.do(body).status, 400, body[:20])
        self.assertEqual(self.do({"line": f"step main {'x' * 5000}"}).status, 400)
        self.is_untouched()
        self.assertEqual(self.do({"line": f"step main {'x' * 600}"}).data["reply"], ["bad 1 Long"])
        self.assertEqual(self.do({"line": "step main tick a \u0665"}).data["reply"], ["bad 2 NotAscii"])

    def test_names_are_shown_without_what_does_not_print(self) -> None:
        watcher = self.watcher(self.door)
        for name in ("", " \n", "A\x1b[31mn\u202en", "x" * 50, "<b>Äña</b>", "\ud800"):
            self.step(self.door, "step main tick a 1", name)
        names = [watcher.update()["who"] for _ in range(6)]
        self.assertEqual(names, ["somebody", "somebody", "A[31mnn", "x" * 40, "<b>Äña</b>", "somebody"])

    # ---- answers

    def test_each_answer_says_how_it_may_be_used(self) -> None:
        token = self.door.tokens.step
        answers = [self.asked(self.door, "GET", it) for it in (f"/{token}/", "/", f"/{token}/events?after=x")]
        for answer in (*answers, self.do(), self.asked(self.door, "PUT", "/")):
            wanted = {
                "Cache-Control": "no-store",
                "Referrer-Policy": "no-referrer",
                "X-Content-Type-Options": "nosniff",
                "X-Frame-Options": "DENY",
                "Cross-Origin-Resource-Policy": "same-origin",
                "Cross-Origin-Opener-Policy": "same-origin",
                "Connection": "close",
            }
            self.assertEqual({name: answer.headers.get(name) for name in wanted}, wanted, answer)
            self.assertIn("frame-ancestors 'none'", answer.headers["Content-Security-Policy"])
            self.assertFalse([name for name in answer.headers if name.startswith("Access-Control")])
        self.assertEqual([it.status for it in answers], [200, 404, 400])

    def test_the_page_of_one_who_watches_has_no_address_for_stepping(self) -> None:
        with mock.patch("shell.pages.bridge.page", packing.page):
            pages = [self.asked(self.door, "GET", f"/{token}/").body for token in self.door.tokens]
        self.assertEqual([self.door.tokens.watch in page for page in pages], [True, True])
        self.assertEqual([self.door.tokens.step in page for page in pages], [False, False])

    def test_the_page_itself_may_ask_its_server_alone(self) -> None:
        with mock.patch("shell.pages.bridge.page", packing.page):
            self.step(self.door, PACKET, "</script>")
            answer = self.asked(self.door, "GET", f"/{self.door.tokens.step}/")
        self.assertEqual((answer.status, answer.headers["Content-Type"]), (200, "text/html; charset=utf-8"))
        self.assertNotIn("default-src", answer.headers["Content-Security-Policy"])
        self.assertIn("default-src 'none'", answer.body)
        self.assertIn("connect-src 'self'", answer.body)
        self.assertIn('"who":"\\u003c/script\\u003e"', answer.body)

    def test_what_is_no_request_is_refused(self) -> None:
        for request in ("", "GET", "GET / HTTP/9.9", "GET / HTTP/x", f"GET /{'x' * 70000} HTTP/1.1", "x" * 100):
            self.assertNotIn(b" 200 ", self.raw(f"{request}\n\n").partition(b"\n")[0])
        for old in ("GET /", "PRI * HTTP/2.0", "\x16\x03\x01"):
            self.assertIn(b"X-Content-Type-Options: nosniff", self.raw(f"{old}\nHost: HOST\n\n"), old)
        many = "".join(f"X-{number}: x\n" for number in range(200))
        self.assertIn(b" 431 ", self.raw(f"GET / HTTP/1.1\nHost: HOST\n{many}\n").partition(b"\n")[0])


class Crowds(Bridged):
    def test_a_request_that_comes_slowly_is_given_up(self) -> None:
        with mock.patch("shell.pages.serving.READ_SECONDS", 0.5):
            door, begun = self.live(), time.monotonic()
            with self.assertRaises(OSError), socket.create_connection(("127.0.0.1", door.port), 5) as connection:
                for _ in range(50):
                    connection.sendall(b"x")
                    time.sleep(0.1)
            self.assertLess(time.monotonic() - begun, PROMPT)

    def test_who_reads_slowly_gets_all(self) -> None:
        size = 16 << 20
        with mock.patch("shell.pages.serving.WRITE_SECONDS", 0.5):
            door = self.live()
            with mock.patch.object(door.bridge, "page_for", lambda may: b"x" * size):
                with socket.create_connection(("127.0.0.1", door.port), 5) as connection:
                    connection.sendall(f"GET /{door.tokens.watch}/ HTTP/1.1\r\nHost: {door.hosts[0]}\r\n\r\n".encode())
                    pieces = [b""]
                    while len(pieces) == 1 or pieces[-1]:
                        time.sleep(0.1 * (len(pieces) <= 10))
                        pieces.append(connection.recv(1 << 20))
        self.assertGreater(sum(map(len, pieces)), size)

    def test_no_more_than_a_limit_watch(self) -> None:
        with mock.patch("shell.pages.news.MOST_STREAMS", 3):
            door = self.live()
            watchers = [self.watcher(door) for _ in range(4)]
            self.assertEqual([watcher.status for watcher in watchers], [200, 200, 200, 503])

    def test_no_more_than_a_limit_are_let_in(self) -> None:
        with mock.patch("shell.pages.door.MOST_CONNECTIONS", 3):
            door = self.live()
            for _ in range(3):
                self.watcher(door)
            with self.assertRaises(OSError):
                self.page(door)

    def test_a_connection_that_gets_no_thread_takes_no_room(self) -> None:
        with mock.patch("shell.pages.door.MOST_CONNECTIONS", 3):
            door = self.live()
        with mock.patch("threading.Thread.start", side_effect=RuntimeError), mock.patch.object(door, "handle_error"):
            for _ in range(4):
                with self.assertRaises(OSError):
                    self.page(door)
        self.assertEqual(self.page(door)["live"]["people"], 0)
