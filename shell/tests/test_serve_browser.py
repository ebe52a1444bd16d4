"""A server turns browsers away: a web page can have a browser send lines to its port, and none of them is taken. With and without a browser."""
from __future__ import annotations

import contextlib
import http.server
import select
import signal
import socket
import threading
import time
import unittest
from typing import Iterator, List, Sequence

from ..link.programs import VIEW, Client, commands_of
from .browsers import Browser, driver_of_module
from .followers import STEP
from .served import PROMPT, End, Served
from .servers import RULES

REPORT = "pfl_lab: a browser was turned away"
LINE = "step main tick a 9"
LINES = f"{LINE}\n{LINE}\n"
NOBODY = ["log main events 0 cursor 0", "end"]
# How long a server waits for the first bytes of a connection, in seconds, and how long it is certain that it has waited long enough.
FIRST, LONGER = 0.02, 0.3
# How long a browser may take until all that it was told to send is sent.
SENDING = 1.0
# Methods that need the whole line of their request: a word of sessions, and what begins as a comment. And a length that no line of a session has.
HARDER = ("step", "follow", "#x", "#")
LONG = 600


def request(method: str = "POST", target: str = "/", body: str = LINES) -> bytes:
    """What Chromium sends where a page fetches something from another origin, in which only method and target differ here."""
    return (
        f"{method} {target} HTTP/1.1\r\n"
        "Host: 127.0.0.1:4000\r\n"
        "Connection: keep-alive\r\n"
        f"Content-Length: {len(body)}\r\n"
        'sec-ch-ua-platform: "Linux"\r\n'
        "User-Agent: Mozilla/5.0 (X11; Linux x86_64) AppleWebKit/537.36 (KHTML, like Gecko) Chrome/156.0.0.0 Safari/537.36\r\n"
        'sec-ch-ua: "Not:A-Brand";v="8", "Chromium";v="156"\r\n'
        "Content-Type: text/plain;charset=UTF-8\r\n"
        "sec-ch-ua-mobile: ?0\r\n"
        "Accept: */*\r\n"
        "Origin: http://127.0.0.1:8000\r\n"
        "Sec-Fetch-Site: same-site\r\n"
        "Sec-Fetch-Mode: no-cors\r\n"
        "Sec-Fetch-Dest: empty\r\n"
        "Referer: http://127.0.0.1:8000/\r\n"
        "Accept-Encoding: gzip, deflate, br, zstd\r\n"
        "Accept-Language: en-US,en;q=0.9\r\n"
        "\r\n"
        f"{body}"
    ).encode()


class Turned(Served):
    """Tests over a server of two sessions."""

    @contextlib.contextmanager
    def held(self) -> Iterator[None]:
        """Meanwhile the server is stopped. It then finds the connections that came, with all that was sent over them."""
        self.proved.process.send_signal(signal.SIGSTOP)
        try:
            yield
        finally:
            self.proved.process.send_signal(signal.SIGCONT)

    def stranger(self, port: int) -> socket.socket:
        connection = socket.create_connection(("127.0.0.1", port), PROMPT)
        connection.setsockopt(socket.IPPROTO_TCP, socket.TCP_NODELAY, 1)
        self.ends.callback(connection.close)
        return connection

    def assert_shut(self, stranger: socket.socket) -> None:
        """That nothing is answered, and that the connection is shut although its other end is open."""
        came = b""
        try:
            came = stranger.recv(1 << 16)
        except ConnectionError:
            pass
        except socket.timeout:
            self.fail("the connection is not shut")
        self.assertEqual(came, b"")

    def is_reported(self, seconds: float = 0) -> bool:
        """Whether something is reported within this many seconds."""
        return bool(select.select([self.proved.process.stderr], [], [], seconds)[0])

    def clients(self, port: int, number: int) -> List[Client]:
        return [self.client(port) for _ in range(number)]

    def assert_nothing_taken(self, clients: Sequence[Client]) -> None:
        """That no command has been taken so far, and that each of the sessions goes on and is answered."""
        for it in clients:
            it.wait()
        self.assertEqual(commands_of(clients[0].ask(VIEW)[0]), 0)
        self.assertEqual(clients[-1].ask("log main"), NOBODY)
        self.assertEqual(clients[0].ask(STEP), ["step pass 1.1 dropped 0"])
        self.assertEqual(clients[-1].ask("show main")[0], "branch main events 1 cursor 1")
        self.assertEqual([commands_of(client.ask(VIEW)[0]) for client in clients], [3] * len(clients))

    def assert_ends(self, clients: Sequence[Client], reports: int) -> None:
        """That the sessions end with the three commands of `assert_nothing_taken`, and as many browsers were turned away."""
        for it in clients:
            it.close()
        self.assertEqual(self.end(), End(["closed 3"], [REPORT] * reports, 0))


class Requests(Turned):
    """Without a browser: the bytes that one sends."""

    def assert_turned_away(self, *pieces: bytes) -> None:
        """That a request whose pieces are there when its connection is accepted is turned away, and both seats go to others."""
        port = self.serve()
        with self.held():
            stranger = self.stranger(port)
            for it in pieces:
                stranger.sendall(it)
        self.assert_shut(stranger)
        self.assertTrue(self.is_reported(PROMPT))
        clients = self.clients(port, 2)
        self.assert_nothing_taken(clients)
        self.assert_ends(clients, 1)

    def assert_used_up(self, silence: float, *pieces: bytes) -> None:
        """That a request which comes piece by piece, each after some seconds of silence, has used its seat up, and does nothing else."""
        port = self.serve()
        stranger = self.stranger(port)
        for piece in pieces:
            time.sleep(silence)
            stranger.sendall(piece)
        # (it is answered once both seats are taken)
        client = self.client(port)
        self.assert_nothing_taken([client])
        self.assert_shut(stranger)
        self.assertFalse(self.is_reported())
        self.assert_ends([client], 1)

    def test_a_request_that_comes_at_once(self) -> None:
        for method, target in (("POST", "/"), ("GET", "/"), ("OPTIONS", "/x"), ("HEAD", "/"), ("options", "/"), ("post", "//"), ("P", "/?")):
            with self.subTest(f"{method} {target}"):
                self.assert_turned_away(request(method, target))

    def test_a_method_that_a_line_of_a_session_begins_with(self) -> None:
        for method in HARDER:
            for target in ("/", "/x", f"/{'x' * LONG}"):
                with self.subTest(f"{method} {target}"):
                    self.assert_turned_away(request(method, target))

    def test_a_long_method(self) -> None:
        for method in ("M" * 33, "M" * LONG, f"#{'x' * LONG}"):
            with self.subTest(method):
                self.assert_turned_away(request(method))

    def test_its_bytes_come_one_by_one(self) -> None:
        for method in ("POST", "step"):
            with self.subTest(method):
                self.assert_turned_away(*(bytes([it]) for it in request(method)))

    def test_only_its_first_bytes_come(self) -> None:
        for text in (b"POST /", b"step / HTTP/1.1\r", b"# / HTTP/1.1\n", b"step /" + b"x" * 507, b"#" * 513):
            with self.subTest(text):
                self.assert_turned_away(text)

    def test_many_requests_come_first(self) -> None:
        port = self.serve()
        with self.held():
            strangers = [self.stranger(port) for _ in range(20)]
            for it in strangers:
                it.sendall(request())
        for it in strangers:
            self.assert_shut(it)
        clients = self.clients(port, 2)
        self.assert_nothing_taken(clients)
        self.assert_ends(clients, len(strangers))

    def test_one_comes_between_two_clients(self) -> None:
        port = self.serve()
        first = self.client(port)
        with self.held():
            stranger = self.stranger(port)
            stranger.sendall(request())
        self.assert_shut(stranger)
        clients = [first, *self.clients(port, 1)]
        self.assert_nothing_taken(clients)
        # (it has no number, either)
        self.assertEqual(entries(clients[1], 3), ["entry 1 2 log main", f"entry 2 1 {STEP}", "entry 3 2 show main"])
        self.assert_ends(clients, 1)

    def test_a_request_after_a_silence(self) -> None:
        self.assert_used_up(LONGER, request())

    def test_its_first_bytes_come_slowly(self) -> None:
        text = request()
        self.assert_used_up(2 * FIRST, *(bytes([it]) for it in text[:6]), text[6:])

    def test_its_first_line_comes_slowly(self) -> None:
        for method, target, parts in (("step", "/", (2, 5, 6, 10, 14, 15)), ("#", "/x", (1, 2, 12)), ("#x" * LONG, "/", (300, 512))):
            with self.subTest(method):
                text = request(method, target)
                ends = (*parts, len(text))
                self.assert_used_up(2 * FIRST, *(text[first:last] for first, last in zip((0, *ends), ends)))

    def test_a_request_long_after_all_seats_are_taken(self) -> None:
        port = self.serve()
        stranger = self.stranger(port)
        client = self.client(port)
        client.wait()
        stranger.sendall(request())
        self.assert_shut(stranger)
        self.assert_nothing_taken([client])
        self.assert_ends([client], 1)

    def test_all_seats_are_used_up(self) -> None:
        port = self.serve()
        strangers = [self.stranger(port) for _ in range(2)]
        time.sleep(LONGER)
        for stranger in strangers:
            stranger.sendall(request())
            self.assert_shut(stranger)
        self.assertEqual(self.end(), End(["closed 0"], [REPORT] * 2, 0))

    def test_what_is_no_request(self) -> None:
        unknown = (" POST /", "POST\t/", "POST  /", "POST", "POST x/", "/", "step / HTTP/1.1 x", "step /x HTTP/2", "x" * 512, " / HTTP/1.1")
        comments = ("# /", "#POST /", "# /comment", "# / HTTP/1.1 is what a browser sends", "# /x and /y HTTP/1.1", f"# {'x' * LONG}", "#" * 512)
        answers = {**{it: ["bad 3 Unknown"] for it in unknown}, **{comment: [] for comment in comments}}
        answers.update({"step /x": ["bad 4 Missing"], "show /": ["refused 1 NoBranch"], f"x {'x' * LONG}": ["bad 1 Long"]})
        for line, faults in answers.items():
            with self.subTest(line):
                port = self.serve()
                with self.held():
                    clients = [self.stranger(port), self.stranger(port)]
                    clients[0].sendall(f"{line}\n{VIEW}\n".encode())
                with clients[0].makefile("r") as lines:
                    self.assertEqual([next(lines).rstrip("\n") for _ in faults], faults)
                    self.assertEqual(commands_of(next(lines)), int(line.startswith("show")))
                for it in clients:
                    it.close()
                self.assertEqual(self.end(), End.after(int(line.startswith("show"))))

    def test_a_request_after_other_lines(self) -> None:
        port = self.serve()
        clients = self.clients(port, 2)
        self.assert_nothing_taken(clients)
        self.assertEqual(clients[1].ask_together(["GET / HTTP/1.1", VIEW])[0], ["bad 3 Unknown"])
        self.assert_ends(clients, 0)


def entries(client: Client, number: int) -> List[str]:
    """The first entries of the journal, as a session is shown them."""
    client.follow()
    came: List[str] = []
    end = time.monotonic() + PROMPT
    while len(came) < number and time.monotonic() < end:
        came += client.come(0.1)
    return came


# A page that has its browser send lines to an address, in each way that needs no permission or asks for one. `tried` has what came of those
# ways that a page hears of.
PAGE = f"""<!doctype html><html lang="en"><meta charset="utf-8"><title>Another origin</title><link rel="icon" href="data:,">
<iframe name="there"></iframe>
<form method="post" enctype="text/plain" target="there"><textarea name="text">
{LINES}</textarea></form>
<script>
const lines = {LINES!r}, form = document.querySelector("form");
window.tried = [];
function heard(name, answer) {{ answer.then(() => tried.push(name + " was answered"), () => tried.push(name + " failed")); }}
window.send = (there, way) => heard(way.method, fetch(there, {{...way, body: lines}}));
window.sendAll = there => {{
  send(there, {{method: "POST", mode: "no-cors"}});
  send(there, {{method: "PUT"}});
  send(there, {{method: "step"}});
  navigator.sendBeacon(there, lines);
  form.action = there;
  form.submit();
}};
window.connect = there => {{
  document.head.append(Object.assign(document.createElement("link"), {{rel: "preconnect", href: there}}));
}};
</script></html>"""
# How many requests it sends, and what it hears.
SENT = 5
FAILED = ["POST failed", "PUT failed", "step failed"]


class Site(http.server.BaseHTTPRequestHandler):
    """Where the page is from. A connection over which nothing comes, as browsers open for later, does not last."""

    timeout = 0.2

    def do_GET(self) -> None:
        body = PAGE.encode()
        self.send_response(200)
        self.send_header("Content-Type", "text/html; charset=utf-8")
        self.send_header("Content-Length", str(len(body)))
        self.end_headers()
        self.wfile.write(body)

    def log_message(self, format: str, *words: object) -> None:
        """Logs nothing."""


class Sites(http.server.ThreadingHTTPServer):
    """A site whose connections have ended once it is closed."""

    daemon_threads = False


@contextlib.contextmanager
def site_of() -> Iterator[int]:
    """The port of a site that has the page."""
    with Sites(("127.0.0.1", 0), Site) as site:
        threading.Thread(target=site.serve_forever, daemon=True).start()
        try:
            yield site.server_address[1]
        finally:
            site.shutdown()


class OwnPages(Turned):
    """A page of the server's own origin in a browser, as one has to which DNS rebinding gave it. It may choose any method, unasked."""

    browser: Browser

    @classmethod
    def setUpClass(cls) -> None:
        cls.browser = driver_of_module().browser()

    def serve_own(self) -> str:
        """Begins a server at the port that the page came from, whose address it returns."""
        with site_of() as port:
            self.browser.open(f"http://127.0.0.1:{port}/")
        self.serve(port=port)
        return f"http://127.0.0.1:{port}"

    def assert_sent(self, address: str, targets: Sequence[str], tried: List[str]) -> None:
        """That the browser has sent all of it, and heard that it failed."""
        self.browser.wait_until("window.tried.length === arguments[0]", PROMPT, len(tried))
        self.assertEqual(sorted(self.browser.evaluate("window.tried")), sorted(tried))
        requests = self.browser.requests()
        for it in {*targets}:
            self.assertGreaterEqual(requests.count(f"{address}{it}"), targets.count(it))

    def assert_turned_away(self, methods: Sequence[str], target: str = "/x") -> None:
        """That none of the page's requests by these methods is taken."""
        address = self.serve_own()
        with self.held():
            self.browser.evaluate("arguments[0].forEach(method => send(arguments[1], {method}))", [*methods], target)
            time.sleep(SENDING)
        self.assert_sent(address, [target] * len(methods), [f"{method} failed" for method in methods])
        clients = self.clients(self.proved.port, 2)
        self.assert_nothing_taken(clients)
        self.assert_ends(clients, len(methods))

    def test_methods_that_a_line_of_a_session_begins_with(self) -> None:
        self.assert_turned_away(HARDER)

    def test_long_methods(self) -> None:
        self.assert_turned_away(("M" * 33, "M" * LONG, f"#{'x' * LONG}"))

    def test_a_long_target(self) -> None:
        self.assert_turned_away(HARDER, f"/{'x' * LONG}")


class Pages(Turned):
    """A page of another origin in a browser."""

    browser: Browser
    page: str

    @classmethod
    def setUpClass(cls) -> None:
        cls.browser = driver_of_module().browser()
        site = site_of()
        cls.page = f"http://127.0.0.1:{site.__enter__()}/"
        cls.addClassCleanup(site.__exit__, None, None, None)

    def serve(self, sessions: int = 2, setup: Sequence[str] = RULES, port: int = 0) -> int:
        """Begins a server, before whose port the page is opened anew."""
        self.browser.open(self.page)
        return super().serve(sessions, setup, port)

    def assert_all_failed(self, port: int, why: str) -> None:
        """That the browser has sent, or tried to send, what it was told to, and heard nothing but this fault."""
        self.browser.wait_until("window.tried.length === arguments[0]", PROMPT, len(FAILED))
        self.assertEqual(sorted(self.browser.evaluate("window.tried")), FAILED)
        faults = [error for error in self.browser.errors() if f"127.0.0.1:{port}" in error]
        self.assertRegex("\n".join(faults), why)
        self.assertGreaterEqual(self.browser.requests().count(f"http://127.0.0.1:{port}/"), SENT - 1)

    def test_the_browser_comes_first(self) -> None:
        port = self.serve()
        with self.held():
            self.browser.evaluate("sendAll(arguments[0])", f"http://127.0.0.1:{port}/")
            time.sleep(SENDING)
        self.assert_all_failed(port, "ERR_EMPTY_RESPONSE|ERR_CONNECTION_RESET")
        clients = self.clients(port, 2)
        self.assert_nothing_taken(clients)
        self.assert_ends(clients, SENT)

    def test_the_browser_comes_when_all_seats_are_taken(self) -> None:
        port = self.serve()
        clients = self.clients(port, 2)
        clients[0].wait()
        self.browser.evaluate("sendAll(arguments[0])", f"http://127.0.0.1:{port}/")
        self.assert_all_failed(port, "ERR_CONNECTION_REFUSED")
        self.assert_nothing_taken(clients)
        self.assert_ends(clients, 0)

    def test_the_browser_is_connected_before_it_sends(self) -> None:
        port = self.serve()
        self.browser.evaluate("connect(arguments[0])", f"http://127.0.0.1:{port}/")
        time.sleep(SENDING)
        client = self.client(port)
        client.wait()
        self.browser.evaluate("send(arguments[0], {method: 'POST', mode: 'no-cors', credentials: 'include'})", f"http://127.0.0.1:{port}/")
        self.browser.wait_until("window.tried.length", PROMPT)
        self.assertEqual(self.browser.evaluate("window.tried"), FAILED[:1])
        self.assert_nothing_taken([client])
        self.assert_ends([client], 1)


if __name__ == "__main__":
    unittest.main()
