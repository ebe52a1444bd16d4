"""The live page in two browsers: what one does the other sees, and what there is to click does what it says."""
from __future__ import annotations

import json
import os
import signal
import socket
import subprocess
import sys
import threading
import time
import unittest
import urllib.request
from http.server import BaseHTTPRequestHandler, ThreadingHTTPServer
from typing import Any, List

from . import TOP, page_cases, program
from .access_rules import CONTROLS, controls_have_names, tree
from .browsers import FLAT, Browser
from .children import bounded, take_signals
from .page_cases import PLACE, QUERY, RULES, desk_folder
from .page_probes import FAINT_TEXTS, FOCUSED, LISTEN, PIECES, REACHABLE, SEES_FOCUS
from .test_page_looks import OVERFLOW, clashes

SCRIPT = f"# A pair to play with\n{RULES}step main {QUERY}\nstep main flush a\n"
HOSTILE = '<img src=x onerror="window.hit=1">'
BANNERS = f"Array.from(document.querySelectorAll('#notices .banner:not([hidden])'), it => {FLAT}(it.textContent))"
SAID = "document.querySelector('#said').textContent"
# Has a page keep the connections over which it hears of news.
SOURCES = """window.sources = [];
window.EventSource = class extends EventSource { constructor(address) { super(address); window.sources.push(this); } };"""

ann: Browser
bob: Browser


def setUpModule() -> None:
    global ann, bob
    page_cases.setUpModule()
    ann, bob = page_cases.desk.browser, page_cases.desk.driver.browser()


class Served:
    """A live page that `./lab page --serve` serves, with the addresses that it says."""

    def __init__(self, script: str):
        with socket.socket() as listening:
            listening.bind(("127.0.0.1", 0))
            port = listening.getsockname()[1]
        path = f"{desk_folder()}/live.pfl"
        with open(path, "w", encoding="utf-8") as file:
            file.write(script)
        command = (sys.executable, f"{TOP}/lab", "page", "--serve", str(port), path)
        environment = {**os.environ, "PFL_LAB": program()}
        self.process = subprocess.Popen(command, env=environment, stdout=subprocess.PIPE, text=True, preexec_fn=take_signals)
        assert self.process.stdout
        with bounded(self.process):
            self.steps, self.watches = (self.process.stdout.readline().split()[0] for _ in range(2))

    def begin_again(self) -> None:
        """Has main be what the script made of it, and the branch that a test makes be gone."""
        self.say("drop other")
        for line in ("fork main 0 fresh", "drop main", "fork fresh 0 main", "drop fresh", *SCRIPT.splitlines()[-2:]):
            self.say(line)

    def say(self, line: str) -> List[str]:
        """Sends a line, as a page does: the reply."""
        body = json.dumps({"name": "Nobody", "line": line}).encode()
        sent = urllib.request.Request(f"{self.steps}do", body, {"Content-Type": "application/json"})
        with urllib.request.urlopen(sent, timeout=10) as came:
            return list(json.load(came)["reply"])

    def end(self, how: int) -> None:
        self.process.send_signal(how)
        self.process.wait(10)

    def close(self) -> None:
        if self.process.poll() is None:
            self.end(signal.SIGINT)
        if self.process.stdout:
            self.process.stdout.close()


class Live(unittest.TestCase):
    served: Served

    @classmethod
    def setUpClass(cls) -> None:
        cls.served = Served(SCRIPT)
        cls.addClassCleanup(cls.served.close)

    def setUp(self) -> None:
        self.served.begin_again()
        for browser, name in ((ann, "Ann"), (bob, "Bob")):
            browser.size(1440)
            browser.open(self.served.steps)
            browser.evaluate("document.querySelector('#name').value = arguments[0]", name)
            browser.keys_at("#slider", "End")

    def tearDown(self) -> None:
        for browser in (ann, bob):
            self.assertEqual(browser.errors(), [])
            self.assertTrue(browser.evaluate("window.hit === undefined"))
            browser.open("about:blank")

    def at(self, browser: Browser, place: str, seconds: float = 3) -> None:
        browser.wait_until(f"{PLACE} === arguments[0]", seconds, place)

    def go(self, browser: Browser, place: str) -> None:
        browser.evaluate("location.hash = arguments[0]", f"#{place}")
        self.at(browser, place.partition("/")[2] + " / " + browser.text("#place").partition(" / ")[2])

    def click(self, browser: Browser, event: str) -> None:
        self.offered(browser, event)
        browser.click(f"button[data-event='{event}']")

    def offered(self, browser: Browser, event: str) -> None:
        """Waits until an event is offered: what is offered is asked after each step."""
        browser.wait_until("document.querySelector(`button[data-event='${arguments[0]}']`)", 3, event)


class Steps(Live):
    def test_who_watches_sees_a_step_within_a_second_and_who_did_it(self) -> None:
        for it in (ann, bob):
            self.at(it, "2 / 2")
        self.click(ann, "deliver 1")
        begun = time.monotonic()
        self.at(bob, "3 / 3", 1)
        self.assertLess(time.monotonic() - begun, 1)
        self.at(ann, "3 / 3")
        for browser in (ann, bob):
            self.assertRegex(browser.evaluate(SAID), "^Ann: step main deliver 1")
            self.assertEqual((browser.text("#event"), browser.text("#who")), ("deliver 1", "by Ann"))
            self.assertEqual(browser.count("#tables [data-node=b] [data-state='1.1'].same"), 1)
        bob.wait_until("/2 people/.test(document.querySelector('#people').textContent)", 3)

    def test_a_frame_is_lost_by_its_button(self) -> None:
        self.offered(ann, "lose 1")
        self.assertEqual(ann.count("#frames [data-frame='1'] button[data-event]"), 4)
        ann.click("#frames [data-frame='1'] button[data-event='lose 1']")
        self.at(bob, "3 / 3")
        self.assertEqual((bob.text("#outcome")[-4:], bob.count("#frames [data-frame]")), ("lost", 0))

    def test_both_step_in_turn(self) -> None:
        for at, (one, other, event) in enumerate(((ann, bob, "deliver 1"), (bob, ann, "purge a"), (ann, bob, "purge b")), 3):
            self.click(one, event)
            self.at(one, f"{at} / {at}")
            self.at(other, f"{at} / {at}")
        self.assertRegex(ann.evaluate(SAID), "^Ann: step main purge b")

    def test_a_step_while_it_plays_or_by_keys_is_one_step(self) -> None:
        self.offered(ann, "deliver 1")
        ann.evaluate("document.querySelector(\"button[data-event='deliver 1']\").focus()")
        ann.keys("Enter")
        self.at(bob, "3 / 3")
        self.at(ann, "3 / 3")

    def test_a_card_is_asked_about_when_it_is_opened(self) -> None:
        opener = "#tables [data-node=a] [data-state='1.1'] .opener"
        self.offered(ann, "deliver 1")
        self.assertEqual((ann.attribute(opener, "aria-expanded"), ann.count("[data-event^=kill]")), ("false", 0))
        ann.click(opener)
        self.click(ann, "kill a 1.1")
        self.at(bob, "3 / 3")
        self.assertEqual(bob.text("#event"), "kill a 1.1")

    def test_a_card_that_was_closed_or_opened_stays_so(self) -> None:
        of_state, of_frame = "#tables [data-node=a] [data-state='1.1'] .opener", "#frames [data-frame='1'] .opener"
        self.offered(ann, "deliver 1")
        ann.click(of_state)
        ann.click(of_frame)
        self.assertEqual((ann.attribute(of_frame, "aria-expanded"), ann.count("[data-event='deliver 1']")), ("false", 0))
        self.served.say("step main tick a 1")
        self.at(ann, "3 / 3")
        self.offered(ann, "kill a 1.1")
        self.assertEqual((ann.attribute(of_frame, "aria-expanded"), ann.count("[data-event='deliver 1']")), ("false", 0))

    def test_undo_and_redo(self) -> None:
        ann.click("#undo")
        self.at(bob, "1 / 1")
        self.assertRegex(bob.evaluate(SAID), "^Ann: back main 1")
        bob.click("#redo")
        self.at(ann, "2 / 2")
        self.assertEqual(ann.text("#event"), "flush a")

    def test_a_packet_by_its_form(self) -> None:
        summary = "details.packet-form summary"
        ann.click(f"#tables [data-node=a] {summary}")
        ann.type("#tables [data-node=a] [name=source]", "10.0.0.7:7")
        ann.click("#tables [data-node=a] details.packet-form button[type=submit]")
        self.at(bob, "3 / 3")
        self.assertEqual(bob.text("#event"), "packet a out udp 10.0.0.7:7 192.0.2.9:53 40")
        ann.type("#tables [data-node=a] [name=source]", "10.0.0.700:7")
        ann.click("#tables [data-node=a] details.packet-form button[type=submit]")
        ann.wait_until("document.querySelector('#tables [data-node=a] .reply.refused')", 3)
        self.assertEqual(bob.text("#place"), "3 / 3")

    def test_each_hears_of_a_step_once(self) -> None:
        self.go(ann, "main/1")
        for it in (ann, bob):
            it.evaluate(f"{LISTEN} || document.activeElement.blur()")
        self.click(bob, "deliver 1")
        self.at(ann, "1 / 3")
        for browser, said in ((ann, "main: 1 event since, by Bob"), (bob, "event 3 of 3: deliver 1: taken 1, by Bob")):
            browser.wait_until("window.said.length", 3)
            self.assertEqual(browser.evaluate("window.said"), [said])
        self.click(bob, "retry a")
        bob.wait_until("window.said.length === 2", 3)
        self.assertRegex(bob.evaluate("window.said")[1], "^retry a. .*waits for no bulk update")

    def test_the_focus_stays_in_the_list_of_events_when_others_step(self) -> None:
        bob.evaluate("document.querySelector(\"#events [data-place-of='1']\").focus()")
        self.click(ann, "deliver 1")
        self.at(bob, "3 / 3")
        self.assertEqual(bob.evaluate("document.activeElement.dataset.placeOf"), "1")
        self.assertEqual(bob.evaluate("document.querySelector('#events [aria-current]').dataset.placeOf"), "3")

    def test_a_refused_offer_says_why(self) -> None:
        button = "button[data-event='retry a']"
        self.offered(ann, "retry a")
        self.assertEqual(ann.attribute(button, "aria-disabled"), "true")
        self.assertIn("waits for no bulk update", ann.attribute(button, "title") or "")
        ann.click(button)
        ann.wait_until("/waits for no bulk update/.test(document.body.innerText)", 3)
        self.assertEqual(ann.text("#place"), "2 / 2")

    def test_a_name_that_would_be_markup(self) -> None:
        ann.type("#name", HOSTILE)
        self.click(ann, "deliver 1")
        self.at(bob, "3 / 3")
        self.assertTrue(bob.evaluate(SAID).startswith(f"{HOSTILE}: "))
        self.assertEqual((bob.text("#who"), bob.count("img")), (f"by {HOSTILE}", 0))
        bob.reload()
        bob.keys_at("#slider", "End")
        self.at(bob, "3 / 3")
        self.assertEqual((bob.text("#who"), bob.count("img")), (f"by {HOSTILE}", 0))


class Branches(Live):
    def test_a_fork(self) -> None:
        self.go(ann, "main/1")
        ann.click("#fork")
        ann.type("#fork-name", "other")
        ann.keys("Enter")
        self.at(ann, "1 / 1")
        self.assertEqual(ann.attribute("#branches button[aria-pressed=true]", "data-branch"), "other")
        bob.wait_until("document.querySelector('#branches button[data-branch=other]')", 3)
        # Bob stays where he is until he goes there.
        self.assertEqual((bob.text("#place"), bob.attribute("#branches button[aria-pressed=true]", "data-branch")), ("2 / 2", "main"))
        self.click(ann, "purge b")
        bob.click("#branches button[data-branch=other]")
        bob.keys_at("#slider", "End")
        self.at(bob, "2 / 2")
        self.assertEqual(bob.text("#event"), "purge b")

    def test_a_name_that_is_taken(self) -> None:
        ann.click("#fork")
        ann.type("#fork-name", "main")
        ann.keys("Enter")
        ann.wait_until("/there is a branch main already/.test(document.body.innerText)", 3)

    def test_an_event_is_taken_out_and_brought_back(self) -> None:
        self.go(ann, "main/1")
        ann.click("#excise")
        # Without the packet nothing is to be flushed, so that the flush falls out with it.
        self.at(bob, "0 / 0")
        bob.wait_until("!document.querySelector('#restore').hidden", 3)
        bob.click("#restore")
        bob.keys_at("#slider", "End")
        self.at(bob, "2 / 2")
        ann.keys_at("#slider", "End")
        self.at(ann, "2 / 2")


class Watching(Live):
    def test_who_comes_late_sees_all(self) -> None:
        bob.open("about:blank")
        self.click(ann, "deliver 1")
        self.at(ann, "3 / 3")
        # The page opens at the newest moment.
        bob.open(self.served.steps)
        self.at(bob, "3 / 3")
        self.click(ann, "purge a")
        self.at(bob, "4 / 4")

    def test_who_may_watch_alone_has_nothing_to_step_with(self) -> None:
        bob.open(self.served.watches)
        bob.keys_at("#slider", "End")
        self.at(bob, "2 / 2")
        doing = "[data-event], #undo, #redo, #fork, #excise, #name, details.packet-form"
        shown = f"Array.from(document.querySelectorAll('{doing}')).filter(it => it.offsetParent).length"
        self.assertEqual(bob.evaluate(shown), 0)
        self.click(ann, "deliver 1")
        self.at(bob, "3 / 3")
        self.assertEqual((bob.evaluate(shown), bob.text("#who")), (0, "by Ann"))

    def test_who_looks_at_the_past_stays_there(self) -> None:
        self.go(bob, "main/1")
        self.assertEqual(bob.count("button[data-event]"), 0)
        self.click(ann, "deliver 1")
        self.at(bob, "1 / 3")
        bob.wait_until(f"{BANNERS}.some(it => /^main: 1 event since, by Ann/.test(it))", 3)
        bob.click("#notices button[data-go=main]")
        self.at(bob, "3 / 3")
        self.assertEqual(bob.evaluate(BANNERS), [])


class Strangers(Live):
    # What a page of another place does that has the address, and what came of each try.
    PAGE = """<!doctype html><meta charset="utf-8"><iframe name="frame"></iframe><iframe src="{0}"></iframe>
<form action="{0}do" method="post" enctype="text/plain" target="frame"><input name='{1}' value='"}}'></form>
<script>
const body = '{1}"}}', tries = [{{mode: "no-cors"}}, {{}}, {{headers: {{"Content-Type": "application/json"}}}}];
Promise.allSettled(tries.map(it => fetch("{0}do", {{method: "POST", body, ...it}}))).then(() => {{ window.tried = tries.length; }});
document.querySelector("form").submit();
</script>"""

    def test_a_page_of_another_place_can_neither_step_nor_frame_it(self) -> None:
        text = self.PAGE.format(self.served.steps, '{"name": "Eve", "line": "step main deliver 1", "more": "')

        class Stranger(BaseHTTPRequestHandler):
            def do_GET(self) -> None:
                self.send_response(200)
                self.send_header("Content-Type", "text/html")
                self.end_headers()
                self.wfile.write(text.encode())

            def log_message(self, format: str, *words: Any) -> None:
                """Nothing is logged."""

        stranger = ThreadingHTTPServer(("127.0.0.1", 0), Stranger)
        threading.Thread(target=stranger.serve_forever, args=(0.05,)).start()
        self.addCleanup(stranger.server_close)
        self.addCleanup(stranger.shutdown)
        bob.open(f"http://127.0.0.1:{stranger.server_address[1]}/")
        bob.wait_until("window.tried === 3 && document.readyState === 'complete'", 5)
        self.assertTrue([error for error in bob.errors() if "frame" in error])
        self.click(ann, "purge a")
        self.at(ann, "3 / 3")
        self.assertRegex(ann.evaluate(SAID), "^Ann: step main purge a")


class Looks(Live):
    def test_nothing_lies_over_anything_else(self) -> None:
        self.prepare()
        for width in (1440, 1024, 390):
            ann.size(width)
            with self.subTest(width=width):
                self.assertEqual(clashes(ann.evaluate(PIECES), 2), [])
                self.assertLessEqual(ann.evaluate(OVERFLOW), 0)

    def test_nothing_is_too_faint(self) -> None:
        self.prepare()
        self.addCleanup(ann.dark, False)
        for dark in (False, True):
            ann.dark(dark)
            ann.wait_until("!document.getAnimations().some(it => it.playState === 'running')")
            with self.subTest(dark=dark):
                self.assertEqual(ann.evaluate(FAINT_TEXTS), [])

    def test_each_control_has_a_name(self) -> None:
        self.prepare()
        self.assertGreater(sum(it.role in CONTROLS for it in tree(ann)), 40)
        self.assertEqual(controls_have_names(ann), [])

    def test_the_key_tab_reaches_everything(self) -> None:
        self.prepare()
        wanted, reached = ann.evaluate(REACHABLE), set()
        # (from the last one the focus goes to the browser's own buttons, and from there to the first one)
        for _ in range(len(wanted) + 2):
            ann.keys("Tab")
            focused = ann.evaluate(FOCUSED)
            reached.add(focused)
            self.assertTrue(not focused or ann.evaluate(SEES_FOCUS), focused)
        self.assertEqual([it for it in wanted if it not in reached], [])

    def prepare(self) -> None:
        """Has all of it be there: forms, offers, what was said and a reason why not."""
        ann.click("#tables [data-node=a] details.packet-form summary")
        ann.click("#fork")
        self.click(ann, "retry a")
        self.go(bob, "main/1")
        self.click(ann, "deliver 1")
        self.at(ann, "3 / 3")


class Ends(Live):
    @classmethod
    def setUpClass(cls) -> None:
        """Each test has a bridge of its own, which ends."""

    def setUp(self) -> None:
        self.served = Served(SCRIPT)
        self.addCleanup(self.served.close)
        super().setUp()

    def come_counted(self) -> None:
        """Has Bob's page keep the connections over which it hears of news."""
        added = bob.cdp("Page.addScriptToEvaluateOnNewDocument", source=SOURCES)
        self.addCleanup(bob.cdp, "Page.removeScriptToEvaluateOnNewDocument", identifier=added["identifier"])
        bob.open(self.served.steps)
        self.at(bob, "2 / 2")

    def test_a_connection_that_is_lost_and_comes_again(self) -> None:
        self.come_counted()
        bob.evaluate("window.sources[0].close() || window.sources[0].dispatchEvent(new Event('error'))")
        bob.wait_until(f"{BANNERS}.some(it => /connection is lost/.test(it))", 3)
        for event, place in (("deliver 1", "3 / 3"), ("purge a", "4 / 4")):
            self.click(ann, event)
            self.at(ann, place)
        self.assertEqual(bob.text("#place"), "2 / 2")
        self.at(bob, "4 / 4", 5)
        self.assertEqual((bob.evaluate(BANNERS), bob.text("#event"), bob.evaluate("window.sources.length")), ([], "purge a", 2))

    def test_a_bridge_that_is_killed(self) -> None:
        self.come_counted()
        self.served.end(signal.SIGKILL)
        for browser in (ann, bob):
            browser.wait_until(f"{BANNERS}.some(it => /connection is lost/.test(it))", 5)
            browser.errors()
        begun = time.monotonic()
        bob.wait_until("window.sources.length === 3", 10)
        # Two tries to connect again are two lines of the console, more than a second apart.
        self.assertGreater(time.monotonic() - begun, 2)
        for browser in (ann, bob):
            found = browser.errors()
            self.assertLessEqual(len(found), 3)
            self.assertEqual([one for one in found if "ERR_CONNECTION_REFUSED" not in one], [])
            browser.keys_at("#slider", "Home", "ArrowRight")
            self.at(browser, "1 / 2")
        self.go(ann, "main/2")
        self.assertEqual(ann.count("button[data-event]"), 0)
        ann.click("#undo")
        ann.wait_until("/cannot be reached/.test(document.body.innerText)", 3)
        for it in (ann, bob):
            it.open("about:blank")

    def test_a_bridge_that_is_stopped_says_so_and_is_not_asked_again(self) -> None:
        self.served.end(signal.SIGINT)
        for browser in (ann, bob):
            browser.wait_until(f"{BANNERS}.some(it => /has ended/.test(it))", 5)
            shown = "Array.from(document.querySelectorAll('[data-event]')).filter(it => it.offsetParent).length"
            self.assertEqual(browser.evaluate(shown), 0)


if __name__ == "__main__":
    unittest.main()
