"""A real browser for tests: chromium without a window, driven by chromedriver in the words of W3C WebDriver.

A driver serves any number of browsers, each with a profile of its own in the driver's temporary folder. What the standard asks for is not
hidden here: a place is a CSS selector, of which the first element counts, and a key is the `key` of its KeyboardEvent.
"""
from __future__ import annotations

import atexit
import base64
import json
import os
import re
import shutil
import signal
import subprocess
import tempfile
import time
import unittest
from http.client import HTTPConnection
from typing import Any, Dict, List, Optional, Sequence, Tuple

from .children import bounded

PACKAGES = "apt-get install chromium chromium-driver"
PROGRAMS = ("chromium", "chromedriver")
ARGUMENTS = ("--headless=new", "--no-sandbox", "--disable-gpu", "--disable-dev-shm-usage", "--window-size=1440,1000", "--no-first-run")
STARTED = re.compile(r"started successfully on port (\d+)")
ELEMENT = "element-6066-11e4-a52e-4f735466cecf"
# How long the driver may think about one command.
PATIENCE = 60.0
# Keys that are no characters, by their `key`, as WebDriver writes them.
KEYS = {
    "Backspace": "\ue003",
    "Tab": "\ue004",
    "Enter": "\ue007",
    "Shift": "\ue008",
    "Escape": "\ue00c",
    "PageUp": "\ue00e",
    "PageDown": "\ue00f",
    "End": "\ue010",
    "Home": "\ue011",
    "ArrowLeft": "\ue012",
    "ArrowUp": "\ue013",
    "ArrowRight": "\ue014",
    "ArrowDown": "\ue015",
}


# A text in one line. Halves of characters, which a page may have and the driver cannot say, become the sign that browsers show for them.
FLAT = "(text => text.replace(/\\s+/g, ' ').replace(/[\\ud800-\\udfff]/gu, '\\ufffd').trim())"
# Looks at an expression until it is true, or the time is over that comes as the last argument.
WAIT = """const end = performance.now() + arguments[arguments.length - 1], all = arguments;
return new Promise(done => (function look() {
  const found = (function () { return (%s); }).apply(null, all);
  if (found || performance.now() >= end) { done(Boolean(found)); } else { setTimeout(look, 5); }
})());"""


class Refused(Exception):
    """The driver refused a command: the first word is WebDriver's name of the error."""


def missing() -> str:
    """Why no browser can be driven here; empty where one can."""
    absent = [program for program in PROGRAMS if not shutil.which(program)]
    return f"there is no {' and no '.join(absent)} on the path: {PACKAGES}" if absent else ""


def driver_of_module() -> "Driver":
    """A driver for a module of tests, to be asked for in its setUpModule: it ends with the module, which is skipped where there is none."""
    if missing():
        raise unittest.SkipTest(missing())
    driver = Driver()
    unittest.addModuleCleanup(driver.close)
    return driver


class Driver:
    """A chromedriver with its folder. All that it and its browsers write is in there."""

    def __init__(self) -> None:
        self.folder = tempfile.mkdtemp(prefix="pfl-browser-")
        self.browsers: List[Browser] = []
        # (an interrupt ends tests without their cleanups)
        atexit.register(self.close)
        surroundings = {**os.environ, "TMPDIR": self.folder, "HOME": self.folder}
        self.process = subprocess.Popen(
            (str(shutil.which("chromedriver")), "--port=0"),
            stdout=subprocess.PIPE,
            stderr=subprocess.DEVNULL,
            text=True,
            env=surroundings,
            start_new_session=True,
        )
        assert self.process.stdout
        with bounded(self.process):
            self.port = next((int(it[1]) for it in map(STARTED.search, self.process.stdout) if it), 0)
        if not self.port:
            self.close()
            raise Refused("chromedriver did not start")

    def browser(self, letters: int = 16) -> "Browser":
        """One browser more, in whose settings letters have this size in pixels."""
        self.browsers.append(Browser(self.port, letters))
        return self.browsers[-1]

    def close(self) -> None:
        """Ends all browsers and the driver, and removes the folder."""
        atexit.unregister(self.close)
        for it in self.browsers:
            it.close()
        self.process.terminate()
        try:
            self.process.wait(10)
        except subprocess.TimeoutExpired:
            os.killpg(self.process.pid, signal.SIGKILL)
            self.process.wait(10)
        if self.process.stdout:
            self.process.stdout.close()
        shutil.rmtree(self.folder, ignore_errors=True)


class Browser:
    """A browser with one window."""

    def __init__(self, port: int, letters: int):
        self.connection = HTTPConnection("127.0.0.1", port, timeout=PATIENCE)
        self.media: Dict[str, str] = {}
        self.shape = (0, 0)
        settings = {"webkit": {"webprefs": {"default_font_size": letters}}}
        logs = {"enableNetwork": True, "enablePage": False}
        options = {"binary": shutil.which("chromium"), "args": ARGUMENTS, "prefs": settings, "perfLoggingPrefs": logs}
        wished = {"browserName": "chrome", "goog:loggingPrefs": {"browser": "ALL", "performance": "ALL"}, "goog:chromeOptions": options}
        self.path = ""
        self.path = f"/session/{self._send('POST', '/session', {'capabilities': {'alwaysMatch': wished}})['sessionId']}"

    def close(self) -> None:
        """Ends the browser; nothing where it has ended."""
        if self.path:
            try:
                self._send("DELETE", "")
            except (OSError, Refused):
                pass
            self.path = ""
            self.connection.close()

    # ---- pages

    def open(self, url: str) -> None:
        """Opens a page, and comes back when it is loaded; what was logged before is forgotten."""
        self.errors()
        self.requests()
        self._post("/url", url=url)

    def reload(self) -> None:
        self._post("/refresh")

    def back(self) -> None:
        """What the browser's own back button does."""
        self._post("/back")

    @property
    def url(self) -> str:
        return str(self._send("GET", "/url"))

    @property
    def title(self) -> str:
        return str(self._send("GET", "/title"))

    # ---- what is there

    def evaluate(self, expression: str, *arguments: object) -> Any:
        """The value of an expression of JavaScript, which names what it is given `arguments[0]` and so on."""
        return self._post("/execute/sync", script=f"return ({expression});", args=list(arguments))

    def wait_until(self, expression: str, seconds: float = 5, *arguments: object) -> None:
        """Waits until an expression is true, and fails where it is not within these seconds. It is looked at again within the page, and
        half a second later from here, since the page may have become another one."""
        end = time.monotonic() + seconds
        while True:
            patience = max(0, min(500, 1000 * (end - time.monotonic())))
            if self._post("/execute/sync", script=WAIT % expression, args=[*arguments, patience]):
                return
            if time.monotonic() >= end:
                raise AssertionError(f"not within {seconds} s: {expression} {arguments or ''}")

    def count(self, css: str) -> int:
        """How many elements there are of a selector."""
        return int(self.evaluate("document.querySelectorAll(arguments[0]).length", css))

    def text(self, css: str) -> str:
        """The text of an element as it is shown, in one line."""
        return str(self.evaluate(f"{FLAT}(arguments[0].innerText)", self.find(css)))

    def texts(self, css: str) -> List[str]:
        """The text of each element of a selector, each in one line, shown or not."""
        return list(self.evaluate(f"Array.from(document.querySelectorAll(arguments[0]), it => {FLAT}(it.textContent))", css))

    def attribute(self, css: str, name: str) -> Optional[str]:
        value = self.evaluate("arguments[0].getAttribute(arguments[1])", self.find(css), name)
        return None if value is None else str(value)

    def find(self, css: str) -> Dict[str, str]:
        """An element, to be given to `evaluate`."""
        try:
            return dict(self._post("/element", using="css selector", value=css))
        except Refused as why:
            raise AssertionError(f"there is no {css}") from why

    # ---- what a person does

    def click(self, css: str) -> None:
        """A click on the middle of an element, which has to be in sight and free, once it is scrolled to."""
        self._post(f"/element/{self.find(css)[ELEMENT]}/click")

    def keys(self, *keys: str) -> None:
        """Presses keys one after the other, wherever the focus is: each a `key` of KeyboardEvent, with `Shift+` before it or not."""
        actions: List[Dict[str, str]] = []
        for named in keys:
            shift, _, key = named.rpartition("Shift+") if named.startswith("Shift+") else ("", "", named)
            held = [KEYS["Shift"]] if key != named else []
            pressed = [*held, KEYS.get(key, key)]
            actions += [{"type": "keyDown", "value": one} for one in pressed]
            actions += [{"type": "keyUp", "value": one} for one in reversed(pressed)]
        self._act({"type": "key", "id": "keys", "actions": actions})

    def keys_at(self, css: str, *keys: str) -> None:
        """Presses keys where an element has the focus."""
        self.evaluate("arguments[0].focus()", self.find(css))
        self.keys(*keys)

    def type(self, css: str, text: str) -> None:
        """Writes a text into a field in the place of what is in it."""
        field = self.find(css)[ELEMENT]
        self._post(f"/element/{field}/clear")
        self._post(f"/element/{field}/value", text=text)

    def drag(self, css: str, start: float, end: float) -> None:
        """Drags along an element by the mouse, from one part of its width to another: 0 is its left edge, 1 its right one."""
        scrolled = "(it => { it.scrollIntoView({block: 'nearest'}); return it.getBoundingClientRect().toJSON(); })(arguments[0])"
        box = self.evaluate(scrolled, self.find(css))
        height = round(box["top"] + box["height"] / 2)
        stops = [start + (end - start) * step / 4 for step in range(5)]
        places = [(round(box["left"] + 1 + at * (box["width"] - 2)), height) for at in stops]
        down, up = {"type": "pointerDown", "button": 0}, {"type": "pointerUp", "button": 0}
        moves = [{"type": "pointerMove", "duration": 20, "x": x, "y": y} for x, y in places]
        self._act({"type": "pointer", "id": "mouse", "parameters": {"pointerType": "mouse"}, "actions": [moves[0], down, *moves[1:], up]})

    def _act(self, source: Dict[str, Any]) -> None:
        self._post("/actions", actions=[source])

    # ---- how it is shown

    def size(self, width: int, height: int = 1000) -> None:
        """How wide and high the window is inside, in pixels of CSS."""
        if self.shape != (width, height):
            self.cdp("Emulation.setDeviceMetricsOverride", width=width, height=height, deviceScaleFactor=1, mobile=False)
        self.shape = width, height

    def dark(self, is_dark: bool = True) -> None:
        """Whether the person wishes dark colours."""
        self._wish("prefers-color-scheme", "dark" if is_dark else "light")

    def still(self, is_still: bool = True) -> None:
        """Whether the person wishes that little moves."""
        self._wish("prefers-reduced-motion", "reduce" if is_still else "no-preference")

    def _wish(self, name: str, value: str) -> None:
        if self.media.get(name) == value:
            return
        self.media[name] = value
        self.cdp("Emulation.setEmulatedMedia", features=[{"name": it, "value": what} for it, what in self.media.items()])

    def pdf(self) -> bytes:
        """The page as it is printed."""
        return base64.b64decode(self.cdp("Page.printToPDF", printBackground=False)["data"])

    def screenshot(self, path: str, is_whole: bool = False) -> None:
        """Writes a picture of what is in sight, or of the whole page."""
        data = self.cdp("Page.captureScreenshot", format="png", captureBeyondViewport=is_whole)["data"]
        with open(path, "wb") as it:
            it.write(base64.b64decode(data))

    # ---- what happened

    def errors(self) -> List[str]:
        """What the console has had of errors since the last question: uncaught exceptions and what a policy forbade are among them."""
        return [it["message"] for it in self._post("/se/log", type="browser") if it["level"] == "SEVERE"]

    def requests(self) -> List[str]:
        """The addresses that were asked for since the last question."""
        messages = (json.loads(it["message"])["message"] for it in self._post("/se/log", type="performance"))
        return [message["params"]["request"]["url"] for message in messages if message["method"] == "Network.requestWillBeSent"]

    def cdp(self, command: str, **parameters: object) -> Any:
        """A command of Chromium's own protocol."""
        return self._post("/goog/cdp/execute", cmd=command, params=parameters)

    # ---- the wire

    def _post(self, path: str, **body: object) -> Any:
        return self._send("POST", path, body)

    def _send(self, method: str, path: str, body: Optional[Dict[str, Any]] = None) -> Any:
        """The value that the driver answers."""
        text = None if body is None else json.dumps(body)
        self.connection.request(method, self.path + path, text, {"Content-Type": "application/json"})
        value = json.loads(self.connection.getresponse().read())["value"]
        if isinstance(value, dict) and "error" in value:
            raise Refused(f"{value['error']}: {value['message'].splitlines()[0]}")
        return value


def boxes_that_overlap(boxes: Sequence[Dict[str, float]], slack: float = 1) -> List[Tuple[int, int]]:
    """The pairs of rectangles (each with left, top, right, bottom) that share more than `slack` pixels both ways, by their places."""
    order = sorted(range(len(boxes)), key=lambda at: boxes[at]["top"])
    found: List[Tuple[int, int]] = []
    for at, one in enumerate(order):
        for two in order[at + 1 :]:
            if boxes[two]["top"] >= boxes[one]["bottom"] - slack:
                break
            wide = min(boxes[one]["right"], boxes[two]["right"]) - max(boxes[one]["left"], boxes[two]["left"])
            high = min(boxes[one]["bottom"], boxes[two]["bottom"]) - boxes[two]["top"]
            if wide > slack and high > slack:
                found.append((one, two))
    return found
