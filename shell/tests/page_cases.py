"""Pages for tests in a browser, each made of a script by the laboratory's own command, and tests over them.

A module of tests imports `setUpModule` from here, which starts the one browser of its tests.
"""
from __future__ import annotations

import contextlib
import io
import itertools
import os
import unittest
from typing import Dict, List, Tuple

from ..main import main
from . import TOP, browsers, program
from .browsers import Browser, Driver

RULES = "rule a block any\nrule a pass out\nrule b block any\nrule b pass out\nopen\n"
QUERY = "packet a out udp 10.0.0.1:1000 192.0.2.9:53 40"
ANSWER = "udp 192.0.2.9:53 10.0.0.1:1000 80"
# Four events stand on main and four on `later`, and five were on main before two were undone and one came in their place.
RUN = f"""# A query and its answer. The second frame is never sent.
#
# The second paragraph of what stands before the setup.
{RULES}
# The query leaves through a.
step main {QUERY}
step main flush a
step main deliver 1
# The answer comes back.
step main packet a in {ANSWER}
step main flush a
fork main 2 later
# What if the frame is lost?
step later lose 1
step later tick a 1500
back main 2
step main tick b 500
"""
NUMBERS = itertools.count()
# Where the page stands, out of `#place`.
PLACE = "document.querySelector('#place').textContent"


class Desk:
    """What the tests of a module share: one browser, and the pages that were made so far."""

    def __init__(self) -> None:
        self.driver: Driver = browsers.driver_of_module()
        self.browser: Browser = self.driver.browser()
        self.pages: Dict[str, str] = {}

    def page(self, script: bytes) -> str:
        """The file of the page of a script."""
        text = script.decode(errors="surrogateescape")
        if text not in self.pages:
            name = f"{self.driver.folder}/{len(self.pages)}"
            with open(f"{name}.pfl", "wb") as it:
                it.write(script)
            self.pages[text] = made(f"{name}.pfl", f"{name}.html")
        return self.pages[text]


desk: Desk


def setUpModule() -> None:
    global desk
    desk = Desk()


def desk_folder() -> str:
    """A folder that ends with the module of tests."""
    return desk.driver.folder


def made(script: str, page: str) -> str:
    """Makes the page of a script's file: its own file."""
    said = io.StringIO()
    with contextlib.redirect_stderr(said):
        status = main(["--program", program(), "page", script, page])
    assert not status, said.getvalue()
    return page


def example(name: str) -> str:
    """The text of an example."""
    with open(f"{TOP}/examples/{name}.pfl", encoding="utf-8") as it:
        return it.read()


def examples() -> List[str]:
    return sorted(it[:-4] for it in os.listdir(f"{TOP}/examples") if it.endswith(".pfl"))


class PageCase(unittest.TestCase):
    """A test over a page: it ends with a look for errors, of which there may be none."""

    def setUp(self) -> None:
        self.browser = desk.browser
        self.browser.size(1440)
        self.browser.dark(False)
        self.browser.still(False)

    def tearDown(self) -> None:
        self.assertEqual(self.browser.errors(), [])

    def open(self, script: str = RUN, place: str = "") -> None:
        """Opens the page of a script, at a place such as `#main/3` or where it opens by itself."""
        self.open_file(desk.page(script.encode(errors="surrogateescape")), place)

    def open_file(self, path: str, place: str = "") -> None:
        # (another place of the same address would not load it anew)
        self.browser.open(f"file://{path}?{next(NUMBERS)}{place}")
        self.browser.wait_until("document.querySelector('#place') && / /.test(document.querySelector('#place').textContent)")

    def go(self, branch: str, moment: int) -> None:
        """Goes to a moment of a branch by the address, as a link does."""
        self.browser.evaluate("location.hash = arguments[0]", f"#{branch}/{moment}")
        shown = f"document.querySelector('#branches button[aria-pressed=true]').dataset.branch + '/' + parseInt({PLACE})"
        self.browser.wait_until(f"{shown} === arguments[0]", 5, f"{branch}/{moment}")

    def place(self) -> Tuple[int, int]:
        """The moment that is shown, and how many there are."""
        moment, _, all_of = self.browser.text("#place").partition(" / ")
        return int(moment), int(all_of)

    def at(self, moment: int) -> None:
        """Waits until a moment is shown."""
        self.browser.wait_until(f"parseInt({PLACE}) === arguments[0]", 5, moment)
