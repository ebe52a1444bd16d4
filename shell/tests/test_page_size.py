"""Large pages: how soon they open, and how they are stepped through and searched."""
from __future__ import annotations

import unittest
from typing import Any, Dict, List, Mapping, Optional

from ..pages.packing import page
from ..pages.runs import run_of
from . import program
from .page_cases import RULES, PageCase, desk_folder, setUpModule

__all__ = ["setUpModule"]

# Notes when the tables are on the screen for the first time, from the beginning of the navigation on.
WATCH = """(function look() {
  if (!document.querySelector("#tables [data-node=b] > *")) { requestAnimationFrame(look); return; }
  requestAnimationFrame(() => setTimeout(() => { window.shownAfter = performance.now(); }));
})()"""
# How long a step takes, from the click until it is on the screen.
STEP = """new Promise(done => {
  const from = performance.now();
  document.querySelector(arguments[0]).click();
  requestAnimationFrame(() => setTimeout(() => done(performance.now() - from)));
})"""
# How long a search takes.
SEEK = """new Promise(done => {
  const from = performance.now(), field = document.querySelector("#search");
  field.value = arguments[0];
  field.dispatchEvent(new Event("input", {bubbles: true}));
  requestAnimationFrame(() => setTimeout(() => done(performance.now() - from)));
})"""
# Whether the marked row is within what is seen of the chart.
IN_SIGHT = """(() => {
  const row = document.querySelector("#chart .now").getBoundingClientRect(), box = document.querySelector("#chart").getBoundingClientRect();
  return row.top >= box.top && row.bottom <= box.bottom;
})()"""
# (other work on the machine may take so many times the time)
SLOWNESS = 3
CROWD = 60000
STEPS = 40


def of_events(number: int) -> List[str]:
    """A script of so many events: queries and answers of many hosts, their frames, and times that go on."""
    lines: List[str] = []
    for at in range(number // 10):
        source = f"10.0.{at // 250}.{at % 250}:1000"
        sent, lost = 2 * at + 1, 2 * at + 2
        lines += [f"packet a out udp {source} 192.0.2.9:53 40", "flush a", f"deliver {sent}"]
        lines += [f"packet a in udp 192.0.2.9:53 {source} 80", "flush a", f"lose {lost}"]
        lines += ["tick a 7000", "tick b 7000", "purge a", "purge b"]
    return ["# A long run", *RULES.splitlines(), *(f"step main {line}" for line in lines)]


def of_many_events(times: int) -> Dict[str, Any]:
    """A run of so many times a hundred events, which come again and again: each as the program has it."""
    made = run_of(program(), of_events(100), "long")
    run: Dict[str, Any] = made.as_data()
    made.close()
    branch = run["branches"][0]
    chart, moments = branch["chart"], branch["moments"]

    def later(sheet: Dict[str, Any], time: int) -> Dict[str, Any]:
        before = time * len(moments)
        rows = [[first + before, last + before, top, bottom] for first, last, top, bottom in sheet["rows"]]
        return {**sheet, "top": sheet["top"] + time * chart["height"], "rows": rows}

    sheets = [later(it, time) for time in range(times) for it in chart["sheets"]]
    chart.update(height=chart["height"] * times, sheets=sheets)
    branch["moments"] = moments * times
    return run


def address(number: int) -> str:
    return f"10.{number // 62500}.{number // 250 % 250}.{number % 250}"


def state_of(number: int, level: str = "SINGLE") -> Dict[str, object]:
    flow = f"udp {address(number)}:1000 -> 192.0.2.9:53"
    times = {"last": 0, "timeout": 60, "peer": None, "updates": 0}
    kind = {"class": "udp.first", "flags": "", "rule": "rule 1: pass out"}
    return {"flow": flow, "levels": f"{level}:NO_TRAFFIC", "ends": [], **kind, **times}


def node_at(clock: int) -> Dict[str, object]:
    return {"clock": clock, "scale": [1, 1], "numbers": [["boot", "1"]], "counters": [["packets passed", clock]], "scaling": ""}


def moment_of(number: int) -> Dict[str, object]:
    """An event that uses one state anew, and lets the clock go on."""
    edits = {f"a/state/1.{number}": state_of(number, "MULTIPLE"), "a": node_at(number * 1000), "b": node_at(number * 1000)}
    told = {"notes": [], "why": ["a reason"], "changes": [["", "a change"]]}
    return {"event": "tick a 1000", "outcome": "clock", "tone": "", **told, "edits": edits}


def crowded() -> Dict[str, object]:
    """A run whose nodes have 60,000 states each."""
    opening: Dict[str, object] = {"a": node_at(0), "b": node_at(0), "link": [["next ticket", "1"]]}
    opening["pair"] = {"answer": f"a and b agree in {CROWD} states", "agree": True, "lines": []}
    for node in "ab":
        opening.update({f"{node}/state/1.{number}": state_of(number) for number in range(1, CROWD + 1)})
    moments = [moment_of(it) for it in range(1, STEPS + 1)]
    gone: Dict[str, Optional[object]] = {f"a/state/1.{number}": None for number in range(1, CROWD + 1)}
    moments.append({**moment_of(STEPS + 1), "event": "clear a", "edits": gone})
    rows = [[it, it, 20 * it, 20 * it + 20] for it in range(1, STEPS + 2)]
    sheet = {"top": 0, "height": 20 * STEPS + 60, "rows": rows, "elements": [], "ways": []}
    chart = {"width": 600, "height": sheet["height"], "lanes": {"a": 150, "b": 450}, "heads": {"a": "a", "b": "b"}, "sheets": [sheet]}
    branch = {"name": "main", "former": False, "undone": 0, "opening": opening, "notes": [], "moments": moments, "chart": chart}
    return {"title": "A crowd", "intro": [], "setup": ["open"], "by": "by the profile", "branches": [branch], "live": None}


def written(run: Mapping[str, object]) -> str:
    """The file of a run's page."""
    path = f"{desk_folder()}/large.html"
    with open(path, "w", encoding="utf-8") as it:
        it.write(page(run))
    return path


class Opens(PageCase):
    def setUp(self) -> None:
        super().setUp()
        added = self.browser.cdp("Page.addScriptToEvaluateOnNewDocument", source=WATCH)
        self.addCleanup(self.browser.cdp, "Page.removeScriptToEvaluateOnNewDocument", identifier=added["identifier"])

    def opens_within(self, milliseconds: float, events: int) -> None:
        self.open_file(written(of_many_events(events // 100)))
        self.assertEqual(self.place()[1], events)
        self.browser.wait_until("window.shownAfter", 20)
        self.assertLess(self.browser.evaluate("window.shownAfter"), milliseconds * SLOWNESS)

    def test_a_run_of_300_events_opens_in_a_second(self) -> None:
        self.opens_within(1000, 300)

    def test_a_run_of_10000_events_opens_in_two_seconds(self) -> None:
        self.opens_within(2000, 10000)
        for button, moment in (("first", 0), ("last", 10000), ("back", 9999)):
            self.assertLess(self.browser.evaluate(STEP, f"#{button}"), 1000 * SLOWNESS)
            self.at(moment)
        # Of a hundred events and more few sheets are in the document, and the marked row is in sight.
        self.assertLess(self.browser.count("#chart svg"), 10)
        self.assertTrue(self.browser.evaluate(IN_SIGHT))


class Crowd(PageCase):
    path = ""

    def setUp(self) -> None:
        super().setUp()
        if not Crowd.path:
            Crowd.path = written(crowded())
            self.open_file(Crowd.path)
        self.browser.evaluate(SEEK, "")
        self.browser.evaluate("document.querySelector('#first').click()")
        self.at(0)

    def cards(self, node: str) -> List[str]:
        of_node = f"document.querySelectorAll('#tables [data-node={node}] [data-state]')"
        return list(self.browser.evaluate(f"Array.from({of_node}, it => it.dataset.state)"))

    def test_at_most_fifty_states_of_a_node_are_in_the_document(self) -> None:
        for node in "ab":
            self.assertEqual(self.cards(node), [f"1.{it}" for it in range(1, 51)])
            self.assertIn("60,000", self.browser.text(f"#tables [data-node={node}]"))
        self.browser.keys_at("#slider", "End")
        self.at(STEPS + 1)
        self.assertEqual((self.cards("a"), len(self.cards("b"))), ([], 50))

    def test_search_finds_by_name_and_by_address(self) -> None:
        self.browser.keys_at("#slider", *["ArrowRight"] * 7)
        self.at(7)
        for sought, number in (("1.59999", 59999), (f"{address(43210)}:", 43210), (f"multiple {address(7)}:", 7)):
            self.assertLess(self.browser.evaluate(SEEK, sought), 2000 * SLOWNESS)
            self.assertEqual(self.cards("a"), [f"1.{number}"])
        self.browser.evaluate(SEEK, "10.9.9.9")
        self.assertEqual((self.cards("a"), self.cards("b")), ([], []))

    def test_a_step_is_quick(self) -> None:
        took = [self.browser.evaluate(STEP, "#forward") for _ in range(10)]
        took.append(self.browser.evaluate(STEP, "#back"))
        self.browser.evaluate(SEEK, "10.0.")
        took.append(self.browser.evaluate(STEP, "#forward"))
        self.assertLess(max(took), 200 * SLOWNESS, took)
        self.assertLess(sorted(took)[len(took) // 2], 200, took)


if __name__ == "__main__":
    unittest.main()
