"""Files of pf.conf as firewalls have them, with flows worked out by hand: the program, given the setup that `./lab import` writes, does
with each of them what pf.conf(5) says."""
from __future__ import annotations

import re
import unittest
from functools import lru_cache
from glob import glob
from os.path import basename
from typing import Dict, List, Tuple

from ..link.laboratory import Laboratory
from ..model.explanations import Judged
from . import laboratory
from .flows import Flow, Flows
from .imports import CONFS, Imported, imported

NAMES = sorted(basename(it)[: -len(".flows")] for it in glob(f"{CONFS}/*.flows"))
FEWEST_FILES, FEWEST_FLOWS = 10, 8
# With `--about` one of so many is tried, since each needs an import of its own.
EACH = 13
_NUMBERED = re.compile(r"# (\S+:[0-9]+) @([0-9.]+) ")
_REPORTED = re.compile(r"(\S+:[0-9]+): (approximated|out): (.*)")


@lru_cache(maxsize=None)
def flows_of(name: str) -> Flows:
    return Flows.read(name)


@lru_cache(maxsize=None)
def imported_of(name: str, *more: str) -> Imported:
    return imported(f"{CONFS}/{name}.conf", *flows_of(name).words, *more)


def short(origin: str, name: str) -> str:
    """Where a rule is from, as a file of flows has it: the line, and the translation that comes first."""
    place, _, after = origin.partition(" @")
    _, _, translation = after.partition(", ")
    return f"{place} {translation}".replace(f"{name}.conf:", "").strip()


def fate(lab: Laboratory, flow: Flow, name: str) -> Tuple[str, str]:
    """What becomes of a flow, in the words of its file, and the rule that decides; the packet is taken back."""
    outcome = lab.ask(f"step main {flow.event}")[0].split()[1:-2]
    reason, states = lab.explanation("main", 1).reason, [*lab.show("main").nodes["a"].states.values()]
    lab.ask("back main 1")
    assert isinstance(reason, Judged)
    rule = lab.setup.rule("a", reason.rule)
    where = short(rule.origin, name) if rule else "-"
    if not states:
        return "no state" if outcome == ["pass", "-"] else outcome[1], where
    (state,) = states
    if state.wire == state.stack:
        return "pass", where
    kind, near = ("rdr", state.stack.near) if state.direction == "in" else ("nat", state.wire.near)
    return flow.verdict if flow.is_translated and flow.verdict.startswith(kind) and flow.has_near(near) else f"{kind} {near}", where


class ByHand(unittest.TestCase):
    """Each of these files, against what is worked out by hand."""

    def test_there_are_enough_of_them(self) -> None:
        counts = {name: len(flows_of(name).flows) for name in NAMES}
        self.assertGreaterEqual(len(counts), FEWEST_FILES)
        self.assertGreaterEqual(min(counts.values()), FEWEST_FLOWS, counts)
        # Each names the rule, or those that it passes by.
        self.assertEqual([flow for name in NAMES for flow in flows_of(name).flows if not re.search("[0-9]", flow.why)], [])

    def test_the_sums(self) -> None:
        for name in NAMES:
            with self.subTest(name):
                its = flows_of(name)
                said = [it.partition(f"{name}.conf: ")[2] for it in imported_of(name).said if " exact, " in it]
                self.assertEqual([one[: len(other)] for one, other in zip(said, its.sums)], its.sums)
                self.assertEqual(len(said), len(its.sums))

    def test_the_numbers_of_pf(self) -> None:
        for name in NAMES:
            with self.subTest(name):
                said = [found for found in map(_NUMBERED.match, imported_of(name).comments) if found]
                firsts = {short(it[1], name): it[2] for it in reversed(said)}
                self.assertEqual({line: firsts.get(line) for line in flows_of(name).numbers}, flows_of(name).numbers)

    def test_what_is_not_exact_and_why(self) -> None:
        for name in NAMES:
            its = flows_of(name)
            said = [found for found in map(_REPORTED.match, imported_of(name).said) if found]
            whys: Dict[Tuple[str, str], List[str]] = {}
            for place, verdict, why in (it.groups() for it in said):
                whys.setdefault((verdict, short(place, name)), []).append(why)
            with self.subTest(name):
                self.assertEqual([*whys], [*its.judged])
            for key, why in its.judged.items():
                with self.subTest(name, line=key[1]):
                    self.assertIn(why, "; ".join(whys.get(key, [])))

    def test_the_flows(self) -> None:
        for name in NAMES:
            its = flows_of(name)
            lab = laboratory("\n".join(imported_of(name).setup))
            self.addCleanup(lab.close)
            for flow in its.flows:
                with self.subTest(f"{name}.flows:{flow.number}", why=flow.why):
                    self.assertEqual(fate(lab, flow, name), (flow.verdict, flow.rule), flow.packet)

    def test_some_flows_by_the_rules_about_their_far_end(self) -> None:
        for name, flow in ((name, it) for name in NAMES for it in flows_of(name).flows[::EACH]):
            lab = laboratory("\n".join(imported_of(name, "--about", f"far={flow.far}").setup))
            self.addCleanup(lab.close)
            with self.subTest(f"{name}.flows:{flow.number}", far=flow.far):
                self.assertEqual(fate(lab, flow, name), (flow.verdict, flow.rule), flow.packet)


if __name__ == "__main__":
    unittest.main()
