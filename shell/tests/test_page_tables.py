"""The tables of a page, moment by moment, held against `past BRANCH K` of the program itself, and against what was worked out by hand."""
from __future__ import annotations

import random
import unittest
from functools import lru_cache
from typing import Any, Dict, List, Sequence

from ..console.colours import PLAIN
from ..language.lines import has_word, lines_of
from ..language.names import COUNTERS, NODES
from ..language.records import QUEUES
from ..link.laboratory import Laboratory
from ..model.pair import Node, Pair, other
from ..model.setups import Setup
from ..model.states import State
from ..pages.packing import page
from ..pages.runs import run_of
from ..shows.diffs import between_nodes
from ..shows.words import FLAGS, expires_at, flow, levels, rule_number
from . import program
from .page_cases import QUERY, RULES, RUN, PageCase, desk_folder, example, setUpModule

__all__ = ["setUpModule"]

# Everything that the tables show at a moment, each text in one line. A queue has names by kind, a counter its numbers at a and at b.
SHOWN = """(() => {
  const flat = it => it.textContent.replace(/\\s+/g, " ").trim();
  const all = (root, css) => Array.from(root.querySelectorAll(css));
  const card = it => ({
    kind: ["same", "only", "differ", "no-sync"].filter(one => it.classList.contains(one)).join(),
    flow: flat(it.querySelector(".flow")), levels: flat(it.querySelector(".levels")),
    small: all(it, ".small:not(.rule) span").map(flat), rule: flat(it.querySelector(".rule")),
  });
  const cards = node => all(document, `#tables [data-node=${node}] [data-state]`);
  const table = node => Object.fromEntries(cards(node).map(it => [it.dataset.state, card(it)]));
  const queue = it => Object.fromEntries(all(it, "li:not(.held)").filter(one => one.querySelector("b")).map(one => {
    const kind = flat(one.querySelector("b"));
    return [kind, flat(one).slice(kind.length).trim()];
  }));
  return {a: table("a"), b: table("b"), frames: all(document, "#frames [data-frame]").map(it => [it.dataset.frame, flat(it)]),
    queues: all(document, "#queues > div").map(queue),
    rest: all(document, "#queues > div").map(it => all(it, "li").filter(one => !one.querySelector("b")).map(flat)),
    counters: Object.fromEntries(all(document, "#counters tbody tr").map(it => [flat(it.children[0]), all(it, "td").map(flat)])),
    said: ["#event", "#outcome", "#answer"].map(it => flat(document.querySelector(it)))};
})()"""
# Six flows of four kinds; a state of a rule with no-sync, and a translated one; then loss, a restart and a bulk update.
MANY = """# All kinds of states
set astart 4
set aend 10
rule a block any
rule a pass out
rule a pass out proto 17 from 10.0.0.9/32 no-sync
rule a pass out proto 6 from 10.0.0.8/32 nat 198.51.100.1:4000
rule a pass in proto 1
rule b block any
rule b pass out
open
step main packet a out udp 10.0.0.1:1000 192.0.2.9:53 40
step main packet a out udp 10.0.0.9:1000 192.0.2.9:53 40
step main packet a out tcp 10.0.0.8:1024 192.0.2.22:22 S 0 0 60000 0 2
step main packet a out udp [2001:0db8:0000:0000:0000:0000:0000:0001]:9 [2001:0db8:0000:0000:0000:0000:0000:0002]:53 40
step main packet a in icmp 192.0.2.7:8 10.0.0.1:8 64
step main packet b out udp 10.0.0.1:1000 192.0.2.9:53 40
step main flush a
step main repeat 1
step main cut 2 30
step main deliver 1
step main tick a 61500
step main packet a out 47 10.0.0.1:0 192.0.2.9:0 40
step main purge a
step main flush a
step main deliver 2
step main restart b
step main flush b
step main lose 3
step main deliver 4
step main turn a
step main flush a
step main deliver 5
step main clear a
step main kill b 1.3
"""


def at_its_end(script: str) -> Laboratory:
    """A laboratory in which a script has been run."""
    lab = Laboratory(program())
    for line in filter(has_word, lines_of(script)):
        if lab.is_open:
            lab.ask(line)
        else:
            lab.take_setup(line)
    return lab


def small_of(state: State, node: Node, setup: Setup) -> List[str]:
    """What is said of a state in small words, in whole seconds of its node's clock."""
    left = expires_at(setup, node, state) - node.clock
    said = [f"expires in {left // 1000} s" if left > 0 else "expired"]
    is_past, apart = state.last <= node.clock, abs(node.clock - state.last) // 1000
    said += [f"last used {apart} s {'ago' if is_past else 'ahead of the clock'}", state.timeout_class]
    said += [FLAGS[state.flags]] if state.flags != "-" else []
    said += [f"update count {state.updates}"] if state.updates else []
    return said + ([f"changed by the peer {(node.clock - state.peer) // 1000} s ago"] if state.peer is not None else [])


def kind_of(state: State, pair: Pair, node: str, setup: Setup) -> str:
    """How a state stands against the other node: each node has times, flags and counts of its own, and a rule's number counts where the
    rules are the same."""
    peer = pair.nodes[other(node)].states.get(state.name)
    if peer is None:
        return "no-sync" if state.flags == "n" else "only"
    kept = [(it.protocol, it.direction, it.wire, it.stack, it.source, it.destination, it.timeout_class) for it in (state, peer)]
    is_one = setup.rules["a"] == setup.rules["b"]
    return "differ" if kept[0] != kept[1] or is_one and state.rule != peer.rule else "same"


def queue_of(node: Node) -> Dict[str, str]:
    """The names that wait to be told, by kind, each kind in the order of names."""
    kinds = {QUEUES[it.kind] for it in node.queue}
    return {kind: ", ".join(str(it) for it in sorted(it.name for it in node.queue if QUEUES[it.kind] == kind)) for kind in kinds}


def rest_of(node: Node) -> List[str]:
    """What else is to be told to the peer: requests, the statuses of a bulk update, and clears."""
    asks = ["0.0 (all states)" if str(ask) == "0.0" else str(ask) for ask in node.asks]
    statuses = [{1: "start", 2: "end"}[status] for status in node.statuses]
    told = [f"update request {ask}" for ask in asks] + [f"bulk status {status}" for status in statuses]
    return told + [f"clear creator {clear.creator} up to id {clear.bound}" for clear in node.clears]


@lru_cache(maxsize=None)
def happened(lab: Laboratory, branch: str) -> List[List[str]]:
    """Each event of a branch that stands, with what came of it in a run of its own."""
    its = lab.branch(branch)
    events = its.events[: its.cursor]
    return [[*both] for both in zip(events, lab.outcomes(events))]


def expected(lab: Laboratory, branch: str, moment: int) -> Dict[str, Any]:
    """What the page has to show, out of what the program shows of the past."""
    pair, setup, told = lab.past(branch, moment), lab.setup, {}
    for name in NODES:
        node = pair.nodes[name]
        told[name] = {
            str(state.name): {
                "kind": kind_of(state, pair, name, setup),
                "flow": f"{state.name} {flow(state)}",
                "levels": levels(state),
                "small": small_of(state, node, setup),
            }
            for state in node.states.values()
        }
    said = happened(lab, branch)[moment - 1] if moment else [f"the opening of {branch}", ""]
    return {**told, "frames": sorted(map(str, pair.frames)), "pair": pair, "said": [*said, between_nodes(pair, setup, PLAIN)[0]]}


class Moments(PageCase):
    maxDiff = None

    def moment(self, lab: Laboratory, branch: str, moment: int) -> Any:
        """Goes to a moment, and compares all that is shown there."""
        self.go(branch, moment)
        shown, wanted = self.browser.evaluate(SHOWN), expected(lab, branch, moment)
        with self.subTest(branch=branch, moment=moment):
            pair: Pair = wanted.pop("pair")
            for at, name in enumerate(NODES):
                node = pair.nodes[name]
                rules = {it: card.pop("rule") for it, card in shown[name].items()}
                self.assertEqual(shown[name], wanted[name])
                for it, state in node.states.items():
                    self.assertTrue(rules[str(it)].startswith(rule_number(state.rule)), (rules[str(it)], state.rule))
                self.assertEqual(shown["queues"][at], queue_of(node))
                self.assertEqual(shown["rest"][at][: len(rest_of(node))], rest_of(node))
                held = shown["rest"][at][len(rest_of(node)) :]
                self.assertEqual([it.split()[3].rstrip(":") for it in held], [str(it.name) for it in node.held])
                counters = {it: both[at] for it, both in shown["counters"].items()}
                self.assertEqual(counters, {counter.counts: str(node.counters[counter.name]) for counter in COUNTERS})
            self.assertEqual(shown["said"], wanted["said"])
            self.assertEqual(sorted(it for it, _ in shown["frames"]), wanted["frames"])
            for ticket, text in shown["frames"]:
                self.assertIn(f"to {pair.frames[int(ticket)].to}", text)
        return shown

    def walk(self, script: str, branch: str, moments: Sequence[int]) -> Dict[int, Any]:
        """Goes to moments in turn: what is shown at each, which is the same whenever one comes there."""
        lab = at_its_end(script)
        self.addCleanup(lab.close)
        self.open(script)
        seen: Dict[int, Any] = {}
        for moment in moments:
            shown = self.moment(lab, branch, moment)
            self.assertEqual(shown, seen.setdefault(moment, shown), f"moment {moment}, as it was when it was shown first")
        return seen

    def test_each_moment_of_examples(self) -> None:
        for name in ("lost-insertion", "adaptive-timeouts", "lost-bulk-frame"):
            with self.subTest(name):
                lab = at_its_end(example(name))
                self.open(example(name))
                for branch in lab.names():
                    for moment in range(lab.branch(branch).cursor + 1):
                        self.moment(lab, branch, moment)
                lab.close()

    def test_each_moment_of_all_kinds_of_states_and_back(self) -> None:
        self.walk(MANY, "main", [*range(25), *range(23, -1, -2)])

    def test_held_packets(self) -> None:
        seen = self.walk(example("asymmetric-routing-deferred"), "main", range(7))
        self.assertTrue([line for it in seen.values() for line in it["rest"][0] if line.startswith("held packet of 1.1")])

    def test_timeouts_that_the_number_of_states_makes_none(self) -> None:
        # With a limit of one state the adaptive end is 1, and the lone state has no time left.
        seen = self.walk(f"set states 1\n{RULES}step main {QUERY}\nstep main tick a 1\n", "main", range(3))
        self.assertEqual([it["a"]["1.1"]["small"][0] for it in (seen[1], seen[2])], ["expired", "expired"])

    def test_last_uses_that_are_yet_to_come(self) -> None:
        # By the kernel's rule b has the state for the 600 seconds that a has said.
        rules = "kernel expiry\nrule a pass out timeout udp.first 600\nrule b pass out\nopen\n"
        events = (QUERY, "flush a", "deliver 1", "tick b 1500", QUERY, "flush a", "deliver 2")
        seen = self.walk(rules + "".join(f"step main {event}\n" for event in events), "main", range(8))
        self.assertEqual([seen[it]["b"]["1.1"]["small"][1] for it in (3, 4)], [f"last used {it} s ahead of the clock" for it in (540, 538)])

    def test_random_jumps(self) -> None:
        chance = random.Random(7)
        self.walk(MANY, "main", [chance.randint(0, 24) for _ in range(25)])

    def test_a_former_branch_is_what_was_undone(self) -> None:
        before, _, _ = RUN.partition("back main 2")
        lab = at_its_end(before)
        self.open(RUN)
        for moment in (5, 4, 0, 3):
            self.go("main~1", moment)
            shown, wanted = self.browser.evaluate(SHOWN), expected(lab, "main", moment)
            self.assertEqual(*({it: card["levels"] for it, card in one["a"].items()} for one in (shown, wanted)))
            self.assertEqual([it for it, _ in shown["frames"]], wanted["frames"])
        lab.close()


class Unknown(PageCase):
    def test_moments_after_which_the_tables_were_not_asked_for(self) -> None:
        made = run_of(program(), lines_of(RUN), "run")
        run: Dict[str, Any] = made.as_data()
        made.close()
        for unseen in run["branches"][0]["moments"][1:3]:
            unseen["edits"] = None
        path = f"{desk_folder()}/unknown.html"
        with open(path, "w", encoding="utf-8") as file:
            file.write(page(run))
        self.open_file(path, "#main/1")
        self.assertEqual(self.browser.text("#as-of"), "")
        for moment in (2, 3):
            self.browser.keys_at("#slider", "ArrowRight")
            self.at(moment)
            self.assertIn("Tables as after event 1", self.browser.text("#as-of"))
            self.assertEqual(list(self.browser.evaluate(SHOWN)["a"]), ["1.1"])
        self.browser.keys_at("#slider", "ArrowRight")
        self.at(4)
        self.assertEqual(self.browser.text("#as-of"), "")


class Differences(PageCase):
    # b has 1.1 as it was first, and a and b each have one flow that the other was not told of; 1.3 is of a rule with no-sync.
    SETUP = RULES.replace("open", "rule a pass out from 10.0.0.3/32 no-sync\nrule b pass out from 10.0.0.3/32 no-sync\nopen")
    SCRIPT = f"""{SETUP}step main packet a out udp 10.0.0.1:1000 192.0.2.9:53 40
step main flush a
step main deliver 1
step main packet a in udp 192.0.2.9:53 10.0.0.1:1000 80
step main packet a out udp 10.0.0.2:1000 192.0.2.9:53 40
step main packet a out udp 10.0.0.3:1000 192.0.2.9:53 40
step main packet b out udp 10.0.0.4:1000 192.0.2.9:53 40
"""

    def kinds(self, node: str) -> Dict[str, str]:
        return {it: card["kind"] for it, card in self.browser.evaluate(SHOWN)[node].items()}

    def test_classes_and_signs(self) -> None:
        self.open(self.SCRIPT, "#main/3")
        self.assertEqual((self.kinds("a"), self.kinds("b")), ({"1.1": "same"}, {"1.1": "same"}))
        self.go("main", 7)
        self.assertEqual(self.kinds("a"), {"1.1": "differ", "1.2": "only", "1.3": "no-sync"})
        self.assertEqual(self.kinds("b"), {"1.1": "differ", "2.1": "only"})
        for place, words in (("a", {"1.1": "differs", "1.2": "only", "1.3": "no-sync"}), ("b", {"1.1": "differs", "2.1": "only"})):
            for name, word in words.items():
                self.assertIn(word, self.browser.text(f"#tables [data-node={place}] [data-state='{name}']"))

    def test_field_by_field(self) -> None:
        self.open(self.SCRIPT, "#main/7")
        # The answer brought the source to MULTIPLE, the destination to SINGLE, and the class to udp.single, at a alone.
        at_a, at_b = (self.browser.text(f"#tables [data-node={node}] [data-state='1.1']") for node in NODES)
        told = ("source level", "MULTIPLE", "SINGLE"), ("destination level", "SINGLE", "NO_TRAFFIC"), ("class", "udp.single", "udp.first")
        for field, one, two in told:
            self.assertRegex(at_a, f"{field} here {one}, at b {two}")
            self.assertRegex(at_b, f"{field} here {two}, at a {one}")
        self.assertEqual((self.browser.count("#tables dl"), self.browser.count("#tables dl dt")), (2, 6))

    def test_two_names_of_a_flow(self) -> None:
        self.open(example("lost-bulk-frame"), "#main/21")
        for node, name, words in (("a", "1.1", "only here; b has this flow as 3.1"), ("b", "3.1", "only here; a has this flow as 1.1")):
            self.assertIn(words, self.browser.text(f"#tables [data-node={node}] [data-state='{name}']"))
        self.assertRegex(self.browser.text("#answer"), "1 flow has two names$")

    def test_the_answer(self) -> None:
        self.open(self.SCRIPT, "#main/7")
        self.assertIn("a and b differ in 3 states: 1 only on a, 1 only on b, 1 differ", self.browser.text("#answer"))
        self.go("main", 3)
        self.assertIn("a and b agree in 1 state", self.browser.text("#answer"))


if __name__ == "__main__":
    unittest.main()
