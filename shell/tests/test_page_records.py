"""A page's record of a branch, moment by moment, against pairs that are read whole."""
from __future__ import annotations

import random
import unittest
from glob import glob
from typing import Dict, List, cast

from ..console.colours import PLAIN
from ..language.lines import lines_of
from ..model.branches import Branch
from ..model.pair import Pair
from ..model.setups import Setup
from ..pages import record as records
from ..pages.facts import Facts, Looker
from ..pages.record import Record
from ..pages.runs import run_of
from ..scripts.proofreading import faulty
from ..scripts.texts import read
from ..shows.diffs import between_nodes
from . import TOP, program

RULES = ["rule a pass out", "rule b pass out"]
FLOW = "udp 10.0.0.1:1000 192.0.2.9:53 40"


def laid_over(record: Record, number: int) -> Facts:
    """The facts of a moment as a page has them: those of the opening, and what each event until then changed."""
    facts = dict(record.opening)
    for it in record.moments[:number]:
        facts.update(it.edits or {})
    return {key: value for key, value in facts.items() if value is not None}


def whole(record: Record, number: int) -> Facts:
    """The facts of a moment out of the whole pair, which is looked at for the first time."""
    lab = record.laboratory

    def with_contents(pair: Pair) -> Pair:
        return lab.with_contents(pair, Branch("main", [moment.event for moment in record.moments], number))

    looker = Looker(lab.setup, with_contents)
    return looker.take(lab.ask(f"past main {number}")).edits


def scripts_without_faults(pattern: str, each: int) -> List[str]:
    """Every so-many-th of these scripts, if it has no fault."""
    paths = sorted(glob(f"{TOP}/{pattern}"))[::each]
    return [path for path in paths if not faulty(program(), lines_of(read(path)))]


class OfRecords(unittest.TestCase):
    """A test over records."""

    def record(self, *events: str) -> Record:
        record = Record(program(), Setup.of(RULES), "main")
        self.addCleanup(record.close)
        record.sync(Branch("main", list(events), len(events)))
        return record

    def compare(self, record: Record) -> None:
        """Each moment's facts are those of the pair."""
        for number in range(len(record.moments) + 1):
            facts = laid_over(record, number)
            self.assertEqual(facts, {k: v for k, v in whole(record, number).items() if v is not None}, number)
            lab = record.laboratory
            answer, *_ = between_nodes(lab.past("main", number), lab.setup, PLAIN)
            self.assertEqual(cast(Dict[str, object], facts["pair"])["answer"], answer, number)


class Records(OfRecords):
    def test_each_moment_of_examples_and_cases(self) -> None:
        for path in [*scripts_without_faults("examples/*.pfl", 1), *scripts_without_faults("crates/test_cases/data/cases/*.pfl", 12)]:
            with self.subTest(path):
                run = run_of(program(), lines_of(read(path)), path)
                for record in run.records:
                    self.compare(record)
                run.close()

    def test_outcomes_and_changes(self) -> None:
        record = self.record(f"packet a out {FLOW}", "flush a", "lose 1")
        self.assertEqual([moment.outcome for moment in record.moments], ["pass 1.1", "sent 1 148", "lost"])
        self.assertEqual(record.moments[2].changes, [("bad", "link: frame 1 gone: to b, 148 bytes: 1 insert")])
        self.assertEqual(record.moments[2].edits and sorted(record.moments[2].edits), ["frame/1", "pair"])


class Synchronised(OfRecords):
    """A record that follows a branch back and on."""

    def test_back_and_another_event(self) -> None:
        record = self.record(f"packet a out {FLOW}", "flush a", "lose 1")
        self.assertEqual(record.sync(Branch("main", [f"packet a out {FLOW}", "flush a", "lose 1"], 2)), 2)
        self.assertEqual((len(record.moments), record.undone), (2, 1))
        self.assertEqual(record.sync(Branch("main", [f"packet a out {FLOW}", "flush a", "deliver 1"], 3)), 2)
        self.assertEqual([moment.outcome for moment in record.moments], ["pass 1.1", "sent 1 148", "taken 1"])
        self.compare(record)

    def test_the_opening_again(self) -> None:
        record = self.record(f"packet a out {FLOW}", "flush a")
        self.assertEqual(record.sync(Branch("main", [], 0)), 0)
        self.assertEqual(laid_over(record, 0), whole(record, 0))

    def test_an_event_out_of_the_middle(self) -> None:
        record = self.record(f"packet a out {FLOW}", "tick a 5", "flush a", "deliver 1")
        self.assertEqual(record.sync(Branch("main", [f"packet a out {FLOW}", "flush a", "deliver 1"], 3)), 1)
        self.compare(record)

    def test_at_random(self) -> None:
        dice = random.Random(7)
        kinds = [f"packet a out {FLOW}", f"packet a out {FLOW.replace('1000', '1001')}", "flush a", "tick a 70000", "purge a", "restart b"]
        record, events = self.record(), [""]
        for _ in range(40):
            events = [event for event in events[: dice.randrange(len(events) + 1)] if event]
            events += dice.choices(kinds[:2], k=1) + dice.choices(kinds, k=3)
            taken = self.accepted(events)
            record.sync(Branch("main", taken, len(taken)))
            self.compare(record)
            events = taken

    def accepted(self, events: List[str]) -> List[str]:
        """Those of the events that are accepted one after another."""
        replies = self.record().laboratory.run([f"step main {event}" for event in events])
        return [it for it, reply in zip(events, replies) if reply[0].startswith("step")]


class NotEachLookedAt(OfRecords):
    """A run that is too large to be looked at after each event."""

    def setUp(self) -> None:
        self.most, records.MOST_SHOWN = records.MOST_SHOWN, 120
        self.addCleanup(setattr, records, "MOST_SHOWN", self.most)

    def events(self, many: int) -> List[str]:
        return [f"packet a out {FLOW.replace('1000', str(1000 + it))}" for it in range(many)]

    def test_the_last_moment_is_looked_at(self) -> None:
        record = self.record(*self.events(12))
        seen = [number for number, it in enumerate(record.moments, 1) if it.edits is not None]
        self.assertLess(len(seen), 12)
        self.assertEqual(seen[-1], 12)
        for number in seen:
            self.assertEqual(laid_over(record, number), whole(record, number), number)
        unseen = next(moment for moment in record.moments if moment.edits is None)
        self.assertEqual((unseen.why, unseen.changes), (["rule 0 pass", f"new {unseen.outcome.split()[1]}"], ()))

    def test_back_to_a_moment_that_was_not_looked_at(self) -> None:
        record = self.record(*self.events(12))
        at = next(number for number, it in enumerate(record.moments, 1) if it.edits is None)
        self.assertEqual(record.sync(Branch("main", self.events(12), at)), at - 1)
        self.assertEqual(laid_over(record, at), whole(record, at))
        record.sync(Branch("main", [*self.events(12)[:at], "flush a"], at + 1))
        self.assertEqual(laid_over(record, at + 1), whole(record, at + 1))


if __name__ == "__main__":
    unittest.main()
