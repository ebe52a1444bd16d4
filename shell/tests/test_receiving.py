"""What the records of a frame make of states, and when these were last used, by the profile and by the kernel's rule `expiry`; no program is
asked. All numbers are worked out by hand from docs/FORMATS.md and docs/KERNEL.md."""
from __future__ import annotations

import unittest
from typing import List, Optional, Sequence, Tuple

from ..language.names import Name
from ..language.records import BY_WORD
from ..model.checksums import rules_checksum
from ..model.explanations import TakenRecord
from ..model.frames import HEADER, Frame, Record
from ..model.pair import Node, read_shown
from ..model.receiving import Came, received
from ..model.setups import Setup
from ..shows.words import expires_at

KEYS = "192.0.2.9:53 10.0.0.{0}:1000 192.0.2.9:53 10.0.0.{0}:1000"
SINGLE = "1 - 0 0 0 0 - 0 0 0"
# The sender has one rule, and so has b.
RULES = ("rule a pass out", "rule b pass out")
# What the sender's rules give 600 seconds, and b's do not.
OTHER_RULES = ("rule a pass out timeout udp.first 600", "rule b pass out")


def inserted(number: int, remaining: int, rule: str = "0") -> Record:
    """An insertion of a state of one packet, with so many seconds left."""
    return Record.read(f"ins 1.{number} udp out {KEYS.format(number)} {SINGLE} udp.first {remaining} {rule} -".split())


def updated(number: int, remaining: int, levels: str = "1 0", timeout_class: str = "udp.single") -> Record:
    """A short update, with so many seconds left."""
    source, destination = levels.split()
    return Record.read(f"updc 1.{number} {source} - 0 0 0 {destination} - 0 0 0 {timeout_class} {remaining}".split())


def taken(record: Record, fate: str) -> TakenRecord:
    return TakenRecord(record.kind, record.about, tuple(fate.split()))


def node_b(clock: int, *states: str) -> Node:
    """Node b with states, each `NUMBER LAST RULE` and its levels."""
    lines = [
        f"state b 1.{number} udp out {KEYS.format(number)} {one} - 0 0 0 {two} - 0 0 0 udp.single {last} {rule} - 0 0"
        for number, last, rule, one, two in map(str.split, states)
    ]
    return read_shown(
        [
            *("branch main events 0 cursor 0", "node a clock 0 boot 1 id 9 seq 9 push 0 serve - sync -", "count a 0 0 0 0 0 0 0"),
            *(f"node b clock {clock} boot 2 id 9 seq 9 push 0 serve - sync -", "count b 0 0 0 0 0 0 0", *lines),
            *("link next 1 boot 3", "end"),
        ]
    ).b


class LastUses(unittest.TestCase):
    def came(self, words: str, lines: Sequence[str], node: Node, *records: Tuple[Record, str]) -> List[Optional[Came]]:
        """What comes of the records, each with its fate, of a sender with the rules of a."""
        setup = Setup.of([*lines, *([f"kernel {words}"] if words else [])])
        data = bytes(4) + bytes.fromhex(rules_checksum(setup.rules["a"])) + bytes(HEADER - 20)
        frame = Frame(1, "b", data, tuple(it for it, _ in records))
        return [*received(setup, setup.kernel, node, frame, [taken(*record) for record in records])]

    def last(self, words: str, lines: Sequence[str], clock: int, remaining: int) -> Tuple[int, int]:
        """When an imported state was last used, and when it expires."""
        node = node_b(clock)
        (came,) = self.came(words, lines, node, (inserted(1, remaining), "imported 0"))
        assert came
        node.states[came.state.name] = came.state
        return came.state.last, expires_at(Setup.of(lines), node, came.state)

    def test_what_is_left_of_an_imported_state(self) -> None:
        for lines, clock, remaining, profile, kernel in (
            (RULES, 100000, 60, (100000, 160000), (100000, 160000)),
            (RULES, 100000, 25, (65000, 125000), (65000, 125000)),
            # Nothing left is all of it by the kernel.
            (RULES, 100000, 0, (40000, 100000), (100000, 160000)),
            # It is not before 0.
            (RULES, 7000, 1, (0, 60000), (0, 60000)),
            (RULES, 7000, 0, (0, 60000), (7000, 67000)),
            # More than the timeout that b has for it is cut by the profile.
            (OTHER_RULES, 0, 600, (0, 60000), (540000, 600000)),
            (OTHER_RULES, 100000, 61, (100000, 160000), (101000, 161000)),
            (OTHER_RULES, 100000, 4294967295, (100000, 160000), (4294967335000, 4294967395000)),
            # The rule that it keeps counts, and then `set timeout`; what has no seconds at all expires at once.
            (("rule a pass out timeout udp.first 10", "rule b pass out timeout udp.first 10"), 100000, 4, (94000, 104000), (94000, 104000)),
            (("set timeout udp.first 20", *RULES), 100000, 5, (85000, 105000), (85000, 105000)),
            (("set timeout udp.first 0", *RULES), 100000, 0, (100000, 100000), (100000, 100000)),
        ):
            for words in ("", "window loose merge reset scale"):
                self.assertEqual(self.last(words, lines, clock, remaining), profile, (words, lines, clock, remaining))
            for words in ("expiry", "all"):
                self.assertEqual(self.last(words, lines, clock, remaining), kernel, (words, lines, clock, remaining))

    def test_the_number_of_states_shortens_the_profiles_timeouts_alone(self) -> None:
        """The three records meet no state, one and two; b has 60 s, 60 and 45 then, and the sender says 30."""
        lines = ("set astart 1", "set aend 5", *RULES)
        records = [(inserted(it, 30), "imported 0") for it in (1, 2, 3)]
        for words, wanted in (("", [70000, 70000, 85000]), ("expiry", [70000, 70000, 70000])):
            self.assertEqual([it and it.state.last for it in self.came(words, lines, node_b(100000), *records)], wanted)

    def test_states_that_the_frame_deletes_count_no_more(self) -> None:
        lines = ("set astart 1", "set aend 5", *RULES)
        deleted = Record(BY_WORD["delc"], ("1.1",)), "deleted"
        records = [(inserted(it, 30), "imported 0") for it in (1, 2, 3)]
        came = self.came("", lines, node_b(100000), *records[:2], deleted, records[2])
        self.assertEqual([it and it.state.last for it in came], [70000, 70000, None, 70000])

    def test_rules_are_kept_where_both_have_the_same(self) -> None:
        for lines, rule, kept in ((RULES, "0", 0), (RULES, "1", None), (RULES, "-", None), (OTHER_RULES, "0", None)):
            (came,) = self.came("", lines, node_b(0), (inserted(1, 60, rule), "imported 0"))
            self.assertEqual(came and came.state.rule, kept, (lines, rule))

    def test_what_comes_as_an_update_has_no_rule_by_the_kernel(self) -> None:
        """So its timeout is that of no rule: of 600 seconds 500 are left, and b's default is 60."""
        lines = ("rule a pass out timeout udp.first 600", "rule b pass out timeout udp.first 600")
        for words, whole, kept, last in (
            *(("", "ins", 0, 900000), ("", "upd", 0, 900000), ("merge", "upd", 0, 900000), ("rule", "ins", 0, 900000)),
            *(("rule", "upd", None, 1000000), ("rule expiry", "upd", None, 1440000), ("expiry", "upd", 0, 900000)),
        ):
            record = Record.read(f"{whole} 1.1 udp out {KEYS.format(1)} {SINGLE} udp.first 500 0 -".split())
            (came,) = self.came(words, lines, node_b(1000000), (record, "imported 0"))
            self.assertEqual(came and (came.state.rule, came.state.last), (kept, last), (words, whole))

    def test_a_clear_has_no_bound_by_the_kernel(self) -> None:
        """The last record meets two states of three by the profile, of which b's timeout is 45 s, and none by the kernel."""
        lines = ("set astart 1", "set aend 5", *RULES)
        records = [(inserted(it, 30), "imported 0") for it in (1, 2, 3, 4)]
        for words, cleared, last in (("", "cleared 1", 85000), ("clear", "cleared 3", 70000)):
            clear = Record(BY_WORD["clr"], ("1", "1")), cleared
            came = self.came(words, lines, node_b(100000), *records[:3], clear, records[3])
            self.assertEqual([it and it.state.last for it in came], [70000, 70000, 85000, None, last])

    def test_a_merge_is_a_use_by_the_kernel(self) -> None:
        """The class that comes has 30 s, and b's rule none of its own."""
        for words, remaining, wanted in (
            *(("", 10, 80000), ("merge", 10, 80000), ("", 30, 100000), ("", 99, 100000), ("", 0, 70000)),
            *(("expiry", 10, 100000), ("expiry", 0, 100000), ("all", 99, 100000)),
        ):
            (came,) = self.came(words, RULES, node_b(100000, "1 5000 0 1 0"), (updated(1, remaining), "merged - 0"))
            found = came and (came.state.last, came.state.timeout_class, came.state.rule)
            self.assertEqual(found, (wanted, "udp.single", 0), (words, remaining))

    def test_unless_both_ends_are_stale(self) -> None:
        held, stale = "1 5000 - 2 1", {"1 0": ("source", "destination"), "2 0": ("destination",), "1 1": ("source",)}
        for levels, ends in stale.items():
            for words, last in (("", 80000), ("expiry", 100000), ("all", 100000)):
                (came,) = self.came(words, RULES, node_b(100000, held), (updated(1, 10, levels), "merged both 0"))
                assert came and came.merged
                self.assertEqual(came.merged.stale, ends)
                self.assertEqual(came.state.last, 5000 if len(ends) == 2 else last, (levels, words))

    def test_an_update_of_what_the_frame_has_brought(self) -> None:
        """It finds the rule that the state got, by which it has 5 s."""
        lines = ("rule a pass out timeout udp.single 5", "rule b pass out timeout udp.single 5")
        records = (inserted(1, 60), "imported 0"), (updated(1, 2), "merged - 0")
        for words, wanted in (("", 97000), ("expiry", 100000)):
            came = self.came(words, lines, node_b(100000), *records)
            self.assertEqual([it and (it.state.name, it.state.last) for it in came], [(Name(1, 1), 100000), (Name(1, 1), wanted)])

    def test_other_records_make_nothing(self) -> None:
        records = (
            (updated(9, 10), "asked"),
            (inserted(1, 60), "bad known"),
            (Record(BY_WORD["req"], ("0.0",)), "bulk begins"),
            (Record(BY_WORD["iack"], ("1.1",)), "nothing"),
        )
        self.assertEqual(self.came("all", RULES, node_b(0, "1 0 0 1 0"), *records), [None] * 4)


if __name__ == "__main__":
    unittest.main()
