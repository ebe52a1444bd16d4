"""Node a against node b, and a branch against another one."""
from __future__ import annotations

import unittest
from typing import List, Optional

from ..console.colours import PLAIN
from ..model.pair import Pair, read_shown
from ..model.setups import Setup
from ..shows.diffs import between_branches, between_nodes
from . import laboratory

UDP = "udp out 192.0.2.9:53 10.0.0.1:1000 192.0.2.9:53 10.0.0.1:1000"
SINGLE = "1 - 0 0 0 0 - 0 0 0"
QUERY = "step main packet a out udp 10.0.0.1:1000 192.0.2.9:53 40"


def diff(*lines: str, setup: Optional[Setup] = None, clock: int = 0) -> List[str]:
    """What is told of a pair with these states, under one rule set at both nodes, where no other setup is given."""
    return between_nodes(pair(*lines, clock=clock), setup or Setup.of(["rule a pass out", "rule b pass out"]), PLAIN)


def pair(*lines: str, clock: int = 0) -> Pair:
    of = {node: [line for line in lines if line.split()[1] == node] for node in ("a", "b")}
    return read_shown(
        [
            "branch main events 0 cursor 0",
            f"node a clock {clock} boot 1 id 9 seq 9 push 0 serve - sync -",
            "count a 0 0 0 0 0 0 0",
            *of["a"],
            f"node b clock {clock} boot 2 id 9 seq 9 push 0 serve - sync -",
            "count b 0 0 0 0 0 0 0",
            *of["b"],
            "link next 1 boot 3",
            "end",
        ]
    )


class BetweenNodes(unittest.TestCase):
    def test_what_is_on_its_way(self) -> None:
        lab = laboratory(f"rule a pass out\nrule b pass out\nopen\n{QUERY}\n{QUERY.replace('1000', '1001')}\nstep main flush a")

        def told() -> List[str]:
            return between_nodes(lab.show("main"), lab.setup, PLAIN)

        only = "only on a: 1.{}  udp 10.0.0.1:100{} -> 192.0.2.9:53  SINGLE:NO_TRAFFIC  expires in 60 s"
        expected = [
            "a and b differ in 2 states: 2 only on a, 0 only on b, 0 differ",
            "pending: 0 at a, 0 at b; 1 frame in flight",
            only.format(1, 0),
            only.format(2, 1),
        ]
        self.assertEqual(told(), expected)
        lab.ask("step main deliver 1")
        self.assertEqual(told(), ["a and b agree in 2 states"])
        lab.close()

    def test_nodes_without_states_agree(self) -> None:
        self.assertEqual(diff(), ["a and b agree"])
        self.assertEqual(diff("ask b 0.0"), ["a and b agree", "pending: 0 at a, 1 at b; 0 frames in flight"])

    def test_fields_that_differ(self) -> None:
        keys = "tcp out 192.0.2.9:80 10.0.0.1:1000 192.0.2.9:80 10.0.0.1:1000"
        lines = diff(
            f"state a 1.1 {keys} 2 3 1000 101 102 0 - 0 0 0 tcp.first 1000 0 - 0 -",
            f"state b 1.1 {keys} 4 3 1000 101 2101 4 2 2000 501 1501 tcp.established 4000 0 - 0 4000",
            clock=5000,
        )
        expected = [
            "a and b differ in 1 state: 0 only on a, 0 only on b, 1 differ",
            "differ: 1.1  tcp 10.0.0.1:1000 -> 192.0.2.9:80  source level SYN_SENT | ESTABLISHED, source hi 102 | 2101,"
            " destination level CLOSED | ESTABLISHED, destination lo 0 | 501, destination hi 0 | 1501,"
            " destination win 0 | 2000, destination wscale none | 2, class tcp.first | tcp.established,"
            " last used 4 s | 1 s ago, expires in 116 s | 86399 s",
        ]
        self.assertEqual(lines, expected)

    def test_keys_and_directions_are_shared(self) -> None:
        for other, part in (
            ("udp in 192.0.2.9:53 10.0.0.1:1000 192.0.2.9:53 10.0.0.1:1000", "direction out | in"),
            ("udp out 192.0.2.9:53 10.0.0.1:7 192.0.2.9:53 10.0.0.1:1000", "wire near 10.0.0.1:1000 | 10.0.0.1:7"),
        ):
            lines = diff(f"state a 1.1 {UDP} {SINGLE} udp.first 0 0 - 0 -", f"state b 1.1 {other} {SINGLE} udp.first 0 0 - 0 -")
            self.assertEqual(lines[1], f"differ: 1.1  udp 10.0.0.1:1000 -> 192.0.2.9:53  {part}")

    def test_what_each_node_keeps_for_itself(self) -> None:
        # Last use, flags, update count and the peer's last change are each node's own.
        told = diff(
            f"state a 1.1 {UDP} {SINGLE} udp.first 0 0 k 3 -",
            f"state b 1.1 {UDP} {SINGLE} udp.first 57000 0 - 0 57000",
            clock=60000,
        )
        # Node a has it expired, 60 s after its last use; node b has 57 s left.
        apart = "agree, but apart: 1.1  last used 60 s | 3 s ago, expired | expires in 57 s"
        self.assertEqual(told, ["a and b agree in 1 state", apart])

    def test_a_last_use_that_is_yet_to_come(self) -> None:
        """By the kernel's rule `expiry` b has a state for as long as a has said."""
        states = (f"state a 1.1 {UDP} {SINGLE} udp.first 58000 0 - 0 -", f"state b 1.1 {UDP} {SINGLE} udp.first 600000 0 - 0 57000")
        apart = "agree, but apart: 1.1  last used 2 s ago | 540 s ahead of the clock, expires in 58 s | 600 s"
        self.assertEqual(diff(*states, clock=60000), ["a and b agree in 1 state", apart])

    def test_one_node_has_shorter_timeouts(self) -> None:
        # Node a has three states, above `astart`, and half of each timeout: 30 of 60 s. Node b has two of them, and all of it.
        setup = Setup.of(["set astart 2", "set aend 4", "rule a pass out", "rule b pass out"])
        ends = [UDP.replace("10.0.0.1", f"10.0.0.{it}") for it in (1, 2, 3)]
        both = [f"state {node} 1.{it} {ends[it - 1]} {SINGLE} udp.first 0 0 - 0 -" for node in "ab" for it in (1, 2)]
        self.assertEqual(diff(*both, setup=setup, clock=30000), ["a and b agree in 2 states"])
        told = diff(*both, f"state a 1.3 {ends[2]} {SINGLE} udp.first 10000 0 - 0 -", setup=setup, clock=30000)
        expected = [
            "a and b differ in 1 state: 1 only on a, 0 only on b, 0 differ",
            "timeouts of a are scaled by 1/2: it has 3 states, `astart` is 2, `aend` 4",
            "only on a: 1.3  udp 10.0.0.3:1000 -> 192.0.2.9:53  SINGLE:NO_TRAFFIC  expires in 10 s",
            "agree, but apart: 1.1, 1.2  expired | expires in 30 s",
        ]
        self.assertEqual(told, expected)

    def test_rule_numbers(self) -> None:
        states = f"state a 1.1 {UDP} {SINGLE} udp.first 0 0 - 0 -", f"state b 1.1 {UDP} {SINGLE} udp.first 0 - - 0 0"
        self.assertEqual(diff(*states)[1:], ["differ: 1.1  udp 10.0.0.1:1000 -> 192.0.2.9:53  rule 0 | none"])
        other_rules = diff(*states, setup=Setup.of(["rule a pass out", "rule b pass any"]))
        rules = "rules: those of a and b differ, so neither keeps the other's rule numbers"
        self.assertEqual(other_rules, ["a and b agree in 1 state", rules, "agree, but apart: 1.1  rule 0 | none"])
        unknown = between_nodes(pair(*states), None, PLAIN)
        note = "the setup is not known here: expiry times are those of the default timeouts and limits"
        self.assertEqual(unknown, ["a and b agree in 1 state", note, "agree, but apart: 1.1  rule 0 | none"])

    def test_one_flow_with_two_names(self) -> None:
        # The frame that tells b of 1.1 is lost; the answer passes b, which makes a state of its own.
        lab = laboratory(
            f"""
            rule a pass any
            rule b pass any
            open
            {QUERY}
            step main flush a
            step main lose 1
            step main packet b in udp 192.0.2.9:53 10.0.0.1:1000 80
            """
        )
        expected = [
            "a and b differ in 2 states: 1 only on a, 1 only on b, 0 differ; 1 flow has two names",
            "pending: 0 at a, 1 at b; 0 frames in flight",
            "only on a: 1.1  udp 10.0.0.1:1000 -> 192.0.2.9:53  SINGLE:NO_TRAFFIC  expires in 60 s; b has this flow as 2.1",
            "only on b: 2.1  udp 10.0.0.1:1000 <- 192.0.2.9:53  NO_TRAFFIC:SINGLE  expires in 60 s; a has this flow as 1.1",
        ]
        self.assertEqual(between_nodes(lab.show("main"), lab.setup, PLAIN), expected)
        lab.close()

    def test_states_of_a_no_sync_rule_are_not_missed(self) -> None:
        lab = laboratory(f"rule a pass out no-sync\nrule b pass out no-sync\nopen\n{QUERY}")
        only = "no-sync, only on a: 1.1  udp 10.0.0.1:1000 -> 192.0.2.9:53  SINGLE:NO_TRAFFIC  expires in 60 s"
        self.assertEqual(between_nodes(lab.show("main"), lab.setup, PLAIN), ["a and b agree", only])
        lab.close()

    def test_bulk_updates_and_clocks(self) -> None:
        lab = laboratory(
            f"""
            rule a pass out
            rule b pass out
            open
            {QUERY}
            step main tick a 1500
            step main restart b
            step main flush b
            step main deliver 1
            """
        )
        lines = between_nodes(lab.show("main"), lab.setup, PLAIN)
        expected = [
            # The insertion that a had queued already, and the start of the bulk update.
            "pending: 2 at a, 0 at b; 0 frames in flight",
            "clocks: 1.5 s at a, 0 s at b",
            "a serves a bulk update, asked for at 1.5 s, from its first state on",
            "b waits for all states, 1 try, last asked or heard at 0 s",
        ]
        self.assertEqual(lines[1:5], expected)
        lab.close()


class BetweenBranches(unittest.TestCase):
    SETUP = "rule a pass out\nrule b pass out\nopen\n"

    def test_the_same_pair(self) -> None:
        lab = laboratory(f"{self.SETUP}{QUERY}\nfork main 1 other")
        told = between_branches(lab, lab.branch("main"), lab.branch("other"), PLAIN)
        self.assertEqual(told, ["main and other show the same pair", "their events are the same: 1 event"])
        lab.ask("back other 1")
        told = between_branches(lab, lab.branch("other"), lab.branch("other"), PLAIN)
        self.assertEqual(told[0], "other and other show the same pair")
        lab.close()

    def test_one_has_more_events(self) -> None:
        lab = laboratory(f"{self.SETUP}{QUERY}\nfork main 1 other\nstep other flush a")
        expected = [
            "main and other show pairs that differ in 3 places",
            "their events diverge at number 2:",
            "  main: no more events",
            "  other: flush a",
            "a: queue 1.1 only in main: insert, number 1",
            "link: next ticket: 1 | 2",
            "link: frame 1 only in other: to b, 148 bytes: 1 insert",
        ]
        self.assertEqual(between_branches(lab, lab.branch("main"), lab.branch("other"), PLAIN), expected)
        lab.close()

    def test_two_packets_in_place_of_one(self) -> None:
        answer = "packet a in udp 192.0.2.9:53 10.0.0.1:1000 80"
        lab = laboratory(f"{self.SETUP}{QUERY}\nfork main 1 other\nstep main {answer}\nstep other tick a 1000")
        expected = [
            # The clock; the counter; both levels and the class of 1.1. Both branches still have its insertion queued.
            "main and other show pairs that differ in 5 places",
            "their events diverge at number 2:",
            f"  main: {answer}",
            "  other: tick a 1000",
            "a: clock: 0 s | 1 s",
            "a: counter packets passed: 2 | 1",
            "a: state 1.1: source level MULTIPLE | SINGLE, destination level SINGLE | NO_TRAFFIC, class udp.single | udp.first",
        ]
        self.assertEqual(between_branches(lab, lab.branch("main"), lab.branch("other"), PLAIN), expected)
        lab.close()

    def test_held_packets_that_differ_in_their_length(self) -> None:
        longer = QUERY[: -len("40")].replace("main", "other") + "1400"
        lab = laboratory(f"set defer 1\n{self.SETUP}fork main 0 other\n{QUERY}\n{longer}")
        told = between_branches(lab, lab.branch("main"), lab.branch("other"), PLAIN)
        expected = [
            "a: held packet 1.1 only in main: udp 10.0.0.1:1000 192.0.2.9:53 40, since 0 s",
            "a: held packet 1.1 only in other: udp 10.0.0.1:1000 192.0.2.9:53 1400, since 0 s",
        ]
        self.assertEqual((told[0], told[-2:]), ("main and other show pairs that differ in 2 places", expected))
        # Without its setup, as of a server, only their logs are known to differ.
        lab.knows_setup = False
        told = between_branches(lab, lab.branch("main"), lab.branch("other"), PLAIN)
        self.assertEqual(told[:2], ["main and other show the same pair", "their events diverge at number 1:"])
        lab.close()


if __name__ == "__main__":
    unittest.main()
