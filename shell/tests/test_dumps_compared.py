"""What `compare` says of two dumps that are not the same."""
from __future__ import annotations

import os
import re
import time
import unittest
from glob import glob
from typing import List

from ..scripts.texts import read
from . import TOP
from .dump_cases import ALL, ECHO, NAT, QUERY, SIX, WEB, DumpCase, Said

# The states by the name that is printed of them, with their flows.
WEB_NAME = "5f00a1b200000003/8a1b2c3d  tcp 192.0.2.80:443 <- 198.51.100.17:51512"
NAT_NAME = "5f00a1b200000004/8a1b2c3d  tcp 203.0.113.1:61000 (10.0.0.17:51512) -> 192.0.2.80:443"
QUERY_NAME = "5f00a1b200000005/8a1b2c3d  udp 10.0.0.1:1000 -> 192.0.2.9:53"
SIX_NAME = "5f00a1b200000007/8a1b2c3d  tcp 2001:db8::80[443] (2001:db8::1[8443]) <- 2001:db8:1::17[50000]"


class Differing(DumpCase):
    """One state at both nodes, with another text at b."""

    def changed(self, state: str, old: str, new: str, *options: str) -> Said:
        self.assertIn(old, state)
        return self.compared(state, state.replace(old, new), *options)

    def differs(self, said: Said, kind: str, line: str) -> None:
        self.assertEqual((said.status, said.err), (1, []))
        self.assertEqual(said.out[0], f"a and b differ in 1 state: 0 only on a, 0 only on b, 1 differs in {kind}")
        self.assertTrue(said.out[2].startswith(f"differ in {kind}: 1 state; "), said.out)
        self.assertEqual(said.out[-1].strip(), line)

    def agrees(self, said: Said, *notes: str) -> None:
        self.assertEqual((said.status, said.out[0], tuple(said.out[2:])), (0, "a and b agree in 1 state", notes))

    def test_levels(self) -> None:
        said = self.changed(WEB, "ESTABLISHED:ESTABLISHED", "FIN_WAIT_2:FIN_WAIT_2")
        self.assertIn("  1: ESTABLISHED:ESTABLISHED | FIN_WAIT_2:FIN_WAIT_2", said.out)
        self.differs(said, "levels", f"{WEB_NAME}  levels ESTABLISHED:ESTABLISHED | FIN_WAIT_2:FIN_WAIT_2")

    def test_levels_of_other_protocols(self) -> None:
        for state, levels, others in (
            (QUERY, "SINGLE:NO_TRAFFIC", "MULTIPLE:MULTIPLE"),
            (ECHO, "0:0", "1:0"),
            (SIX, "PROXY:DST", "PROXY:SRC"),
            (SIX, "PROXY:DST", "<BAD STATE LEVELS 11:14>"),
        ):
            said = self.changed(state, levels, others)
            self.line(said, f"1: {levels} | {others}")

    def test_rules(self) -> None:
        said = self.changed(WEB, "rule 3", "rule 4")
        self.assertIn("  1: rule 3 | rule 4", said.out)
        self.differs(said, "rules", f"{WEB_NAME}  rule 3 | 4")

    def test_a_rule_at_one_node_alone_is_no_difference(self) -> None:
        # So FreeBSD has what came by a bulk update, and what the peer was asked for.
        why = "as far as we know FreeBSD gives these no rule, or the rule sets differed"
        note = f"came by a bulk update or a request (kernel rule): 1 state with a rule at one node alone, which counts as agreeing; {why}"
        self.agrees(self.changed(WEB, ", rule 3", ""), note, "  1: rule 3 | none")
        without = WEB.replace(", rule 3", "")
        self.agrees(self.compared(without, WEB), note, "  1: rule none | 3")
        said = self.changed(WEB, ", rule 3", "", "--all")
        self.assertEqual(said.out[-1].strip(), WEB_NAME)
        # With another difference it counts as that, and the rule is in its fields.
        said = self.compared(WEB, without.replace("ESTABLISHED:ESTABLISHED", "FIN_WAIT_2:FIN_WAIT_2"))
        self.differs(said, "levels", f"{WEB_NAME}  levels ESTABLISHED:ESTABLISHED | FIN_WAIT_2:FIN_WAIT_2, rule 3 | none")
        # A node that was rebooted has none of the numbers.
        b = "".join(ALL).replace(", rule 12", "").replace(", rule 5", "").replace(", rule 3", "")
        said = self.compared("".join(ALL), b)
        self.assertEqual((said.status, said.out[0]), (0, "a and b agree in 6 states"))
        self.assertEqual(said.out[2], note.replace("1 state", "5 states").replace("which counts", "which count"))
        # (established TCP first, the oldest of it above, and then the most)
        self.assertEqual(said.out[3:], ["  1: rule 5 | none", "  1: rule 3 | none", "  3: rule 12 | none"])

    def test_translations(self) -> None:
        said = self.changed(NAT, "203.0.113.1:61000", "203.0.113.1:61001")
        self.differs(said, "keys", f"{NAT_NAME}  wire near 203.0.113.1:61000 | 203.0.113.1:61001")
        said = self.changed(NAT, "203.0.113.1:61000 (10.0.0.17:51512)", "10.0.0.17:51512")
        self.differs(said, "keys", f"{NAT_NAME}  wire near 203.0.113.1:61000 | 10.0.0.17:51512")
        said = self.changed(SIX, "2001:db8::1[8443]", "2001:db8::1[8444]")
        self.differs(said, "keys", f"{SIX_NAME}  wire near 2001:db8::1[8443] | 2001:db8::1[8444]")

    def test_directions_and_protocols(self) -> None:
        said = self.changed(QUERY, "->", "<-")
        self.differs(said, "keys", f"{QUERY_NAME}  direction out | in")
        said = self.changed(QUERY, "udp", "tcp")
        self.differs(said, "keys", f"{QUERY_NAME}  protocol udp | tcp")

    def test_windows_by_less_than_a_window_are_what_packets_between_the_dumps_do(self) -> None:
        note = "1 state differs only in windows, by less than a window: packets came in between"
        # (b is ahead by as much as a may take: its next number is a's last one)
        for number in ("1001", "1100", "900"):
            self.agrees(self.changed(NAT, "[1000 + 100]", f"[{number} + 100]"), note)
        self.agrees(self.changed(NAT, "[1000 + 100]", "[1000 + 1]"), note)
        self.agrees(self.changed(NAT.replace("[1000 +", "[4294967290 +"), "[4294967290 +", "[50 +"), note)

    def test_windows_by_more_than_a_window(self) -> None:
        said = self.changed(NAT, "[1000 + 100]", "[1101 + 100]")
        self.differs(said, "windows by more than a window", f"{NAT_NAME}  source lo 1000 | 1101, source hi 1100 | 1201")
        said = self.changed(NAT, "[2000 + 200]", "[1799 + 200]")
        self.differs(said, "windows by more than a window", f"{NAT_NAME}  destination lo 2000 | 1799, destination hi 2200 | 1999")
        # (the first end that is printed of a state on its way in is its destination)
        said = self.changed(WEB, "[3058113415 + 65535]", "[0 + 0]")
        moved = "destination lo 3058113415 | 0, destination hi 3058178950 | 0"
        self.differs(said, "windows by more than a window", f"{WEB_NAME}  {moved}")

    def test_scales_and_numbers_added(self) -> None:
        said = self.changed(NAT, "wscale 6", "wscale 8")
        self.differs(said, "windows by more than a window", f"{NAT_NAME}  source wscale 6 | 8")
        said = self.changed(NAT, " wscale 6", "")
        self.differs(said, "windows by more than a window", f"{NAT_NAME}  source wscale 6 | none")
        said = self.changed(SIX, "(+99)", "")
        self.differs(said, "windows by more than a window", f"{SIX_NAME}  added to the numbers 99 and 0 | 0 and 0")

    def test_times_of_expiry(self) -> None:
        self.agrees(self.changed(QUERY, "expires in 00:00:28", "expires in 00:00:38"))
        said = self.changed(QUERY, "expires in 00:00:28", "expires in 00:00:39")
        self.differs(said, "times", f"{QUERY_NAME}  expires in 00:00:28 | 00:00:39")
        self.agrees(self.changed(QUERY, "expires in 00:00:28", "expires in 00:00:39", "--apart", "11"))
        said = self.changed(QUERY, "expires in 00:00:28", "expires in 00:00:27", "--apart", "0")
        self.differs(said, "times", f"{QUERY_NAME}  expires in 00:00:28 | 00:00:27")

    def test_ages_count_where_it_is_said_how_far_the_dumps_are_apart(self) -> None:
        self.agrees(self.changed(WEB, "age 00:01:40", "age 00:03:40"))
        self.agrees(self.changed(WEB, "age 00:01:40", "age 00:03:40", "--apart", "120"))
        said = self.changed(WEB, "age 00:01:40", "age 00:03:40", "--apart", "119")
        self.differs(said, "times", f"{WEB_NAME}  age 00:01:40 | 00:03:40")

    def test_interfaces_routes_and_options(self) -> None:
        kind = "interfaces, routes or options"
        said = self.changed(ECHO, "em0", "em1")
        self.differs(said, kind, "5f00a1b200000006/8a1b2c3d  icmp 10.0.0.1:43210 -> 192.0.2.9:43210  interface em0 | em1")
        said = self.changed(WEB, "192.0.2.1\n", "192.0.2.2\n")
        self.differs(said, kind, f"{WEB_NAME}  routes gateway 192.0.2.1 | gateway 192.0.2.2")
        said = self.changed(SIX, ", sloppy", "")
        self.differs(said, kind, f"{SIX_NAME}  options sloppy | none")

    def test_what_each_node_has_of_its_own(self) -> None:
        for old, new in (
            ("120:118 pkts, 9312:88214 bytes", "0:0 pkts, 0:0 bytes"),
            ("   origif: em0\n", ""),
            ("em0", "ix0"),
            (", rule 3", ", anchor 2, rule 3"),
            (", rule 3", ", rule 3, source-track, sticky-address"),
            ("id: 5f00a1b200000003", "id: 5f00a1b200000003 "),
        ):
            self.agrees(self.changed(WEB, old, new))

    def test_what_only_one_dump_has_is_no_difference(self) -> None:
        brief = WEB.partition("\n")[0] + "\n"
        said = self.compared(WEB, brief)
        self.assertEqual((said.status, said.out[0]), (0, "a and b agree in 1 state"))
        said = self.compared(SIX.replace(", sloppy", ""), SIX.partition("\n")[0])
        self.assertEqual((said.status, said.out[0]), (0, "a and b agree in 1 state"))

    def test_the_first_of_several_kinds_counts_and_all_are_listed(self) -> None:
        changed = NAT.replace("61000", "61001").replace("ESTABLISHED:ESTABLISHED", "LAST_ACK:LAST_ACK").replace("rule 5", "rule 6")
        parts = "levels ESTABLISHED:ESTABLISHED | LAST_ACK:LAST_ACK, wire near 203.0.113.1:61000 | 203.0.113.1:61001, rule 5 | 6"
        self.differs(self.compared(NAT, changed), "keys", f"{NAT_NAME}  {parts}")


class Alone(DumpCase):
    """States that one node has alone."""

    def test_each_with_what_it_has_in_common_with_others(self) -> None:
        said = self.compared("".join(ALL), WEB + QUERY)
        self.assertEqual(said.out[0], "a and b differ in 4 states: 4 only on a (1 established TCP), 0 only on b")
        self.assertTrue(said.out[2].startswith("only on a: 4 states, 1 established TCP, 1 about to expire in 00:00:10; an insertion"))
        nat = self.line(said, "1: tcp out to port 443")
        self.assertEqual(nat, "1: tcp out to port 443, rule 5, made by 8a1b2c3d, age 26:01:40, expires in 23:59:57")
        self.line(said, "1: icmp out, rule 12, made by 8a1b2c3d, about to expire in 00:00:10, age 00:05:00, expires in 00:00:08")
        self.line(said, "1: tcp in to port 443, rule 12, made by 8a1b2c3d, age 00:05:00, expires in 00:00:30")
        self.line(said, "1: gre out, made by 8a1b2c3d, age 00:05:00, expires in 00:00:30")
        self.line(said, f"{NAT_NAME}  ESTABLISHED:ESTABLISHED")

    def test_young_ones_may_have_begun_between_the_dumps(self) -> None:
        said = self.compared(WEB, WEB + QUERY)
        self.line(said, "only on b: 1 state, 1 not older than 00:00:10; ")
        self.line(said, "1: udp out to port 53, rule 12, made by 8a1b2c3d, not older than 00:00:10, age 00:00:02, expires in 00:00:28")
        said = self.compared(WEB, WEB + QUERY, "--apart", "1")
        self.line(said, "only on b: 1 state; ")

    def many(self, number: int) -> str:
        """Queries with other ports and ids, from 0 on."""
        return "".join(QUERY.replace(":1000 ", f":{2000 + it} ").replace("00000005", f"{it + 16:08x}") for it in range(number))

    def test_a_group_lists_its_first_states_or_all(self) -> None:
        said = self.compared("", self.many(412))
        self.assertEqual(said.out[0], "a and b differ in 412 states: 0 only on a, 412 only on b")
        self.line(said, "412: udp out to port 53, rule 12")
        self.assertEqual(said.out[-1], "    and 409 more; --all lists them")
        self.assertEqual(len(said.out), 8)
        said = self.compared("", self.many(412), "--all")
        self.assertEqual(len(said.out), 4 + 412)
        self.line(said, "5f00a1b2000001ab/8a1b2c3d  udp 10.0.0.1:2411 -> 192.0.2.9:53  SINGLE:NO_TRAFFIC")

    def test_the_largest_groups_come_first(self) -> None:
        queries = ((it, QUERY.replace("rule 12", f"rule {it}").replace(":53", f":{it}")) for it in range(30, 50))
        others = "".join(query.replace("00000005", f"{it + 4096:08x}") for it, query in queries)
        said = self.compared("", others + self.many(2))
        self.assertTrue(said.out[3].startswith("  2: udp out to port 53, rule 12, "))
        self.assertEqual(said.out[-1], "  and 11 groups more; --all lists them")
        said = self.compared("", others + self.many(2), "--all")
        self.assertEqual(sum(it.startswith("  1: udp out") for it in said.out), 20)

    def test_established_connections_come_first_and_the_oldest_of_them_above(self) -> None:
        def web(port: int, age: str, text: str = WEB) -> str:
            return text.replace("51512", str(port)).replace("00000003 ", f"{port:08x} ").replace("00:01:40", age)

        old = "".join(web(it, f"08:2{it}:00", WEB.replace(":443", ":22").replace("rule 3", "rule 4")) for it in range(3))
        closing = web(9, "20:00:00").replace("ESTABLISHED:ESTABLISHED", "FIN_WAIT_2:FIN_WAIT_2")
        young = web(8, "00:00:05", WEB.replace("rule 3", "rule 7"))
        said = self.compared(QUERY + self.many(45) + closing + web(6, "00:40:00") + young + old, QUERY)
        self.assertEqual(said.out[0], "a and b differ in 51 states: 51 only on a (5 established TCP), 0 only on b")
        self.assertTrue(said.out[2].startswith("only on a: 51 states, 5 established TCP, 46 not older than 00:00:10; "))
        heads = [it.strip().partition(", made by")[0] for it in said.out[3:] if it.startswith("  ") and it[2] != " "]
        # What is not older than the time between the dumps comes last, since that may explain it.
        web_heads = [f"{it[0]}: tcp in to port 443, rule {it[1]}" for it in ((2, 3), (1, 7))]
        self.assertEqual(heads, ["3: tcp in to port 22, rule 4", *web_heads, "45: udp out to port 53, rule 12"])
        states = [it.split()[4] for it in said.out if it.startswith("    5f00")]
        # Within a group, too; what is closing comes after it, however old.
        self.assertEqual(states[:5], [f"198.51.100.17:{it}" for it in (2, 1, 0, 6, 9)])

    def test_those_of_both_nodes_as_well(self) -> None:
        other = WEB.replace("51512", "51513").replace("00000003 ", "00000009 ").replace("00:01:40", "09:00:00")
        a = "".join((WEB, other, QUERY.replace("00:00:02", "10:00:00")))
        said = self.compared(a, a.replace("rule 3", "rule 4").replace("rule 12", "rule 13"))
        ends = [it.split()[4] for it in said.out if it.startswith("    5f00")]
        self.assertEqual(ends, ["198.51.100.17:51513", "198.51.100.17:51512", "192.0.2.9:53"])

    def test_a_state_that_no_peer_is_told_of(self) -> None:
        for state in (QUERY.replace("rule 12", "rule 12, no-sync"), QUERY.replace("gateway: 0.0.0.0", "(no-sync)")):
            said = self.compared(WEB + state, WEB)
            self.assertEqual((said.status, said.err), (0, []))
            self.assertEqual(said.out[0], "a and b agree in 1 state")
            self.assertEqual(said.out[-1], "no-sync, only on a: 1 state, never sent to the peer")

    def test_one_flow_under_two_names(self) -> None:
        made_by_b = WEB.replace("5f00a1b200000003 creatorid: 8a1b2c3d", "6000000000000001 creatorid: 0000b0b0")
        said = self.compared(WEB + QUERY, made_by_b + QUERY)
        self.assertEqual(said.out[0], "a and b differ in 1 state: 0 only on a, 0 only on b, 1 under two names")
        self.assertEqual((said.status, len(said.out)), (1, 5))
        self.line(said, "under two names: 1 flow; ")
        self.line(said, "1: made by 8a1b2c3d | 0000b0b0")
        flow = "tcp 192.0.2.80:443 <- 198.51.100.17:51512"
        self.assertEqual(said.out[-1].strip(), f"5f00a1b200000003/8a1b2c3d | 6000000000000001/0000b0b0  {flow}")

    def test_no_state_at_both_nodes(self) -> None:
        note = "no state is at both nodes: are these files of one pair, and is pfsync running?"
        self.assertEqual(self.compared(WEB, QUERY).out[2], note)
        for b in (WEB, WEB + QUERY, ""):
            self.assertNotIn(note, self.compared(WEB, b).out)

    def test_two_names_and_another_translation(self) -> None:
        made_by_b = NAT.replace("5f00a1b200000004", "6000000000000001").replace(":61000", ":62000")
        said = self.compared(NAT, made_by_b)
        self.assertEqual(said.out[0], "a and b differ in 1 state: 0 only on a, 0 only on b, 1 under two names")
        # (another flow of the same ends on their way in is another key)
        said = self.compared(NAT, made_by_b.replace("->", "<-"))
        self.assertNotIn("two names", said.out[0])
        # Each node keeps a state without a peer to itself, under a name of its own.
        no_sync = WEB.replace("rule 3", "rule 3, no-sync")
        said = self.compared(QUERY + no_sync, QUERY + no_sync.replace("5f00a1b200000003", "6000000000000001"))
        self.assertEqual((said.status, said.out[0]), (0, "a and b agree in 1 state"))
        self.assertEqual(said.out[2:], [f"no-sync, only on {it}: 1 state, never sent to the peer" for it in "ab"])

    def test_serious_ones_come_first(self) -> None:
        b = [
            WEB.replace("ESTABLISHED\n", "FIN_WAIT_2\n"),
            NAT.replace("[1000 + 100]", "[1001 + 100]"),
            QUERY.replace("00:00:28", "00:01:28"),
            SIX.replace(", rule 12", ", rule 13"),
        ]
        said = self.compared(WEB + NAT + QUERY + SIX + ECHO, "".join(b))
        begins = [it.partition(":")[0] for it in said.out if not it.startswith(" ")]
        self.assertEqual(begins[2:6], ["only on a", "differ in levels", "differ in rules", "differ in times"])
        self.assertTrue(said.out[-1].startswith("1 state differs only in windows"))
        parts = ("1 only on a", "0 only on b", *(f"1 differs in {it}" for it in ("levels", "rules", "times")))
        self.assertEqual(said.out[0], f"a and b differ in 4 states: {', '.join(parts)}")


class Counters(DumpCase):
    """What the counters of both nodes say."""

    A = """\
pfsync:
\t1000 packets received (IPv4)
\t0 packets received (IPv6)
\t\t12 state inserts received
\t\t0 packets discarded for bad ttl
\t\t1 packet discarded for bad version
\t\t1 stale state
\t\t5 failed state lookup/inserts
\t2000 packets sent (IPv4})
\t0 packets sent (IPv6})
\t\t3 send errors
"""
    B = A.replace("1000", "1990").replace("2000", "1000").replace("5 failed", "0 failed").replace("1 packet d", "0 packets d")

    def told(self, said: Said) -> List[str]:
        lines = said.out[said.out.index("pfsync counters of a and b") + 1 :]
        return [line.strip() for line in lines]

    def test_each_that_is_not_0_with_its_meaning(self) -> None:
        said = self.compared(self.A, self.B)
        self.assertEqual((said.status, said.err), (0, []))
        self.assertEqual(said.out[0], "pfsync counters of a and b")
        lines = self.told(said)
        self.assertTrue(lines[0].startswith("2000 frames sent by a over IPv4, 1990 received by b; 10 fewer: lost, if both count"))
        self.assertEqual(lines[1], "1000 frames sent by b over IPv4, 1000 received by a")
        self.assertEqual(
            [line.partition(": ")[0] for line in lines[2:]],
            ["1 | 0 packet discarded for bad version", "1 | 1 stale state", "5 | 0 failed state lookup/insert", "3 | 3 send error"],
        )
        self.assertTrue(lines[2].endswith('in the laboratory "frames that could not be read" (`broken`)'))
        self.assertIn('in the laboratory "updates older than the state" (`stale`); lesson asymmetric-routing.pfl', lines[3])
        self.assertIn('in the laboratory "records not taken" (`bad`); lesson split-brain.pfl', lines[4])

    def test_of_files_of_their_own(self) -> None:
        a, b = self.file("a-stat", self.A), self.file("b-stat", self.B)
        said = self.compared(WEB, WEB + ECHO, "--stats", a, b)
        self.assertEqual((said.status, said.err), (1, []))
        self.assertEqual(said.out[0], "a and b differ in 1 state: 0 only on a, 1 only on b")
        self.assertEqual(self.told(said), self.told(self.compared(self.A, self.B)))

    def test_beside_the_states_in_one_file(self) -> None:
        for both in (f"{self.A}{WEB}", f"{WEB}{self.A}"):
            said = self.compared(both, WEB)
            self.assertEqual((said.status, said.err, said.out[0]), (0, [], "a and b agree in 1 state"))
            self.assertEqual(self.told(said)[0], "b has none in its files")
            self.assertTrue(self.told(said)[-1].startswith("3 | not there send error: "))

    def test_counters_of_another_protocol_are_not_those_of_pfsync(self) -> None:
        said = self.compared(f"carp:\n\t7 send errors\n{WEB}", WEB)
        faults = ["a:1: not understood: carp:", "a:2: not understood: 7 send errors"]
        self.assertEqual([it.partition(": ")[2] for it in said.err[:2]], faults)
        self.assertNotIn("pfsync counters of a and b", said.out)

    def test_nothing_above_0(self) -> None:
        said = self.compared("pfsync:\n\t0 send errors\n", "pfsync:\n\t0 send errors\n")
        self.assertEqual(said.out, ["pfsync counters of a and b", "  no counter of a fault is above 0"])


class Documents(DumpCase):
    """What the documents print is what comes."""

    def test_the_example_is_so(self) -> None:
        pages = read(f"{TOP}/docs/FIELD.md") + read(f"{TOP}/docs/FIELD-DETAILS.md")
        a, b, wanted = (pages.partition(f"<!-- {it} -->\n```text\n")[2].partition("```")[0] for it in ("dump a", "dump b", "compared"))
        said = self.run_with(self.file("fw1.txt", a), self.file("fw2.txt", b))
        self.assertEqual((said.status, said.out, said.err), (1, wanted.splitlines(), []))

    def test_each_lesson_is_there(self) -> None:
        texts = "".join(read(it) for it in glob(f"{TOP}/shell/dumps/*.py"))
        lessons = {*re.findall(r"\b[a-z][a-z-]*\.pfl", texts)}
        self.assertGreaterEqual(len(lessons), 4)
        self.assertLessEqual(lessons, {*os.listdir(f"{TOP}/examples")})


class Speed(DumpCase):
    """Many states."""

    def test_twenty_thousand_states(self) -> None:
        def states(of_b: bool) -> str:
            made = []
            for number in range(20000):
                text = WEB if number % 3 else QUERY
                text = text.replace("51512", str(1024 + number)).replace(":1000 ", f":{1024 + number} ")
                text = text.replace("00000003 ", f"{number + 256:08x} ").replace("00000005 ", f"{number + 256:08x} ")
                made.append(text.replace("[3058113415", f"[{3058113415 + number}") if of_b else text)
            return "".join(made[:-5] if of_b else made)

        files = self.file("a", states(False)), self.file("b", states(True))
        begun = time.process_time()
        said = self.run_with(*files)
        self.assertLess(time.process_time() - begun, 8)
        self.assertEqual(said.out[0], "a and b differ in 5 states: 5 only on a (3 established TCP), 0 only on b")
        # (the first 19995 stand at both; every third of them, from the first on, is a query and has no windows)
        self.assertEqual(said.out[-1], f"{19995 - 6665} states differ only in windows, by less than a window: packets came in between")


if __name__ == "__main__":
    unittest.main()
