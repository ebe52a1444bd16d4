"""The view of a pair. What is expected is worked out by hand: states as print_state and print_seq of pfctl print them, expiry
as the last use plus the timeout of the class (docs/FORMATS.md)."""
from __future__ import annotations

import unittest
from typing import List, Tuple

from ..console.colours import PLAIN, Paint
from ..language.names import Name
from ..model.checksums import canonical_text, rules_checksum
from ..model.held import with_packets
from ..model.pair import NotShown, Pair, read_shown
from ..model.setups import Rule, Setup
from ..shows.views import view
from ..shows.words import UNKNOWN_SETUP, flow, levels, seconds, sequence
from . import laboratory

SILENT = "0 - 0 0 0"
SINGLE = "1 - 0 0 0"


def shown(*of_a: str, node: str = "clock 3000 boot 1 id 9 seq 9 push 0 serve - sync -", link: str = "") -> Pair:
    """A pair of which node a has these lines."""
    lines = ["branch main events 5 cursor 3", f"node a {node}", "count a 0 0 0 0 0 0 0", *of_a]
    lines += ["node b clock 0 boot 2 id 1 seq 1 push 0 serve - sync -", "count b 0 0 0 0 0 0 0", "link next 1 boot 3"]
    return read_shown([*lines, *([link] if link else []), "end"])


def state(keys: str, ends: str = f"{SINGLE} {SILENT}", rest: str = "udp.first 1000 0 - 0 -") -> str:
    return f"state a 1.1 {keys} {ends} {rest}"


def node_a(pair: Pair, *setup: str) -> List[str]:
    """The view of node a alone, behind its own line."""
    lines = view(pair, Setup.of(setup), PLAIN)
    first, last = (next(at for at, it in enumerate(lines) if it.startswith(f"node {node}")) for node in ("a", "b"))
    return lines[first + 1 : last]


class Whole(unittest.TestCase):
    def test_a_query_that_the_peer_does_not_know_yet(self) -> None:
        lab = laboratory(
            """
            rule a block any
            rule a pass out
            open
            step main packet a out udp 10.0.0.1:1000 192.0.2.9:53 40
            step main tick a 500
            """
        )
        expected = [
            "branch main  2 events",
            "node a  clock 0.5 s, boot 1, next id 2, next queueing number 2",
            "  1.1  udp 10.0.0.1:1000 -> 192.0.2.9:53  SINGLE:NO_TRAFFIC",
            # 60 s of udp.first, less half a second: 59 whole ones.
            "       expires in 59 s, udp.first, last used 0.5 s ago, rule 1: pass out",
            "  counters: packets passed 1; the other 6 are 0",
            "  to send to b (1): insert 1.1",
            "node b  clock 0 s, boot 2, next id 1, next queueing number 1",
            "  no states",
            "  counters: all 0",
            "link  nothing in flight, next ticket 1, next boot 3",
        ]
        self.assertEqual(view(lab.show("main"), lab.setup, PLAIN), expected)
        lab.close()

    def test_a_frame_in_flight_and_the_same_frame_cut(self) -> None:
        lab = laboratory(
            """
            rule a pass out
            rule b block in
            open
            step main packet a out udp 10.0.0.1:1000 192.0.2.9:53 40
            step main flush a
            step main repeat 1
            step main cut 1 100
            step main cut 2 4
            """
        )
        # MD5 of `pass out` and a line feed.
        rules = "rules " + rules_checksum([Rule(("pass", "out"))])[:8]
        expected = [
            "link  2 frames in flight, next ticket 3, next boot 3",
            f"  frame 1 to b, 100 bytes, {rules} of a, b has others: "
            "broken: bytes 2 and 3 of its header say 148 bytes, but 100 are there",
            "  frame 2 to b, 4 bytes: broken: it has 4 bytes, but a header alone has 20",
        ]
        self.assertEqual(view(lab.with_contents(lab.show("main")), lab.setup, PLAIN)[-3:], expected)
        lab.ask("step main repeat 1")
        lab.ask("back main 4")
        expected = [
            "link  1 frame in flight, next ticket 2, next boot 3",
            f"  frame 1 to b, 148 bytes, {rules} of a, b has others: 1 insert",
            "    insert 1.1  udp 10.0.0.1:1000 -> 192.0.2.9:53  SINGLE:NO_TRAFFIC  60 s left of udp.first, rule 0",
        ]
        self.assertEqual(view(lab.with_contents(lab.show("main")), lab.setup, PLAIN)[-3:], expected)
        self.assertIn(f"  frame 1 to b, 148 bytes, {rules}: 1 insert", view(lab.with_contents(lab.show("main")), None, PLAIN))
        lab.close()

    def test_both_nodes_have_the_same_rules(self) -> None:
        lab = laboratory("rule a pass out\nrule b pass out\nopen\nstep main restart b\nstep main flush b")
        rules = rules_checksum([Rule(("pass", "out"))])[:8]
        expected = [
            f"  frame 1 to a, 36 bytes, rules {rules} of b, a has the same: 1 update request",
            "    update request 0.0 (all states)",
        ]
        self.assertEqual(view(lab.with_contents(lab.show("main")), lab.setup, PLAIN)[-2:], expected)
        lab.close()

    def test_without_a_setup_it_is_said_once(self) -> None:
        lines = view(shown(state("udp out 192.0.2.9:53 10.0.0.1:1000 192.0.2.9:53 10.0.0.1:1000")), None, PLAIN)
        self.assertEqual(lines[:2], ["branch main  3 events, 2 undone", UNKNOWN_SETUP])
        self.assertEqual(lines.count(UNKNOWN_SETUP), 1)
        # Last used at 1 s, 60 s of udp.first, and now it is 3 s.
        self.assertIn("       expires in 58 s, udp.first, last used 2 s ago, rule 0", lines)

    def test_colours_change_no_text(self) -> None:
        pair = shown(state("udp out 192.0.2.9:53 10.0.0.1:1000 192.0.2.9:53 10.0.0.1:1000"), "ask a 0.0", link="frame 1 b 05")
        painted = "\n".join(view(pair, None, Paint(True)))
        for code in ("0", "1", "2", "31", "32", "33"):
            painted = painted.replace(f"\033[{code}m", "")
        self.assertEqual(painted.split("\n"), view(pair, None, PLAIN))


class States(unittest.TestCase):
    def one(self, line: str) -> Tuple[str, str]:
        (state,) = shown(line).a.states.values()
        return flow(state), levels(state)

    def test_the_way_of_the_first_packet(self) -> None:
        keys = "192.0.2.9:53 10.0.0.1:1000 192.0.2.9:53 10.0.0.1:1000"
        expected = "udp 10.0.0.1:1000 -> 192.0.2.9:53", "SINGLE:NO_TRAFFIC"
        self.assertEqual(self.one(state(f"udp out {keys}")), expected)
        # On its way in the far end sent the first packet: pfctl turns the arrow, and prints the near end's level first.
        expected = "udp 10.0.0.1:1000 <- 192.0.2.9:53", "NO_TRAFFIC:SINGLE"
        self.assertEqual(self.one(state(f"udp in {keys}")), expected)

    def test_translations(self) -> None:
        keys = "192.0.2.9:53 198.51.100.1:4000 192.0.2.9:53 10.0.0.1:1000"
        self.assertEqual(self.one(state(f"udp out {keys}"))[0], "udp 198.51.100.1:4000 (10.0.0.1:1000) -> 192.0.2.9:53")
        # pfctl prints the stack key of a state on its way in, and the wire key in brackets.
        self.assertEqual(self.one(state(f"udp in {keys}"))[0], "udp 10.0.0.1:1000 (198.51.100.1:4000) <- 192.0.2.9:53")
        # The identifier of an echo is both ports; it stands in brackets once.
        keys = "192.0.2.9:4000 198.51.100.1:4000 192.0.2.9:7 10.0.0.1:7"
        # Of ICMP pfctl prints the levels' numbers.
        self.assertEqual(self.one(state(f"icmp out {keys}")), ("icmp 198.51.100.1:4000 (10.0.0.1:7) -> 192.0.2.9:4000", "1:0"))

    def test_tcp_with_its_sequence_numbers(self) -> None:
        keys = "192.0.2.9:5353 10.0.0.1:22 192.0.2.9:5353 10.0.0.1:22"
        ends = "4 3 1000 100 2100 2 - 2000 4294967295 1"
        lines = node_a(shown(state(f"tcp in {keys}", ends, "tcp.opening 2500 - n 7 2000")), "rule a pass in")
        expected = [
            "  1.1  tcp 10.0.0.1:22 <- 192.0.2.9:5353  SYN_SENT:ESTABLISHED",
            "       [4294967295 + 2] win 2000  [100 + 2000] wscale 3 win 1000",
            "       expires in 29 s, tcp.opening, last used 0.5 s ago, no-sync, update count 7,"
            " changed by the peer 1 s ago, no rule",
        ]
        self.assertEqual(lines[:3], expected)
        (only,) = shown(state(f"tcp in {keys}", ends)).a.states.values()
        self.assertEqual(sequence(only.source), "[100 + 2000] wscale 3 win 1000")

    def test_the_timeout_of_the_rule(self) -> None:
        line = state("udp out 192.0.2.9:53 10.0.0.1:1000 192.0.2.9:53 10.0.0.1:1000")
        rule = "pass out timeout udp.first 2"
        # Used at 1 s, and the timeout is 2 s: at 3 s the state has expired.
        expected = f"       expired, udp.first, last used 2 s ago, rule 0: {rule}"
        self.assertEqual(node_a(shown(line), f"rule a {rule}")[1], expected)
        before = shown(line, node="clock 2999 boot 1 id 9 seq 9 push 0 serve - sync -")
        expected = f"       expires in 0 s, udp.first, last used 1.999 s ago, rule 0: {rule}"
        self.assertEqual(node_a(before, f"rule a {rule}")[1], expected)

    def test_a_last_use_that_is_yet_to_come(self) -> None:
        """As by the kernel's rule `expiry`, where the peer has a longer timeout."""
        keys = "192.0.2.9:53 10.0.0.1:1000 192.0.2.9:53 10.0.0.1:1000"
        line = state(f"udp out {keys}", rest="udp.first 543500 - - 0 2000")
        expected = "       expires in 600 s, udp.first, last used 540.5 s ahead of the clock, changed by the peer 1 s ago, no rule"
        self.assertEqual(node_a(shown(line), "rule a pass out")[1], expected)

    def test_timeouts_that_the_number_of_states_shortens(self) -> None:
        def told(count: int, *setup: str) -> List[str]:
            flows = (f"192.0.2.9:53 10.0.0.1:{1000 + it}" for it in range(count))
            lines = [state(f"udp out {it} {it}").replace("1.1", f"1.{at}", 1) for at, it in enumerate(flows, 1)]
            lines = [it.strip() for it in node_a(shown(*lines), *setup)]
            return [line.split(", udp")[0] for line in lines if line.startswith(("timeouts", "expire"))]

        # Each is last used at 1 s, and it is 3 s now: of 60 s 58 are left, and of 30 s 28.
        limits = ("set astart 2", "set aend 4")
        self.assertEqual(told(2, *limits), ["expires in 58 s"] * 2)
        halved = "timeouts of a are scaled by 1/2: it has 3 states, `astart` is 2, `aend` 4"
        self.assertEqual(told(3, *limits), [halved, *["expires in 28 s"] * 3])
        none = "timeouts of a are all 0 s: it has 4 states, `astart` is 2, `aend` 4"
        self.assertEqual(told(4, *limits), [none, *["expired"] * 4])
        self.assertEqual(told(4, "set astart 0", "set aend 0"), ["expires in 58 s"] * 4)
        self.assertEqual(told(38), ["expires in 58 s"] * 38)
        # 60 s by 37/38 are 58 whole ones.
        scaled = "timeouts of a are scaled by 37/38: it has 39 states, `astart` is 38, `aend` 76"
        self.assertEqual(told(39), [scaled, *["expires in 56 s"] * 39])

    def test_what_a_shorter_timeout_leaves_is_what_a_purge_deletes(self) -> None:
        for milliseconds, says, outcome in ((29999, "expires in 0 s", "purged 0"), (30000, "expired", "purged 3")):
            queries = [f"step main packet a out udp 10.0.0.1:{it} 192.0.2.9:53 40" for it in (1000, 1001, 1002)]
            setup = ["set astart 2", "set aend 4", "rule a pass out", "open"]
            lab = laboratory("\n".join([*setup, *queries, f"step main tick a {milliseconds}"]))
            told = "\n".join(view(lab.show("main"), lab.setup, PLAIN))
            self.assertEqual(told.count(f"       {says}, udp.first"), 3)
            self.assertEqual(lab.ask("step main purge a"), [f"step {outcome} dropped 0"])
            lab.close()

    def test_expired_is_what_a_purge_deletes(self) -> None:
        for milliseconds, says, outcome in ((59999, "expires in 0 s", "purged 0"), (60000, "expired", "purged 1")):
            lab = laboratory(
                f"""
                rule a pass out
                open
                step main packet a out udp 10.0.0.1:1000 192.0.2.9:53 40
                step main tick a {milliseconds}
                """
            )
            self.assertIn(f"       {says}, udp.first", "\n".join(view(lab.show("main"), lab.setup, PLAIN)))
            self.assertEqual(lab.ask("step main purge a"), [f"step {outcome} dropped 0"])
            lab.close()


class Waiting(unittest.TestCase):
    def test_what_is_told_by_kind(self) -> None:
        queues = ["queue a ins 4 1.4", "queue a ins 5 1.5", "queue a updc 1 1.2", "queue a del 3 1.3"]
        lists = ["ask a 2.1", "ask a 0.0", "bus a 1", "bus a 2", "clr a 1 7"]
        pair = shown(*queues, *lists, node="clock 0 boot 1 id 9 seq 9 push 1 serve - sync -")
        expected = [
            "  no states",
            "  counters: all 0",
            "  to send to b (9, push asked): insert 1.4, 1.5; short update 1.2; short delete 1.3;"
            " update request 2.1, 0.0 (all states);",
            "    bulk status start, end; clear creator 1 up to id 7",
        ]
        self.assertEqual(node_a(pair), expected)

    def test_a_push_alone(self) -> None:
        pair = shown(node="clock 0 boot 1 id 9 seq 9 push 1 serve - sync -")
        self.assertEqual(node_a(pair)[2:], ["  nothing to send to the peer, push asked"])

    def test_held_packets(self) -> None:
        pair = shown("held a 1.1 2980", "held a 1.2 2990")
        # A shown pair alone has their states and times.
        expected = ["  held packet of 1.1: since 2.98 s, due since 3 s", "  held packet of 1.2: since 2.99 s, due at 3.01 s"]
        self.assertEqual(node_a(pair)[2:], expected)
        self.assertIn("due at 3.08 s", node_a(pair, "set defer_ms 100")[2])
        packets = {Name(1, 1): "udp 10.0.0.1:1 192.0.2.9:2 40", Name(1, 2): "tcp 10.0.0.1:1 192.0.2.9:2 S 1 0 9 0 7"}
        expected = [
            "  held packet of 1.1 (udp 10.0.0.1:1 192.0.2.9:2 40): since 2.98 s, due since 3 s",
            "  held packet of 1.2 (tcp 10.0.0.1:1 192.0.2.9:2 S 1 0 9 0 7): since 2.99 s, due at 3.01 s",
        ]
        self.assertEqual(node_a(with_packets(pair, packets))[2:], expected)

    def test_a_held_packet_is_shown_by_its_state_and_a_time(self) -> None:
        for line in ("held a 1.1", "held a 1.1 2980 udp 10.0.0.1:1 192.0.2.9:2 40"):
            self.assertRaises(NotShown, shown, line)

    def test_bulk_updates(self) -> None:
        pair = shown(node="clock 3000 boot 1 id 9 seq 9 push 0 serve 0.0/2000 sync 12/1500")
        expected = [
            "  serves a bulk update, asked for at 2 s, from its first state on",
            "  waits for all states, 12 tries, last asked or heard at 1.5 s; gives up at 11.5 s at the earliest",
        ]
        self.assertEqual(node_a(pair)[2:], expected)
        pair = shown(node="clock 3000 boot 1 id 9 seq 9 push 0 serve 1.3/2000 sync 1/1500")
        expected = [
            "  serves a bulk update, asked for at 2 s, all up to 1.3 had their turn",
            "  waits for all states, 1 try, last asked or heard at 1.5 s; asks again at 2.5 s at the earliest",
        ]
        self.assertEqual(node_a(pair, "set bulk_ms 1000")[2:], expected)

    def test_counters_that_are_not_0(self) -> None:
        pair = shown()
        pair.a.counters.update(passed=3, stale=1)
        self.assertIn("  counters: packets passed 3, updates older than the state 1; the other 5 are 0", node_a(pair))

    def test_seconds(self) -> None:
        for milliseconds, text in ((0, "0 s"), (5, "0.005 s"), (500, "0.5 s"), (60000, "60 s"), (61010, "61.01 s")):
            self.assertEqual(seconds(milliseconds), text)


class Checksums(unittest.TestCase):
    def test_no_rules_have_the_checksum_of_formats(self) -> None:
        self.assertEqual(rules_checksum([]), "d41d8cd98f00b204e9800998ecf8427e")

    def test_ranges_and_pools_in_one_form(self) -> None:
        v6 = "[2001:0db8:0000:0000:0000:0000:0000:0001]"
        for words, plain in (
            ("pass any fport 053:53 tport 00:0", "pass any fport 53 tport 0"),
            ("pass any fport 01:65535", "pass any fport 1:65535"),
            ("pass out nat 198.051.100.1:04000:04001 timeout udp.first 05", "pass out nat 198.51.100.1:4000:4001 timeout udp.first 5"),
            (f"pass in rdr {v6}:080:80", f"pass in rdr {v6}:80"),
            (f"pass in rdr {v6}:080:81", f"pass in rdr {v6}:80:81"),
        ):
            self.assertEqual(canonical_text(Rule(tuple(words.split()))), plain)

    def test_the_program_computes_the_same(self) -> None:
        words = "pass out quick proto 006 from 010.0.0.0/08 fport 01 to 192.0.2.0/24 tport 53 flags any no-sync max 007"
        words += " nat 198.051.100.1:04000 timeout tcp.first 05 timeout udp.multiple 7"
        plain = "pass out quick proto tcp from 10.0.0.0/8 fport 1 to 192.0.2.0/24 tport 53 flags any no-sync max 7"
        plain += " nat 198.51.100.1:4000 timeout tcp.first 5 timeout udp.multiple 7"
        self.assertEqual(canonical_text(Rule(tuple(words.split()))), plain)
        lab = laboratory(
            f"""
            rule a {words}
            rule a pass in proto 47 from 2001:0db8:0000:0000:0000:0000:0000:0000/032
            rule a pass out nat [2001:0db8:0000:0000:0000:0000:0000:0001]:00
            rule a pass out fport 01:2 tport 03:3 nat 198.51.100.1:04:005
            rule a pass in rdr [2001:0db8:0000:0000:0000:0000:0000:0001]:07:8
            open
            step main restart a
            step main flush a
            """
        )
        (frame,) = lab.show("main").frames.values()
        self.assertEqual(rules_checksum(lab.setup.rules["a"]), frame.checksum)
        lab.close()


if __name__ == "__main__":
    unittest.main()
