"""What a script that is inferred says and has, case by case. The events are worked out by hand."""
from __future__ import annotations

import os
import subprocess
import sys
from typing import List, Sequence
from unittest.mock import patch

from ..captures.runs import CLOCKS_BEGAN
from ..inferring import command
from ..inferring.playing import Playing
from ..inferring.setting import Setting
from ..language.events import read_packet
from ..language.names import NODES, Name
from ..language.packets import PacketEvent
from ..link.laboratory import Laboratory
from ..model.pair import read_shown
from ..model.setups import Setup
from . import TOP, program
from .inferred import Inferred, Nights, differing_frames, differing_tables
from .nights import Captured, ip, logged, on_ethernet, pcap

RULES = ["rule a block any", "rule a pass out", "rule b block any", "rule b pass out", "open"]
QUERY = "packet a out udp 10.0.0.1:1000 192.0.2.9:53 40"
ANSWER = "packet {} in udp 192.0.2.9:53 10.0.0.1:1000 80"
OTHER = "packet a out udp 10.0.0.2:2000 192.0.2.9:53 40"
NAME = "0000000000000001/00000001"
CONNECTION = (
    "packet a out tcp 10.0.0.1:1000 192.0.2.9:80 S 100 0 1000 0",
    "packet a in tcp 192.0.2.9:80 10.0.0.1:1000 SA 500 101 1000 0",
    "packet a out tcp 10.0.0.1:1000 192.0.2.9:80 A 101 501 1000 0",
)
# Why pf blocked what passes here.
GONE = "on the pair what would have brought it did not come or was not kept, or it was gone"
# The second frame comes, whose state b does not have and asks for, and a sends all of it.
ASKED = ["flush a", "deliver 2", "flush b", "deliver 3", "flush a", "deliver 4"]


class Scripts(Nights):
    def ran(self, events: Sequence[str], setup: Sequence[str] = RULES) -> Laboratory:
        return self.run_of([*setup, *(f"step main {event}" for event in events)])

    def inferred(self, events: Sequence[str], *words: str, setup: Sequence[str] = RULES) -> Inferred:
        lab = self.ran(events, setup)
        return self.infer(self.captured(lab, lab.branch("main")), *words)

    def log(self, node: str, *packets: PacketEvent, reason: int = 0, time: int = 0) -> List[str]:
        """The words for a log of packets that were blocked at this many nanoseconds after the clocks began."""
        its = [Captured(CLOCKS_BEGAN + time, logged(packet, reason)) for packet in packets]
        return [f"--log-{node}", self.save(f"log-{node}.pcap", pcap(its, 117))]

    # ---- events

    def test_a_lost_frame(self) -> None:
        """The query is inferred from the insertion, which is not in the capture of b; 3 seconds later the answer from the update, and what
        b asks for follows."""
        made = self.inferred([QUERY, "flush a", "lose 1", "tick a 3000", "tick b 3000", ANSWER.format("a"), *ASKED])
        wanted = [QUERY, "flush a", "lose 1", "tick a 3000", "tick b 3000", "packet a in udp 192.0.2.9:53 10.0.0.1:1000 40"]
        self.assertEqual([*wanted, *ASKED], made.events)
        self.assertEqual(1, made.status)
        self.assertIn("# 00:00:00.000000 frame 1 of a; it is not in the capture of b (lost on the way, late, or not captured)", made.script)
        self.assertIn("# The records in these agree in levels (all 3), class (all 3), keys (all 2).", made.script)

    def test_what_is_said(self) -> None:
        """Standard error has what the head of the script has."""
        made = self.inferred([QUERY, "flush a", "deliver 1"])
        head = " ".join(it[2:].strip() for it in made.script[: made.script.index("")])
        said = " ".join(it.split("night.pfl: ", 1)[1] for it in made.said)
        self.assertEqual(head, said)
        self.assertTrue(head.startswith("Inferred from 2 captures of pfsync (a.pcap, b.pcap). It is one night of many that look the same"))
        self.assertIn("Not compared: rules, interfaces, ages, the seconds left, whether an acknowledgement is asked for,", head)

    def test_a_deletion(self) -> None:
        made = self.inferred([QUERY, "flush a", "deliver 1", "tick a 1000", "tick b 1000", "kill a 1.1", "flush a", "deliver 2"])
        self.assertEqual([QUERY, "flush a", "deliver 1", "tick a 1000", "tick b 1000", "kill a 1.1", "flush a", "deliver 2"], made.events)

    def test_a_restart(self) -> None:
        """Node b begins anew, asks for all, and gets its two states in turns of one each."""
        made = self.inferred([QUERY, OTHER, "flush a", "deliver 1", "restart b", "flush b", "deliver 2", "turn a", "flush a", "deliver 3"])
        after = ["flush a", "deliver 1", "restart b", "flush b", "deliver 2", "turn a", "turn a", "flush a", "deliver 3"]
        self.assertEqual([QUERY, OTHER, *after], made.events)
        self.assertIn("# No frame parts.", made.script)

    def test_a_clear(self) -> None:
        made = self.inferred([QUERY, "flush a", "deliver 1", "clear a", "flush a", "deliver 2"])
        self.assertEqual([QUERY, "flush a", "deliver 1", "clear a", "flush a", "deliver 2"], made.events)

    def test_a_clear_leaves_deletions_that_are_pending(self) -> None:
        """The insertion comes to b, which deletes the state and then clears all. The state comes back in a bulk update, and its answer comes
        there: b sends its deletion alone. With a restart it forgets that too."""
        lines = ["kernel revive", *RULES[:-1]]
        playing = Playing(program(), Setting(lines, Setup.of(lines), True, dict.fromkeys(NODES, 0)))
        self.addCleanup(playing.close)
        followed, name = playing.followed, Name(1, 1)
        playing.packet(read_packet(QUERY))
        playing.flush("a")
        playing.restart("b")
        playing.flush("b")
        playing.deliver(2)
        playing.step("turn a")
        playing.flush("a")
        playing.deliver(1)
        playing.kill("b", name)
        playing.clear("b")
        playing.deliver(3)
        self.assertEqual(playing.packet(read_packet(ANSWER.format("b"))), ["pass", "1.1"])
        self.assertEqual((followed.pending["b"], followed.deleted["b"]), (set(), {name}))
        self.assertEqual([(it.kind, it.name) for it in read_shown(playing.run.ask("show main")).b.queue], [("del", name)])
        self.assertEqual(playing.drift(), [])
        playing.restart("b")
        self.assertEqual((followed.pending["b"], followed.deleted["b"]), (set(), set()))

    def test_before_the_capture(self) -> None:
        """The capture begins after the state: its keys come with the answer to a request, and both nodes are given it first."""
        again = ["restart b", "flush b", "deliver 3", "turn a", "flush a", "deliver 4"]
        lab = self.ran([QUERY, "flush a", "deliver 1", "tick a 5000", "tick b 5000", ANSWER.format("a"), "flush a", "deliver 2", *again])
        made = self.infer(self.captured(lab, lab.branch("main")), "--from", "00:00:04")
        self.assertEqual([QUERY, "flush a", "deliver 1", "packet a in udp 192.0.2.9:53 10.0.0.1:1000 40", "flush a"], made.events[:5])
        self.assertIn("# What was there before: states of a", made.script)
        self.assertIn("# It has only what happened from 00:00:04.000000.", made.script)

    def test_asked_for_before_the_capture(self) -> None:
        """The capture begins with the request of b, which lacks the state: a short update made b ask, and what had brought the state was
        lost."""
        lab = self.ran([QUERY, "flush a", "lose 1", ANSWER.format("a"), *ASKED])
        paths = self.captured(lab, lab.branch("main"))
        for path, number in zip(paths, (2, 1)):
            for _ in range(number):
                self.without_first_message(path)
        made = self.infer(paths)
        query, answer = QUERY, "packet a in udp 192.0.2.9:53 10.0.0.1:1000 40"
        # (one more answer leaves both ends as they are; one more query would not)
        before = [query, answer, "flush a", "lose 1", answer, "flush a", "deliver 2"]
        self.assertEqual([*before, "flush b", "deliver 3", "flush a", "deliver 4"], [it for it in made.events if not it.startswith("tick")])
        self.assertIn("# Held against the captured frames, 2 of 2 have the same records, by kind and by state.", made.script)

    def test_a_state_without_keys(self) -> None:
        """Of a state that no message tells the keys of nothing can be stepped; the frame parts, and is said to."""
        lab = self.ran([QUERY, "flush a", "deliver 1", "tick a 5000", "tick b 5000", ANSWER.format("a"), "flush a", "deliver 2"])
        paths = self.captured(lab, lab.branch("main"))
        for path in paths:
            self.without_first_message(path)
        made = self.infer(paths)
        self.assertEqual([], made.events)
        self.assertIn(f"# {NAME}: its keys are in no message, so nothing is stepped for it", made.script)
        self.assertIn("# parts: nothing is pending here, so no frame is sent", made.script)
        self.assertIn("# 1 record could not be explained: the comments in its place say why.", made.script)

    def without_first_message(self, path: str) -> None:
        """Takes the second packet out of a capture: the first one shows only that it has begun."""
        with open(path, "rb") as it:
            data = it.read()
        at = 24
        for _ in range(1):
            at += 16 + int.from_bytes(data[at + 8 : at + 12], "little")
        end = at + 16 + int.from_bytes(data[at + 8 : at + 12], "little")
        self.save(os.path.basename(path), data[:at] + data[end:])

    def test_one_capture(self) -> None:
        """Of a's capture alone: that b asks shows that the insertion did not come, and the update did."""
        lab = self.ran([QUERY, "flush a", "lose 1", "tick a 50", "tick b 50", ANSWER.format("a"), *ASKED])
        made = self.infer(self.captured(lab, lab.branch("main"))[:1])
        self.assertEqual(["lose 1", "deliver 2"], [event for event in made.events if event in ("lose 1", "deliver 1", "deliver 2")])
        shown = "later messages of b show that it did not come in time, or that a state of it was refused"
        self.assertIn(f"# 00:00:00.000000 frame 1 of a; {shown}", made.script)
        self.assertIn("# Of 2 frames no capture says whether they came: later ones of the receiver show it.", made.script)
        self.assertIn("# Of 1 frame no capture says whether it came: here it comes at once, since nothing shows it.", made.script)

    def test_other_protocols(self) -> None:
        """GRE and ICMPv6 have no ports in the laboratory."""
        gre, net = "packet a out 47 10.0.0.1:0 192.0.2.9:0 60", "fd00:0000:0000:0000:0000:0000:0000"
        echo = f"packet a out 58 [{net}:0001]:0 [{net}:0009]:0 60"
        made = self.inferred([gre, echo, "flush a", "deliver 1"])
        self.assertEqual([gre[:-2] + "40", echo[:-2] + "40", "flush a", "deliver 1"], made.events)
        self.assertIn("# No frame parts.", made.script)

    # ---- logs

    def test_for_want_of_a_state(self) -> None:
        """The frame that had the state is not in the capture of b. Without the rules of the pair a rule blocks it that is made of the
        log."""
        answer = PacketEvent("b", "in", "udp", "192.0.2.9:53", "10.0.0.1:1000", 80)
        made = self.inferred([QUERY, "flush a", "lose 1"], *self.log("b", answer, time=500 * 10**6))
        self.assertEqual([QUERY, "flush a", "lose 1", "tick a 500", "tick b 500", ANSWER.format("b")], made.events)
        self.assertIn("rule b block in quick proto udp from 192.0.2.9/32 fport 53 to 10.0.0.1/32 tport 1000", made.script)
        lost = "frame 1 of a had it 500.000 ms before, and is not in the capture of b (lost on the way, late, or not captured)"
        self.assertIn(f"# blocked here, too, for want of a state: {lost}", made.script)
        self.assertIn("# Rules that are made of the log block 1 of them: that these are blocked here says nothing.", made.script)
        head = "1 packet that pf logged as blocked, of 1 flow; in the script 1 blocked for the same reason"
        at = made.out.index(head)
        flow = "00:00:00.500000  b  udp 192.0.2.9:53 > 10.0.0.1:1000  match: blocked here, too, for want of a state:"
        self.assertEqual(f"  {flow} {lost}", made.out[at + 1])
        self.assertTrue(made.out[at + 2].startswith("what no frame says"))

    def test_what_was_blocked_twice(self) -> None:
        """A flow that was blocked three times is one line."""
        answer = PacketEvent("b", "in", "udp", "192.0.2.9:53", "10.0.0.1:1000", 80)
        made = self.inferred([QUERY, "flush a", "lose 1"], *self.log("b", answer, answer, answer, time=500 * 10**6))
        (line,) = [it for it in made.out if "  match" in it]
        self.assertIn("match (3 times up to 00:00:00.500000): blocked here, too, for want of a state", line)

    def test_a_scan(self) -> None:
        """What the rules block, and no message has a state of, lacks no frame."""
        scan = PacketEvent("b", "in", "tcp", "198.51.100.99:40000", "10.0.0.1:23", 0, "S", 1, 0, 1000)
        lab = self.ran([QUERY, "flush a", "deliver 1"])
        made = self.infer(self.captured(lab, lab.branch("main")), *self.log("b", scan, time=500 * 10**6), *self.rules(lab))
        self.assertIn("# blocked here, too: no message has a state of it, so the rules decided", made.script)

    def test_here_it_passes(self) -> None:
        """By the frames b has the state, and the log says that it blocked a packet of it."""
        answer = PacketEvent("b", "in", "udp", "192.0.2.9:53", "10.0.0.1:1000", 80)
        made = self.inferred([QUERY, "flush a", "deliver 1"], *self.log("b", answer, time=500 * 10**6))
        why = f"b has its state, by frame 1 of a, which came; {GONE}"
        self.assertIn(f"# here it passes: {why}", made.script)
        self.assertIn("# Of 1 packet that pf logged as blocked, 1 is passed here.", made.script)

    def test_what_nothing_says_came(self) -> None:
        """Of a's capture alone nothing says whether the frame came to b, nor how b's clock differs."""
        answer = PacketEvent("b", "in", "udp", "192.0.2.9:53", "10.0.0.1:1000", 80)
        lab = self.ran([QUERY, "flush a", "deliver 1"])
        made = self.infer(self.captured(lab, lab.branch("main"))[:1], *self.log("b", answer, time=500 * 10**6))
        has = "by frame 1 of a, of which nothing says whether it came: here it did"
        self.assertIn(f"# here it passes: b has its state, {has}; {GONE}", made.script)
        self.assertIn("How the clock of b differs from that of a is not known", " ".join(made.said))

    def test_a_state_that_was_gone(self) -> None:
        """The frame came, and b began anew before the packet."""
        answer = PacketEvent("b", "in", "udp", "192.0.2.9:53", "10.0.0.1:1000", 80)
        made = self.inferred([QUERY, "flush a", "deliver 1", "restart b", "flush b", "lose 2"], *self.log("b", answer, time=500 * 10**6))
        gone = "it came there; b asked for all states in frame 2, so it had begun anew"
        self.assertIn(f"# blocked here, too, for want of a state: frame 1 of a had it 500.000 ms before, and {gone}", made.script)

    def test_another_reason(self) -> None:
        """pf had no state, and here b has one, whose window the segment misses."""
        lab = self.ran([*CONNECTION, "flush a", "deliver 1"])
        segment = PacketEvent("b", "in", "tcp", "192.0.2.9:80", "10.0.0.1:1000", 100, "A", 900001, 101, 1000)
        made = self.infer(self.captured(lab, lab.branch("main")), *self.log("b", segment, time=500 * 10**6))
        self.assertIn("# pf had no state of it, and here b has one, by frame 1 of a, which came, whose window it misses", made.script)

    def test_a_mismatch_that_passes_here(self) -> None:
        """b blocked a segment for its window, and by the frames it fits."""
        lab = self.ran([*CONNECTION, "flush a", "deliver 1"])
        segment = PacketEvent("b", "in", "tcp", "192.0.2.9:80", "10.0.0.1:1000", 100, "A", 501, 101, 1000)
        made = self.infer(self.captured(lab, lab.branch("main")), *self.log("b", segment, reason=10, time=500 * 10**6))
        why = "it fits the state that b has, by frame 1 of a, which came: what else had moved the state there is in no capture"
        self.assertIn(f"# here it passes: {why}", made.script)

    def test_seen_twice(self) -> None:
        """The interface and the log have the same packet: it comes once."""
        lab = self.ran([QUERY, "flush a", "lose 1", "tick a 500", "tick b 500", ANSWER.format("b")])
        branch = lab.branch("main")
        made = self.infer(self.captured(lab, branch), *self.data(lab, branch, "b"), *self.logs(lab, branch, "b"))
        self.assertEqual(1, made.events.count(ANSWER.format("b")))

    # ---- packets of an interface

    def test_a_flow_that_no_message_tells_of(self) -> None:
        """With the rules a packet of 10.0.0.1, which is near in another flow, goes out, and its answer comes in; without them both are
        passed over."""
        untold = ["packet a out udp 10.0.0.1:1001 192.0.2.9:53 40", "packet a in udp 192.0.2.9:53 10.0.0.1:1001 80"]
        lab = self.ran([QUERY, "flush a", "deliver 1", "tick a 50", "tick b 50", *untold])
        branch = lab.branch("main")
        made = self.infer(self.captured(lab, branch), *self.data(lab, branch, "a"), *self.rules(lab))
        self.assertEqual(untold, made.events[-2:])
        made = self.infer(self.captured(lab, branch), *self.data(lab, branch, "a"))
        self.assertEqual("deliver 1", made.events[-1])
        self.assertIn("# Passed over: 2 x packet of an interface whose flow is in no message.", made.script)

    def test_both_passages(self) -> None:
        """A forwarded packet has a state on its way in, at the inside, and one on its way out. The packets and the rules are of the
        outside: what comes from the client goes out there."""
        inside, outside = ("packet a {} udp 10.0.0.1:1000 192.0.2.9:53 40".format(it) for it in ("in", "out"))
        events = [inside, outside, "flush a", "deliver 1", "tick a 50", "tick b 50", "packet a in udp 192.0.2.9:53 10.0.0.1:1000 80"]
        lab = self.ran([*events, "flush a", "deliver 2"], ["rule a pass any", "rule b pass any", "open"])
        out, back = (("10.0.0.1:1000", "192.0.2.9:53"), ("192.0.2.9:53", "10.0.0.1:1000"))
        packets = [PacketEvent("a", "out", "udp", *out, 40), PacketEvent("a", "in", "udp", *back, 80)]
        its = [Captured(CLOCKS_BEGAN + time, on_ethernet(ip(it))) for time, it in zip((2, 50 * 10**6 + 7), packets)]
        data, rules = self.save("data-a.pcap", pcap(its, 1)), self.save("pair.pfl", b"rule a block any\nrule a pass out\n")
        made = self.infer(self.captured(lab, lab.branch("main")), "--data-a", data, "--rules", rules)
        self.assertEqual([outside, *events[2:], "flush a", "deliver 2"], made.events)
        why = "rule 0 of a (block any) blocks its first packet, and on the pair it passed"
        self.assertIn(why, " ".join(it.lstrip("# ") for it in made.script))

    def test_which_way_is_not_known(self) -> None:
        """Neither end is one of a flow that a message tells of."""
        lab = self.ran([QUERY, "flush a", "deliver 1", "tick a 50", "tick b 50", "packet a out udp 10.0.0.7:1001 192.0.2.7:53 40"])
        branch = lab.branch("main")
        made = self.infer(self.captured(lab, branch), *self.data(lab, branch, "a"), *self.rules(lab))
        self.assertEqual("deliver 1", made.events[-1])
        what = "packet of an interface whose flow is in no message, and of which it is not known whether it came in or went out"
        self.assertIn(f"Passed over: 1 x {what}.", " ".join(it.split("night.pfl: ")[-1] for it in made.said))

    def test_packets_in_place_of_inferred_ones(self) -> None:
        """Of three queries messages tell of one state; all three are in the script, and what waited in a when it died is at a alone."""
        events = [QUERY, "flush a", "deliver 1", "tick a 50", "tick b 50", ANSWER.format("a"), QUERY, QUERY]
        lab = self.ran(events)
        branch = lab.branch("main")
        made = self.infer(self.captured(lab, branch), *self.data(lab, branch), *self.rules(lab))
        self.assertEqual(events, made.events)
        self.assertEqual([], differing_tables(self.run_of(made.script), lab))

    def test_an_address_that_another_state_gave(self) -> None:
        """A packet leaves with the address of another state than the node has here: that one was gone by then. No message tells of the
        deletion, as the node died before it was sent."""
        nat = ["rule a pass out nat 203.0.113.1:4000", "rule b pass out nat 203.0.113.2:4000", "open"]
        other = ["packet a out udp 10.0.0.2:2000 192.0.2.8:53 40", "flush a", "deliver 1"]
        events = [*other, "packet b out udp 10.0.0.1:1000 192.0.2.9:53 40", "flush b", "deliver 2", "kill a 2.1", QUERY]
        lab = self.ran(events, nat)
        branch = lab.branch("main")
        made = self.infer(self.captured(lab, branch), *self.data(lab, branch), *self.rules(lab))
        self.assertEqual(events, made.events)

    # ---- rules

    def test_rules_stay(self) -> None:
        """The lines of the rules stay as they are, with their comments, and rules are compared by the numbers of pf."""
        lines = ["# The rules of em0, taken in from a pf.conf by `./lab import`.", ""]
        lines += ["# pf.conf:2 @0 block all", "rule a block any", "rule b block any"]
        lines += ["# pf.conf:9 @7 pass out on em0", "rule a pass out", "rule b pass out"]
        path = self.save("pair.pfl", "".join(f"{line}\n" for line in lines).encode())
        made = self.inferred([QUERY, "flush a", "deliver 1"], "--rules", path)
        at = made.script.index(lines[2])
        self.assertEqual(lines[2:], made.script[at : at + len(lines) - 2])
        # (the capture has the laboratory's own number)
        self.assertIn(f"# parts: {NAME}: rule 1 captured, rule 7 here", made.script)

    def test_ports_that_pf_chose(self) -> None:
        """pf took port 54321 of its pool: a rule with that port stands before those of the pair, with their timeouts."""
        first = [*RULES[:1], "rule a pass out nat 203.0.113.1:54321", *RULES[2:]]
        events = [QUERY, "flush a", "deliver 1", "packet a in udp 192.0.2.9:53 203.0.113.1:54321 80", "flush a", "deliver 2"]
        lab = self.ran(events, first)
        branch = lab.branch("main")
        pool = b"rule a pass out nat 203.0.113.1:50001:65535 timeout udp.single 90\n"
        path = self.save("pair.pfl", b"rule a block any\n# pf.conf:9 @7 nat on em0\n" + pool)
        made = self.infer(self.captured(lab, branch), *self.data(lab, branch, "a"), "--rules", path)
        rule = "rule a pass out quick proto udp from 10.0.0.1/32 fport 1000 to 192.0.2.9/32 tport 53 nat 203.0.113.1:54321"
        self.assertEqual(f"{rule} timeout udp.single 90", made.script[made.script.index("rule a block any") - 1])
        self.assertEqual(events, made.events)
        self.assertIn("# No frame parts.", made.script)

    def test_whose_rules_decide(self) -> None:
        profile = "The laboratory's profile decides; by a line `kernel all` in the file of --rules FreeBSD's rules do, as far as we know them."
        kernel = "By kernel merge FreeBSD's rules decide, as far as we know them; where there is no word, the laboratory's profile does."
        for line, said in ((b"", profile), (b"kernel merge\n", kernel)):
            path = self.save("pair.pfl", line + b"rule a pass out\nrule b pass out\n")
            self.assertIn(f"# {said}", self.inferred([QUERY, "flush a", "deliver 1"], "--rules", path).script)

    def test_rules_that_block(self) -> None:
        path = self.save("pair.pfl", b"rule a block any\nrule b block any\n")
        made = self.inferred([QUERY, "flush a", "deliver 1"], "--rules", path)
        said = "rule 0 of a (block any) blocks its first packet, and on the pair it passed, so nothing is stepped for it"
        self.assertIn(f"# {NAME}: {said}", made.script)

    def test_faulty_rules(self) -> None:
        path = self.save("pair.pfl", b"rule a block any\nrule a passes out\n")
        made = self.inferred([QUERY, "flush a", "deliver 1"], "--rules", path)
        self.assertEqual((2, []), (made.status, made.script))
        hint = "--rules takes a setup, such as `import --unopened` writes"
        self.assertEqual([f"lab: {path}:2: bad 5 Number; {hint}"], made.said)

    # ---- parts of a night

    def test_a_flow(self) -> None:
        """Only the flow of 10.0.0.2: its frames have its records, and those without any are left out."""
        both = [QUERY, OTHER, "flush a", "deliver 1", ANSWER.format("a"), "flush a", "deliver 2", "kill a 1.2", "flush a", "deliver 3"]
        made = self.inferred(both, "--flow", "10.0.0.2")
        self.assertEqual([OTHER, "flush a", "deliver 1", "kill a 1.1", "flush a", "deliver 2"], made.events)
        head = "# It has only flows with 10.0.0.2 at an end: a frame has only their records, and how far a bulk update is is left out."
        self.assertIn(head, made.script)
        self.assertIn("# Held against the captured frames, 2 of 2 have the same records, by kind and by state.", made.script)

    def test_nothing_that_is_asked_for(self) -> None:
        made = self.inferred([QUERY, "flush a", "deliver 1"], "--flow", "10.9.9.9")
        self.assertEqual((2, []), (made.status, made.script))
        self.assertEqual(["lab: no frame has a record of what --flow, --from and --to ask for, so there is no script"], made.said)

    def test_up_to_a_time(self) -> None:
        later = ["tick a 9000", "tick b 9000", OTHER, "flush a", "deliver 2"]
        made = self.inferred([QUERY, "flush a", "deliver 1", *later], "--to", "00:00:05")
        self.assertEqual([QUERY, "flush a", "deliver 1"], made.events)

    def test_too_much(self) -> None:
        with patch.object(command, "MOST_EVENTS", 3):
            made = self.inferred([QUERY, "flush a", "deliver 1", OTHER, "flush a", "deliver 2"])
        said = "2 frames make more than the 3 events that a script may have: --flow ADDRESS, --from TIME and --to TIME take a part"
        self.assertEqual((2, [], [f"lab: {said}"]), (made.status, made.script, made.said))

    # ---- files

    def test_a_file_that_is_read(self) -> None:
        lab = self.ran([QUERY, "flush a", "deliver 1"])
        paths = self.captured(lab, lab.branch("main"))
        made = self.infer(paths, "--rules", self.path("night.pfl"))
        self.assertEqual(2, made.status)
        self.assertIn("is one of the files that the script is inferred from", made.said[0])

    def test_the_wrong_capture(self) -> None:
        lab = self.ran([QUERY, "flush a", "deliver 1"])
        paths = self.captured(lab, lab.branch("main"))
        made = self.infer(paths, "--log-b", paths[1])
        self.assertEqual(2, made.status)
        self.assertIn("its link type is 1, and that of a capture of pflog0 is 117", made.said[0])
        (_, log) = self.log("b", PacketEvent("b", "in", "udp", "192.0.2.9:53", "10.0.0.1:1000", 80))
        made = self.infer(paths, "--data-b", log)
        self.assertEqual(2, made.status)
        self.assertIn("it is a capture of pflog0, which goes with --log-a or --log-b", made.said[0])

    def test_words_that_go_with_a_script(self) -> None:
        ran = subprocess.run([f"{TOP}/lab", "capture", "a.pcap", "--log-b", "x"], capture_output=True, text=True, check=False, timeout=60)
        self.assertEqual((2, "--log-b goes with --script"), (ran.returncode, ran.stderr.strip().splitlines()[-1].split("error: ")[-1]))

    def test_other_words_take_it(self) -> None:
        """check, annotate, page, whatif and verify take the script."""
        lab = self.ran([QUERY, "flush a", "lose 1", "tick a 500", "tick b 500", ANSWER.format("b")])
        branch = lab.branch("main")
        made = self.infer(self.captured(lab, branch), *self.logs(lab, branch, "b"))
        path, page = self.path("night.pfl"), self.path("night.html")
        for words in (["annotate", path], ["verify", path], ["page", path, page], ["whatif", path], ["chart", path]):
            ran = self.lab(*words)
            self.assertEqual(0, ran.returncode, f"{words}: {ran.stdout}{ran.stderr}")
        checked = subprocess.run([program(), "check"], input=made.text, capture_output=True, text=True, check=False, timeout=60)
        self.assertEqual((0, f"good {len(made.events)}\n"), (checked.returncode, checked.stdout))

    def lab(self, *words: str) -> "subprocess.CompletedProcess[str]":
        environment = {**os.environ, "PFL_LAB": program()}
        return subprocess.run([sys.executable, f"{TOP}/lab", *words], capture_output=True, text=True, check=False, env=environment, timeout=60)

    def test_again(self) -> None:
        """The same captures give the same script."""
        lab = self.ran([QUERY, OTHER, "flush a", "deliver 1"])
        paths = self.captured(lab, lab.branch("main"))
        self.assertEqual(self.infer(paths).script, self.infer(paths).script)
        self.assertEqual([], differing_frames(self.run_of(self.infer(paths).script), lab))
