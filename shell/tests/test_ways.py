"""The packets that lead a state to what is known of it. States and packets are worked out by hand from docs/FORMATS.md; random states
are those that random packets lead to by `tracking`."""
from __future__ import annotations

import random
import unittest
from dataclasses import replace
from typing import List, Optional, Sequence, Tuple

from ..captures.decoding import Ends as Flow, Peer, Record
from ..inferring.causes import wanted as wanted_of
from ..inferring.ways import Wanted, Way, way_to
from ..language.commands import OPEN
from ..language.events import read_packet
from ..language.names import Name
from ..language.packets import CIRCLE, Key, PacketEvent
from ..language.records import UPDATE
from ..language.setups import ICMP
from ..link.programs import run_lines
from ..model.kernels import EVERY, PROFILE, Kernel
from ..model.pair import read_shown
from ..model.states import End, State
from ..model.tracking import SILENT, judged, moved, started
from . import program

KEY = Key("192.0.2.9:80", "10.0.0.1:1000")
OUT, BACK = "packet a out tcp 10.0.0.1:1000 192.0.2.9:80", "packet a in tcp 192.0.2.9:80 10.0.0.1:1000"
Ends = Tuple[End, End]

# The client's next number is 101, and the server's 501; the client offers 1000, and the server 2000.
OPENED = End(4, None, 1000, 101, 2101), End(4, None, 2000, 501, 1501)
HANDSHAKE = [f"{OUT} S 100 0 1000 0", f"{BACK} SA 500 101 2000 0", f"{OUT} A 101 501 1000 0"]


def wanted(ends: Ends, protocol: str = "tcp", key: Key = KEY) -> Wanted:
    return Wanted(protocol, "out", key, key, *ends)


def state(ends: Ends, protocol: str = "tcp") -> State:
    return State(Name(1, 1), protocol, "out", KEY, KEY, *ends, "tcp.first", 0, None, "-", 0, None)


def lines(way: Way) -> List[str]:
    return [packet.line for packet in way.packets]


def after(kernel: Kernel, now: Optional[State], packets: Sequence[PacketEvent]) -> Optional[State]:
    """The state after packets; nothing if one is dropped."""
    for packet in packets:
        if now is None:
            source, destination, timeout_class = started(kernel, packet)
            now = replace(state((source, destination), packet.protocol), timeout_class=timeout_class)
        else:
            now = moved(kernel, now, packet, 0)
            if now is None:
                return None
    return now


class ByHand(unittest.TestCase):
    def way(self, ends: Ends, packets: Sequence[str], now: Optional[Ends] = None, kernel: Kernel = PROFILE) -> None:
        way = way_to(kernel, "a", state(now) if now else None, wanted(ends))
        self.assertEqual((lines(way), way.missed), ([*packets], ""))

    def test_a_connection_from_its_first_packet_on(self) -> None:
        # A SYN leaves its end at its own number, and leaves room for one more after it.
        self.way((End(2, None, 1000, 100, 102), SILENT), [f"{OUT} S 100 0 1000 0"])
        self.way((End(2, 7, 1000, 100, 102), SILENT), [f"{OUT} S 100 0 1000 0 7"])
        # SYN with SYN ACK: the server's number is after its SYN, and it may send what the client offers.
        self.way((End(4, None, 1000, 100, 2101), End(2, None, 2000, 501, 1501)), HANDSHAKE[:2])
        self.way(OPENED, HANDSHAKE)

    def test_the_kernel_has_1_where_an_end_was_not_heard(self) -> None:
        self.way((End(2, None, 1000, 100, 102), End(0, None, 1, 0, 1)), [f"{OUT} S 100 0 1000 0"])

    def test_a_connection_that_was_picked_up(self) -> None:
        """A SYN that another node has seen leaves room for two after its number, and a packet from the middle for one. A SYN with the
        number before and a byte lead there, too, and most rules take no other first packet."""
        self.way((End(2, None, 1000, 100, 101), SILENT), [f"{OUT} S 99 0 1000 0", f"{OUT} A 99 0 1000 1"])

    def test_ends_that_close(self) -> None:
        closing = End(7, None, 1000, 102, 2101), OPENED[1]
        self.way(closing, [*HANDSHAKE[:2], f"{OUT} FA 101 501 1000 0"])
        self.way(closing, [f"{OUT} FA 101 501 1000 0"], now=OPENED)
        # The server acknowledges the FIN: it allows the client 2000 more from there.
        self.way((End(9, None, 1000, 102, 2102), OPENED[1]), [f"{BACK} A 501 102 2000 0"], now=closing)
        # A reset closes both, and asks for no number.
        self.way((End(10, None, 1000, 101, 2101), End(10, None, 2000, 501, 1501)), [f"{BACK} R 501 0 0 0"], now=OPENED)
        self.way((End(10, None, 1000, 100, 102), End(10, None, 0, 0, 0)), [f"{OUT} S 100 0 1000 0", f"{OUT} R 100 0 0 0"])

    def test_numbers_that_move(self) -> None:
        client, server = OPENED
        self.way((replace(client, lo=601), server), [f"{OUT} A 101 501 1000 500"], now=OPENED)
        # The server's answer of 1000 bytes fills the window, and acknowledges 500 of the client's.
        now = replace(client, lo=601), server
        self.way((replace(client, lo=601, hi=2601), replace(server, lo=1501)), [f"{BACK} A 501 601 2000 1000"], now=now)
        # More than a window: the client has to allow it first.
        way = way_to(PROFILE, "a", state(OPENED), wanted((client, replace(server, lo=4501, hi=5501))))
        self.assertEqual(way.missed, "")
        then = after(PROFILE, state(OPENED), way.packets)
        self.assertEqual(then and then.destination, replace(server, lo=4501, hi=5501))
        self.assertLessEqual(len(way.packets), 3)
        # A window that grows: what it allows is what an older acknowledgement does.
        self.way((replace(client, window=1500), server), [f"{OUT} A 101 1 1500 0"], now=OPENED)
        self.way(OPENED, [], now=OPENED)

    def test_a_window_of_0(self) -> None:
        """An end that offers nothing has a window of 1, and lets the other one send one byte."""
        packets = [f"{OUT} S 100 0 1000 0", f"{BACK} SA 500 101 1 0", f"{OUT} A 101 501 1000 0"]
        self.way((End(4, None, 1000, 101, 102), End(4, None, 1, 501, 1501)), packets)

    def test_numbers_that_wrap(self) -> None:
        last = CIRCLE - 1
        packets = [f"{OUT} S {last} 0 1000 0", f"{BACK} SA 0 0 2000 0", f"{OUT} A 0 1 1000 0"]
        self.way((End(4, None, 1000, 0, 2000), End(4, None, 2000, 1, 1001)), packets)
        now = End(4, None, 1000, CIRCLE - 10, 1990), OPENED[1]
        self.way((End(4, None, 1000, 9, 1990), OPENED[1]), [f"{OUT} A {CIRCLE - 10} 501 1000 19"], now=now)

    def test_scales(self) -> None:
        """The windows are 1024 of 64 bytes each, and 512 of 128."""
        source, destination = End(4, 6, 1024, 101, 65637), End(4, 7, 512, 501, 66037)
        way = way_to(PROFILE, "a", None, wanted((source, destination)))
        self.assertEqual([line.split()[6] for line in lines(way)], ["S", "SA", "A", "A"])
        self.assertEqual([line.split()[-1] for line in lines(way)[:2]], ["6", "7"])
        then = after(PROFILE, None, way.packets)
        self.assertEqual((way.missed, then and (then.source, then.destination)), ("", (source, destination)))

    def test_a_window_that_is_not_known_is_one_that_fits(self) -> None:
        way = way_to(PROFILE, "a", None, wanted((End(4, None, 0, 101, 2101), End(4, None, 0, 501, 1501))))
        self.assertEqual((lines(way), way.missed), (HANDSHAKE, ""))

    def test_what_is_not_reached_is_said(self) -> None:
        client, server = OPENED
        for ends, missed in (
            ((End(3, None, 1000, 100, 102), SILENT), "source level SYN_SENT and not SYN_RCVD"),
            ((replace(client, lo=1), server), "source lo 101 and not 1"),
            ((client, replace(server, hi=1500)), "destination hi 1501 and not 1500"),
            ((replace(client, window=999), server), "source win 1000 and not 999"),
            ((replace(client, scale=7), server), "source wscale none and not 7"),
            ((replace(client, level=2), replace(server, level=0)), "source level ESTABLISHED and not SYN_SENT"),
        ):
            with self.subTest(missed):
                now = None if "SYN_RCVD" in missed else state(OPENED)
                self.assertIn(missed, way_to(PROFILE, "a", now, wanted(ends)).missed)
        # (a state is as wanted in what is not named)
        self.assertEqual(way_to(PROFILE, "a", state(OPENED), wanted((replace(client, lo=1), server))).packets, ())

    def test_a_proxied_handshake_is_not_reached(self) -> None:
        way = way_to(PROFILE, "a", None, wanted((End(11, None, 1, 100, 102), SILENT)))
        self.assertEqual((lines(way), way.missed), ([f"{OUT} S 100 0 1 0"], "source level SYN_SENT and not 11"))

    def test_by_the_kernels_rule_an_acknowledgement_moves_no_number(self) -> None:
        """After its SYN the client stays at 100 until it sends a byte."""
        handshake = (End(4, None, 1000, 100, 2101), End(4, None, 2000, 501, 1501))
        self.way(handshake, HANDSHAKE, kernel=EVERY)
        self.way((replace(handshake[0], lo=101), handshake[1]), [f"{OUT} A 100 501 1000 1"], now=handshake, kernel=EVERY)

    def test_by_the_kernels_rule_a_window_is_kept_in_units_of_its_scale(self) -> None:
        self.way((End(2, 3, 500, 100, 102), SILENT), [f"{OUT} S 100 0 4000 0 3"], kernel=EVERY)


class Keys(unittest.TestCase):
    def packets(self, protocol: str, direction: str, wire: Key, stack: Key, levels: Tuple[int, int]) -> List[str]:
        source, destination = (End(level, None, 0, 0, 0) for level in levels)
        way = way_to(PROFILE, "b", None, Wanted(protocol, direction, wire, stack, source, destination))
        self.assertEqual(way.missed, "")
        return lines(way)

    def test_on_its_way_in_a_packet_has_the_ends_of_the_wire(self) -> None:
        wire, stack = Key("198.51.100.7:5000", "203.0.113.1:80"), Key("198.51.100.7:5000", "10.0.0.80:8080")
        packets = ["packet b in udp 198.51.100.7:5000 203.0.113.1:80 40", "packet b out udp 10.0.0.80:8080 198.51.100.7:5000 40"]
        self.assertEqual(self.packets("udp", "in", wire, stack, (2, 2)), [*packets, packets[0]])
        wire, stack = Key("192.0.2.9:53", "203.0.113.1:50001"), Key("192.0.2.9:53", "10.0.0.1:1000")
        packets = ["packet b out udp 10.0.0.1:1000 192.0.2.9:53 40", "packet b in udp 192.0.2.9:53 203.0.113.1:50001 40"]
        self.assertEqual(self.packets("udp", "out", wire, stack, (2, 1)), packets)

    def test_protocols_without_ports(self) -> None:
        echo = Key("192.0.2.9:0", "10.0.0.1:77")
        self.assertEqual(self.packets("icmp", "out", echo, echo, (1, 0)), ["packet b out icmp 10.0.0.1:77 192.0.2.9:77 40"])
        # pf has no levels of ICMP.
        self.assertEqual(self.packets("icmp", "out", echo, echo, (0, 0)), ["packet b out icmp 10.0.0.1:77 192.0.2.9:77 40"])
        tunnel = Key("192.0.2.9:7", "10.0.0.1:8")
        self.assertEqual(self.packets("47", "in", tunnel, tunnel, (1, 0)), ["packet b in 47 192.0.2.9:0 10.0.0.1:0 40"])

    def test_echoes_have_no_levels_by_the_kernel(self) -> None:
        """Then what a record tells is what a packet leads to; by the profile its class says how many came."""
        echo, nothing = Key("192.0.2.9:77", "10.0.0.1:77"), Peer(0, 0, 0, 0, 0, None)
        by_icmp = PROFILE.with_words(["icmp"])
        for kernel, timeout, levels, packets in (
            *((PROFILE, 9, (1, 0), 1), (PROFILE, 10, (2, 1), 2), (EVERY.without(ICMP), 10, (2, 1), 2)),
            *((by_icmp, 9, (0, 0), 1), (by_icmp, 10, (0, 0), 1), (EVERY, 10, (0, 0), 1)),
        ):
            goal = wanted_of(kernel, Flow("icmp", "out", echo, echo), Record(UPDATE, 1, 1, nothing, nothing, 10, timeout, b""))
            assert goal
            self.assertEqual((goal.source.level, goal.destination.level), levels)
            way = way_to(kernel, "a", None, goal)
            self.assertEqual((len(way.packets), way.missed, way.state and (way.state.source, way.state.destination)), (packets, "", goal[4:]))
        # Of ICMPv6, which is another protocol here, it is as by the profile.
        goal = wanted_of(EVERY, Flow("58", "out", echo, echo), Record(UPDATE, 1, 1, nothing, nothing, 10, 10, b""))
        self.assertEqual(goal and (goal.source.level, goal.destination.level), (2, 1))

    def test_levels_of_other_protocols(self) -> None:
        source, destination = End(1, None, 0, 0, 0), End(2, None, 0, 0, 0)
        way = way_to(PROFILE, "a", None, wanted((source, destination), "udp"))
        self.assertEqual(way.missed, "source level MULTIPLE and not SINGLE")
        now = state((destination, source), "udp")
        way = way_to(PROFILE, "a", now, wanted((destination, destination), "udp"))
        self.assertEqual(lines(way), ["packet a out udp 10.0.0.1:1000 192.0.2.9:80 40"])
        way = way_to(PROFILE, "a", now, wanted((source, replace(source, level=0)), "udp"))
        self.assertEqual(way.missed, "source level MULTIPLE and not SINGLE, destination level SINGLE and not NO_TRAFFIC")


class ByTheProgram(unittest.TestCase):
    def test_the_program_has_the_states(self) -> None:
        """States of several kinds, each at a port of its own, as the program has them after the packets."""
        states = [
            OPENED,
            (End(9, 6, 1026, 4000, 69536), End(9, 7, 512, 9000, 74664)),
            (End(2, 2, 512, 100, 102), SILENT),
            (End(7, None, 65535, CIRCLE - 5, 60000), End(4, None, 60000, 5, 65540)),
            (End(10, 1, 300, 800, 1000), End(10, 2, 400, 900, 1500)),
        ]
        for words in ("", "all"):
            kernel = PROFILE.with_words([words])
            setup = [kernel.line] * bool(words) + ["rule a pass any flags any", OPEN.word]
            for ends in states:
                with self.subTest(words=words, ends=ends):
                    way = way_to(kernel, "a", None, wanted(ends))
                    self.assertEqual(way.missed, "")
                    ran = run_lines(program(), [*setup, *(f"step main {line}" for line in lines(way)), "show main"])
                    (state,) = read_shown(ran.replies[-1]).a.states.values()
                    self.assertEqual((state.source, state.destination), ends)


def begun(chance: random.Random) -> PacketEvent:
    """The first packet of a connection: mostly a SYN, and now and then one from its middle."""
    flags = chance.choice(("S", "S", "S", "A", "FA"))
    seq = chance.choice((chance.randrange(CIRCLE), CIRCLE - chance.randrange(1, 3000), chance.randrange(1, 5000)))
    scale = chance.choice((None, 0, 2, 7, 14)) if flags == "S" else None
    words = f"{flags} {seq} 0 {chance.choice((0, 1, 500, 8000, 65535))} {chance.choice((0, 0, 100))}"
    return read_packet(f"{OUT} {words}" + (f" {scale}" if scale is not None else ""))


def next_packet(chance: random.Random, now: State) -> PacketEvent:
    """A packet of an end: its first one, or one with the next number, or one that comes again, which acknowledges something near."""
    is_source = chance.random() < 0.5
    mine, other = (now.source, now.destination) if is_source else (now.destination, now.source)
    window, scale, length = chance.choice((0, 1, 500, 8000, 65535)), None, 0
    if mine.window == 0:
        flags, seq = chance.choice(("SA", "SA", "SA", "S", "A")), chance.randrange(1, CIRCLE)
        scale = chance.choice((None, 0, 2, 7)) if "S" in flags else None
    else:
        flags = chance.choice(("A", "A", "A", "A", "FA", "S", "SA", "R"))
        seq = (mine.lo - chance.choice((0, 0, 0, chance.randrange(500)))) % CIRCLE
        room = (mine.hi - mine.lo) % CIRCLE
        length = chance.randrange(1 + min(room, 65495)) if room < CIRCLE // 2 and chance.random() < 0.5 else 0
    ack = (other.lo - chance.choice((0, 0, chance.randrange(2000)))) % CIRCLE if "A" in flags else 0
    words = f"{OUT if is_source else BACK} {flags} {seq} {ack} {window} {length}" + (f" {scale}" if scale is not None else "")
    return read_packet(words)


def walk(chance: random.Random, kernel: Kernel, now: Optional[State], most: int) -> Optional[State]:
    """The state after random packets, of which those outside the window are dropped."""
    now = now or after(kernel, None, [begun(chance)])
    for _ in range(chance.randrange(most)):
        assert now
        packet = next_packet(chance, now)
        if judged(kernel, now, packet).is_inside:
            now = moved(kernel, now, packet, 0)
    return now


class Random(unittest.TestCase):
    """States that random packets lead to are led to again, or what is missed is said."""

    def share(self, kernel: Kernel, goes_on: bool, seeds: int) -> float:
        reached = 0
        for seed in range(seeds):
            chance = random.Random(seed)
            now = walk(chance, kernel, None, 8) if goes_on else None
            then = walk(chance, kernel, now, 12)
            assert then
            way = way_to(kernel, "a", now, wanted((then.source, then.destination)))
            came = after(kernel, now, way.packets)
            self.assertIsNotNone(came, seed)
            assert came
            both = ((came.source, then.source), (came.destination, then.destination))
            same = all(self.plain(one) == self.plain(two) for one, two in both)
            self.assertEqual(same, not way.missed, (seed, came, then, way.missed))
            reached += same
        return reached / seeds

    @staticmethod
    def plain(end: End) -> End:
        """An end that was not heard may send up to 0, or up to 1 as the kernel writes it."""
        return replace(end, hi=0) if not end.window and end.hi == 1 else end

    def test_by_the_profile(self) -> None:
        self.assertGreaterEqual(self.share(PROFILE, False, 800), 0.97)
        self.assertGreaterEqual(self.share(PROFILE, True, 800), 0.97)

    def test_by_the_kernels_rules(self) -> None:
        self.assertGreaterEqual(self.share(EVERY, False, 300), 0.95)
        self.assertGreaterEqual(self.share(EVERY, True, 300), 0.95)

    def test_the_levels_take_the_fewest_packets(self) -> None:
        """Of each pair of levels that packets lead to, as many packets as a search over all flags at either end needs."""
        fewest_of = {(2, 0): 1, (2, 2): 2, (4, 2): 2, (4, 4): 3, (7, 4): 3, (9, 4): 4, (7, 7): 4, (9, 7): 4, (9, 9): 5, (10, 10): 3}
        for levels, fewest in fewest_of.items():
            with self.subTest(levels):
                source, destination = (End(level, None, 1000, 1000, 2000) for level in levels)
                way = way_to(PROFILE, "a", None, wanted((source, destination if levels[1] else SILENT)))
                # (numbers that these packets do not lead to may take one more of each end)
                self.assertIn(len(way.packets), range(fewest, fewest + 3))
                self.assertNotIn("level", way.missed)


if __name__ == "__main__":
    unittest.main()
