"""The loads of the benchmark: commands, each with the reply that it must get, made from a seed.

A load is a function that yields its parts in order. A part with a name is measured; the others prepare. Replies are computed
here and not taken from the program, so that a load that does not do what it should is noticed.
"""
from __future__ import annotations

import hashlib
import random
from typing import Callable, Dict, Iterable, Iterator, List, Optional, Sequence, Tuple

MOST_STATES = 65536
MTU = 1500
FRAME_HEADER, GROUP_HEADER = 20, 4
STATE_RECORD, SHORT_RECORD, NAME_RECORD = 124, 44, 12
FRAMES_IN_FLIGHT = 256
ONE_LOST_IN = 10
EXPIRED_MS = 60_000
HITS_A_TICK = 10
ROUNDS = 5
FORKS = 3
SHORT_STATES, SHORT_EVENTS, SHORT_FORKS = 4096, 10_000, 5
RESTARTS, LIMIT_FORKS = 20, 15
MOST_FRAMES, MOST_MTU = 4096, 9000
TIMEOUTS = 200
WHYS = 1000
FRAME_LOOKS = 1000
FIRST_PORT = 1000
# The near and the far end of a flow.
Ends = Tuple[str, str]


def setup_of(frames: int = FRAMES_IN_FLIGHT, mtu: int = MTU, rules: Sequence[str] = ("pass out",)) -> List[str]:
    limits = {"states": MOST_STATES, "queue": MOST_STATES, "frames": frames, "mtu": mtu}
    lines = [f"set {name} {most}" for name, most in limits.items()]
    return lines + [f"rule {node} {rule}" for node in "ab" for rule in rules] + ["open"]


def rules_of_timeouts() -> List[str]:
    """A rule for each of some ports, with a timeout of its own."""
    return [f"pass out proto udp tport {FIRST_PORT + at} timeout udp.first {at + 1}" for at in range(TIMEOUTS)]


class Part:
    """Commands of one kind, and the lines that must answer them. `more` of them belong to others, whose cost includes theirs."""

    def __init__(self, what: Optional[str] = None):
        self.what, self.more = what, 0
        self.lines: List[str] = []
        self.replies: List[str] = []

    def ask(self, line: str, *replies: str) -> None:
        self.lines.append(line)
        self.replies += replies

    def commands(self) -> int:
        return len(self.lines) - self.more


class TrackedPair:
    """What the pair has been sent so far, as far as replies depend on it; its states are UDP flows through node a."""

    def __init__(self, states: int, commands: int, chance: random.Random):
        self.states, self.commands, self.chance = states, commands, chance
        self.cursor, self.next_id, self.next_ticket, self.clock = 0, 1, 1, 0
        self.flows = [self.ends(at, 53) for at in chance.sample(range(1 << 24), states)]

    def ends(self, at: int, port: int) -> Ends:
        """The near end of a flow, which is its alone, and its far end."""
        near = f"10.{at >> 16}.{at >> 8 & 255}.{at & 255}:{self.chance.randint(1024, 65535)}"
        return near, f"192.0.2.{self.chance.randint(1, 254)}:{port}"

    def step(self, part: Part, event: str, outcome: str, dropped: int = 0) -> None:
        part.ask(f"step main {event}", f"step {outcome} dropped {dropped}")
        self.cursor += 1

    def begin(self, first: int, last: int, what: Optional[str] = None) -> Part:
        """A packet for each of some new flows, in order."""
        part = Part(what)
        for near, far in self.flows[first:last]:
            self.step(part, f"packet a out udp {near} {far} 40", f"pass 1.{self.next_id}")
            self.next_id += 1
        return part

    def fill(self) -> Part:
        return self.begin(0, self.states)

    def packet(self, part: Part, flow: int, is_out: bool) -> None:
        """A packet of an existing flow."""
        near, far = self.flows[flow]
        ends = f"out udp {near} {far}" if is_out else f"in udp {far} {near}"
        self.step(part, f"packet a {ends} 80", f"pass 1.{flow + 1}")

    def answer(self, flows: Iterable[int], what: Optional[str] = None) -> Part:
        """The first answer for each of some flows."""
        part = Part(what)
        for flow in flows:
            self.packet(part, flow, False)
        return part

    def settle(self) -> Part:
        """One more packet in each direction of each flow: from then on no packet changes the class of a state."""
        part = self.answer(range(self.states))
        for flow in range(self.states):
            self.packet(part, flow, True)
        return part

    def hit(self, flows: Iterable[int], what: Optional[str] = None, hits_a_tick: Optional[int] = None) -> Part:
        """A packet for each of some existing flows, in either direction, and a tick before every `hits_a_tick` of them."""
        part = Part(what)
        for at, flow in enumerate(flows):
            if hits_a_tick and at % hits_a_tick == 0:
                self.tick(part)
                part.more += 1
            self.packet(part, flow, self.chance.choice((False, True)))
        return part

    def tick(self, part: Part) -> None:
        self.clock += 1
        self.step(part, "tick a 1", f"clock {self.clock}")

    def any_flows(self) -> List[int]:
        return self.chance.choices(range(self.states), k=self.commands)

    def back(self, part: Part) -> None:
        self.cursor -= 1
        part.ask("back main 1", f"at {self.cursor}")

    def forward(self, part: Part) -> None:
        self.cursor += 1
        part.ask("forward main 1", f"at {self.cursor}")


def replies(pair: TrackedPair) -> Iterator[Part]:
    """What any command costs: a line that is passed over, and one that gets a reply and does nothing else."""
    yield pair.fill()
    passed = Part("a line that is passed over")
    for _ in range(pair.commands):
        passed.ask("# This line has about as many bytes as the one of a packet of UDP has.")
    passed.ask("names", "names main")
    yield passed
    names = Part("`names`, a reply and nothing else")
    for _ in range(pair.commands):
        names.ask("names", "names main")
    yield names


def flows(pair: TrackedPair) -> Iterator[Part]:
    """New flows, from none to all."""
    most = pair.states * 9 // 10
    yield pair.begin(0, most, "a new flow, the first nine tenths")
    yield pair.begin(most, pair.states, "a new flow, the last tenth")


def rooms(pair: TrackedPair) -> Iterator[Part]:
    """New flows where there were as many before, so that they add only history: the pair already has room for them."""
    yield pair.fill()
    expired = Part()
    pair.clock += EXPIRED_MS
    pair.step(expired, f"tick a {EXPIRED_MS}", f"clock {pair.clock}")
    pair.step(expired, "purge a", f"purged {pair.states}")
    yield expired
    yield pair.begin(0, pair.states, "a new flow in room that was used before")


def hits(pair: TrackedPair) -> Iterator[Part]:
    """Packets of states whose insertion is queued: first answers, which change the class, and then hits, which do not."""
    yield pair.fill()
    yield pair.answer(pair.chance.sample(range(pair.states), min(pair.states, pair.commands)), "the first answer of a flow")
    yield pair.settle()
    yield pair.hit(pair.any_flows(), "a hit")
    yield pair.hit(pair.any_flows(), "a hit, with a tick before each tenth", HITS_A_TICK)


def ticks(pair: TrackedPair) -> Iterator[Part]:
    yield pair.fill()
    part = Part("a tick")
    for _ in range(pair.commands):
        pair.tick(part)
    yield part


def undo(pair: TrackedPair) -> Iterator[Part]:
    """Hits with a tick before each tenth, undone one by one and then done again one by one."""
    yield pair.fill()
    yield pair.settle()
    done = pair.hit(pair.any_flows(), None, HITS_A_TICK)
    yield done
    undone, redone = Part("the undo of such a hit"), Part("the redo of such a hit")
    undone.more = redone.more = done.more
    for _ in done.lines:
        pair.back(undone)
    for _ in done.lines:
        pair.forward(redone)
    yield undone
    yield redone


def segments(near: str, far: str, chance: random.Random) -> Iterator[str]:
    """The packets of a TCP connection, from the handshake to the end that closes last."""
    own, other = chance.randrange(1 << 32), chance.randrange(1 << 32)

    def segment(is_out: bool, flags: str, sent: int, seen: int, length: int = 0) -> str:
        sequence, acknowledged = (own + sent, other + seen) if is_out else (other + sent, own + seen)
        acknowledged = acknowledged % (1 << 32) if "A" in flags else 0
        ends = f"out tcp {near} {far}" if is_out else f"in tcp {far} {near}"
        return f"packet a {ends} {flags} {sequence % (1 << 32)} {acknowledged} 65535 {length}"

    yield segment(True, "S", 0, 0)
    yield segment(False, "SA", 0, 1)
    yield segment(True, "A", 1, 1)
    yield segment(True, "PA", 1, 1, 100)
    yield segment(False, "PA", 1, 101, 1000)
    yield segment(True, "FA", 101, 1001)
    yield segment(False, "FA", 1001, 102)
    yield segment(True, "A", 102, 1002)


def connections(pair: TrackedPair) -> Iterator[Part]:
    """Connections from handshake to close, where each tenth of the states is a closed one, which the next with its ports replaces."""
    ports = max(1, pair.states // 10)
    yield pair.begin(0, pair.states - ports)
    ends = [pair.ends(at, 80) for at in pair.chance.sample(range(1 << 24), ports)]
    # (the ports of every connection but the first few have a closed state, so the table is always full)
    for what, many in ((None, ports), ("a packet of a connection", max(1, pair.commands // 8))):
        part = Part(what)
        for connection in range(many):
            for event in segments(*ends[connection % ports], pair.chance):
                pair.step(part, event, f"pass 1.{pair.next_id}")
            pair.next_id += 1
        yield part


class Sender:
    """What a node has to send the other, in batches of frames that are in flight together."""

    def __init__(self, pair: TrackedPair, node: str, record: int):
        self.pair, self.node, self.size = pair, node, record
        self.most = (MTU - FRAME_HEADER - GROUP_HEADER) // record

    def frames(self, sent: List[int]) -> List[List[List[int]]]:
        """What each frame of a batch carries, batch by batch."""
        frames = [sent[at : at + self.most] for at in range(0, len(sent), self.most)]
        return [frames[at : at + FRAMES_IN_FLIGHT] for at in range(0, len(frames), FRAMES_IN_FLIGHT)]

    def send(self, sent: List[int], what: str, taken: List[int]) -> Iterator[Part]:
        """Flushes everything, and delivers or loses each frame, in any order; `taken` gets what is delivered."""
        for batch in self.frames(sent):
            flushed = Part(f"a flush of {what}")
            fates: Dict[int, List[int]] = {}
            for frame in batch:
                ticket = self.pair.next_ticket
                self.pair.next_ticket += 1
                length = FRAME_HEADER + GROUP_HEADER + self.size * len(frame)
                self.pair.step(flushed, f"flush {self.node}", f"sent {ticket} {length}")
                fates[ticket] = frame
            yield flushed
            yield from self.decide(fates, what, taken)

    def decide(self, fates: Dict[int, List[int]], what: str, taken: List[int]) -> Iterator[Part]:
        delivered, lost = Part(f"a delivery of {what}"), Part("a loss")
        for ticket in self.pair.chance.sample(list(fates), len(fates)):
            if self.pair.chance.randrange(ONE_LOST_IN) == 0:
                self.pair.step(lost, f"lose {ticket}", "lost")
            else:
                self.pair.step(delivered, f"deliver {ticket}", f"taken {len(fates[ticket])}")
                taken += fates[ticket]
        yield delivered
        yield lost


def frames(pair: TrackedPair) -> Iterator[Part]:
    """Node a sends b all its states and updates; b asks for the states that it never got. One frame in ten is lost."""
    yield pair.fill()
    known: List[int] = []
    updated: List[int] = []
    asked: List[int] = []
    yield from Sender(pair, "a", STATE_RECORD).send(list(range(pair.states)), "11 new states", known)
    hits_of = pair.chance.sample(range(pair.states), min(pair.states, pair.commands))
    yield pair.hit(hits_of, "a hit that queues an update")
    yield from Sender(pair, "a", SHORT_RECORD).send(hits_of, "33 updates", updated)
    unknown = set(range(pair.states)).difference(known)
    wanted = [flow for flow in updated if flow in unknown]
    yield from Sender(pair, "b", NAME_RECORD).send(wanted, "123 requests", asked)
    yield from Sender(pair, "a", STATE_RECORD).send(asked, "11 states asked for", [])


def purge(pair: TrackedPair, expired_ms: int = EXPIRED_MS, of: str = "") -> Iterator[Part]:
    """All states expire and are purged, and that is undone."""
    expired = Part()
    pair.clock += expired_ms
    pair.step(expired, f"tick a {expired_ms}", f"clock {pair.clock}")
    yield expired
    for at in range(ROUNDS):
        purged, undone = Part(f"a purge of all{of}"), Part(f"the undo of a purge of all{of}")
        pair.step(purged, "purge a", f"purged {pair.states}", min(at, 1))
        pair.back(undone)
        yield purged
        yield undone


def purges(pair: TrackedPair) -> Iterator[Part]:
    """All states expire in the order of their names."""
    yield pair.fill()
    yield from purge(pair)


def scattered(pair: TrackedPair) -> Iterator[Part]:
    """Like `purges`, but the states expire in any order: each has had one more packet since, at one of some hundred times."""
    yield pair.fill()
    part, flows = Part(), pair.chance.sample(range(pair.states), pair.states)
    packets_a_tick = max(1, pair.states // TIMEOUTS)
    for at, flow in enumerate(flows):
        if at % packets_a_tick == 0:
            pair.tick(part)
        pair.packet(part, flow, True)
    yield part
    yield from purge(pair, of=", in any order")


def timeouts(pair: TrackedPair) -> Iterator[Part]:
    """Like `scattered`, because the states have many timeouts."""
    places = pair.chance.sample(range(1 << 24), pair.states)
    pair.flows = [pair.ends(at, FIRST_PORT + pair.chance.randrange(TIMEOUTS)) for at in places]
    yield pair.fill()
    yield from purge(pair, TIMEOUTS * 1000, f", of {TIMEOUTS} timeouts")


def shown(pair: TrackedPair, many: int) -> Iterator[str]:
    """The lines of a pair that has seen a packet of each of its first flows, and nothing else."""
    yield f"branch main events {pair.cursor} cursor {many}"
    yield f"node a clock 0 boot 1 id {many + 1} seq {many + 1} push 0 serve - sync -"
    yield f"count a {many} 0 0 0 0 0 0"
    by_name = list(enumerate(pair.flows[:many], 1))
    for at, (near, far) in by_name:
        yield f"state a 1.{at} udp out {far} {near} {far} {near} 1 - 0 0 0 0 - 0 0 0 udp.first 0 0 - 0 -"
    for at, _ in by_name:
        yield f"queue a ins {at} 1.{at}"
    yield "node b clock 0 boot 2 id 1 seq 1 push 0 serve - sync -"
    yield "count b 0 0 0 0 0 0 0"
    yield "link next 1 boot 3"
    yield "end"


def shows(pair: TrackedPair) -> Iterator[Part]:
    yield pair.fill()
    part, lines = Part("a show"), list(shown(pair, pair.states))
    for _ in range(ROUNDS):
        part.ask("show main", *lines)
    yield part


def pasts(pair: TrackedPair) -> Iterator[Part]:
    """Looks at other places: all the way to the opening and back, and half of it, with half as many states to show."""
    yield pair.fill()
    for what, place in (("a look at the opening", 0), ("a look half the way back", pair.states // 2)):
        part, lines = Part(what), list(shown(pair, place))
        for _ in range(ROUNDS):
            part.ask(f"past main {place}", *lines)
        yield part


def whys(pair: TrackedPair) -> Iterator[Part]:
    """Explanations of the newest event, over and over, and of one halfway back."""
    yield pair.fill()
    for what, place, times in (("a reason of the newest event", pair.cursor, WHYS), ("a reason half the way back", pair.cursor // 2, ROUNDS)):
        part, (near, far) = Part(what), pair.flows[place - 1]
        event = f"event {place} step main packet a out udp {near} {far} 40"
        for _ in range(times):
            part.ask(f"why main {place}", f"why main {place}", event, f"outcome pass 1.{place}", "rule 0 pass", f"new 1.{place}", "end")
        yield part


def request_frame() -> str:
    """The frame with which a node with the setup's rules asks for all states, in hexadecimal."""
    length = FRAME_HEADER + GROUP_HEADER + NAME_RECORD
    return f"0500{length:04x}{hashlib.md5(b'pass out' + bytes([10])).hexdigest()}05000001{'00' * NAME_RECORD}"


def traces(pair: TrackedPair) -> Iterator[Part]:
    """Looks at the newest frame, over and over, and at one that was sent halfway back: each asks for all states."""
    places: List[int] = []
    for ticket, first in enumerate((0, pair.states // 2), 1):
        yield pair.begin(first, first + pair.states // 2)
        part = Part()
        pair.step(part, "restart b", f"boot {ticket + 2}")
        pair.step(part, "flush b", f"sent {ticket} {FRAME_HEADER + GROUP_HEADER + NAME_RECORD}")
        places.append(pair.cursor)
        yield part
    for what, ticket, times in (("a look at the newest frame", 2, FRAME_LOOKS), ("a look at a frame sent half the way back", 1, ROUNDS)):
        part, sent = Part(what), f"event {places[ticket - 1]} step main flush b"
        for _ in range(times):
            head = f"frame main {ticket}"
            part.ask(head, head, sent, f"outcome sent {ticket} 36", f"frame {ticket} a {request_frame()}", "record req 0.0", "end")
        yield part


def forks(pair: TrackedPair) -> Iterator[Part]:
    """Branches with all events so far, which are dropped again."""
    yield pair.fill()
    forked, removed = Part("a fork of all events"), Part("a drop")
    for at in range(FORKS):
        forked.ask(f"fork main {pair.cursor} {'abc'[at]}", "forked")
        removed.ask(f"drop {'abc'[at]}", "removed")
    yield forked
    yield removed


def short_forks(pair: TrackedPair) -> Iterator[Part]:
    """Branches with some thousand events, one after another."""
    yield pair.fill()
    yield pair.hit(pair.chance.choices(range(pair.states), k=SHORT_EVENTS - pair.states))
    part = Part(f"a fork of {SHORT_EVENTS:,} events")
    for at in range(SHORT_FORKS):
        part.ask(f"fork main {pair.cursor} {chr(ord('a') + at)}", "forked")
    yield part


def limits(pair: TrackedPair) -> Iterator[Part]:
    """Restarts and forks of a pair that has few states, and room for as many as are allowed."""
    yield pair.fill()
    restarts, forked = Part("a restart at the greatest limits"), Part("a fork of all that at the greatest limits")
    for boot in range(RESTARTS):
        pair.step(restarts, f"restart {'ab'[boot % 2]}", f"boot {boot + 3}")
    for at in range(LIMIT_FORKS):
        forked.ask(f"fork main {pair.cursor} {chr(ord('a') + at)}", "forked")
    yield restarts
    yield forked


LOADS: Dict[str, Callable[[TrackedPair], Iterator[Part]]] = {
    load.__name__: load
    for load in (
        *(replies, flows, rooms, hits, ticks, undo, connections, frames),
        *(purges, scattered, timeouts, shows, pasts, whys, traces, forks, short_forks, limits),
    )
}
# The number of states for loads that are measured at only one number.
STATES_OF = {"short_forks": SHORT_STATES, "limits": 10}
SETUPS = {"limits": setup_of(MOST_FRAMES, MOST_MTU), "timeouts": setup_of(rules=rules_of_timeouts())}


def parts(load: str, states: int, commands: int, seed: str) -> Iterator[Part]:
    """The parts of a load, the setup first."""
    setup = Part()
    setup.lines += SETUPS.get(load, setup_of())
    yield setup
    pair = TrackedPair(states, commands, random.Random(f"{seed} {load} {states}"))
    yield from (it for it in LOADS[load](pair) if it.lines)
