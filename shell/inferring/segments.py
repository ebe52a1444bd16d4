"""The numbers of the packets that lead a connection to what is known of it."""
from __future__ import annotations

from dataclasses import dataclass, replace
from typing import Iterator, List, NamedTuple, Optional, Sequence, Tuple

from ..language.names import Name
from ..language.packets import CIRCLE, Key, PacketEvent
from ..language.setups import SCALE, WINDOW
from ..model.kernels import Kernel
from ..model.states import End, State
from ..model.tracking import MOST_APART, MOST_OFFERED, ends_of, moved, segment, started
from .levels import DESTINATION, SOURCE, Step

# The greatest length that a packet may have here, and that of packets without sequence numbers.
LONGEST = 65495
OTHER_LENGTH = 40
# What a level counts that is not to be reached, against a number that is not as wanted.
LEVEL_MISSED = 10


def ahead(one: int, two: int) -> int:
    """How far a number is ahead of another one; below 0 if it is behind."""
    return (one - two + CIRCLE // 2) % CIRCLE - CIRCLE // 2


def taken(flags: str) -> int:
    """How many sequence numbers the flags of a packet take."""
    return ("S" in flags) + ("F" in flags)


class Flow(NamedTuple):
    """Whose packets these are: the node that they come to, and the keys of the state."""

    node: str
    protocol: str
    direction: str
    wire: Key
    stack: Key

    def packet(self, end: int) -> PacketEvent:
        """A packet of an end, without its numbers: on its way in it has the addresses of the wire, on its way out those of the stack."""
        direction = self.direction if end == SOURCE else "in" if self.direction == "out" else "out"
        ends = (self.wire.far, self.wire.near) if direction == "in" else (self.stack.near, self.stack.far)
        return PacketEvent(self.node, direction, self.protocol, *ends, OTHER_LENGTH)


class Plan(NamedTuple):
    """How the numbers of the first packets are chosen: the flags of the first one; whether its number is the one that its end keeps; the
    flags of another one of its end right after it, if there is one; whether a SYN acknowledges what brings the other end's numbers to those
    wanted, though that was not sent; whether numbers move before the first packet that closes an end; and whether the first packet offers
    the whole window, so that the other end begins earlier."""

    flags: str
    stays: bool
    again: str = ""
    is_exact: bool = False
    moves_first: bool = False
    is_wide: bool = False


@dataclass
class Walk:
    """A state on its way, the packets that have come, and what follows the last packet of each end."""

    kernel: Kernel
    flow: Flow
    goals: Tuple[End, End]
    state: Optional[State]
    packets: List[PacketEvent]
    nexts: List[int]

    @classmethod
    def begin(cls, kernel: Kernel, flow: Flow, goals: Tuple[End, End], now: Optional[State]) -> "Walk":
        return cls(kernel, flow, goals, now, [], _nexts(now, goals) if now else [0, 0])

    def ends(self, end: int) -> Tuple[End, End]:
        """The state's end, and the other one."""
        assert self.state
        its = self.state.source, self.state.destination
        return its[end], its[1 - end]

    def after(self, packet: PacketEvent) -> Optional[State]:
        """The state after a packet; nothing if it is dropped."""
        if self.state:
            return moved(self.kernel, self.state, packet, self.state.last)
        source, destination, timeout_class = started(self.kernel, packet)
        flow = self.flow
        keys = (flow.protocol, flow.direction, flow.wire, flow.stack)
        return State(Name(1, 1), *keys, source, destination, timeout_class, 0, None, "-", 0, None)

    def send(self, end: int, packet: PacketEvent) -> bool:
        """Lets a packet come; returns whether it passes."""
        begins, then = self._begins(end), self.after(packet)
        if then:
            self.state = then
            self.packets.append(packet)
            if begins or ahead(packet.end, self.nexts[end]) > 0:
                self.nexts[end] = packet.end
        return then is not None

    def _begins(self, end: int) -> bool:
        """Whether an end was not heard."""
        return self.state is None or self.ends(end)[0].window == 0

    # ---- packets that lift an end

    def step(self, step: Step, later: Sequence[Step], plan: Plan) -> PacketEvent:
        """The packet of a step, where others follow."""
        packet = replace(self.flow.packet(step.end), flags=step.flags, length=0)
        packet = self._begun(packet, step, later, plan) if self._begins(step.end) else self._next(packet, step, later)
        if plan.again and step.end == SOURCE and self._begins(DESTINATION):
            packet = replace(packet, window=min(packet.window, max(1, ahead(self.goals[DESTINATION].hi, 0))))
        return self._acknowledging(packet, step.end, plan.is_exact or "S" not in step.flags)

    def _begun(self, packet: PacketEvent, step: Step, later: Sequence[Step], plan: Plan) -> PacketEvent:
        """The first packet of an end. It begins so that its later packets end at the number that is wanted, and leaves room for one."""
        goal, stop = self.goals[step.end], self.goals[step.end].lo - _taken_by(step.end, later)
        packet = replace(packet, scale=goal.scale if "S" in step.flags else None)
        if self.state is None and plan.stays:
            is_answered = any(other.end != step.end and "A" in other.flags for other in later)
            length = 0 if is_answered else max(0, min(ahead(goal.hi, stop) - 1 - taken(step.flags), LONGEST))
            packet = replace(packet, seq=stop % CIRCLE, length=length)
        else:
            packet = self._with_room(replace(packet, seq=(stop - taken(step.flags)) % CIRCLE), goal)
        return replace(packet, window=self._first_window(packet, step.end, later, plan))

    def _with_room(self, packet: PacketEvent, goal: End) -> PacketEvent:
        """The first packet of an end so early that what the end may send at first is not beyond what is wanted."""
        beyond = max(0, ahead(self._allowed(packet), goal.hi))
        earlier = replace(packet, seq=(packet.seq - beyond) % CIRCLE)
        return packet if ahead(self._allowed(earlier), goal.hi) > 0 else earlier

    def _allowed(self, packet: PacketEvent) -> int:
        """The number up to which an end may send that begins with a packet."""
        if not self.state:
            return (packet.end + 1) % CIRCLE
        return segment(self.kernel, *ends_of(self.state, packet), packet).sender.hi

    def _first_window(self, packet: PacketEvent, end: int, later: Sequence[Step], plan: Plan) -> int:
        """The window that the first packet of an end offers: mostly no more than the other one may send if it begins after it."""
        goal, other = self.goals[end], self.goals[1 - end]
        window = goal.window
        if self.kernel.has(SCALE) and packet.scale is not None and (self.state is None or self.ends(end)[1].scale is not None):
            window <<= packet.scale
        if self.state is None and other.window and not plan.is_wide:
            begun = other.lo - _taken_by(1 - end, later) + taken(_first_flags(1 - end, later))
            window = min(window, ahead(other.hi, begun))
        return max(1, min(window, MOST_OFFERED))

    def _next(self, packet: PacketEvent, step: Step, later: Sequence[Step]) -> PacketEvent:
        """A later packet of an end, with the data that its number lacks."""
        mine, _ = self.ends(step.end)
        goal = self.goals[step.end]
        lacks = ahead(goal.lo - _taken_by(step.end, later) - taken(step.flags), mine.lo)
        known = ahead(self.nexts[step.end], mine.lo)
        length = min(lacks - known, LONGEST) if lacks > known and "R" not in step.flags else 0
        # (a FIN that takes no new number comes again)
        seq = mine.lo + (lacks - length if length else max(-("F" in step.flags), min(lacks, known)))
        is_beyond = length > 0 and ahead(mine.hi, seq + length + taken(step.flags)) < 0
        if is_beyond or self.kernel.has(WINDOW) and step.flags == "A" and not length:
            seq, length = self.nexts[step.end], 0
        is_known = "R" in step.flags and mine.window >= goal.window
        return replace(packet, seq=seq % CIRCLE, length=length, window=0 if is_known else min(goal.window, MOST_OFFERED))

    def _acknowledging(self, packet: PacketEvent, end: int, is_exact: bool) -> PacketEvent:
        """The packet with what it acknowledges: what brings the other end's numbers to those wanted, or the last number that it sent."""
        if "A" not in packet.flags or self.state is None:
            return packet
        other, goal = self.ends(end)[1], self.goals[1 - end]
        offered, scale = self._offered(packet)
        off, natural = ahead(goal.hi - offered, other.lo), self.nexts[1 - end]
        most = MOST_APART if is_exact else ahead(natural, other.lo)
        if -(MOST_APART << scale) <= off <= most:
            return replace(packet, ack=(other.lo + off) % CIRCLE)
        room = ahead(goal.hi, natural) >> scale
        return replace(packet, ack=natural, window=max(1, min(packet.window, room)))

    def _offered(self, packet: PacketEvent) -> Tuple[int, int]:
        """The window that a packet offers, in bytes, and the scale that it is judged by."""
        assert self.state
        seen = segment(self.kernel, *ends_of(self.state, packet), packet)
        return seen.at_scale(seen.sender, seen.window), (seen.sender.scale or 0) if seen.is_scaled else 0

    # ---- packets that move numbers

    def move(self, goals: Tuple[End, End], most: int) -> None:
        """Lets packets come as long as each brings the numbers nearer to those wanted, and lifts no end too far."""
        for _ in range(most):
            best = self._best(goals)
            if not best:
                return
            self.send(*best)

    def _best(self, goals: Tuple[End, End]) -> Optional[Tuple[int, PacketEvent]]:
        """The end and the packet that bring the numbers nearest to those wanted; none if no packet brings them nearer."""
        least = self.missed(self.state, goals)
        best: Optional[Tuple[int, PacketEvent]] = None
        for end in (SOURCE, DESTINATION) if least[0] else ():
            for packet in self._moving(end, goals):
                then = self.after(packet)
                now = self.missed(then, goals) if then else least
                if now >= least:
                    continue
                least, best = now, (end, packet)
                if then and self._is_done(then, end, goals):
                    break
        return best

    @staticmethod
    def _is_done(state: State, end: int, goals: Tuple[End, End]) -> bool:
        """Whether the packets of an end can bring nothing nearer to what is wanted."""
        its = state.source, state.destination
        mine, other, goal = its[end], its[1 - end], goals[end]
        return (mine.lo, mine.window, other.hi) == (goal.lo, goal.window, goals[1 - end].hi)

    @staticmethod
    def missed(state: Optional[State], goals: Tuple[End, End]) -> Tuple[int, int]:
        """How many numbers are not as wanted, and how far they are from that. A level may be below."""
        if not state:
            return LEVEL_MISSED, 0
        count = rest = 0
        for end, goal in zip((state.source, state.destination), goals):
            apart = [abs(goal.window - end.window), abs(ahead(goal.lo, end.lo)), abs(ahead(goal.hi, end.hi))]
            count += sum(map(bool, apart)) + LEVEL_MISSED * (end.level > goal.level)
            rest += sum(apart)
        return count, rest

    def same(self) -> Iterator[PacketEvent]:
        """Packets without data that may change nothing: acknowledgements, and what asks for none."""
        for flags in ("A", "P"):
            for end in (SOURCE, DESTINATION):
                mine, other = self.ends(end)
                if mine.window:
                    yield self._of_moving(end, flags, 0, min(mine.window, MOST_OFFERED), other)

    def _moving(self, end: int, goals: Tuple[End, End]) -> Iterator[PacketEvent]:
        """Packets of an end that may move something."""
        assert self.state
        mine, other = self.ends(end)
        if not mine.window or self._is_done(self.state, end, goals):
            return
        lacks, room = ahead(goals[end].lo, mine.lo), ahead(mine.hi, mine.lo)
        lengths = {min(lacks, room), lacks} if lacks > 0 else set()
        windows = {min(goals[end].window, MOST_OFFERED), max(1, self._narrow(end, goals[1 - end], other))}
        for flags in ("A", "P", "S"):
            for amount in (*(length for length in sorted(lengths, reverse=True) if length > 0), 0):
                for window in sorted(windows, reverse=True):
                    yield self._of_moving(end, flags, amount, window, goals[1 - end])

    def _narrow(self, end: int, goal: End, other: End) -> int:
        """The window of an end that allows the other one what is wanted, where it acknowledges what that one has sent."""
        trial = replace(self.flow.packet(end), flags="A", seq=self.ends(end)[0].lo, ack=other.lo, window=1, length=0)
        _, scale = self._offered(trial)
        return min(ahead(goal.hi, other.lo) >> scale, self.goals[end].window, MOST_OFFERED)

    def _of_moving(self, end: int, flags: str, amount: int, window: int, goal: End) -> PacketEvent:
        """A packet that moves its sender's number by an amount, offers a window, and acknowledges what brings the other end to its goal,
        as far as that is near enough."""
        mine, other = self.ends(end)
        length = min(amount, LONGEST)
        seq = (mine.lo + amount - length - taken(flags)) % CIRCLE
        packet = replace(self.flow.packet(end), flags=flags, seq=seq, window=window, length=length)
        offered, scale = self._offered(packet)
        off = ahead(goal.hi - offered, other.lo)
        near = min(max(off, -(MOST_APART << scale)), MOST_APART)
        return replace(packet, ack=(other.lo + near) % CIRCLE if flags == "A" and other.window else 0)


def _taken_by(end: int, steps: Sequence[Step]) -> int:
    """How many sequence numbers the flags of an end's steps take."""
    return sum(taken(step.flags) for step in steps if step.end == end)


def _first_flags(end: int, steps: Sequence[Step]) -> str:
    """The flags of an end's first step."""
    return next((step.flags for step in steps if step.end == end), "")


def _nexts(now: State, goals: Tuple[End, End]) -> List[int]:
    """What follows the last packet of each end: a SYN that made a state left its end at the SYN's number."""
    source, destination = now.source, now.destination
    has_syn = not destination.window and ahead(source.hi, source.lo) == 2 and ahead(goals[SOURCE].lo, source.lo) > 0
    return [(source.lo + has_syn) % CIRCLE, destination.lo]
