"""Packets that pf logged as blocked: what the laboratory makes of each, and which frame would have brought the state that was wanting."""
from __future__ import annotations

from enum import Enum
from typing import Counter, Dict, Iterator, List, NamedTuple, Optional, Sequence, Set, Tuple

from ..captures.carried import IpPacket
from ..captures.files import NANOSECONDS
from ..captures.pflog import MATCH, MISMATCH, Logged
from ..captures.wording import lasting
from ..language.names import NODES, Name
from ..model.pair import other
from ..shows.words import counted
from .carrying import event
from .night import DELETIONS, Night, Told
from .playing import Playing, passes
from .setting import Setting, is_blocked_here
from .ways import keyed

NO_ROOM = "logged packet of a flow that is in no message, for which there is no room among the rules"
# The outcomes of the laboratory that are pf's reasons.
_OUTCOMES = {MATCH: ("block",), MISMATCH: ("window",), "state-limit": ("max", "full"), "state-insert": ("key",), "map-failed": ("key",)}
# How far apart an interface and pflog0 may see one packet.
_APART = NANOSECONDS
# How many lines the report has if not all are asked for.
_MOST_LISTED = 10


class Here(Enum):
    """What becomes of a blocked packet in the laboratory."""

    SAME = "blocked for the same reason"
    OTHERWISE = "blocked for another reason"
    PASSES = "passed"


class Blocked(NamedTuple):
    """A packet that pf blocked: when, where, its flow and pf's reason; and what becomes of it here, in words."""

    time: int
    node: str
    flow: str
    reason: str
    here: Here
    said: str


class Blocking:
    """Lets logged packets come, and compares what becomes of them."""

    def __init__(self, night: Night, playing: Playing, setting: Setting, captured: Dict[Name, str]):
        self.night, self.playing, self.setting, self.captured = night, playing, setting, captured
        # What became of each packet; how many were blocked by a rule that is made of the log; and those that are passed over.
        self.found: List[Blocked] = []
        self.by_own_rules = 0
        self.passed_over: Counter[str] = Counter()
        self._names: Dict[Tuple[str, str, str], List[str]] = {}
        for name, flow in night.flows.items():
            for key in (keyed(flow.protocol, it) for it in (flow.wire, flow.stack)):
                for ends in {(key.far, key.near), (key.near, key.far)}:
                    self._names.setdefault((flow.protocol, *ends), []).append(name)

    def _numbers(self) -> Iterator[Tuple[Here, int]]:
        """How many packets became of what."""
        for here in Here:
            number = sum(it.here is here for it in self.found)
            if number:
                yield here, number

    def seen_twice(self) -> Set[int]:
        """The places of the carried packets that the log has as well: an interface sees what comes in before pf blocks it."""
        places: Dict[Tuple[str, IpPacket], List[Tuple[int, int]]] = {}
        for number, (node, it) in enumerate(self.night.carried):
            places.setdefault((node, it.packet), []).append((it.time, number))
        found: Set[int] = set()
        for node, logged in self.night.logged:
            near = [it for it in places.get((node, logged.packet), ()) if abs(it[0] - logged.time) <= _APART and it[1] not in found]
            if near and logged.direction == "in":
                found.add(min(near, key=lambda it: abs(it[0] - logged.time))[1])
        return found

    # ---- what becomes of a packet

    def block(self, node: str, logged: Logged) -> None:
        """A packet that pf blocked: here it meets the state that the node has by the frames, or none."""
        names = self._names.get((logged.packet.protocol, *logged.packet.ends), [])
        if logged.reason == MATCH and not names and not is_blocked_here(self.setting, node, logged):
            self.passed_over[NO_ROOM] += 1
            return
        self.playing.tick_to(logged.time)
        where = f"{logged.direction} on {logged.interface}, rule {logged.rule}, reason {logged.reason}"
        self.playing.begin(f"{self.night.times.at(logged.time)} {node} logged: blocked {where}")
        packet = event(node, logged.direction, logged.packet, logged.packet.ends)
        state = self.playing.followed.tables[node].found(packet)
        outcome = self.playing.packet(packet)
        has = self._had(node, self.captured.get(state.name, ""), logged.time) if state else ""
        here, said = self._judged(node, logged, outcome, names, has)
        self.playing.say_before_last(f"here {said}" if here is Here.PASSES else said)
        flow = f"{logged.packet.protocol} {logged.packet.source} > {logged.packet.destination}"
        self.found.append(Blocked(logged.time, node, flow, logged.reason, here, said))

    def _judged(self, node: str, logged: Logged, outcome: Sequence[str], names: List[str], has: str) -> Tuple[Here, str]:
        """What becomes of a packet here, beside what pf did. What the node has here of its state is given."""
        if passes(outcome):
            return Here.PASSES, f"it passes: {self._passes(node, logged.reason, has)}"
        why = outcome[-1]
        self.by_own_rules += why == "block" and not self.setting.has_rules
        if why in _OUTCOMES.get(logged.reason, ()):
            if logged.reason != MATCH:
                return Here.SAME, f"blocked here for the same reason ({' '.join(outcome)})"
            if not names:
                return Here.SAME, "blocked here, too: no message has a state of it, so the rules decided"
            return Here.SAME, f"blocked here, too, for want of a state: {self._brought(node, logged, names)}"
        if logged.reason == MATCH and has:
            return Here.OTHERWISE, f"pf had no state of it, and here {node} has one, {has}, whose window it misses"
        if logged.reason == MISMATCH:
            return Here.OTHERWISE, f"pf blocked it for the window of its state, and here {node} has no such state"
        return Here.OTHERWISE, f"blocked here for another reason ({' '.join(outcome)})"

    def _passes(self, node: str, reason: str, has: str) -> str:
        """Why a packet passes here that pf blocked for a reason."""
        if not has:
            return "no rule of the setup blocks it"
        if reason == MISMATCH:
            return f"it fits the state that {node} has, {has}: what else had moved the state there is in no capture"
        if reason == MATCH:
            return f"{node} has its state, {has}; on the pair what would have brought it did not come or was not kept, or it was gone"
        return f"nothing in the laboratory is blocked for `{reason}`"

    # ---- the frames that had its state

    def _had(self, node: str, name: str, time: int) -> str:
        """By which frame, or by what else, a node has a state here."""
        one = self._whole(node, name, time) if name else None
        if one is None:
            return "by packets of its own"
        frame = f"by frame {one.sent.number} of {one.sent.node}"
        if one.sent.arrived is None:
            return f"{frame}, of which nothing says whether it came: here it did"
        return f"{frame}, which later frames show to have come" if one.place in self.night.shown else f"{frame}, which came"

    def _whole(self, node: str, name: str, time: int) -> Optional[Told]:
        """The last record that the other node sent by a time with all of a state."""
        return next((it for it in self.night.told_until(name, other(node), time) if it.record.is_whole), None)

    def _brought(self, node: str, logged: Logged, names: List[str]) -> str:
        """Which frame had the state of a packet, and what became of it."""
        told = [one for one in (self._whole(node, name, logged.time) for name in names) if one]
        if not told:
            return f"no frame of {other(node)} before it had one"
        one = max(told, key=lambda it: it.place)
        sent = one.sent
        before = lasting(logged.time - sent.time)
        return f"frame {sent.number} of {sent.node} had it {before} before, and {self._came(node, one, logged.time)}"

    def _came(self, node: str, one: Told, time: int) -> str:
        """Whether a frame came before a time, and what took its state away again."""
        sent = one.sent
        if sent.arrived is None:
            return "nothing says whether it came"
        if sent.arrived is False and one.place in self.night.shown:
            return f"later frames of {node} show that it did not come in time, or that the state was not kept"
        if sent.arrived is False:
            return f"is not in the capture of {node} (lost on the way, late, or not captured)"
        if sent.came is not None and sent.came > time:
            return f"it came {lasting(sent.came - time)} after the packet"
        return "; ".join(["it came there", *self._gone(node, one, time)])

    def _gone(self, node: str, one: Told, time: int) -> Iterator[str]:
        """What shows that the state that a frame brought was gone again."""
        anew = self.night.began_anew(node, one.place)
        if anew:
            yield f"{node} asked for all states in frame {anew.number}, so it had begun anew"
        for sender in NODES:
            its = self.night.told_until(one.record.name, sender, time)
            deleted = next((it for it in its if it.place > one.place and it.record.kind in DELETIONS), None)
            if deleted:
                yield f"{sender} deleted it in frame {deleted.sent.number}"

    # ---- the report

    def sums(self) -> Iterator[str]:
        """How many packets became of what."""
        if not self.found:
            return
        parts = [f"{number} {'is' if number == 1 else 'are'} {it.value} here" for it, number in self._numbers()]
        yield f"Of {counted(len(self.found), 'packet')} that pf logged as blocked, {', '.join(parts)}."
        if self.by_own_rules:
            yield f"Rules that are made of the log block {self.by_own_rules} of them: that these are blocked here says nothing."

    def lines(self, lists_all: bool) -> List[str]:
        """A part of the report: each flow with each reason once, the first ones if not all are asked for."""
        if not self.found:
            return []
        groups: Dict[Tuple[str, str, str, Here], List[Blocked]] = {}
        for it in self.found:
            groups.setdefault((it.node, it.flow, it.reason, it.here), []).append(it)
        counts = ", ".join(f"{number} {it.value}" for it, number in self._numbers())
        flows = counted(len({(it.node, it.flow) for it in self.found}), "flow")
        lines = [f"{counted(len(self.found), 'packet')} that pf logged as blocked, of {flows}; in the script {counts}"]
        for its in [*groups.values()][: None if lists_all else _MOST_LISTED]:
            first = its[0]
            more = f" ({len(its)} times up to {self.night.times.at(its[-1].time)})" * (len(its) > 1)
            lines.append(f"  {self.night.times.at(first.time)}  {first.node}  {first.flow}  {first.reason}{more}: {first.said}")
        rest = len(groups) - len(lines) + 1
        return lines + [f"  and {rest} more; --all lists them"] * (rest > 0)
