"""The packets that lead a node's state to what is known of it, by the rules of `tracking`: the fewest that raise the levels of its ends,
and then those that move their numbers."""
from __future__ import annotations

from dataclasses import replace
from itertools import product
from typing import Dict, Iterator, List, NamedTuple, Optional, Tuple

from ..language.names import SYN_SENT, TIME_WAIT, level_name
from ..language.packets import Key, PacketEvent
from ..language.setups import WINDOW
from ..model.kernels import Kernel
from ..model.states import End, State
from ..model.tracking import MOST_OFFERED, SILENT, moved
from ..shows.words import end_fields
from .levels import BEGUN, BEGUN_OTHERWISE, DESTINATION, SOURCE, Path, Place, Step, nearest, paths
from .segments import Flow, Plan, Walk, ahead

# How many packets move the numbers of a state at most: of one that is there they may be far behind, and those of a new one are chosen.
MOST_MOVING, MOST_AT_FIRST = 256, 8
# The flags of the first packet: a SYN, or one from the middle of a connection, which only a rule with `flags any` takes.
SYN, PICK_UP = "S", "A"
ENDS = ("source", "destination")


class Wanted(NamedTuple):
    """What is known of a state. An end that was never heard has no numbers; or those that the kernel has, which are 0 and up to 1, and a
    window of 1. Of an end that was heard a window of 0 is one that is not known."""

    protocol: str
    direction: str
    wire: Key
    stack: Key
    source: End
    destination: End


class Way(NamedTuple):
    """The packets, in words where the state after them is not as wanted, which is empty if it is, and that state."""

    packets: Tuple[PacketEvent, ...]
    missed: str
    state: Optional[State] = None


def way_to(kernel: Kernel, node: str, now: Optional[State], wanted: Wanted, picks_up: bool = True) -> Way:
    """The packets that lead from the state that a node has, if it has one, to the wanted one; as near as packets lead, if they do not lead
    there. A connection may be picked up in its middle, which only a rule with `flags any` passes, unless that is ruled out."""
    goals = _goals(wanted)
    keys = (now.wire, now.stack) if now else (wanted.wire, wanted.stack)
    flow = Flow(node, wanted.protocol, now.direction if now else wanted.direction, *(keyed(wanted.protocol, key) for key in keys))
    walks = _segments(kernel, flow, goals, now, picks_up) if wanted.protocol == "tcp" else [_datagrams(kernel, flow, goals, now)]
    best: Optional[Walk] = None
    least = (0, False, 0)
    for walk in walks:
        # (few rules take a first packet from the middle of a connection)
        is_picked_up = now is None and walk.packets[0].flags == PICK_UP
        missed = len(_missed(walk.state, wanted)), is_picked_up, len(walk.packets)
        if best is None or missed < least:
            best, least = walk, missed
        if not least[0]:
            break
    assert best
    return Way(tuple(best.packets), ", ".join(_missed(best.state, wanted)), best.state)


def renewal(kernel: Kernel, node: str, now: State) -> Optional[PacketEvent]:
    """A packet of a state that renews it, and leaves its ends as they are; none if each changes something."""
    flow = Flow(node, now.protocol, now.direction, now.wire, now.stack)
    walk = Walk.begin(kernel, flow, (now.source, now.destination), now)
    for packet in walk.same() if now.protocol == "tcp" else (flow.packet(SOURCE), flow.packet(DESTINATION)):
        then = moved(kernel, now, packet, now.last + 1)
        if then and (then.source, then.destination, then.last) == (now.source, now.destination, now.last + 1):
            return packet
    return None


def keyed(protocol: str, key: Key) -> Key:
    """The ends of a flow as packets have them: an echo of ICMP has its identifier at both, and protocols other than TCP and UDP have
    port 0."""
    if protocol in ("tcp", "udp"):
        return key
    (far, _, far_port), (near, _, near_port) = key.far.rpartition(":"), key.near.rpartition(":")
    if protocol != "icmp":
        return Key(f"{far}:0", f"{near}:0")
    return key if far_port == near_port else Key(*(f"{it}:{near_port if far_port == '0' else far_port}" for it in (far, near)))


# ---- what is wanted


def was_heard(end: End) -> bool:
    """Whether an end of a connection has sent something; a reset of the other end closes one that has not."""
    return end.level not in (0, TIME_WAIT) or end.level == TIME_WAIT and (end.lo != 0 or end.window > 1)


def _plain(end: End) -> End:
    """An end as the laboratory has it: without numbers if it was not heard, unless the kernel's rule lets it send something."""
    is_blank = not was_heard(end) and end.lo == 0 and end.window <= 1 and end.hi <= 1
    return replace(SILENT, level=end.level) if is_blank else end


def _goals(wanted: Wanted) -> Tuple[End, End]:
    """The ends that are to be reached, and where a window is not known one that allows the other end its numbers."""
    if wanted.protocol != "tcp":
        return replace(SILENT, level=wanted.source.level), replace(SILENT, level=wanted.destination.level)
    ends = _plain(wanted.source), _plain(wanted.destination)
    source, destination = (it if it.window or not was_heard(it) else _with_window(it, ends[1 - at]) for at, it in enumerate(ends))
    return source, destination


def _with_window(end: End, other: End) -> End:
    """An end with the window that lets the other one send up to its allowance after its next number."""
    scale = end.scale if end.scale is not None and other.scale is not None else 0
    span = ahead(other.hi, other.lo) if was_heard(other) else 1
    return replace(end, window=max(1, min((span + (1 << scale) - 1) >> scale, MOST_OFFERED)))


def _missed(state: Optional[State], wanted: Wanted) -> List[str]:
    """Where a state is not as wanted."""
    if not state:
        return ["no packet makes it"]
    goals, parts = _goals(wanted), []
    for at, (which, goal) in enumerate(zip(ENDS, goals)):
        end, known = (state.source, state.destination)[at], (wanted.source, wanted.destination)[at]
        if wanted.protocol != "tcp":
            is_known = not (wanted.protocol == "icmp" and wanted.source.level == wanted.destination.level == 0)
            its, other = {"level": level_name(wanted.protocol, end.level)}, {"level": level_name(wanted.protocol, known.level)}
            parts += _unlike(which, its, other) if is_known else []
            continue
        if not known.window and was_heard(known):
            goal = replace(goal, window=end.window)
        parts += _unlike(which, end_fields("tcp", _plain(end)), end_fields("tcp", goal))
    return parts


def _unlike(which: str, its: Dict[str, str], goals: Dict[str, str]) -> List[str]:
    return [f"{which} {field} {its[field]} and not {goal}" for field, goal in goals.items() if its[field] != goal]


# ---- connections


def _segments(kernel: Kernel, flow: Flow, goals: Tuple[End, End], now: Optional[State], picks_up: bool) -> Iterator[Walk]:
    """Walks of a connection, those with the fewest packets first."""
    source, destination = goals
    start = Place(now.source.level, now.destination.level, now.destination.window > 0) if now else BEGUN
    goal = Place(_reachable(source.level, SYN_SENT), _reachable(destination.level, 0), was_heard(destination))
    for answers_with_syn in (True, False):
        found = paths(kernel, True, start, answers_with_syn)
        place = nearest(found, goal)
        reached = (replace(source, level=place.source), replace(destination, level=place.destination))
        yield from _walks(kernel, flow, reached, now, found[place], picks_up)
        if place.is_heard == start.is_heard:
            break


def _reachable(level: int, first: int) -> int:
    """A level, or the first one in the place of those that an end has while pf itself shakes hands (PROXY)."""
    return first if level > TIME_WAIT else level


def _walks(kernel: Kernel, flow: Flow, goals: Tuple[End, End], now: Optional[State], path: Path, picks_up: bool) -> Iterator[Walk]:
    """Walks that have the same steps, with other numbers."""
    has_more = any(it.end == SOURCE for it in path)
    stays = not has_more or kernel.has(WINDOW)
    begins = [Plan(SYN, stays), Plan(SYN, not stays), Plan(PICK_UP, True), Plan(PICK_UP, False)] if now is None else [Plan("", False)]
    begins = [begin for begin in begins if picks_up or begin.flags != PICK_UP]
    is_alone = now is None or now.destination.window == 0
    plans = [it._replace(moves_first=first, is_exact=exact) for first, exact, it in product((False, True), (False, True), begins)]
    plans += [begin._replace(is_wide=True) for begin in begins if now is None]
    # (by the kernel's rule an end that was not heard may send what it was offered, after 0)
    repeats = (SYN, PICK_UP) if kernel.has(WINDOW) and is_alone and goals[DESTINATION].hi <= MOST_OFFERED else ()
    plans += [it._replace(again=again) for again, it in product(repeats, begins)]
    for plan in plans:
        yield _walk(Walk.begin(kernel, flow, goals, now), path, plan)


def _walk(walk: Walk, path: Path, plan: Plan) -> Walk:
    """Goes a path with a plan, as far as packets pass, and then moves the numbers."""
    steps = [*(Step(SOURCE, it) for it in (plan.flags, plan.again) if it), *path]
    closes = next((at for at, it in enumerate(steps) if {*it.flags} & {*"FR"}), None)
    most = MOST_MOVING if walk.state else MOST_AT_FIRST
    for at, step in enumerate(steps):
        if at == closes and plan.moves_first and walk.state:
            walk.move(_before(walk.goals, steps[at:]), most)
        if not walk.send(step.end, walk.step(step, steps[at + 1 :], plan)):
            break
    if walk.state:
        walk.move(walk.goals, most)
    return walk


def _before(goals: Tuple[End, End], steps: List[Step]) -> Tuple[End, End]:
    """What is to be reached before some steps, whose flags take sequence numbers."""
    ends = (replace(it, lo=it.lo - sum("F" in step.flags for step in steps if step.end == at)) for at, it in enumerate(goals))
    source, destination = ends
    return source, destination


# ---- other protocols


def _datagrams(kernel: Kernel, flow: Flow, goals: Tuple[End, End], now: Optional[State]) -> Walk:
    """A walk of another protocol: packets each way, until the levels are those wanted."""
    walk = Walk.begin(kernel, flow, goals, now)
    if now is None:
        walk.send(SOURCE, flow.packet(SOURCE))
    start = Place(now.source.level, now.destination.level, now.destination.level > 0) if now else BEGUN_OTHERWISE
    levels = goals[SOURCE].level, goals[DESTINATION].level
    goal = start if flow.protocol == "icmp" and levels == (0, 0) else Place(*levels, levels[1] > 0)
    found = paths(kernel, False, start, False)
    for it in found[nearest(found, goal)]:
        walk.send(it.end, flow.packet(it.end))
    return walk
