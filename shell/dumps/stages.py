"""The packets that make the states of two dumps, and how long before the end each group of them comes."""
from __future__ import annotations

from dataclasses import replace
from functools import lru_cache
from typing import Dict, List, NamedTuple, Optional, Tuple

from ..inferring.segments import ahead
from ..inferring.ways import Wanted, Way, renewal, way_to
from ..language.packets import PacketEvent, reaches
from ..language.setups import FLAGS_ANY
from ..model.kernels import Kernel
from ..model.pair import other
from ..model.setups import Setup
from ..model.states import End, State
from .comparing import Tolerance
from .items import Item


@lru_cache(1 << 17)
def _way_to(kernel: Kernel, node: str, now: Optional[State], wanted: Wanted, picks_up: bool) -> Way:
    """The packets to a state. The same ones are asked for again where timeouts change."""
    return way_to(kernel, node, now, wanted, picks_up)


class Stage(NamedTuple):
    """Packets of a state at a node, how many seconds before the end, and whether the peer is to hear of them."""

    item: Item
    node: str
    packets: Tuple[PacketEvent, ...]
    ago: int
    is_heard: bool


class Timing(NamedTuple):
    """The timeouts of the pair, how far times may be apart, and the classes of which a state has longer left, with the longest."""

    setup: Setup
    tolerance: Tolerance
    lacking: Dict[str, int]

    def way(self, item: Item, node: str, now: Optional[State], wanted: Wanted) -> Way:
        """The packets of an item to a state at a node. A connection is picked up in its middle only where the item's rule takes that."""
        rule = self.setup.rule(item.node, item.rule)
        return _way_to(self.setup.kernel, node, now, wanted, rule is not None and rule.has(FLAGS_ANY))

    def ago(self, node: str, state: Optional[State], item: Item) -> int:
        """How long ago a state was last used that has the seconds left which the dump of a node says."""
        expires = item.wants[node].dumped.expires
        if state is None or expires is None:
            return 0
        seconds = self.setup.seconds(item.node, item.rule, state.timeout_class)
        if expires > seconds:
            self.lacking[state.timeout_class] = max(expires, self.lacking.get(state.timeout_class, 0))
        return max(0, seconds - expires)


def stages_of(item: Item, timing: Timing) -> List[Stage]:
    """The packets of an item. What the nodes have in common comes first; what one of them has besides, later, and is lost."""
    if len(item.wants) == 1:
        way = timing.way(item, item.node, None, item.wanted_at(item.node))
        item.why = item.why or _missed(way)
        return [Stage(item, item.node, way.packets, timing.ago(item.node, way.state, item), False)]
    return _alike(item, timing) if item.is_alike else _unlike(item, timing)


def _alike(item: Item, timing: Timing) -> List[Stage]:
    """A state that both nodes have alike; at one of them it may have been used later."""
    way = timing.way(item, item.node, None, item.wanted_at(item.node))
    item.why = item.why or _missed(way)
    agos = {node: timing.ago(node, way.state, item) for node in item.wants}
    if not timing.tolerance.is_apart(*agos.values()) or not way.state:
        return [Stage(item, item.node, way.packets, agos[item.node], True)]
    younger = min(agos, key=lambda it: agos[it])
    stages = [Stage(item, item.node, way.packets, agos[other(younger)], True)]
    packet = renewal(timing.setup.kernel, younger, way.state)
    if not packet:
        item.why_times = "no packet renews the state and leaves it as it is"
        return stages
    return [*stages, Stage(item, younger, (packet,), agos[younger], False)]


class _Try(NamedTuple):
    """What the nodes have in common, which is what one of them is to have or less than both, and what comes besides at each other one."""

    base: Way
    of: str
    further: Dict[str, Way]

    @property
    def missed(self) -> Dict[str, str]:
        """Where a node does not come to what it is to have."""
        ways = {self.of: self.base, **self.further} if self.of else self.further
        return {node: it.missed for node, it in ways.items() if it.missed}

    @property
    def cost(self) -> Tuple[int, int]:
        packets = sum(len(it.packets) for it in (self.base, *self.further.values()))
        return sum(len(it.split(", ")) for it in self.missed.values()), packets


def _unlike(item: Item, timing: Timing) -> List[Stage]:
    """A state with other levels or numbers at each node: one goes on from where the other stands, or both from what they have in common."""
    best = min(_tries(item, timing), key=lambda it: it.cost)
    item.why = item.why or "; ".join(f"packets do not lead to what {node} has: {missed}" for node, missed in best.missed.items())
    agos = {node: timing.ago(node, it.state, item) for node, it in best.further.items()}
    ago = timing.ago(best.of, best.base.state, item) if best.of else max(agos.values())
    if max(agos.values()) > ago:
        item.why_times = "the peer has what comes before it, and has used that later"
    stages = [Stage(item, item.node, best.base.packets, ago, True)]
    return stages + [Stage(item, node, it.packets, min(ago, agos[node]), False) for node, it in best.further.items()]


def _tries(item: Item, timing: Timing) -> List[_Try]:
    """What the nodes may have had in common: what either has, if the other goes on from there, or else less than both."""
    tries = []
    for node in sorted(item.wants, key=lambda it: _progress(item.wanted_at(it), item.wanted_at(other(it)))):
        base, on = timing.way(item, item.node, None, item.wanted_at(node)), other(node)
        tries.append(_Try(base, node, {on: _on(item, timing, on, base)}))
        if not tries[-1].missed:
            return tries
    base = timing.way(item, item.node, None, _common(item))
    return [*tries, _Try(base, "", {node: _on(item, timing, node, base) for node in item.wants})]


def _progress(one: Wanted, two: Wanted) -> Tuple[int, int]:
    """How far a state is ahead of another one: in levels, and in numbers."""
    ends = ((one.source, two.source), (one.destination, two.destination))
    return sum(it.level - its.level for it, its in ends), sum(ahead(it.lo, its.lo) for it, its in ends)


def _on(item: Item, timing: Timing, node: str, base: Way) -> Way:
    """How a node goes on from a state to what it is to have; where it has that already, by a packet that renews it."""
    way = timing.way(item, node, base.state, item.wanted_at(node))
    packet = renewal(timing.setup.kernel, node, base.state) if base.state and not way.packets and not way.missed else None
    return way._replace(packets=(packet,)) if packet else way


def _common(item: Item) -> Wanted:
    """A state that is behind those of both nodes."""
    one, two = (item.wanted_at(node) for node in ("a", "b"))
    return one._replace(source=_behind(one.source, two.source), destination=_behind(one.destination, two.destination))


def _behind(one: End, two: End) -> End:
    if not one.level or not two.level:
        return one if not one.level else two
    return replace(
        one,
        level=min(one.level, two.level),
        lo=two.lo if reaches(one.lo, two.lo) else one.lo,
        hi=two.hi if reaches(one.hi, two.hi) else one.hi,
        scale=one.scale if one.scale == two.scale else None,
    )


def _missed(way: Way) -> str:
    return f"packets do not lead there: {way.missed}" if way.missed else ""

