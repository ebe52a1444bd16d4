"""The facts about a pair by key, as a page has them, and which of them an event changed."""
from __future__ import annotations

from typing import Callable, Dict, Iterator, List, NamedTuple, Sequence, Tuple

from ..console.colours import PLAIN
from ..language.names import COUNTERS, NODES
from ..language.records import BULK_STATUS, CLEAR, QUEUES, UPDATE_REQUEST
from ..model.frames import Frame
from ..model.pair import Node, Pair
from ..model.setups import Setup
from ..model.states import State
from ..shows.differences import Difference, differences, node_numbers
from ..shows.diffs import circumstances, is_one_rule_set
from ..shows.records import record_line
from ..shows.views import frame_head, held_packet
from ..shows.words import FLAGS, bulk_status, cleared, flow, levels, near_and_far, request, rule_number, scaling, sequence
from .looks import Eye, Seen
from .standings import Change, Standings

# Values for JSON, by key. Among changes, nothing means that a key is gone.
Facts = Dict[str, object]
Fact = Tuple[str, object]


class Look(NamedTuple):
    """What a look at a pair shows: the pair before and now, the facts that changed, and the differences for people."""

    before: Pair
    after: Pair
    edits: Facts
    differences: List[Difference]


class Looker:
    """Looks at one pair again and again."""

    def __init__(self, setup: Setup, with_contents: Callable[[Pair], Pair]) -> None:
        """The function adds what the lines of a shown pair lack: the records of frames, and held packets."""
        self.setup, self._with_contents = setup, with_contents
        self.facts: Facts = {}
        self._eye = Eye.new()
        self._standings = Standings(is_one_rule_set(setup))

    @property
    def pair(self) -> Pair:
        """The pair as it was seen last."""
        return self._eye.pair

    def take(self, shown: Sequence[str]) -> Look:
        """Takes the lines of a shown pair; returns what changed."""
        seen = self._eye.see(shown)
        self._with_contents(seen.after)
        edits = {key: value for key, value in self._facts(seen) if self.facts.get(key) != value}
        self.facts.update(edits)
        for key in (it for it, value in edits.items() if value is None):
            del self.facts[key]
        return Look(seen.before, seen.after, edits, differences(*seen.reduced))

    def _facts(self, seen: Seen) -> Iterator[Fact]:
        """All facts that may have changed."""
        for name in (node for node in NODES if seen.before.nodes[node] != seen.after.nodes[node]):
            yield from self._of_node(name, seen)
        yield from self._apart(seen)
        counts = self._standings.counts
        lines = circumstances(seen.after, self.setup, PLAIN)
        yield "pair", {"answer": counts.answer(PLAIN), "agree": not counts.apart, "lines": lines}
        yield "link", [["next ticket", str(seen.after.next_ticket)], ["next boot", str(seen.after.next_boot)]]
        for ticket in sorted({*seen.before.frames, *seen.after.frames}):
            frame = seen.after.frames.get(ticket)
            if frame != seen.before.frames.get(ticket):
                yield f"frame/{ticket}", self._frame(frame) if frame else None

    # ---- nodes

    def _of_node(self, name: str, seen: Seen) -> Iterator[Fact]:
        node, changed = seen.after.nodes[name], seen.changed[name]
        queued = {it.name: QUEUES[it.kind] for it in node.queue if it.name in changed.queued}
        yield name, self._numbers(node)
        for state in sorted(changed.states):
            yield f"{name}/state/{state}", self._row(node.states[state], node) if state in node.states else None
        for state in sorted(changed.queued):
            yield f"{name}/queue/{state}", queued.get(state)
        yield f"{name}/messages", list(_messages(node)) or None
        yield f"{name}/held", [held_packet(it, node, self.setup) for it in node.held] or None

    def _numbers(self, node: Node) -> Dict[str, object]:
        return {
            "clock": node.clock,
            "scale": self.setup.adaptive.scale(len(node.states)),
            "numbers": [[name, text] for name, text in node_numbers(node).items()],
            "counters": [[counter.counts, node.counters[counter.name]] for counter in COUNTERS],
            "scaling": scaling(self.setup, node),
        }

    def _row(self, state: State, node: Node) -> Dict[str, object]:
        """A state in the words of pfctl; its last use and change are times of the node's clock, in milliseconds, and its timeout is in
        seconds, before any number of states shortens it."""
        rule = self.setup.rule(node.id, state.rule)
        return {
            "flow": flow(state),
            "levels": levels(state),
            "ends": [sequence(it) for it in near_and_far(state)] if state.protocol == "tcp" else [],
            "class": state.timeout_class,
            "last": state.last,
            "timeout": self.setup.seconds(node.id, state.rule, state.timeout_class),
            "peer": state.peer,
            "updates": state.updates,
            "flags": "" if state.flags == "-" else FLAGS.get(state.flags, state.flags),
            "rule": rule_number(state.rule) + (f": {rule.described}" if rule else ""),
        }

    # ---- both nodes, and the link

    def _apart(self, seen: Seen) -> Iterator[Fact]:
        names = seen.changed["a"].states | seen.changed["b"].states
        before, after = ((pair.a.states, pair.b.states) for pair in (seen.before, seen.after))
        changes = [Change(it, (before[0].get(it), before[1].get(it)), (after[0].get(it), after[1].get(it))) for it in sorted(names)]
        for name, standing in self._standings.take(changes, seen.after):
            yield f"apart/{name}", standing

    def _frame(self, frame: Frame) -> Dict[str, object]:
        records = [record_line(record) for record in frame.records]
        head = f"{frame_head(frame, self.setup)}: {frame.summary}"
        return {"to": frame.to, "head": head, "broken": bool(frame.broken), "records": [] if frame.broken else records}


def _messages(node: Node) -> Iterator[str]:
    """What waits to be sent to the peer but is not about a queued state."""
    yield from (f"{UPDATE_REQUEST.name} {request(ask)}" for ask in node.asks)
    yield from (f"{BULK_STATUS.name} {bulk_status(status)}" for status in node.statuses)
    yield from (f"{CLEAR.name} {cleared(clear)}" for clear in node.clears)
