"""What is searched for: where runs are to lead, and which events they may have."""
from __future__ import annotations

from dataclasses import dataclass
from itertools import groupby
from typing import Dict, List, Tuple

from ..language.events import DELIVER, FLUSH
from ..language.names import NODES
from ..language.searches import ADMITTED, ANY, APART, DIFFER, DROPPED, LANDED, QUIET, SEARCH, SETTLED, SPLIT, THEN
from ..model.pair import other
from ..shows.words import counted

# What people say, and the goal of the line.
DROPS, PASSES, SPLITS = "drops", "passes", "splits"
GOALS: Dict[str, str] = {DROPS: DROPPED, PASSES: ADMITTED, SPLITS: SPLIT, DIFFER: DIFFER, APART: APART}
# What is asked; the nodes are the packet's and the other one.
ASKED: Dict[str, str] = {
    DROPS: "whether it is dropped",
    PASSES: "whether it passes or is held",
    SPLITS: "whether it is dropped at {node}, and passes or is held at {other}",
    DIFFER: "whether a state at both nodes, and no-sync at neither, has other levels, numbers or class",
    APART: "whether one node has a state whose name the other does not have, and nothing else of the states",
}
# The part that says that a node does nothing more.
DIES = "dies"
# Where it is asked. People get the second one unless they say something else, and where a node dies the last.
ANYWHERE = "anywhere"
WHERE: Dict[str, str] = {
    LANDED: "when no frame is in flight",
    QUIET: "when nothing is in flight or pending, and neither node serves a bulk update",
    SETTLED: "when nothing is in flight or pending, and neither node serves a bulk update or waits for one",
    ANYWHERE: "at the cursor of the branch and after each event",
}
EVENTS, RUNS = 8, 1_000_000
ANY_DELIVERY = f"{ANY} {DELIVER.word}"
# What happens as often as there are events, unless people say something else.
ALWAYS = (ANY_DELIVERY, *(f"{FLUSH.word} {node}" for node in NODES))


@dataclass(frozen=True)
class Choice:
    """Something that may happen, and how often at most."""

    what: str
    uses: int

    @property
    def words(self) -> str:
        """What it is, in people's words."""
        first, *rest = self.what.split()
        if first != ANY:
            return self.what
        return f"{rest[0]} any frame" + (f" to {counted(int(rest[1]), 'byte')}" if rest[1:] else "")

    @property
    def times(self) -> str:
        return {0: "never", 1: "once"}.get(self.uses, f"up to {self.uses:,} times")


@dataclass(frozen=True)
class Phase:
    """What may happen in a part of a run, and the nodes that do nothing more in it."""

    choices: Tuple[Choice, ...]
    dead: Tuple[str, ...] = ()

    @property
    def words(self) -> str:
        parts = [_allowed(uses, [it.words for it in those]) for uses, those in groupby(self.choices, lambda it: it.times)]
        return "; ".join(parts)


@dataclass(frozen=True)
class Sought:
    """A search in people's words: what it asks, of which packet if it is about one, where it is asked, and what may happen."""

    kind: str
    packet: str
    scope: str
    within: int
    runs: int
    phases: Tuple[Phase, ...]

    @property
    def node(self) -> str:
        """The node of the packet."""
        return self.packet.split()[1]

    @property
    def packet_of_other(self) -> str:
        """The packet at the other node."""
        first, node, *rest = self.packet.split()
        return " ".join([first, other(node), *rest])

    def line(self, branch: str, depth: int) -> str:
        """The line that asks the program for runs of at most `depth` events."""
        scope = "" if self.scope == ANYWHERE else self.scope
        goal = " ".join(filter(None, (scope, GOALS[self.kind], self.packet)))
        phases = ["; ".join(f"{choice.uses} {choice.what}" for choice in phase.choices) for phase in self.phases]
        return f"{SEARCH} {branch} {depth} {self.runs} {goal}; " + f"; {THEN}; ".join(phases)

    @property
    def terms(self) -> List[str]:
        """What is asked and when, and what was allowed in each phase, including defaults."""
        runs = "1 run" if self.runs == 1 else f"{self.runs:,} runs"
        what = ASKED[self.kind].format(node=self.node, other=other(self.node)) if self.packet else ASKED[self.kind]
        first, *others = self.phases
        allowed = [f"allowed: {first.words}", *(f"{_begun(it)}: {it.words}" for it in others)]
        allowed[-1] += "; nothing else"
        return [f"asked {what}, {WHERE[self.scope]}; within {counted(self.within, 'event')}, at most {runs}", *allowed]


def _begun(phase: Phase) -> str:
    """How a phase after the first begins."""
    if not phase.dead:
        return "then"
    return f"then, where {' and '.join(phase.dead)} {'do' if phase.dead[1:] else 'does'} nothing more"


def _allowed(times: str, choices: List[str]) -> str:
    each = " each" if len(choices) > 1 and times != "never" else ""
    return f"{', '.join(choices)} ({times}{each})"
