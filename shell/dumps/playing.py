"""A script that makes the states of two dumps, as the program plays it: packets, what is sent of them, and what arrives."""
from __future__ import annotations

from dataclasses import dataclass, field, replace
from itertools import groupby
from typing import Dict, List, Optional, Sequence, Set

from ..inferring.levels import SOURCE
from ..inferring.segments import Flow
from ..language.commands import OPEN, STEP
from ..language.names import NODES, Name
from ..language.packets import PacketEvent
from ..language.setups import FRAMES
from ..link.programs import Run, run_lines
from ..model.pair import Pair, read_shown
from ..model.setups import Setup
from .files import shown
from .items import Item, Sort
from .stages import Stage

# How much room on the link is left by the frames that wait until both nodes have the flow that each has under a name of its own.
FREE = 4
KEYS_TAKEN = "another state of the node has the same keys"
OTHER_KEYS = "these rules make other keys"


@dataclass
class Play:
    """The lines of a script after its setup, the names of the items there, and the pair at the end."""

    lines: List[str] = field(default_factory=list)
    names: Dict[Item, Name] = field(default_factory=dict)
    pair: Optional[Pair] = None


class Player:
    """A run of the program that a script is made in: what is refused is not in the script."""

    def __init__(self, program: str, setup: Sequence[str]):
        self.play = Play()
        self._run = Run(program, setup)
        self._most_waiting = Setup.of(setup).limits[FRAMES] - FREE
        self._waiting: List[str] = []
        self._names: Set[Name] = set()

    def played(self, stages: Sequence[Stage]) -> Play:
        """The script of some stages, the oldest first."""
        try:
            self._play(stages)
            self.play.pair = read_shown(self._run.ask_freely("show main"))
        finally:
            self._run.kill()
        return self.play

    def _play(self, stages: Sequence[Stage]) -> None:
        clock = max((stage.ago for stage in stages), default=0)
        ordered = sorted(stages, key=lambda it: -it.ago)
        for ago, group in groupby(ordered, key=lambda it: it.ago):
            self._tick(clock - ago)
            clock, its = ago, [*group]
            self._make([it for it in its if it.is_heard])
            lost = [it for it in its if not it.is_heard]
            if lost:
                self._deliver()
                self._lose(lost)
        self._tick(clock)
        self._deliver()
        for it in self._waiting:
            self._step(f"deliver {it}")
        self._deliver()

    def _tick(self, seconds: int) -> None:
        if seconds > 0:
            for node in NODES:
                self._step(f"tick {node} {1000 * seconds}")

    def _make(self, stages: Sequence[Stage]) -> None:
        """Lets the packets of some stages come; the first one of an item makes its state."""
        for stage in stages:
            packets = [f"{STEP.word} main {packet.line}" for packet in stage.packets]
            if stage.item not in self.play.names:
                self._begin(stage.item, packets.pop(0))
            if not stage.item.is_out:
                replies = self._run.ask_together(packets)
                self.play.lines += [line for line, reply in zip(packets, replies) if reply[0].startswith(STEP.word)]

    def _begin(self, item: Item, line: str) -> None:
        """Lets the first packet of an item come. One that makes no state of its own is taken back."""
        outcome = self._run.ask_freely(line)[0].split()
        name = _made(outcome)
        if name is None or name in self._names:
            item.is_out, item.why = True, item.why or (KEYS_TAKEN if name else _fate(outcome))
            self._run.ask_freely("back main 1")
            return
        self.play.names[item] = name
        self._names.add(name)
        self.play.lines += [_comment(item, name), line]

    def _deliver(self) -> None:
        """Lets both nodes send what is pending, and what they send arrive, until nothing is pending."""
        while any([self._send(node, "deliver {}") for node in NODES]):
            pass

    def _lose(self, stages: Sequence[Stage]) -> None:
        """Lets packets come whose frames are lost; those of a flow under two names wait until both nodes have it."""
        twins = [stage for stage in stages if stage.item.sort is Sort.TWIN]
        for those, waits in ((twins, True), ([stage for stage in stages if stage.item.sort is not Sort.TWIN], False)):
            self._make(those)
            for node in NODES if those else ():
                self._send(node, "" if waits else "lose {}")

    def _send(self, node: str, then: str) -> bool:
        """Lets a node send frames until nothing is pending, and something happen to each, or nothing yet; returns whether there was any."""
        count = 0
        while True:
            words = self._run.ask_freely(f"{STEP.word} main flush {node}")[0].split()
            if words[1] != "sent":
                return count > 0
            count += 1
            self.play.lines.append(f"{STEP.word} main flush {node}")
            if not then and len(self._waiting) < self._most_waiting:
                self._waiting.append(words[2])
            else:
                self._step((then or "lose {}").format(words[2]))

    def _step(self, event: str) -> None:
        if self._run.ask_freely(f"{STEP.word} main {event}")[0].startswith(STEP.word):
            self.play.lines.append(f"{STEP.word} main {event}")


def _made(outcome: Sequence[str]) -> Optional[Name]:
    """The name of the state of a packet that passes, from the reply to its step."""
    return Name.read(outcome[2]) if outcome[:2] in (["step", "pass"], ["step", "held"]) and outcome[2] != "-" else None


def _fate(outcome: Sequence[str]) -> str:
    """What became of a packet that made no state, from the reply to its step."""
    what = f"dropped ({outcome[2]})" if outcome[1] == "drop" else f"taken, and makes no state ({' '.join(outcome[1:])})"
    return f"the first packet is {what}"


def _comment(item: Item, name: Name) -> str:
    """What a state of the laboratory is in the dumps."""
    names = dict.fromkeys(known.dumped.named() for known in item.wants.values())
    return f"# {name}: {' | '.join(names)} of {' and '.join(item.wants)}, {shown(item.first.dumped.flow)}"


def judge(program: str, setup: Setup, items: Sequence[Item]) -> None:
    """Asks the rules of a setup for the keys that they give each item, the oldest first, and for the number of its rule."""
    ordered = sorted(items, key=lambda it: -(it.first.dumped.age or 0))
    steps = [f"{STEP.word} main {_first_packet(it).line}" for it in ordered]
    *replies, last = run_lines(program, [*setup.lines, OPEN.word, *steps, "show main"]).replies
    pair = read_shown(last)
    names: Set[Name] = set()
    for item, reply in zip(ordered, replies):
        outcome = reply[0].split()
        name = _made(outcome)
        if name is None or name in names:
            item.is_out, item.why = True, KEYS_TAKEN if name else _fate(outcome)
            continue
        names.add(name)
        state = pair.nodes[item.node].states[name]
        item.rule = state.rule
        if (state.wire, state.stack) != (item.wire, item.stack):
            item.keys, item.why = (state.wire, state.stack), item.why or OTHER_KEYS


def _first_packet(item: Item) -> PacketEvent:
    packet = Flow(item.node, item.first.wanted.protocol, item.first.wanted.direction, item.wire, item.stack).packet(SOURCE)
    return replace(packet, flags="S", window=1, length=0) if packet.is_tcp else packet
