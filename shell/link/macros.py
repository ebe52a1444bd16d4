"""Several steps under one word: until nothing is pending, both clocks, all frames in flight."""
from __future__ import annotations

from typing import Callable, Iterator, List

from ..language.events import DELIVER, FLUSH, TICK, TURN
from ..language.names import NODES
from ..model.pair import Pair

# A pair that is not quiet after this many steps answers itself without end.
MOST_STEPS = 10_000

# Lets an event happen, and says whether it was accepted.
Step = Callable[[str], bool]
# The pair as it is now.
Look = Callable[[], Pair]


class NotQuiet(Exception):
    """Something is pending or in flight, and no step is left that could help."""


def deliveries(pair: Pair) -> List[str]:
    """The delivery of each frame in flight, by ticket."""
    return [f"{DELIVER.word} {ticket}" for ticket in sorted(pair.frames)]


def ticks(milliseconds: str) -> List[str]:
    """A tick of each node."""
    return [f"{TICK.word} {node} {milliseconds}" for node in NODES]


def next_steps(pair: Pair) -> List[str]:
    """What brings a pair nearer to quiet: first what is in flight arrives, then each node sends what is pending, then bulk turns."""
    arriving = deliveries(pair)
    if arriving:
        return arriving
    flushes = [f"{FLUSH.word} {node}" for node in NODES if pair.nodes[node].pending]
    return flushes or [f"{TURN.word} {node}" for node in NODES if pair.nodes[node].serve != "-"]


def steps_to_quiet(step: Step, look: Look) -> Iterator[str]:
    """Takes the steps to a pair in which nothing is pending or in flight, and gives the event of each as it is taken."""
    taken = 0
    while True:
        events = next_steps(look())
        if not events:
            return
        for event in events:
            taken += 1
            if taken > MOST_STEPS:
                raise NotQuiet(f"something is still pending after {MOST_STEPS} steps")
            yield event
            if not step(event):
                raise NotQuiet(f"`{event}` is refused")
