"""Sends at once what a fault gives a node to send, in place of waiting for its next flush in the run."""
from __future__ import annotations

from typing import Callable, List, Optional, Sequence, Tuple

from ..language.commands import PAST
from ..language.events import DELIVER, FLUSH, SENT, TURN
from ..language.names import NODES
from ..model.pair import read_shown

# Nodes that send this often before one event of the run go on answering each other.
MOST_ROUNDS = 100
# Asks for the replies to lines.
Ask = Callable[[Sequence[str]], List[List[str]]]
# Steps an event of the variant, and returns its outcome, or nothing if it is refused.
Step = Callable[[str], Optional[List[str]]]
# For each number of events of the run, the nodes that have nothing to send after them, and serve no bulk update.
Idle = List[Tuple[str, ...]]


def idle_nodes(ask: Ask, branch: str, events: int) -> Idle:
    shown = ask([f"{PAST.word} {branch} {it}" for it in range(events + 1)])
    pairs = (read_shown([line for line in it if not line.startswith("state ")]) for it in shown)
    return [tuple(node for node in NODES if not pair.nodes[node].pending and pair.nodes[node].serve == "-") for pair in pairs]


def send(step: Step, nodes: Sequence[str]) -> bool:
    """Lets nodes send what they have, until they have nothing more and serve no bulk update; each frame arrives at once. Returns whether
    that came to an end."""
    for _ in range(MOST_ROUNDS):
        sent = [outcome[1] for outcome in map(step, [f"{FLUSH.word} {node}" for node in nodes]) if outcome and outcome[0] == SENT.word]
        for ticket in sent:
            step(f"{DELIVER.word} {ticket}")
        if not sent and not [node for node in nodes if step(f"{TURN.word} {node}")]:
            return True
    return False
