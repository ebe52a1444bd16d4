"""The numbers for which an event is refused, from the shown pair: for `why BRANCH EVENT`."""
from __future__ import annotations

from typing import List

from shell.language.events import LAST_MILLISECOND, OF_FRAME, RELEASE
from shell.language.setups import BULK_MS, DEFER_MS, FRAMES, QUEUE
from shell.model.pair import Node, Pair
from shell.model.setups import Setup


def against(setup: Setup, pair: Pair, event: str, refusal: str) -> List[str]:
    """The line of the numbers for this refusal of the event; none if the refusal has none."""
    word, about, *_ = event.split()
    if word in OF_FRAME and int(about) not in pair.frames:
        return [f"ticket {pair.next_ticket}"]
    if refusal == "LinkFull":
        return [f"frames {setup.limits[FRAMES]} {len(pair.frames)}"]
    node = pair.nodes[pair.frames[int(about)].to if word in OF_FRAME else about]
    if refusal == "QueueFull":
        return [f"pending {setup.limits[QUEUE]} {node.pending}"]
    if refusal == "ClockFull":
        return [f"clock {node.clock} {LAST_MILLISECOND}"]
    return [f"due {node.clock} {_due(setup, node, word == RELEASE.word)}"] if refusal == "TooEarly" else []


def _due(setup: Setup, node: Node, is_release: bool) -> int:
    """When the oldest held packet is due, or the client may ask again."""
    if is_release:
        return node.held[0].since + setup.limits[DEFER_MS]
    return int(node.sync.split("/")[1]) + setup.limits[BULK_MS]
