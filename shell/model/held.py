"""Which packets are held. A shown pair has only their states; the packets are in the log of its branch."""
from __future__ import annotations

from dataclasses import replace
from typing import Dict, Sequence

from ..language.events import HELD_BACK
from ..language.names import Name
from .pair import Pair


def held_packets(events: Sequence[str], outcomes: Sequence[str]) -> Dict[Name, str]:
    """The packets that were held, each by the state that it made, as `PROTO SRC DST ..`. No name is given twice in a run from the
    opening on."""
    found = ((event.split(" ", 3)[-1], outcome.split()) for event, outcome in zip(events, outcomes))
    return {Name.read(words[1]): packet for packet, words in found if words[0] == HELD_BACK.word}


def with_packets(pair: Pair, packets: Dict[Name, str]) -> Pair:
    """The pair with the packets that its nodes hold."""
    for node in pair.nodes.values():
        node.held = [replace(it, packet=packets.get(it.name, "")) for it in node.held]
    return pair
