"""A question for the reason of an event's outcome: the pair before it, and what the proved program made of it."""
from __future__ import annotations

from dataclasses import dataclass
from functools import cached_property
from typing import List, Optional, Sequence

from ..console.colours import Paint
from ..language.events import Event, read_packet
from ..language.names import Name
from ..language.packets import PacketEvent
from ..link.histories import History
from ..link.laboratory import Laboratory
from ..model.explanations import Explanation, Reason
from ..model.pair import Node, Pair, other
from ..model.setups import Rule
from ..model.states import State
from ..shows.words import flow


@dataclass(eq=False)
class Question:
    """An event, those before it, what came of it, and why. An event that is refused changes nothing."""

    history: History
    explanation: Explanation
    paint: Paint

    @property
    def lab(self) -> Laboratory:
        return self.history.lab

    @property
    def words(self) -> List[str]:
        return self.explanation.event.words

    @property
    def outcome(self) -> List[str]:
        return self.explanation.event.outcome

    @property
    def reason(self) -> Reason:
        return self.explanation.reason

    @property
    def kind(self) -> Event:
        return self.explanation.event.kind

    @property
    def place(self) -> int:
        """How many events came before it."""
        return len(self.history.lines)

    @property
    def pair(self) -> Pair:
        """The pair before the event."""
        return self.history.pair(self.place)

    @property
    def after(self) -> Pair:
        """The pair after the event, which was accepted."""
        return self.history.pair(self.place + 1)

    @cached_property
    def packet(self) -> PacketEvent:
        """The packet, of an event that is a packet."""
        return read_packet(self.explanation.event.line)

    @cached_property
    def at_peer(self) -> Optional[Explanation]:
        """What would come of the packet at the other node in place of this one, and why; nothing if the setup is not known."""
        return self.history.would_come(at_other_node(self.explanation.event.line)) if self.lab.knows_setup else None

    def table(self, node: str) -> Node:
        """A node before the event."""
        return self.pair.nodes[node]

    def rule(self, node: str, number: Optional[int]) -> Optional[Rule]:
        """A rule of a node by its number, if the setup is known."""
        return self.lab.setup.rule(node, number) if self.lab.knows_setup else None

    def rule_words(self, node: str, number: Optional[int]) -> str:
        """A rule by its number with its words, such as `rule 1 of a (pass out)`, and where it is from, if that is known."""
        rule = self.rule(node, number)
        return f"rule {number} of {node}" + (f" ({rule.described})" if rule else "")


def at_other_node(packet: str) -> str:
    """The event that brings the same packet to the other node."""
    word, node, *rest = packet.split()
    return " ".join([word, other(node), *rest])


def state_words(state: State) -> str:
    """A state with its flow as `pfctl -ss` prints it: `state 1.1 (udp 10.0.0.1:1000 -> 192.0.2.9:53)`."""
    return f"state {state.name} ({flow(state)})"


def peer_of(question: Question, node: str) -> Node:
    """The other node before the event."""
    return question.table(other(node))


def name_list(names: Sequence[Name], most: int = 6) -> str:
    """Names; if there are many, only the first."""
    shown = ", ".join(str(name) for name in names[:most])
    return f"{shown} and {len(names) - most} more" if len(names) > most else shown
