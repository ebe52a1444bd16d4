"""What the other node would make of a packet that passes here, where it would not do the same."""
from __future__ import annotations

from typing import List

from ..language.events import DROPPED
from ..model.explanations import Judged
from ..model.pair import Node
from ..model.states import State
from .absence import WHOLE, explain_lag, yet_to_send
from .questions import Question, peer_of


def explain_elsewhere(question: Question, state: State) -> List[str]:
    """What would come of a packet of a state at the other node; nothing if it would pass there by the same state."""
    packet, peer = question.packet, peer_of(question, question.packet.node)
    copy = peer.states.get(state.name)
    has_key = copy is not None and peer.found(packet) is copy
    if copy is not None and has_key and (not packet.is_tcp or is_same(state, copy)):
        return []
    there = question.at_peer
    if there is None or there.event.outcome == question.outcome:
        return []
    gives = f"the same packet at {peer.id} gives `{there.event.came}`"
    if copy is None:
        why = _why_unsent(question.table(packet.node), state)
        return [f"{gives}; {peer.id} does not have state {state.name}{': ' * bool(why)}{why}"]
    if not has_key:
        return [f"{gives}; {peer.id} has state {state.name} with other keys"]
    return [f"node {peer.id} has other numbers for state {state.name}: {gives}", *_why_behind(question, state)]


def _why_unsent(node: Node, state: State) -> str:
    """Why the peer cannot have a state yet. What became of the frames that carried it is not looked up for each packet that passes."""
    return "its rule says `no-sync`" if "n" in state.flags else yet_to_send(node, state.name, [it.queue for it in WHOLE])


def _why_behind(question: Question, state: State) -> List[str]:
    """What the two nodes have yet to send each other about a state; if that is nothing, what the peer heard of it last."""
    node = question.packet.node
    unsent = [yet_to_send(it, state.name) for it in (question.table(node), peer_of(question, node))]
    return list(filter(None, unsent)) or explain_lag(question, state.name, peer_of(question, node).id)


def is_same(one: State, two: State) -> bool:
    """Whether what is tracked of the ends of a state is the same."""
    return (one.source, one.destination) == (two.source, two.destination)


def explain_drop_elsewhere(question: Question) -> List[str]:
    """That the other node would drop a packet which the rules pass here; nothing if it would not."""
    there, peer = question.at_peer, peer_of(question, question.packet.node).id
    if there is None or there.event.outcome[0] != DROPPED.word:
        return []
    gives = f"the same packet at {peer} gives `{there.event.came}`"
    if isinstance(there.reason, Judged) and there.reason.how == "block":
        return [f"{gives}: {question.rule_words(peer, there.reason.rule)} decides there"]
    return [gives]
