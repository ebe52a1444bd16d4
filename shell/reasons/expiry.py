"""When states expire, and that one which has expired still matches until a purge."""
from __future__ import annotations

from typing import List

from ..model.explanations import Expiry
from ..model.pair import Node
from ..model.states import State
from .questions import Question


def explain_overdue(question: Question, node: Node, state: State) -> List[str]:
    """That a state of a node expired before the event, and no purge has deleted it; nothing if it did not, or the setup is not known.
    Its timeout is that of a purge before the event."""
    setup = question.lab.setup
    timeout = setup.seconds(node.id, state.rule, state.timeout_class)
    scaled = setup.adaptive.scaled(timeout, len(node.states))
    expiry = Expiry(state.name, state.timeout_class, timeout, scaled, state.last + 1000 * scaled)
    if not question.lab.knows_setup or expiry.expires > node.clock:
        return []
    expired = f"state {state.name} expired at {expiry.expires} ms ({use_words(question, node.id, state, expiry)})"
    return [f"{expired}; the clock of {node.id} is at {node.clock} ms, and the state is still there because no purge has deleted it"]


def use_words(question: Question, node: str, state: State, expiry: Expiry) -> str:
    """When a state was last used, and its timeout, with what sets that and what shortens it."""
    setup = question.lab.setup
    said_by = setup.said_by(node, state.rule, expiry.timeout_class) if question.lab.knows_setup else ""
    said = f" ({said_by})" if said_by else ""
    scaled = f", scaled to {expiry.scaled} s" if expiry.scaled != expiry.timeout else ""
    return f"last used at {expiry.last} ms, and {expiry.timeout_class} is {expiry.timeout} s{said}{scaled}"
