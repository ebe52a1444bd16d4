"""What a click can step next at a place of a page, where a branch stands: the events, each with what would come of it, or why it would be
refused."""
from __future__ import annotations

import re
from typing import List, NamedTuple, Sequence

from ..console.colours import PLAIN
from ..language.commands import WHY
from ..language.events import CLEAR, CUT, DELIVER, FLUSH, KILL, LOSE, PURGE, RELEASE, REPEAT, RESTART, RETRY, TURN
from ..language.names import Name
from ..link.histories import History
from ..link.laboratory import Laboratory
from ..model.branches import Branch
from ..model.explanations import Explanation, read_explanation
from ..model.pair import Pair
from ..reasons.questions import Question
from ..reasons.refusals import explain_refusal

OF_NODE = (FLUSH, PURGE, TURN, RETRY, RELEASE, CLEAR, RESTART)
OF_FRAME = (DELIVER, LOSE, REPEAT)
# A place of a page: a node, a frame in flight by its ticket, or a state of a node.
PLACE = re.compile(r"([ab])|frame/([0-9]{1,20})|([ab])/state/([0-9]{1,20}\.[0-9]{1,20})")


class Offer(NamedTuple):
    """An event at a place of the page (a node, a frame or a state), what would come of it, and whether it would be accepted."""

    place: str
    event: str
    would: str
    accepted: bool


def offers(lab: Laboratory, branch: Branch, places: Sequence[str]) -> List[Offer]:
    """The events that are offered at some places where a branch of a laboratory stands, with all questions asked together. A place that
    the pair does not have there offers none."""
    assert lab.session
    history = History(lab, branch.name, branch.events[: branch.cursor])
    pair = history.pair(branch.cursor)
    found = [(place, event) for place in places for event in _events(pair, place)]
    answers = lab.session.ask_together([f"{WHY.word} {branch.name} {event}" for _, event in found])
    return [_offer(history, place, read_explanation(answer)) for (place, _), answer in zip(found, answers)]


def _events(pair: Pair, place: str) -> List[str]:
    """The events that can be clicked at a place of a pair."""
    found = PLACE.fullmatch(place)
    if not found:
        return []
    node, ticket, holder, name = found.groups()
    if node:
        return [f"{it.word} {node}" for it in OF_NODE]
    if holder:
        return [f"{KILL.word} {holder} {name}"] if Name.read(name) in pair.nodes[holder].states else []
    frame = pair.frames.get(int(ticket))
    if frame is None:
        return []
    return [*(f"{it.word} {frame.ticket}" for it in OF_FRAME), f"{CUT.word} {frame.ticket} {len(frame.data) // 2}"]


def _offer(history: History, place: str, explanation: Explanation) -> Offer:
    if explanation.event.is_refused:
        return Offer(place, explanation.event.line, "; ".join(explain_refusal(Question(history, explanation, PLAIN))), False)
    return Offer(place, explanation.event.line, explanation.event.came, True)
