"""Why an event is refused, in words, with the numbers that cause it."""
from __future__ import annotations

from difflib import get_close_matches
from typing import Callable, Dict, List

from ..language.events import OF_FRAME, RELEASE, TURN
from ..language.forms import GREATEST
from ..language.names import Name
from ..language.setups import BULK_MS, DEFER_MS, FRAMES, QUEUE
from ..model.explanations import Against
from ..model.pair import Node, other
from ..shows.words import counted
from .questions import Question, name_list


def _node(question: Question) -> Node:
    """The node that the event is about: that of its line, or the receiver of its frame."""
    words = question.words
    return question.table(question.pair.frames[int(words[1])].to if words[0] in OF_FRAME else words[1])


def _no_such_frame(question: Question, next_ticket: int) -> List[str]:
    ticket = int(question.words[1])
    flying = ", ".join(f"{frame.ticket} (to {frame.to})" for frame in question.pair.frames.values()) or "none"
    line = f"no frame in flight has the ticket {ticket}; in flight: {flying}"
    if ticket >= next_ticket:
        return [line, f"frame {ticket} has not been sent yet: the next frame gets the ticket {next_ticket}"]
    flight = question.history.flight(ticket) if ticket else None
    if flight is None or flight.ended is None:
        return [line]
    return [line, f"frame {ticket} was {'lost' if flight.is_lost else 'delivered'} by event {flight.ended.number}"]


def _nothing_pending(question: Question) -> List[str]:
    node = question.words[1]
    if question.words[0] == RELEASE.word:
        return [f"node {node} holds no packet, so there is none to release"]
    return [f"node {node} has nothing to send: no state is queued, and no request, bulk status or clear is listed"]


def _no_such_state(question: Question) -> List[str]:
    node, name = _node(question), Name.read(question.words[2])
    lines = [f"node {node.id} has no state {name}"]
    if not node.states:
        lines.append("its table is empty")
    else:
        near = get_close_matches(str(name), [str(known) for known in node.states], n=3, cutoff=0.5)
        lines.append(f"it has {name_list(sorted(node.states))}" + (f"; nearest: {', '.join(near)}" if near else ""))
    peer = question.table(other(node.id))
    return lines + [f"node {peer.id} has a state {name}"] * (name in peer.states)


def _link_full(question: Question, limit: int, frames: int) -> List[str]:
    return [
        f"the link carries {counted(frames, 'frame')}, and the limit `{FRAMES.word}` is {limit}",
        f"deliver or lose one first: {', '.join(str(it) for it in list(question.pair.frames)[:8])}",
    ]


def _queue_full(question: Question, limit: int, pending: int) -> List[str]:
    node = _node(question)
    more = f"during the event more would be pending at {node.id} than allowed: the limit `{QUEUE.word}` is {limit}"
    alone = f"the event itself would queue more than {counted(limit - pending, 'entry', 'entries')}"
    room = f"`flush {node.id}` makes room"
    return [more, f"pending before it: {pending} ({_pending_parts(node)})", *[alone] * (pending < limit), *[room] * bool(pending)]


def _pending_parts(node: Node) -> str:
    words = [counted(len(node.queue), "state"), counted(len(node.asks), "request")]
    words += [counted(len(node.statuses), "bulk status", "bulk statuses"), counted(len(node.clears), "clear")]
    return ", ".join(words)


def _clock_full(question: Question, clock: int, last: int) -> List[str]:
    node, more = question.words[1:]
    return [
        f"the clock of {node} is at {clock} ms, and {int(more)} ms more would pass its maximum, {last} ms",
        f"it can advance by {last - clock} ms at most",
    ]


def _count_full(question: Question) -> List[str]:
    pair = question.pair
    numbers = [("the next ticket", pair.next_ticket), ("the next boot number", pair.next_boot)]
    for node in pair.nodes.values():
        numbers += [(f"the next id of {node.id}", node.next_id), (f"the next queueing number of {node.id}", node.next_number)]
        numbers += [(f"the counter `{name}` of {node.id}", count) for name, count in node.counters.items()]
    what, most = max(numbers, key=lambda it: it[1])
    return [f"a number would pass {GREATEST}; the greatest before the event is {what}, {most}"]


def _not_syncing(question: Question) -> List[str]:
    node = question.words[1]
    if question.words[0] == TURN.word:
        return [
            f"node {node} serves no bulk update: nobody has asked it for all its states, or all are sent",
            f"it begins when a request for all states comes (`restart {other(node)}`, then flush and deliver)",
        ]
    return [f"node {node} waits for no bulk update: it has asked for none, or the end of the update has come"]


def _too_early(question: Question, clock: int, due: int) -> List[str]:
    node = _node(question)
    if question.words[0] == RELEASE.word:
        since, limit = node.held[0].since, DEFER_MS
        what = f"the oldest packet that {node.id} holds (of state {node.held[0].name}) is due at"
    else:
        since, limit = int(node.sync.split("/")[1]), BULK_MS
        what = f"{node.id} can ask for all states again at"
    return [
        f"{what} {due} ms: it has waited since {since} ms, and `{limit.word}` is {due - since} ms",
        f"the clock of {node.id} is at {clock} ms: `tick {node.id} {due - clock}` first",
    ]


def _no_memory(question: Question) -> List[str]:
    return ["the program had no memory for it; nothing else prevented it"]


# (each takes the numbers that explain its refusal)
_REFUSALS: Dict[str, Callable[..., List[str]]] = {
    "NoSuchFrame": _no_such_frame,
    "NothingPending": _nothing_pending,
    "NoSuchState": _no_such_state,
    "LinkFull": _link_full,
    "QueueFull": _queue_full,
    "ClockFull": _clock_full,
    "CountFull": _count_full,
    "NotSyncing": _not_syncing,
    "TooEarly": _too_early,
    "NoMemory": _no_memory,
}


def explain_refusal(question: Question) -> List[str]:
    """Why the event is refused, by the name of its refusal."""
    numbers = question.reason.numbers if isinstance(question.reason, Against) else ()
    return _REFUSALS[question.outcome[-1]](question, *numbers)
