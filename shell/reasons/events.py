"""What events without a packet found to do: sending, clocks, purges, releases and bulk updates."""
from __future__ import annotations

from typing import Callable, Container, Dict, List

from ..language import events
from ..language.commands import KERNEL
from ..language.events import MOST_TRIES, SERVED, Event
from ..language.names import LOST, Name
from ..language.records import SHORT_DELETE
from ..language.setups import BATCH, BULK_MS, CLEAR as CLEAR_RULE, DEFER_MS, MTU
from ..model.explanations import Expiry, Purge
from ..model.frames import HEADER
from ..model.pair import Node, other
from ..model.states import State
from ..shows.words import counted, pending_words, scaled_by
from .expiry import use_words
from .questions import Question, name_list, state_words


def _node(question: Question) -> Node:
    return question.table(question.words[1])


def _purged(question: Question) -> List[str]:
    """What a purge found expired, the first to expire first, and when the next of the rest expires. Its timeouts follow from the
    number of states at its start; the next purge may have longer ones."""
    purge, node = question.reason, _node(question)
    assert isinstance(purge, Purge)
    due = sorted(purge.due, key=lambda it: (it.expires, it.name))
    left = [expiry for expiry in purge.expiries if expiry.expires > purge.clock]
    lines = [f"the clock of {node.id} is at {purge.clock} ms", *filter(None, [scaled_by(purge.adaptive, node.id, purge.states)])]
    lines += [_expired(question, it, node.states[it.name]) for it in due] + _held_lost(node, [it.name for it in due])
    if not left:
        return [*lines, "no states remain"]
    expires = min(it.last + 1000 * purge.adaptive.scaled(it.timeout, len(left)) for it in left)
    lines.append(f"1 state remains; it expires at {expires} ms" if len(left) == 1 else f"{len(left)} states remain; the next expires at {expires} ms")
    if not due or not purge.adaptive.shortens(purge.states):
        return lines
    whole = f"timeouts of {node.id} are no longer scaled: it has {counted(len(left), 'state')}"
    return [*lines, scaled_by(purge.adaptive, node.id, len(left)) or whole]


def _expired(question: Question, expiry: Expiry, state: State) -> str:
    return f"{state_words(state)} expired at {expiry.expires} ms: {use_words(question, question.words[1], state, expiry)}"


def _held_lost(node: Node, names: Container[Name]) -> List[str]:
    """That the held packets of states which a node deletes are dropped and counted; nothing if it holds none."""
    lost = [it.name for it in node.held if it.name in names]
    if not lost:
        return []
    packets = f"the held packet{'s' * (len(lost) > 1)} of {name_list(lost)}"
    return [f"{packets} {'are' if len(lost) > 1 else 'is'} dropped, and counted ({LOST.counts})"]


def _released(question: Question) -> List[str]:
    node = _node(question)
    left = [it.name for it in question.after.nodes[node.id].held]
    gone = [it for it in node.held if it.name not in left]
    lines = [f"the clock of {node.id} is at {node.clock} ms, and a packet is due some time after it was held: {question.lab.limit(DEFER_MS)}"]
    lines += [f"the packet of state {it.name}, held since {it.since} ms, went out" for it in gone]
    return lines + ([f"still held: {name_list(left)}"] if left else [])


def _sent(question: Question) -> List[str]:
    frame = question.history.flight(int(question.outcome[1])).frame
    lines = [f"frame {frame.ticket} goes to {frame.to}, and carries {frame.summary}"]
    if question.kind is events.FLUSH:
        left = pending_words(question.after.nodes[question.words[1]])
        rest = f"still pending, for the next frame: {left}; {question.lab.limit(MTU)}"
        return [*lines, rest] if left else lines
    return [*lines, f"it is a copy of frame {question.words[1]}"]


def _lost(question: Question) -> List[str]:
    frame = question.history.flight(int(question.words[1])).now
    return [f"frame {frame.ticket} was on its way to {frame.to}, and carried {frame.summary}; neither node learns of its loss"]


def _queued(question: Question) -> List[str]:
    node = _node(question)
    after = question.after.nodes[node.id]
    ended = f"these were the last: {node.id} lists the end of the bulk update"
    return [
        f"a turn skips states that are already queued, `no-sync`, or newer from the peer; {question.lab.limit(BATCH)}",
        ended if after.serve == "-" else f"{node.id} continues to serve",
    ]


def _clock(question: Question) -> List[str]:
    node = _node(question)
    return [
        f"the clock of {node.id} advanced from {node.clock} ms",
        "nothing else happens by itself: `purge`, `release` and `retry` read the clock",
    ]


def _killed(question: Question) -> List[str]:
    node, name = _node(question), Name.read(question.words[2])
    is_queued = any(it.name == name and it.kind == SHORT_DELETE.queue for it in question.after.nodes[node.id].queue)
    peer = other(node.id)
    return [
        f"{state_words(node.states[name])} of {node.id} is deleted",
        *_held_lost(node, [name]),
        f"a short delete is queued for {peer}" if is_queued else f"nothing about it was ever sent to {peer}, and nothing is sent now",
    ]


def _cleared(question: Question) -> List[str]:
    node = _node(question)
    clears = question.after.nodes[node.id].clears
    own, former = clears[-1], len(node.clears)
    beside = f"; it comes after {counted(former, 'clear')} that {node.id} has not sent yet, and each is a record of its own"
    gone = f"{node.id} cleared {counted(len(node.states), 'state')}, including those of other boots"
    up_to = f"those of boot {own.creator} up to id {own.bound}"
    all_of = f"all of boot {own.creator}, by {KERNEL.word} {CLEAR_RULE.word} also past id {own.bound}"
    which = all_of if question.lab.setup.kernel.has(CLEAR_RULE) else up_to
    return [
        gone if node.states else f"{node.id} has no state to clear",
        *_held_lost(node, node.states),
        f"a clear is listed: {other(node.id)} is to clear {which}" + beside * bool(former),
    ]


def _cut(question: Question) -> List[str]:
    ticket = int(question.words[1])
    was, now = len(question.history.flight(ticket).now.data), int(question.outcome[1])
    if was == now:
        return [f"frame {ticket} had {was} bytes, and keeps them all"]
    if now < HEADER:
        return [f"frame {ticket} had {was} bytes; {now} are less than a header, so its receiver cannot read it (Short)"]
    return [f"frame {ticket} had {was} bytes; its header still has the original length, so its receiver cannot read it"]


def _boot(question: Question) -> List[str]:
    node = _node(question)
    return [
        f"{node.id} was boot {node.boot}, and forgot {counted(len(node.states), 'state')} and what was queued, held and counted",
        f"it keeps its clock and its rules, and asks {other(node.id)} for all states",
    ]


def _retried(question: Question) -> List[str]:
    node = _node(question)
    tries, asked = node.sync.split("/")
    waited = f"{node.id} has waited since {asked} ms, and {question.lab.limit(BULK_MS)}"
    if question.outcome == [SERVED.word]:
        return [waited, f"it had asked {tries} times, and {MOST_TRIES} tries are the most: it continues as if it had been served"]
    return [waited, f"this is try {int(tries) + 1} of {MOST_TRIES} at most"]


_OTHERS: Dict[Event, Callable[[Question], List[str]]] = {
    events.FLUSH: _sent,
    events.LOSE: _lost,
    events.REPEAT: _sent,
    events.CUT: _cut,
    events.TICK: _clock,
    events.PURGE: _purged,
    events.RELEASE: _released,
    events.KILL: _killed,
    events.CLEAR: _cleared,
    events.RESTART: _boot,
    events.TURN: _queued,
    events.RETRY: _retried,
}


def explain_other(question: Question) -> List[str]:
    """What an event without a packet found to do."""
    return _OTHERS[question.kind](question)
