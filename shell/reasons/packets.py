"""Why a packet passed, is held or was dropped: by a state, or by a rule and what prevented a new state."""
from __future__ import annotations

from itertools import islice
from typing import List, Optional

from ..language.events import DROPPED, HELD_BACK, PASS
from ..language.names import CLOSING
from ..language.packets import PacketEvent
from ..language.setups import DEFER_MS, FLAGS_ANY, HELD, QUICK, RDR
from ..model.explanations import Judged, OfState
from ..model.rulings import deciding
from ..model.setups import Rule
from ..model.states import State, is_closed
from ..shows.words import counted, levels
from .absence import explain_absence
from .elsewhere import explain_drop_elsewhere, explain_elsewhere
from .expiry import explain_overdue
from .questions import Question, name_list, state_words
from .scales import explain_new_scale
from .tcp_windows import explain_way, explain_window


def explain_packet(question: Question) -> List[str]:
    """The state with the packet's key, or what the rules made of the packet, and why there is no such state."""
    reason = question.reason
    if isinstance(reason, OfState):
        is_dropped = question.outcome[0] == DROPPED.word
        return explain_window(question, reason) if is_dropped else _passed(question, reason)
    assert isinstance(reason, Judged)
    lines = [*_judged(question, reason), *explain_absence(question)]
    if question.outcome[0] == HELD_BACK.word:
        return lines + _held(question)
    return lines + (explain_drop_elsewhere(question) if question.outcome[0] == PASS.word else [])


def _passed(question: Question, reason: OfState) -> List[str]:
    node = question.table(question.packet.node)
    key, state = "wire" if question.packet.direction == "in" else "stack", node.states[reason.name]
    by_key = f"{state_words(state)} of {node.id} matches it by its {key} key"
    return [
        f"{by_key}; a packet of a state is not tested against rules",
        *(explain_way(question, reason, state) if question.packet.is_tcp else []),
        *["it also released the held packet of the state"] * (reason.name in [it.name for it in node.held]),
        *(_closing(state, question.after.nodes[node.id].states[reason.name]) if question.packet.is_tcp else []),
        *explain_overdue(question, node, state),
        *explain_elsewhere(question, state),
    ]


def _closing(before: State, after: State) -> List[str]:
    """How far a packet closes a connection of TCP, by the levels of its ends before and after."""
    if is_closed(before) or levels(before) == levels(after) or _furthest(after) < CLOSING:
        return []
    how = "continues to close" if _furthest(before) >= CLOSING else "begins to close"
    return [f"it {'closes' if is_closed(after) else how} the state: {levels(before)} -> {levels(after)}"]


def _furthest(state: State) -> int:
    return max(state.source.level, state.destination.level)


def _held(question: Question) -> List[str]:
    """How long a packet waits, and which one it displaced."""
    node, after = question.table(question.packet.node), question.after.nodes[question.packet.node]
    known, wait = question.lab.knows_setup, question.lab.setup.limits[DEFER_MS]
    due = f"{node.clock + wait} ms" if known else f"`{DEFER_MS.word}` after {node.clock} ms"
    lines = [
        "`defer` is on: the packet of a new state waits on its way out until the peer acknowledges the insertion",
        f"or it goes out with the next packet of the state, or once it is due: `release {node.id}` from {due} on {node.id}'s clock",
    ]
    out = [it.name for it in node.held if it not in after.held]
    held = f"{node.id} held {len(node.held)}, and {question.lab.limit(HELD)}"
    return lines + ([f"the packet of {name_list(out)} went out at once: {held}"] if out else [])


def _judged(question: Question, reason: Judged) -> List[str]:
    """What the rules made of it, after any closed connection that a packet of a new one ends was deleted."""
    states, node = question.table(question.packet.node).states, question.packet.node
    rule = question.rule_words(node, reason.rule)
    if reason.how == "":
        lines = [f"no rule of {node} matches it{_of(question)}: a packet that no rule matches passes, without a state", *_but_for_flags(question)]
    elif reason.how == "block":
        lines = [f"{rule} decided{_place(question.rule(node, reason.rule))}", *_but_for_flags(question)]
    elif reason.how == "new":
        lines = [f"no state matched; {rule} passed it, and made state {reason.name}"]
        lines += explain_new_scale(question.lab.setup.kernel, question.packet)
    elif reason.how == "max":
        names = name_list([state.name for state in states.values() if state.rule == reason.rule and state.name != reason.closed])
        lines = [f"{rule} decided: it may have {counted(int(reason.values[0]), 'state')}, and has {reason.values[1]} now: {names}"]
    else:
        lines = [_room(question, reason), f"{rule} decided, and would make a state"]
    if reason.closed is not None:
        old = state_words(states[reason.closed])
        lines.append(f"{old} was closed at both ends, and this packet begins a new connection, so the state was deleted first")
    return lines


def _of(question: Question) -> str:
    """How many rules there are, none of which matches."""
    rules = question.lab.setup.rules[question.packet.node]
    return f" ({question.packet.node} has {counted(len(rules), 'rule')})" if question.lab.knows_setup else ""


def _place(rule: Optional[Rule]) -> str:
    """Why a rule decides."""
    if rule is None:
        return ""
    return ": it is the first `quick` rule that matches" if rule.has(QUICK) else ": it is the last rule that matches"


def _room(question: Question, reason: Judged) -> str:
    """A line that the table is full, or which state has a key of the new one."""
    node = question.table(question.packet.node)
    if reason.how == "full":
        entries = counted(int(reason.values[1]), "entry", "entries")
        return f"the state table of {node.id} has {entries}, and the limit `states` is {reason.values[0]}"
    state, rule = node.states[reason.name], question.rule(node.id, reason.rule)
    key = state.wire if reason.how == "wire" else state.stack
    has = f"{state_words(state)} of {node.id} has its {reason.how} key already: {key.near} and {key.far}"
    # (the other key is that of the packet, whatever the port)
    is_translated = reason.how == ("stack" if rule and rule.has(RDR) else "wire")
    if rule is None or not is_translated or not _may_choose(rule, question.packet):
        return has
    return f"all ports of the pool {rule.pool} are taken: with the last, {has}"


def _may_choose(rule: Rule, packet: PacketEvent) -> bool:
    """Whether the ports of a rule's pool give the packet several keys; a protocol without ports gets one key."""
    first, *others = islice(rule.keys(packet), 2)
    return others != [] and others[0] != first


def _but_for_flags(question: Question) -> List[str]:
    """The last pass rule that would take the packet if it said `flags any`; nothing if there is none, or rules are not known."""
    packet, lab = question.packet, question.lab
    rules = lab.setup.rules[packet.node] if lab.knows_setup else []
    open_to = [number for number, it in enumerate(rules) if it.action == "pass" and not it.has(FLAGS_ANY)]
    taking = [it for it in open_to if deciding(rules, packet, any_flags=it) == it] if packet.is_tcp and not packet.is_request else []
    if not taking:
        return []
    return [
        f"{question.rule_words(packet.node, taking[-1])} would pass it, but for its flags {packet.flags}",
        "a pass rule without `flags any` takes only a TCP packet that begins a connection: SYN without ACK",
    ]
