"""What a reply to `why` must say: what follows from the pairs before and after the event, worked out without the program."""
from __future__ import annotations

from dataclasses import replace
from typing import List, Sequence, Tuple

from shell.model.explanations import Expiry, Explanation, Judged, Purge, TakenRecord, read_explanation
from shell.model.frames import Frame, Record
from shell.language.events import DELIVER, FLUSH, PACKET, PURGE, RESTART, read_packet
from shell.language.names import NODES, Name
from shell.language.packets import PacketEvent
from shell.language.records import SHORT_DELETE
from shell.language.setups import DEFER, MERGE, NO_SYNC, STATES
from shell.model.pair import Node, Pair, Queued, read_shown
from shell.model.receiving import Came, received
from shell.model.rulings import deciding
from shell.model.setups import Keys, Setup
from shell.model.states import State
from shell.model.tracking import judged, moved, started
from shell.shows.words import expires_at

from .frames import contents
from .subject import Differs

_OUTCOMES = {"": "pass -", "block": "drop block", "max": "drop max", "full": "drop full", "wire": "drop key", "stack": "drop key"}
# What is wanted, and what came.
Both = Tuple[object, object]


def compare_reason(setup: Setup, reply: Sequence[str], before: Sequence[str], after: Sequence[str]) -> None:
    """An explanation must be what the pairs before and after the event show."""
    was, now = (read_shown(["branch main events 0 cursor 0", *it]) for it in (before, after))
    explanation = read_explanation(reply)
    kind, about, *_ = explanation.event.words
    wanted: object = None
    came: object = explanation.reason
    if kind == PACKET.word:
        wanted, came = _packet(setup, explanation, was.nodes[about], now.nodes[about])
    elif kind == DELIVER.word:
        frame = was.frames[int(about)]
        wanted, came = _delivery(setup, explanation, frame, was.nodes[frame.to], now.nodes[frame.to])
    elif kind == PURGE.word:
        wanted, came = _purge(setup, explanation, was.nodes[about], now.nodes[about])
    if kind not in (FLUSH.word, RESTART.word):
        wanted, came = (wanted, _deletions(was, was)), (came, _deletions(was, now))
    if wanted != came:
        raise Differs("\n".join([*reply, f"wanted: {wanted}", f"came: {came}", "before:", *before, "after:", *after]))


def _deletions(was: Pair, pair: Pair) -> List[List[Queued]]:
    """What is pending of the names whose deletion was pending: that alone, until a frame takes it, even where such a state came back."""
    deleted = {node: {it.name for it in was.nodes[node].queue if it.kind == SHORT_DELETE.queue} for node in NODES}
    return [[it for it in pair.nodes[node].queue if it.name in deleted[node]] for node in NODES]


# ---- a packet


def _packet(setup: Setup, explanation: Explanation, was: Node, now: Node) -> Both:
    packet = read_packet(explanation.event.line)
    state = was.found(packet)
    # (a closed connection is deleted when a new one begins)
    if state is None or state.name not in now.states:
        wanted = _judged(setup, was, packet)
        made = (*started(setup.kernel, packet), was.clock, wanted.rule) if wanted.how == "new" else None
        there = now.states.get(wanted.name) if wanted.how == "new" else None
        return (wanted, _outcome(setup, packet, wanted), made), (explanation.reason, explanation.event.came, there and _tracked(there))
    after = moved(setup.kernel, state, packet, was.clock)
    outcome, there = f"pass {state.name}" if after else "drop window", now.states[state.name]
    wanted_so = judged(setup.kernel, state, packet), outcome, _tracked(after or state)
    return wanted_so, (explanation.reason, explanation.event.came, _tracked(there))


def _tracked(state: State) -> Tuple[object, ...]:
    """What packets and updates change of a state; its rule, which they leave, decides its timeouts."""
    return state.source, state.destination, state.timeout_class, state.last, state.rule


def _outcome(setup: Setup, packet: PacketEvent, judged: Judged) -> str:
    """What follows for the packet. That of a new state is held on its way out, if deferring is on and the peer gets the state."""
    if judged.how != "new" or judged.rule is None:
        return _OUTCOMES[judged.how]
    is_shared = not setup.rules[packet.node][judged.rule].has(NO_SYNC)
    is_held = setup.limits[DEFER] and packet.direction == "out" and is_shared
    return f"{'held' if is_held else 'pass'} {judged.name}"


def _judged(setup: Setup, node: Node, packet: PacketEvent) -> Judged:
    """What the rules make of a packet that no state takes, or in place of a closed state."""
    closed, rules = node.found(packet), setup.rules[packet.node]
    standing = [state for state in node.states.values() if state is not closed]
    number, name = deciding(rules, packet), closed.name if closed else None
    if number is None:
        return Judged(name, None, "", ())
    if rules[number].action == "block":
        return Judged(name, number, "block", ())
    most, many = rules[number].most_states, sum(it.rule == number for it in standing)
    if most is not None and many >= most:
        return Judged(name, number, "max", (str(most), str(many)))
    if len(standing) >= setup.limits[STATES]:
        return Judged(name, number, "full", (str(setup.limits[STATES]), str(len(standing))))
    found: List[Tuple[str, Name]] = []
    for keys in rules[number].keys(packet):
        found = _with_keys(standing, packet.protocol, keys)
        if not found:
            break
    how, value = [*found, ("new", Name(node.boot, node.next_id))][0]
    return Judged(name, number, how, (str(value),))


def _with_keys(states: Sequence[State], protocol: str, keys: Keys) -> List[Tuple[str, Name]]:
    """Which key of a new state the states have, those with its wire key first."""
    found = [("wire", state.name) for state in states if (state.protocol, state.wire) == (protocol, keys.wire)]
    return found + [("stack", state.name) for state in states if (state.protocol, state.stack) == (protocol, keys.stack)]


# ---- a frame that comes


def _delivery(setup: Setup, explanation: Explanation, frame: Frame, was: Node, now: Node) -> Both:
    """Its records; as many of them must be bad and stale as are counted. What is made and merged must be so by the rules, and what is
    tracked of the states be what the records make of it."""
    first, *_ = lines = contents(frame.data)
    if not first.startswith("record "):
        return (None, first), (explanation.reason, explanation.event.came)
    records = [Record.read(line.split()[1:]) for line in lines]
    if [(one.kind, one.about) for one in records] != [(one.kind, one.about) for one in explanation.records]:
        return records, explanation.records
    counted = [now.counters[name] - was.counters[name] for name in ("bad", "stale")]
    faulty = [sum(record.is_bad for record in explanation.records), sum(bool(record.stale) for record in explanation.records)]
    states = dict(was.states)
    fates: List[Both] = []
    came_records = received(setup, setup.kernel, was, replace(frame, records=tuple(records)), explanation.records)
    for fate, came in zip(explanation.records, came_records):
        gone = [name for name in states if fate.takes(setup.kernel, name)]
        for name in gone:
            del states[name]
        if fate.fate[0] == "cleared":
            fates.append((len(gone), int(fate.fate[1])))
        if came:
            states[came.state.name] = came.state
            fates.append((_fate(setup, came), _said(fate)))
    wanted = counted, f"taken {len(records)}", [one for one, _ in fates], {name: _tracked(one) for name, one in states.items()}
    there = {name: _tracked(one) for name, one in now.states.items()}
    return wanted, (faulty, explanation.event.came, [one for _, one in fates], there)


def _fate(setup: Setup, came: Came) -> Tuple[object, ...]:
    """What must be said of a record: when its state was last used and, where it is merged, which ends are stale and which are taken."""
    return (came.state.last, *((came.merged.stale, came.merged.taken, setup.kernel.has(MERGE)) if came.merged else ()))


def _said(fate: TakenRecord) -> Tuple[object, ...]:
    """The same as it is said."""
    return (fate.last, *((fate.stale, fate.taken, fate.goes_together) if fate.fate[0] == "merged" else ()))


# ---- a purge


def _purge(setup: Setup, explanation: Explanation, was: Node, now: Node) -> Both:
    """When each state expires; the states that are due are deleted."""
    expiries, many = [], len(was.states)
    for name, state in sorted(was.states.items()):
        seconds = setup.seconds(was.id, state.rule, state.timeout_class)
        scaled = setup.adaptive.scaled(seconds, many)
        expiries.append(Expiry(name, state.timeout_class, seconds, scaled, expires_at(setup, was, state)))
    wanted = Purge(was.clock, many, setup.adaptive, expiries)
    due = [one.name for one in wanted.due]
    return (wanted, due, f"purged {len(due)}"), (explanation.reason, sorted(was.states.keys() - now.states.keys()), explanation.event.came)
