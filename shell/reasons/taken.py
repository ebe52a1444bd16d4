"""What the records of a delivered frame did, one after another: the program reports what became of each, and the node before the frame
shows what it met there. If an earlier record of the frame has changed that, the words are fewer."""
from __future__ import annotations

from itertools import takewhile
from typing import List, Sequence

from ..language.commands import KERNEL
from ..language.events import RESTART, RETRY, SERVED
from ..language.names import BULK_END, BULK_START, Name, level_name
from ..language.records import BULK_STATUS, CLEAR, INSERT, INSERT_ACK, QUEUES, UPDATE, UPDATE_REQUEST
from ..language.setups import CLEAR as CLEAR_RULE, MERGE, REVIVE, RULE
from ..link.histories import History
from ..model.flights import Flight
from ..model.frames import Carried, Record
from ..model.pair import Node, other
from ..shows.words import counted
from .came import Came, came_records
from .otherwise import explain_other_rules
from .questions import Question, name_list


# ---- what became of a record


def became(fate: Came) -> str:
    """What became of a record, and why."""
    kind, node = fate.taken.fate[0], fate.node.id
    held = "; its held packet is dropped" if fate.name in [one.name for one in fate.node.held] else ""
    if kind in ("bad", "imported", "merged"):
        return {"bad": _bad, "imported": _imported, "merged": _merged}[kind](fate) + held * (kind == "merged")
    if fate.record.kind is BULK_STATUS:
        return _heard(int(fate.record.about[0]), fate.node)
    if fate.record.kind is CLEAR:
        names, number = sorted(name for name in fate.node.states if fate.taken.takes(fate.kernel, name)), int(fate.taken.fate[1])
        up_to = f", by {KERNEL.word} {CLEAR_RULE.word} also past id" if fate.kernel.has(CLEAR_RULE) else " up to id"
        of = f"of boot {fate.record.about[0]}{up_to} {fate.record.about[1]}"
        # (the same frame may have brought some of them)
        return f"{node} cleared {counted(number, 'state')} {of}" + f": {name_list(names)}" * (len(names) == number > 0)
    ends = fate.taken.fate[-1] == "ends"
    return {
        "asked": f"unknown: {node} has no such state, and {'has asked for it already' if fate.name in fate.node.asks else 'asks for it'}",
        "queued": "asked for: the whole state is queued as an update",
        "bulk": f"{node} has no state to send: the bulk update is over at once" if ends else f"{node} begins a bulk update",
        "acknowledged": "acknowledged: its held packet is released",
        "deleted": f"deleted{held}",
        "nothing": _nothing(fate),
    }[kind]


def _bad(fate: Came) -> str:
    """Why a record cannot be used."""
    why, node = fate.taken.fate[1], fate.node
    if isinstance(fate.record.state, Carried) and why in ("wire", "stack"):
        key = fate.record.state.wire if why == "wire" else fate.record.state.stack
        return f"bad: its {why} key is in use: {node.id} has state {fate.taken.fate[2]} for {key.near} and {key.far}"
    has = f"{node.id} has a state {fate.name} already"
    known = node.states.get(fate.name)
    return "bad: " + {
        "unknown": f"{node.id} has no such state to {'send' if fate.record.kind is UPDATE_REQUEST else 'delete'}",
        "known": f"{has} ({known.protocol} {known.wire.near}, {known.wire.far})" if known else has,
        "notgiven": f"{node.id} is boot {node.boot} itself and has not assigned the id {fate.name.id} yet (its next id is {node.next_id})",
        "deleting": f"{node.id} has deleted the state, and has yet to report that",
        "full": f"the state table of {node.id} is full: {fate.limit}",
    }[why]


def _imported(fate: Came) -> str:
    last = f"last used at {fate.taken.last} ms" + f", which is ahead of {fate.node.id}'s clock" * ((fate.taken.last or 0) > fate.node.clock)
    revived = f"; by {KERNEL.word} {REVIVE.word}, although {fate.node.id} has yet to send its own deletion of it" * fate.is_deleting
    if fate.record.kind is not INSERT:
        return f"new: inserted, since {fate.node.id} did not know the state; {last}{revived}"
    asks = isinstance(fate.record.state, Carried) and fate.record.state.asks_for_acknowledgement
    acknowledged = "; it asks for an acknowledgement, " + ("in place of which the deletion is sent" if fate.is_deleting else "which is queued")
    return f"new: inserted; {last}{revived}" + acknowledged * asks


def _merged(fate: Came) -> str:
    """An update of a known state: each end is taken unless it is stale."""
    stale, taken, last = fate.taken.stale, fate.taken.taken, f"last used at {fate.taken.last} ms"
    why = "; ".join(_staleness(fate, end) for end in stale)
    if not stale:
        return f"merged: neither end is behind the one here; {last}"
    answer = _answer(fate)
    if not taken:
        return f"stale: {why}{answer}"
    if len(taken) == 2:
        together = f"by {KERNEL.word} {MERGE.word} the destination end is taken with the source end"
        return f"merged, counted as stale: {together}, although {why}; {last}{answer}"
    return f"merged in part, counted as stale: the {taken[0]} end is taken; {why}; {last}{answer}"


def _answer(fate: Came) -> str:
    """What the receiver sends of a state of which an end was stale."""
    known, node = fate.node.states.get(fate.name), fate.node.id
    if known is None:
        return ""
    if fate.is_deleting:
        return f"; {node} sends {other(node)} only its own deletion of it, which is pending"
    queued = next((one.kind for one in fate.node.queue if one.name == fate.name), INSERT_ACK.queue)
    if queued == INSERT_ACK.queue:
        return f"; {node} queues its own state for {other(node)}, as a short update"
    return f"; {node} has its own state queued for {other(node)} already ({QUEUES[queued]})"


def _staleness(fate: Came, end: str) -> str:
    """Why an end that came is behind the one here."""
    known, carried = fate.node.states.get(fate.name), fate.record.state
    if known is None or carried is None:
        return f"the {end} end is behind the one here"
    came, here = (one.source if end == "source" else one.destination for one in (carried, known))
    if here.level <= came.level:
        return f"the {end} end's lo {here.lo} here is after the {came.lo} that came"
    level = "level " if known.protocol == "icmp" else ""
    names = [f"{level}{level_name(known.protocol, one.level)}" for one in (came, here)]
    return f"the {end} end came as {names[0]}, and is {names[1]} here"


def _nothing(fate: Came) -> str:
    """Why a request or an acknowledgement changed nothing."""
    known = fate.node.states.get(fate.name)
    if fate.record.kind is not INSERT_ACK:
        is_kept = known is not None and "n" in known.flags
        its_deletion = f"{fate.node.id} sends only its own deletion of it, which is queued"
        queued = its_deletion if known and fate.is_deleting else "it is queued already"
        return "asked for, but its rule says `no-sync`: it is not sent" if is_kept else f"asked for: {queued}"
    if known is None:
        return f"unknown: {fate.node.id} has no such state, and ignores it"
    return "acknowledged: nothing was waiting for it any more"


def _heard(status: int, node: Node) -> str:
    waits = node.sync != "-"
    if status == BULK_START:
        return f"the bulk update begins, and {node.id} " + ("continues to wait for its end" if waits else "was not waiting for one")
    ended = f"{node.id}, which was waiting, no longer waits, whatever arrived" if waits else f"{node.id} was not waiting for it"
    return f"the server says that it is at the end; {ended}"


# ---- the whole frame


def explain_taken(question: Question) -> List[str]:
    """Each record of the frame with what it did, and what else there is to know about them."""
    ticket, history = int(question.words[1]), question.history
    came, node = came_records(history, question.place + 1, ticket), question.table(history.flight(ticket).to)
    return [
        f"frame {ticket} came to node {node.id} with {counted(len(came), 'record')}:",
        *(f"{place}. {it}: {became(it)}" for place, it in enumerate(came, 1)),
        *_begun(came, question.after.nodes[node.id]),
        *_without_start(history, came, node),
        *_without_rule(question, came, question.after.nodes[node.id]),
        *explain_other_rules(question, history.flight(ticket).frame, came),
    ]


def _without_rule(question: Question, came: List[Came], after: Node) -> List[str]:
    """States that came with a rule's number and are kept without it, unless the kernel's rule may be the reason."""
    is_sure = question.lab.knows_setup and not question.lab.setup.kernel.has(RULE)
    new = (it.record.state for it in came if it.taken.fate[0] == "imported" and (is_sure or it.record.kind is not UPDATE))
    with_rule = (it.name for it in new if isinstance(it, Carried) and it.rule is not None)
    names = sorted(it for it in with_rule if it in after.states and after.states[it].rule is None)
    if not names:
        return []
    return [f"without the number of its rule, since the sender's rules are not those of {after.id}: {name_list(names)}"]


# ---- bulk updates, which end for a node when the server sends the end


def _begun(came: List[Came], after: Node) -> List[str]:
    """How many states the turns of a bulk update that begins would queue if nothing else happened."""
    if not any(it.taken.fate == ("bulk", "begins") for it in came):
        return []
    cursor, since = after.serve.split("/")
    queued = [it.name for it in after.queue]
    due = [
        name
        for name, state in sorted(after.states.items())
        if name > Name.read(cursor) and name not in queued and "n" not in state.flags and (state.peer or 0) <= int(since)
    ]
    passed = "; turns skip states that are already queued or `no-sync`" * (len(due) < len(after.states))
    names = f": {name_list(due)}" * bool(due)
    return [f"after this frame the bulk update of {after.id} has {counted(len(due), 'state')} to send{names}{passed}"]


def _without_start(history: History, came: List[Came], node: Node) -> List[str]:
    """A line that a node heard the end of a bulk update, but not its start: what came with the start was lost, or is on its way. A
    node without states sends no start."""
    statuses = _statuses([it.record for it in came])
    if BULK_END not in statuses or BULK_START in statuses[: statuses.index(BULK_END)] or node.sync == "-":
        return []
    asks = (f"{RESTART.word} {node.id}", f"{RETRY.word} {node.id}")
    asking = [number for number, line in enumerate(history.lines, 1) if line in asks]
    requests = (history.explained(number).event for number in reversed(asking))
    asked = next(request for request in requests if request.outcome != [SERVED.word])
    flights = takewhile(lambda it: it.sent.number > asked.number, history.newest_flights())
    starts = [flight for flight in flights if flight.to == node.id and BULK_START in _statuses(flight.frame.records)]
    if not starts or any(start.is_taken for start in starts):
        return []
    since = f"since it asked for all states (event {asked.number}, `{asked.line}`)"
    return [f"{node.id} has not heard the start {since}: {_start_fate(starts[0])}"]


def _statuses(records: Sequence[Record]) -> List[int]:
    """What records say about a bulk update."""
    return [int(record.about[0]) for record in records if record.kind is BULK_STATUS]


def _start_fate(start: Flight) -> str:
    """What became of the frame with the start."""
    if start.ended is None:
        return f"frame {start.ticket}, which has it, is still in flight"
    how = "was lost" if start.is_lost else "could not be read"
    return f"frame {start.ticket}, which had it, {how} (event {start.ended.number})"
