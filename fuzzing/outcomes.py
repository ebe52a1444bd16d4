"""What comes of an event: its outcomes and refusals, what follows for them from the pair before it, and what is shown after it."""
from __future__ import annotations

import re
from dataclasses import dataclass
from typing import Callable, Dict, List, Optional, Sequence, Tuple

from oracle.subject import Differs
from shell.language import events
from shell.language.events import BROKEN, DROPPED, EVENTS, HELD_BACK, LAST_MILLISECOND, MOST_TRIES, OF_FRAME, PASS, SERVED, Event
from shell.language.faults import COMMAND_REFUSALS, numbered
from shell.language.names import Name
from shell.language.setups import BULK_MS, DEFER_MS, FRAMES
from shell.model.pair import Node, Pair, read_shown
from shell.model.setups import Setup

_N = "[0-9]+"


def outcome_in(event: str, reply: str) -> str:
    """The outcome in a reply, or the name of the refusal, which must be in the event's row."""
    row = EVENTS[event.split()[0]]
    accepted = re.fullmatch(f"step (.+) dropped {_N}", reply)
    if accepted and any(re.fullmatch(outcome.pattern, accepted[1]) for outcome in row.outcomes):
        return accepted[1]
    refusals = {f"refused {numbered('Event', COMMAND_REFUSALS)} {refused}": name for refused, name in zip(row.refused, row.refusals)}
    if reply not in refusals:
        raise Differs(f"{event}: {reply}, which is none of its replies")
    return refusals[reply]


def kind_of(outcome: str) -> str:
    """An outcome without its numbers, except the fault of a frame."""
    first, _, rest = outcome.partition(" ")
    return outcome if first in (DROPPED.word, BROKEN.word) or rest == "-" else first


@dataclass(frozen=True)
class Case:
    """An event with what came of it, and the pair before and after it."""

    setup: Setup
    words: List[str]
    outcome: List[str]
    before: Pair
    after: Pair

    @property
    def event(self) -> Event:
        return EVENTS[self.words[0]]

    @property
    def node(self) -> Node:
        """The node before the event."""
        return self.before.nodes[self.words[1]]

    @property
    def now(self) -> Node:
        """The node after the event."""
        return self.after.nodes[self.words[1]]

    @property
    def ticket(self) -> int:
        return int(self.words[1])

    @property
    def length(self) -> int:
        """How many bytes the frame has before the event."""
        return len(self.before.frames[self.ticket].data)

    @property
    def number(self) -> int:
        """The number in the outcome."""
        return int(self.outcome[1])

    def answered(self, *values: object) -> str:
        """The event's answer with these values, if nothing keeps it from happening."""
        return " ".join([self.event.outcomes[0].word, *map(str, values)])

    def sent(self, length: object) -> str:
        """The answer of an event that sends a frame, or that there is no room for one."""
        is_full = len(self.before.frames) == self.setup.limits[FRAMES]
        return "LinkFull" if is_full else self.answered(self.before.next_ticket, length)


def compare_event(setup: Setup, before: Sequence[str], after: Sequence[str], event: str, outcome: str) -> None:
    """An outcome must be the one that follows from the pair before the event, if one follows, and what it says must be shown after
    the event. An event that was refused leaves the pair as it was."""
    was, now = (read_shown(["branch main events 0 cursor 0", *it]) for it in (before, after))
    case = Case(setup, event.split(), outcome.split(), was, now)
    foretold, is_shown = _CHECKS[case.event]
    wanted = "NoSuchFrame" if case.words[0] in OF_FRAME and case.ticket not in case.before.frames else foretold(case)
    # (it takes more to foresee that a queue or a counter would overflow)
    if wanted is not None and not re.fullmatch(wanted, outcome) and outcome not in ("QueueFull", "CountFull"):
        raise Differs(f"{event}: {outcome}, not {wanted}")
    if after is not before and not is_shown(case):
        raise Differs("\n".join([f"{event}: {outcome}, which is not shown", "before:", *before, "after:", *after]))


def _tick(case: Case) -> str:
    clock = case.node.clock + int(case.words[2])
    return case.answered(clock) if clock <= LAST_MILLISECOND else "ClockFull"


def _kill(case: Case) -> str:
    return case.answered() if Name.read(case.words[2]) in case.node.states else "NoSuchState"


def _release(case: Case) -> str:
    due = sum(held.since + case.setup.limits[DEFER_MS] <= case.node.clock for held in case.node.held)
    return case.answered(due) if due else "TooEarly" if case.node.held else "NothingPending"


def _retry(case: Case) -> str:
    if case.node.sync == "-":
        return "NotSyncing"
    tries, asked = map(int, case.node.sync.split("/"))
    if case.node.clock < asked + case.setup.limits[BULK_MS]:
        return "TooEarly"
    return case.answered(tries + 1) if tries < MOST_TRIES else SERVED.word


def _packet_is_counted(case: Case) -> bool:
    more = tuple(case.now.counters[name] - case.node.counters[name] for name in ("passed", "blocked"))
    is_known = case.outcome[0] == DROPPED.word or case.outcome[1] == "-" or Name.read(case.outcome[1]) in case.now.states
    return is_known and more == {PASS.word: (1, 0), DROPPED.word: (0, 1), HELD_BACK.word: (0, 0)}[case.outcome[0]]


def _is_in_flight(case: Case) -> bool:
    frame = case.after.frames.get(case.number)
    return frame is not None and len(frame.data) == int(case.outcome[2]) and case.after.next_ticket == case.before.next_ticket + 1


def _is_gone(case: Case) -> bool:
    return case.ticket not in case.after.frames and len(case.after.frames) == len(case.before.frames) - 1


# For each event the outcome that follows from the pair before it, if any, and whether what the outcome says is shown after it.
_CHECKS: Dict[Event, Tuple[Callable[[Case], Optional[str]], Callable[[Case], bool]]] = {
    events.PACKET: (lambda it: None, _packet_is_counted),
    events.TICK: (_tick, lambda it: it.now.clock == it.number),
    # (what a purge leaves is compared with what explains it)
    events.PURGE: (lambda it: None, lambda it: True),
    events.RELEASE: (_release, lambda it: len(it.now.held) == len(it.node.held) - it.number),
    events.KILL: (_kill, lambda it: Name.read(it.words[2]) not in it.now.states),
    events.CLEAR: (lambda it: it.answered(len(it.node.states)), lambda it: not it.now.states),
    events.TURN: (lambda it: "NotSyncing" if it.node.serve == "-" else it.answered(_N), lambda it: True),
    events.RETRY: (_retry, lambda it: (it.now.sync == "-") == (it.outcome[0] == SERVED.word)),
    events.FLUSH: (lambda it: it.sent(_N) if it.node.pending else "NothingPending", _is_in_flight),
    events.RESTART: (lambda it: it.answered(it.before.next_boot), lambda it: it.now.boot == it.number),
    events.DELIVER: (lambda it: "|".join(outcome.pattern for outcome in it.event.outcomes), _is_gone),
    events.LOSE: (lambda it: it.answered(), _is_gone),
    events.REPEAT: (lambda it: it.sent(it.length), _is_in_flight),
    events.CUT: (
        lambda it: it.answered(min(it.length, int(it.words[2]))),
        lambda it: len(it.after.frames[it.ticket].data) == it.number,
    ),
}
