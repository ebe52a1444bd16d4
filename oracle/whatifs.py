"""The faults of which `whatif` says that all is as it was, each replayed here: every packet must be judged as in the run, each held packet
end as there, and at the end the whole pair be the same but for names, times and counters."""
from __future__ import annotations

import random
import re
from dataclasses import dataclass, field
from typing import Dict, Iterator, List, NamedTuple, Optional, Sequence, Tuple

from shell.console.colours import PLAIN
from shell.link.laboratory import Laboratory, outcome_of
from shell.language.lines import has_word
from shell.language.names import NODES
from shell.model.setups import Setup
from shell.whatif.answers import answer
from shell.whatif.asked import read

from .branches import WantedBranch, fork_for
from .subject import Differs, Subject
from .tallies import Seen

# How many events of a branch are judged at most, and how many steps a pair may take until it rests.
MOST_EVENTS, MOST_STEPS = 20, 1000
HEAD = re.compile(r"(\d+)  \d+ faults?: every packet and state as it was(, but refused: .*)?")
COPY = "copy"

# An event: its number in the run, or 0 if the fault adds it; and its words, with the tickets and names of the run.
Step = Tuple[int, List[str]]


@dataclass
class Run:
    """A run from the opening on: what came of its events, how held packets ended, and what is there once it rests, if it does."""

    outcomes: Dict[int, List[str]] = field(default_factory=dict)
    held: Dict[int, str] = field(default_factory=dict)
    pair: Optional[List[str]] = None


class Look(NamedTuple):
    """What is shown of held packets: the node and state of each, and at each node how many went on, and how many were dropped."""

    held: Dict[Tuple[str, str], str]
    counts: Dict[str, Tuple[int, int]]


# ---- what `whatif` claims


def same_faults(lab: Laboratory) -> List[str]:
    """The faults of main of which `whatif` says that all is as it was."""

    def lines(*words: str) -> List[str]:
        return answer(lab, lab.branch("main"), read(words)[1], PLAIN, lambda done, total: None, lambda: "").lines

    heads = [found[1] for found in map(HEAD.fullmatch, lines()) if found]
    return named(lines("--only", ",".join(heads))) if heads else []


def named(lines: Sequence[str]) -> List[str]:
    """The names of the faults of such groups, each fault by itself."""
    names = [it for head, line in zip(lines, lines[1:]) if HEAD.fullmatch(head) for it in line.strip().split("; ")]
    return [one for name in names for one in single(name) if not name.startswith("and ")]


def single(name: str) -> List[str]:
    found = re.fullmatch(r"(.*) before events (\d+) to (\d+)", name)
    return [f"{found[1]} before event {at}" for at in range(int(found[2]), int(found[3]) + 1)] if found else [name]


# ---- the events of a fault


def faulty(events: Sequence[str], name: str) -> List[Step]:
    """The events of the run with a fault."""
    own: List[List[Step]] = [[], *([(at, line.split())] for at, line in enumerate(events, 1))]
    last = own[-1]
    found = re.fullmatch(r"(?:(a|b) restarts|the clock of (a|b) advances by 61 s) before event (\d+)", name)
    if found:
        own[int(found[3])].insert(0, (0, ["restart", found[1]] if found[1] else ["tick", found[2], "61000"]))
        return [step for steps in own for step in steps]
    found = re.fullmatch(r"without event (\d+) \(.*\)", name)
    if found:
        own[int(found[1])].clear()
        return [step for steps in own for step in steps]
    found = re.fullmatch(r"frame (\d+) (.*) \((?:event|(sent by) event) (\d+)\)", name)
    if not found:
        raise Differs(f"whatif names a fault that is not known: {name}")
    ticket, what, is_sent, at = found[1], found[2], bool(found[3]), int(found[4])
    _of_frame(own, ticket, what, 0 if is_sent else at, last)
    return [step for steps in own for step in steps]


def _of_frame(own: List[List[Step]], ticket: str, what: str, at: int, last: List[Step]) -> None:
    """Changes what happens to a frame at an event, or at the end."""
    deliver, late = (at, ["deliver", ticket]), re.fullmatch(r"late by (\d+) events?", what)
    if what == "lost":
        own[at].clear()
        (own[at] if at else last).append((at, ["lose", ticket]))
    elif what == "twice":
        (own[at] if at else last).insert(0 if at else len(last), (0, ["repeat", ticket]))
        own[at] += [(0, ["deliver", COPY])] * bool(at)
    elif what in ("not cut", "not repeated"):
        own[at].clear()
    elif late or what in ("last", "not lost, but last", "not lost"):
        own[at].clear()
        (own[at + int(late[1])] if late else own[at] if what == "not lost" else last).append(deliver)
    else:
        raise Differs(f"whatif names a fault that is not known: frame {ticket} {what}")


# ---- a replay


class Replay:
    """Plays events on a branch, one by one."""

    def __init__(self, lab: Subject, branch: str, was: Optional[Run]):
        self.lab, self.branch, self.was, self.run = lab, branch, was, Run()
        self.place = 0
        # What tickets of the run are called here; and names of states, by node.
        self.tickets: Dict[str, str] = {}
        self.names: Dict[Tuple[str, str], str] = {}
        # The events whose packets are held, by their nodes and states.
        self.waiting: Dict[Tuple[str, str], int] = {}
        self.look = look(self.show())

    def show(self) -> List[str]:
        return self.lab.answer(f"show {self.branch}")

    def play(self, steps: Sequence[Step]) -> Run:
        for number, words in steps:
            line = self.line(words)
            if line:
                self.step(number, line.split())
        self.rest()
        self.run.held.update({number: "held" for number in self.waiting.values()})
        return self.run

    def line(self, words: List[str]) -> str:
        """The event with the tickets and names that there are here; nothing if there is no such frame or state."""
        if words[0] in ("deliver", "lose", "repeat", "cut"):
            ticket = self.tickets.get(words[1], "")
            return " ".join([words[0], ticket, *words[2:]]) if ticket else ""
        if words[0] == "kill":
            elsewhere = [it for (_, name), it in self.names.items() if name == words[2]]
            name = self.names.get((words[1], words[2]), "".join(elsewhere[-1:]))
            return f"kill {words[1]} {name}" if name else ""
        return " ".join(words)

    def step(self, number: int, words: List[str]) -> List[str]:
        """An event comes, with the tickets and names that there are here; what it sends and meets is called otherwise in the run."""
        outcome = outcome_of(self.lab.ask(f"step {self.branch} {' '.join(words)}")).split()
        self.place += outcome[0] != "refused"
        if number:
            self.run.outcomes[number] = outcome
        was = (self.was or self.run).outcomes.get(number, [])
        if outcome[0] == "sent":
            self.tickets[was[1] if was and was[0] == "sent" else COPY if words[0] == "repeat" else f"new {outcome[1]}"] = outcome[1]
        if words[0] == "packet" and has_state(was) and has_state(outcome):
            self.names.pop((words[1], was[1]), None)
            self.names[words[1], was[1]] = outcome[1]
        self.follow(words[0])
        if outcome[0] == "held" and number:
            self.waiting[words[1], outcome[1]] = number
        return outcome

    def follow(self, kind: str) -> None:
        """Sees how packets ended that were held."""
        now = look(self.show())
        freed, lost = (sum(now.counts[node][which] - self.look.counts[node][which] for node in NODES) for which in (0, 1))
        for packet in [it for it in self.waiting if it not in now.held]:
            is_lost = kind == "restart" or not freed or lost and not self.is_acknowledged(packet[1])
            self.run.held[self.waiting.pop(packet)] = "lost" if is_lost else "freed"
        self.look = now

    def is_acknowledged(self, name: str) -> bool:
        return f"record iack {name} acknowledged" in self.lab.answer(f"why {self.branch} {self.place}")

    def rest(self) -> None:
        """All frames arrive, all is sent, all bulk updates take their turns."""
        for _ in range(MOST_STEPS):
            shown = [line.split() for line in self.show()]
            events = [f"deliver {it[1]}" for it in shown if it[0] == "frame"]
            events = events or sorted({f"flush {it[1]}" for it in shown if it[0] in ("queue", "ask", "bus", "clr")})
            events = events or [f"turn {it[1]}" for it in shown if it[0] == "node" and it[13] != "-"]
            if not events:
                self.run.pair = [*whole(shown)]
                return
            for event in events:
                if self.step(0, event.split())[0] == "refused":
                    return


def has_state(outcome: Sequence[str]) -> bool:
    """Whether a packet goes on, or is held, by a state."""
    return len(outcome) > 1 and outcome[0] in ("pass", "held") and outcome[1] != "-"


def look(shown: Sequence[str]) -> Look:
    words = [line.split() for line in shown]
    held = {(word[1], word[2]): word[3] for word in words if word[0] == "held"}
    return Look(held, {word[1]: (int(word[4]), int(word[5])) for word in words if word[0] == "count"})


def whole(shown: Sequence[Sequence[str]]) -> Iterator[str]:
    """A pair at rest without names, times, and what counts something; with whether a flow that both nodes have has one name."""
    flows: Dict[str, List[str]] = {}
    for words in shown:
        if words[0] == "state":
            # (the protocol and the keys; then without the last use, the update count and the last change by the peer)
            flows.setdefault(" ".join(words[3:9]), []).append(words[2])
            yield " ".join([words[0], words[1], *words[3:20], *words[21:23]])
        elif words[0] == "held":
            keys = next(" ".join(one[3:9]) for one in shown if one[0] == "state" and one[1:3] == words[1:3])
            yield f"held {words[1]} {keys}"
        elif words[0] == "node":
            # (whether it serves a bulk update, or waits for one; that a push was asked for means nothing once all is sent)
            yield " ".join([*words[:2], *words[12:14], "waits" * (words[15] != "-")])
    yield from sorted(f"one name {keys}" for keys, names in flows.items() if len(names) == 2 and names[0] == names[1])


# ---- both compared


def verdict(outcome: Sequence[str]) -> str:
    """What became of a packet at once, whatever its state is called."""
    return " ".join(outcome if outcome[-1] == "-" or outcome[0] not in ("pass", "held") else outcome[:1])


def differences(was: Run, now: Run, events: Sequence[str]) -> Iterator[str]:
    """What is not as it was, in a variant of a run."""
    for number, outcome in now.outcomes.items():
        if events[number - 1].startswith("packet ") and verdict(outcome) != verdict(was.outcomes[number]):
            yield f"event {number}: {verdict(was.outcomes[number])}, but {verdict(outcome)}"
    for number, fate in now.held.items():
        if was.held.get(number) != fate:
            yield f"event {number}: its packet was {was.held.get(number)}, but {fate}"
    if was.pair is None or now.pair is None:
        yield "the end cannot be compared"
    elif sorted(was.pair) != sorted(now.pair):
        yield from (f"only {which}: {line}" for which, one, two in (("in the run", was.pair, now.pair), ("there", now.pair, was.pair))
                    for line in one if line not in two)


def false_claims(program: str, setup: Setup, events: Sequence[str], names: Sequence[str]) -> Dict[str, List[str]]:
    """The faults that are not as it was, each with what is not."""
    lab = Subject(program)
    try:
        lab.open(setup)
        with fork_for(lab, "main", 0) as (_, branch):
            was = Replay(lab, branch, None).play([(at, line.split()) for at, line in enumerate(events, 1)])
        found: Dict[str, List[str]] = {}
        for name in names:
            with fork_for(lab, "main", 0) as (_, branch):
                now = Replay(lab, branch, was).play(faulty(events, name))
            found[name] = [*differences(was, now, events)]
        return {name: it for name, it in found.items() if it}
    finally:
        lab.close()


def laboratory(program: str, setup: Setup, events: Sequence[str]) -> Laboratory:
    lab = Laboratory(program)
    for line in filter(has_word, setup.lines):
        lab.take_setup(line)
    lab.open()
    for it in events:
        lab.ask(f"step main {it}")
    return lab


def compare_whatif(lab: Subject, branches: Dict[str, WantedBranch], chance: random.Random, seen: Seen) -> None:
    """`whatif` is asked about the first events of a branch; what it calls as it was must be so."""
    name = chance.choice(sorted(branches))
    events = branches[name].events[:MOST_EVENTS]
    if not events:
        return
    other = laboratory(lab.program, lab.setup, events)
    try:
        names = same_faults(other)
    finally:
        other.close()
    seen["whatif", "accepted"] += len(names)
    for fault, parts in false_claims(lab.program, lab.setup, events, names).items():
        raise Differs("\n".join([f"whatif over the first {len(events)} events of {name}: not as it was: {fault}", *parts]))
