"""The branches of a script, and the reply that each of its commands must get (docs/FORMATS.md)."""
from __future__ import annotations

import contextlib
import random
import re
from typing import Callable, ContextManager, Dict, Iterator, List, Sequence

from oracle.branches import Room, WantedBranch, compare, fork_for
from oracle.orders import compare_tries
from oracle.searches import Search, compare_search, how_answered
from oracle.subject import Differs, Subject
from oracle.tallies import Seen
from shell.language.commands import MOST_BRANCHES, STEP
from shell.language.events import EVENTS, plain_event
from shell.language.faults import COMMAND_REFUSALS, numbered
from shell.language.lines import has_word
from shell.language.searches import SEARCH

from .outcomes import compare_event, kind_of, outcome_in
from .readings import Reading, fault_of

BRANCH_NAME = "[a-z][a-z0-9-]{0,15}"


class Timeline:
    """The branches after a setup that was sent to the laboratory."""

    def __init__(self, lab: Subject, seen: Seen):
        self.lab, self.seen, self.chance = lab, seen, random.Random(0)
        self.branches: Dict[str, WantedBranch] = {"main": WantedBranch.at_opening(lab)}

    def take(self, line: str) -> List[str]:
        """Takes a line that has a word; returns its reply, which is the one that is wanted."""
        words = line.split()
        fault = fault_of(line, False)
        if fault:
            self.seen["faulty lines", fault] += 1
            return self.need(line, [f"bad {fault}"])
        if words[0] == STEP.word and words[1] in self.branches:
            return self.step(line, words[1], plain_event(words[2:]))
        if words[0] == SEARCH and words[1] in self.branches:
            return self.search(line, words[1])
        reply = self.need(line, self.wanted(words[0], words[1:]))
        self.seen[words[0], how(reply[0])] += 1
        for name in [branch for branch in self.branches if branch in words[1:]]:
            self.branches[name].compare(self.lab, name, line)
            self.branches[name].compare_log(self.lab, name, line)
        return reply

    def need(self, line: str, wanted: List[str]) -> List[str]:
        reply = self.lab.answer(line)
        compare(line, wanted, reply, "came")
        return reply

    def step(self, line: str, name: str, event: str) -> List[str]:
        foretold, reply = self.lab.answer(f"why {name} {event}"), self.lab.answer(line)
        if len(reply) > 1:
            raise Differs("\n".join([f"{line}: {len(reply)} lines", *reply]))
        branch, outcome = self.branches[name], outcome_in(event, reply[0])
        self.seen[event.split()[0], kind_of(outcome)] += 1
        before = branch.now()
        branch.take(self.lab, name, event, reply[0], foretold)
        compare_event(self.lab.setup, before, branch.now(), event, outcome)
        return reply

    def search(self, line: str, name: str) -> List[str]:
        """A search from a branch; returns its reply, which is what all runs show that it tries. It has changed nothing."""
        reply, branch, search = self.lab.answer(line), self.branches[name], Search.read(line)
        self.seen[f"{SEARCH} {search.question}", how_answered(reply)] += 1
        branch.compare(self.lab, name, line)
        branch.compare_log(self.lab, name, line)
        with self.room_for(name, branch.cursor) as room:
            compare_tries(room, search, reply)
            compare_search(room, search, reply, self.chance)
        return reply

    def wanted(self, command: str, words: Sequence[str]) -> List[str]:
        """The reply that a command must get, except a step on a branch; the branches are then as they must be. Each other command has
        a method of its name."""
        if words and words[0] not in self.branches:
            return [refused("NoBranch")]
        reply: Callable[..., List[str]] = getattr(self, command)
        return reply(*words)

    def names(self) -> List[str]:
        return [" ".join(["names", *self.branches])]

    def show(self, name: str) -> List[str]:
        return self.branches[name].seen_at(name, self.branches[name].cursor)

    def past(self, name: str, at: str) -> List[str]:
        return self.branches[name].seen_at(name, int(at))

    def why(self, name: str, *what: str) -> List[str]:
        # (so it is asked twice)
        branch = self.branches[name]
        if what[0] in EVENTS:
            return branch.foretell(self.lab, name, plain_event(what), self.room_for(name, branch.cursor))
        return branch.why(self.lab, name, int(what[0]))

    def frame(self, name: str, ticket: str) -> List[str]:
        return self.branches[name].frame(self.lab, name, int(ticket))

    def log(self, name: str) -> List[str]:
        return self.branches[name].log(name)

    def back(self, name: str, n: str) -> List[str]:
        branch = self.branches[name]
        if int(n) > branch.cursor:
            return [refused("TooFarBack")]
        branch.cursor -= int(n)
        return [f"at {branch.cursor}"]

    def forward(self, name: str, n: str) -> List[str]:
        branch = self.branches[name]
        if int(n) > len(branch.events) - branch.cursor:
            return [refused("NothingForward")]
        branch.cursor += int(n)
        return [f"at {branch.cursor}"]

    def fork(self, name: str, at: str, new: str) -> List[str]:
        origin, place = self.branches[name], int(at)
        if new in self.branches:
            return [refused("NameTaken")]
        if not re.fullmatch(BRANCH_NAME, new):
            return [refused("BadName")]
        if place > len(origin.events):
            return [refused("NothingForward")]
        if len(self.branches) == MOST_BRANCHES:
            return [refused("BranchesFull")]
        self.branches[new] = origin.fork(place)
        return ["forked"]

    def drop(self, name: str) -> List[str]:
        if len(self.branches) == 1:
            return [refused("LastBranch")]
        del self.branches[name]
        return ["removed"]

    def excise(self, name: str, at: str) -> List[str]:
        branch, place = self.branches[name], int(at)
        if not 1 <= place <= len(branch.events):
            return [refused("NoEvent")]
        return [branch.excise(self.room_for(name, place - 1), place)]

    def restore(self, name: str) -> List[str]:
        return [self.branches[name].restore()]

    def room_for(self, name: str, events: int) -> ContextManager[Room]:
        """Where what an excision leaves can be tried: on a fork, or in another run if there is no room for a fork."""
        if len(self.branches) == MOST_BRANCHES:
            return apart(self.lab, self.branches[name].events[:events])
        spare = next(it for it in (f"w{i}" for i in range(MOST_BRANCHES)) if it not in self.branches)
        return fork_for(self.lab, name, events, spare)

    def end(self) -> None:
        """Each branch goes all the way back and forward again, as it is and as it was before an excision."""
        for name, branch in self.branches.items():
            branch.end(self.lab, name)
            if branch.former:
                branch.order(self.lab, name, f"restore {name}", branch.restore())
                branch.end(self.lab, name)
        self.lab.need("names", *self.names())


def how(reply: str) -> str:
    """How a command went: the first word of its reply, and if it was refused, why."""
    words = reply.split()
    return words[2] if words[0] == "refused" else words[0]


def refused(name: str) -> str:
    return f"refused {numbered(name, COMMAND_REFUSALS)}"


@contextlib.contextmanager
def apart(lab: Subject, events: Sequence[str]) -> Iterator[Room]:
    """A run of its own over the same setup, in which these events have happened."""
    other = Subject(lab.program, lab.seconds)
    try:
        other.open(lab.setup)
        for event in events:
            if not other.ask(f"step main {event}").startswith("step "):
                raise Differs(f"{event}: it was accepted before, but is refused now")
        yield other, "main"
    finally:
        other.close()


def replies_to(lab: Subject, reading: Reading, seen: Seen) -> List[str]:
    """Gives a laboratory the setup of a script, and then its lines one by one; returns the lines of all replies, as they must be."""
    lab.open(reading.setup)
    timeline = Timeline(lab, seen)
    replies: List[str] = []
    for line in reading.commands:
        if has_word(line):
            replies += timeline.take(line)
        else:
            lab.send(line)
    timeline.end()
    return replies
