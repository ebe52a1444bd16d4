"""Searches: random lines, and what an answer must be. A run that is found consists of the choices, it leads to the goal, and no shorter
part of it does; if none is found, or none that is shorter, random runs find none either. All runs that a search tries are tried here as
well (`orders.py`), so that each number of the answer is known."""
from __future__ import annotations

import functools
import random
from typing import Callable, Dict, Iterator, List, NamedTuple, Sequence, Tuple

from shell.language.events import CUT, DELIVER, HELD_BACK, OF_FRAME, OF_NODE, PASS, plain_event
from shell.language.events import DROPPED as DROP
from shell.language.lines import LONGEST_LINE
from shell.language.names import NODES
from shell.language.searches import ADMITTED, ANY, DIFFER, DROPPED, FOUND, GAVE_UP, MOST_PHASES, NONE, OF_PACKET, OF_PAIR, PASSED
from shell.language.searches import QUIET, SCOPES, SEARCH, SETTLED, SPLIT, THEN, UNPASSED, words_of
from shell.model.pair import Pair, read_shown
from shell.model.states import State

from .branches import Room
from .events import event, packet
from .subject import Differs

# How many random runs are tried besides a search, and of how many events at most.
WALKS, LONGEST_WALK = 4, 8
# A search of at most this many runs takes a moment.
MOST_RUNS = 300
# What becomes of a packet that goes on, or is on its way.
ADMITS = (PASS.word, HELD_BACK.word)


class Choice(NamedTuple):
    """An event as in a log, or one of any frame with `any` as its ticket; how many times it may happen, and in which phase."""

    what: str
    uses: int
    phase: int


class Search(NamedTuple):
    """A line `search` of good form."""

    branch: str
    depth: int
    runs: int
    scope: str
    question: str
    event: str
    choices: Tuple[Choice, ...]

    @classmethod
    def read(cls, line: str) -> "Search":
        words = words_of(line)
        ends = [at for at, word in enumerate(words) if word == ";"] + [len(words)]
        goal = words[4 : ends[0]]
        scope = goal.pop(0) if goal[0] in SCOPES else ""
        asked = plain_event(goal[1:]) if goal[1:] else ""
        choices: List[Choice] = []
        phase = 0
        for part in (words[at + 1 : end] for at, end in zip(ends, ends[1:])):
            if part == [THEN]:
                phase += 1
            else:
                choices.append(Choice(_what(part), int(part[0]), phase))
        return cls(words[1], int(words[2]), int(words[3]), scope, goal[0], asked, tuple(choices))

    def is_asked(self, pair: Pair) -> bool:
        """Whether the question is asked in a pair."""
        if self.scope and pair.frames:
            return False
        if self.scope in (QUIET, SETTLED) and any(node.pending or node.serve != "-" for node in pair.nodes.values()):
            return False
        return self.scope != SETTLED or all(node.sync == "-" for node in pair.nodes.values())

    def is_met(self, room: Room, pair: Pair) -> bool:
        """Whether a pair, which the room's branch shows, meets the goal."""
        if not self.is_asked(pair):
            return False
        if self.question in OF_PAIR:
            return _differ(pair) if self.question == DIFFER else pair.a.states.keys() != pair.b.states.keys()
        if self.question == SPLIT:
            return fate(room, self.event) == DROP.word and fate(room, at_the_other_node(self.event)) in ADMITS
        return _FATES[self.question](fate(room, self.event))


# By what becomes of the packet.
_FATES: Dict[str, Callable[[str], bool]] = {
    PASSED: lambda it: it == PASS.word,
    UNPASSED: lambda it: it != PASS.word,
    DROPPED: lambda it: it == DROP.word,
    ADMITTED: lambda it: it in ADMITS,
}


def fate(room: Room, line: str) -> str:
    """What an event would give: the first word of its outcome, or `refused`. It happens, and is taken back."""
    lab, name = room
    words = lab.ask(f"step {name} {line}").split()
    if words[0] != "step":
        return words[0]
    lab.ask(f"back {name} 1")
    return words[1]


def at_the_other_node(line: str) -> str:
    """The same event of a node, at the other one."""
    word, node, *rest = line.split()
    return " ".join([word, *(it for it in NODES if it != node), *rest])


def _differ(pair: Pair) -> bool:
    """Whether a state is at both nodes, and has other levels, numbers or class at one of them."""
    both = [(state, pair.b.states[name]) for name, state in pair.a.states.items() if name in pair.b.states]
    return any(_tracked(one) != _tracked(other) for one, other in both if "n" not in one.flags + other.flags)


def _tracked(state: State) -> Tuple[object, ...]:
    return state.source, state.destination, state.timeout_class


def _what(choice: Sequence[str]) -> str:
    _, first, *rest = choice
    return " ".join([rest[0], ANY, *(str(int(it)) for it in rest[1:])]) if first == ANY else plain_event(choice[1:])


def _fits(what: str, event_line: str) -> bool:
    """Whether a choice allows an event."""
    words, its = what.split(), event_line.split()
    return what == event_line or words[1:2] == [ANY] and (words[0], words[2:]) == (its[0], its[2:])


def pair_of(room: Room) -> Pair:
    """What the room's branch shows."""
    return read_shown(room[0].answer(f"show {room[1]}"))


# ---- what was answered


class Answer(NamedTuple):
    """What a reply says: its first word, the run that was found, whether all runs end before the depth, and whether it was asked at all."""

    how: str
    events: Sequence[str]
    is_ended: bool
    is_asked: bool


def compare_answer(search: Search, reply: Sequence[str]) -> Answer:
    """What a reply says, which must be a possible reply to the line."""
    words = [*reply[0].split(), *[""] * 6]
    events = [it.partition(f" step {search.branch} ")[2] for it in reply[1:-1]]
    lines = [f"event {at} step {search.branch} {it}" for at, it in enumerate(events, 1)]
    answer = Answer(words[0], events, is_ended=words[1] == ANY, is_asked=words[0] == FOUND or words[3] != "0")
    runs, asked = (words[5], words[5]) if answer.how == FOUND else (words[2], words[3])
    wanted = {
        FOUND: [f"found {search.branch} events {len(events)} runs {runs}", *lines, "end"],
        NONE: [f"none {ANY if answer.is_ended else search.depth} {runs} {asked}"],
        GAVE_UP: [f"gave up {search.runs}"],
    }
    if list(reply) != wanted.get(answer.how) or len(events) > search.depth or not (answer.how == GAVE_UP or _adds_up(search, runs, asked)):
        raise Differs("\n".join(["a search cannot be answered so:", *reply]))
    return answer


def _adds_up(search: Search, runs: str, asked: str) -> bool:
    """Whether so many runs may have been tried, and the question asked in so many of the pairs; in each, if it is asked everywhere."""
    if not (runs.isdecimal() and asked.isdecimal() and 1 <= int(runs) <= search.runs):
        return False
    return int(asked) <= int(runs) if search.scope else asked == runs


def compare_search(room: Room, search: Search, reply: Sequence[str], chance: random.Random) -> None:
    """Checks what a reply says about runs, as far as steps can show. The room's branch stands where the search began."""
    answer = compare_answer(search, reply)
    if answer.how == GAVE_UP:
        return
    compare_walks(room, search, answer, chance)
    if answer.how == FOUND:
        compare_found(room, search, answer.events)


def how_answered(reply: Sequence[str]) -> str:
    """How a search went, for a count of such answers."""
    how, depth, _, asked = [*reply[0].split(), *[""] * 4][:4]
    if how != NONE:
        return how
    return f"{NONE}{' of any length' * (depth == ANY)}{', asked nowhere' * (asked == '0')}"


def compare_found(room: Room, search: Search, events: Sequence[str]) -> None:
    """The events must be a run of the choices that leads to the goal, and no shorter part of it may do so."""
    if not is_allowed(search, events):
        raise Differs("\n".join(["found, but not of the choices:", *events]))
    lab, name = room
    for at in range(len(events) + 1):
        if search.is_met(room, pair_of(room)) != (at == len(events)):
            raise Differs("\n".join([f"found, but the goal is {'not ' * (at == len(events))}met after {at} events:", *events]))
        reply = lab.ask(f"step {name} {events[at]}") if at < len(events) else "step "
        if not reply.startswith("step "):
            raise Differs("\n".join([f"found, but the reply to {events[at]} is {reply}:", *events]))


def is_allowed(search: Search, events: Sequence[str]) -> bool:
    """Whether each event can be given to a choice, so that no choice gets more than its uses, or an event after one of a later phase."""

    @functools.lru_cache(maxsize=None)
    def goes_on(at: int, phase: int, uses: Tuple[int, ...]) -> bool:
        if at == len(events):
            return True
        for place, choice in enumerate(search.choices):
            if choice.phase >= phase and uses[place] and _fits(choice.what, events[at]):
                if goes_on(at + 1, choice.phase, tuple(it - (one == place) for one, it in enumerate(uses))):
                    return True
        return False

    return goes_on(0, 0, tuple(it.uses for it in search.choices))


def compare_walks(room: Room, search: Search, answer: Answer, chance: random.Random) -> None:
    """Random runs of the choices that are shorter than what was found, or no longer than allowed, must not lead to the goal; nor may they
    lead where the question is asked, if it was asked nowhere, or have as many events as were allowed, if none was to have so many."""
    most = len(answer.events) - 1 if answer.how == FOUND else search.depth
    for _ in range(WALKS if most >= 0 else 0):
        walked: List[str] = []
        for pair in _walk(room, search, min(most, LONGEST_WALK), walked, chance):
            if search.is_met(room, pair):
                raise Differs("\n".join([f"no run of {most} events was found, but this one leads to the goal:", *walked]))
            if not answer.is_asked and search.is_asked(pair):
                raise Differs("\n".join(["nowhere was it asked, but it is after this run:", *walked]))
        if answer.is_ended and len(walked) == search.depth:
            raise Differs("\n".join([f"all runs are shorter, but this one has {search.depth} events:", *walked]))
        room[0].ask(f"back {room[1]} {len(walked)}")


def _walk(room: Room, search: Search, most: int, walked: List[str], chance: random.Random) -> Iterator[Pair]:
    """The pairs of a random run of the choices, in which at most this many events are tried; those that are accepted are noted."""
    lab, name = room
    uses, phase = [choice.uses for choice in search.choices], 0
    pair = pair_of(room)
    yield pair
    for _ in range(most):
        allowed = [(at, it) for at, it in enumerate(search.choices) if uses[at] and it.phase >= phase]
        turns = [(at, line) for at, choice in allowed for line in instances(choice.what, pair)]
        if not turns:
            return
        at, line = chance.choice(turns)
        if lab.ask(f"step {name} {line}").startswith("step "):
            uses[at] -= 1
            phase = search.choices[at].phase
            walked.append(line)
            pair = pair_of(room)
            yield pair


def instances(what: str, pair: Pair) -> Iterator[str]:
    """The events that a choice allows in a pair."""
    if what.split()[1] != ANY:
        yield what
        return
    for ticket in sorted(pair.frames):
        yield what.replace(ANY, str(ticket), 1)


# ---- random lines


def line_of(chance: random.Random, name: str, shown: Sequence[str]) -> str:
    """A search from a branch that shows this, with few runs."""
    runs = chance.choice((0, 1, 5, 50, MOST_RUNS, MOST_RUNS, MOST_RUNS))
    scope = chance.choice(("", *(f"{it} " for it in SCOPES)))
    choices = [f"{chance.choice((0, 1, 2, 3, 9))} {_choice(chance, shown)}" for _ in range(chance.choice((0, 1, 2, 3, 4, 5, 16)))]
    for _ in range(chance.choice((0, 0, 0, 1, 1, 2, MOST_PHASES - 1))):
        choices.insert(chance.randint(0, len(choices)), THEN)
    depth = chance.choice((0, 1, 2, 3, 4, 64))
    line = "; ".join([f"{SEARCH} {name} {depth} {runs} {scope}{_question(chance, shown)}", *choices])
    while len(line) > LONGEST_LINE:
        line = line.rpartition(";")[0]
    return line


def _question(chance: random.Random, shown: Sequence[str]) -> str:
    """A question, mostly one about a packet."""
    question = chance.choice((*OF_PAIR, *OF_PACKET))
    if question in OF_PAIR:
        return question
    asked = event(chance, shown)
    is_packet = chance.random() < 0.9 or question == SPLIT and asked.split()[0] not in OF_NODE
    return f"{question} {packet(chance, chance.choice(NODES)) if is_packet else asked}"


def _choice(chance: random.Random, shown: Sequence[str]) -> str:
    kind = chance.random()
    if kind < 0.4:
        return f"flush {chance.choice(NODES)}"
    if kind < 0.6:
        return event(chance, shown)
    what = chance.choice((DELIVER.word, *OF_FRAME))
    return f"{ANY} {what} {chance.randint(0, 160)}" if what == CUT.word else f"{ANY} {what}"
