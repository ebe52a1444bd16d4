"""Plays variants of a run: one program holds the run, and for each variant a branch begins where it parts from the run."""
from __future__ import annotations

from collections import deque
from dataclasses import dataclass, field
from typing import Deque, Dict, List, NamedTuple, Optional, Sequence, Tuple

from ..language.commands import BACK, DROP, FORK, PAST, SHOW, STEP
from ..language.events import DELIVER, FLUSH, HELD_BACK, KILL, LOSE, SENT, TURN
from ..language.names import NODES
from ..language.setups import HELD
from ..link.laboratory import Laboratory, Unknown, outcome_of
from ..link.macros import next_steps
from ..model.branches import Branch
from ..model.pair import Pair, read_shown
from .faults import Course, Planned, Variant, place_of, planned
from .flushing import Idle, idle_nodes, send
from .holding import Accepted, Fate, OfNode, fates, is_held
from .renaming import Names

# The branch that a variant is played on; the second name is used if the run's own branch has the first.
NAMES = ("variant", "other")
# For each line that is shown first, a pair has at most this many steps until nothing is pending or in flight, and some more: a state
# has its turn in a bulk update, the frame that brings it, and an answer.
STEPS_OF_ONE, SPARE_STEPS = 4, 100
NOTHING_PENDING = "NothingPending"
ENDLESS = "the nodes keep answering each other"
# How many lines are sent together: they and their replies fit in a pipe.
MOST_TOGETHER = 128
_FLUSHES = tuple(f"{FLUSH.word} {node}" for node in NODES)
# How the outcomes of events begin that send a frame, and the lines of those that take one off the link; and a refusal.
_SENDS, _TAKES, _IS_REFUSED = f"{SENT.word} ", (f"{DELIVER.word} ", f"{LOSE.word} "), "refused"


class Refused(NamedTuple):
    """An event that did not happen: its place among those that were to happen, from 0 on; its number in the run, or 0 if the fault adds
    it; its line, with the variant's tickets and names; and the name of the refusal."""

    at: int
    number: int
    line: str
    why: str


@dataclass
class Played:
    """A variant as it went, from the first event that is changed."""

    place: int
    # What came of its events, and their places in the variant, by their numbers in the run; without those that the fault adds.
    came: Dict[int, str] = field(default_factory=dict)
    places: Dict[int, int] = field(default_factory=dict)
    # What was stepped: each event with its number in the run, or 0, including refused ones; then those until everything was sent.
    steps: List[Tuple[int, str]] = field(default_factory=list)
    until_quiet: List[str] = field(default_factory=list)
    # Those of both that were accepted, with their outcomes.
    events: List[Accepted] = field(default_factory=list)
    # What became of held packets, by the numbers of their events.
    fates: Dict[int, Fate] = field(default_factory=dict)
    refused: List[Refused] = field(default_factory=list)
    # The events whose frame or state does not exist.
    without_subject: List[int] = field(default_factory=list)
    # The last reply to `show`, what keeps the pair from being quiet, and how many lines showed it before, if that was asked.
    shown: List[str] = field(default_factory=list)
    trouble: str = ""
    size: int = 0

    @property
    def pair(self) -> Pair:
        """The pair at the end."""
        return read_shown(self.shown)


class _Waiting(NamedTuple):
    """An event that waits to be stepped: its place among those to come, and its line in the variant."""

    at: int
    step: Planned
    line: str


class Player:
    """Plays variants of the first events of a branch, in a laboratory of its own with that branch; the run itself, which is the variant
    without faults, comes first. If it flushes, nodes send at once what they have to send because of a fault."""

    def __init__(self, lab: Laboratory, branch: Branch, course: Course, flushes: bool = False):
        self.lab, self.branch, self.course = lab, branch, course
        self.name = next(name for name in NAMES if name != branch.name)
        self._has_variant = False
        # The lines that begin a variant, until they are asked.
        self._first: List[str] = []
        # What became of the run's held packets.
        self._fates: Dict[int, Fate] = {}
        self._idle: Optional[Idle] = idle_nodes(self._asked, branch.name, len(course)) if flushes else None

    def play(self, variant: Variant, until: Optional[int] = None) -> Played:
        """Plays a variant on a branch, which stays until the next one; if a number is given, only this many of its events."""
        place = place_of(variant, self.course)
        played, names = Played(place), Names(self.course, place)
        self._begin(place)
        plan = planned(self.course, variant)
        passed = self._step_all(plan[:until], played, names)
        if until is None:
            self._quiet(played)
            if not variant:
                self._fates = self._fates_of_run(played)
            played.fates = self._fates_of(played) if variant else self._fates
        else:
            for step in plan[until : until + 1]:
                self._send_before(step, passed, played, names)
            # (the branch begins, even if no line followed)
            self._asked([])
        return played

    def _step_all(self, plan: Sequence[Planned], played: Played, names: Names) -> int:
        """Steps events, many together; returns how many events of the run have come."""
        steps: Deque[Tuple[int, Planned]] = deque(enumerate(plan))
        waiting: List[_Waiting] = []
        passed, most = played.place, 1 if self._idle else MOST_TOGETHER
        while steps or waiting:
            if not steps or len(waiting) == most or waiting and steps[0][1].words[0] == KILL.word:
                steps.extendleft(self._step(waiting, played, names))
                continue
            at, step = steps.popleft()
            if self._idle:
                self._send_before(step, passed, played, names)
            passed = max(passed, step.number)
            line = names.line(step)
            if line is None:
                played.without_subject += [step.number] * bool(step.number)
            else:
                waiting.append(_Waiting(at, step, line))
                names.foresee(step)
        return passed

    def _fates_of_run(self, played: Played) -> Dict[int, Fate]:
        """What became of the held packets of the run, by the numbers of their events."""
        held = {event.number: {self._held(event.number): event.number} for event in self.course.events if is_held(event.outcome)}
        return self._ended([*((event.line, event.came) for event in self.course.events), *played.events], held, 0)

    def _fates_of(self, played: Played) -> Dict[int, Fate]:
        """The same of a variant. What became of a packet before the variant parts from the run is the same in both."""
        first = played.place
        over = {number: it for number, it in self._fates.items() if number <= first and 0 < it.place <= first}
        held = {first: {self._held(number): number for number in self._fates if number <= first and number not in over}}
        for number, came in played.came.items():
            if came.startswith(HELD_BACK.word):
                held[played.places[number]] = {self._held(number, came): number}
        return {**over, **self._ended(played.events, held, first)}

    def _ended(self, events: Sequence[Accepted], held: Dict[int, Dict[OfNode, int]], first: int) -> Dict[int, Fate]:
        return fates(self._asked, self.name, events, held, first, self.lab.setup.limits[HELD])

    def _held(self, number: int, came: str = "") -> OfNode:
        """The node that holds the packet of an event, and the name of its state."""
        event = self.course.events[number - 1]
        return event.words[1], (came or event.came).split()[1]

    def _send_before(self, coming: Planned, passed: int, played: Played, names: Names) -> None:
        """If nodes send at once: before an event of the run that comes after so many others, those send that have nothing to send here in
        the run."""

        def step(event: str) -> Optional[List[str]]:
            outcome = outcome_of(self._asked([f"{STEP.word} {self.name} {event}"])[0][0]).split()
            if outcome[0] == "refused":
                return None
            played.steps.append((0, event))
            played.events.append((event, " ".join(outcome)))
            names.count(outcome)
            return outcome

        if self._idle and coming.number > passed and not played.trouble and not send(step, self._idle[coming.number - 1]):
            played.trouble = ENDLESS

    def _begin(self, place: int) -> None:
        """Begins a new branch for a variant, before the next lines that are asked. An interrupt can have left the last one half done."""
        self._first = [*[f"{DROP.word} {self.name}"] * self._has_variant, f"{FORK.word} {self.branch.name} {place} {self.name}"]
        self._has_variant = True

    def _asked(self, lines: Sequence[str]) -> List[List[str]]:
        assert self.lab.session
        first, self._first = self._first, []
        every, session = [*first, *lines], self.lab.session
        parts = range(0, len(every), MOST_TOGETHER)
        replies = [reply for at in parts for reply in session.ask_together(every[at : at + MOST_TOGETHER])]
        if first and replies[len(first) - 1] != ["forked"]:
            raise Unknown(f"the program answers `{replies[len(first) - 1][0]}` to `{first[-1]}`")
        return replies[len(first) :]

    def _step(self, waiting: List[_Waiting], played: Played, names: Names) -> List[Tuple[int, Planned]]:
        """Steps what is waiting, and takes what comes of it. If an event that sends is refused, the tickets of those after it are not
        the ones foreseen: these are undone and returned, the last one first."""
        replies = [it[0] for it in self._asked([f"{STEP.word} {self.name} {it.line}" for it in waiting])]
        refused = [reply.startswith(_IS_REFUSED) for reply in replies]
        good = next((at + 1 for at, it in enumerate(waiting) if it.step.sends and refused[at]), len(waiting))
        again = waiting[good:]
        names.forget([it.step for it in again])
        for it, reply in zip(waiting[:good], replies):
            self._take(it, outcome_of(reply), played, names)
        undone = refused[good:].count(False)
        if undone:
            self._asked([f"{BACK.word} {self.name} {undone}"])
        waiting.clear()
        return [(it.at, it.step) for it in reversed(again)]

    def _take(self, waited: _Waiting, outcome: str, played: Played, names: Names) -> None:
        """Takes what came of an event."""
        played.steps.append((waited.step.number, waited.line))
        if outcome.startswith(_IS_REFUSED):
            played.refused.append(Refused(waited.at, waited.step.number, waited.line, outcome.split()[-1]))
            names.forget([waited.step])
        else:
            played.events.append((waited.line, outcome))
            names.learn(waited.step, outcome)
        if waited.step.number:
            played.came[waited.step.number] = outcome
            played.places[waited.step.number] = played.place + len(played.steps) - len(played.refused)

    def _quiet(self, played: Played) -> None:
        """Goes on as `quiet` does: what is in flight arrives, what is pending is sent, bulk updates take their turns."""
        begun, events = played.place + len(played.events), [f"{DELIVER.word} {it}" for it in self._in_flight(played)]
        while True:
            if not played.trouble:
                self._go_on(events, played, begun)
            played.shown = self._asked([f"{SHOW.word} {self.name}"])[0]
            # (the states do not matter here, and can be many)
            events = next_steps(read_shown([it for it in played.shown if not it.startswith("state ")]))
            if not events or played.trouble:
                return

    def _in_flight(self, played: Played) -> List[int]:
        """The frames in flight after the events of a variant, by their tickets."""
        tickets = {*self.course.in_flight(played.place)}
        for line, outcome in played.events:
            if outcome.startswith(_SENDS):
                tickets.add(int(outcome.split()[1]))
            elif line.startswith(_TAKES):
                tickets.discard(int(line.split()[1]))
        return sorted(tickets)

    def _go_on(self, events: Sequence[str], played: Played, begun: int) -> None:
        """Steps some events and what follows from them, as far as that is known without looking: both nodes send what they have. It does
        no harm if one has nothing, and asking this way is faster than looking."""
        goes_on = True
        while goes_on and not played.trouble:
            is_turn = events[:1] and events[0].startswith(TURN.word)
            events = self._followed(events, [] if is_turn else [flush for flush in _FLUSHES if flush not in events], played)
            goes_on = bool(events or is_turn)
            if not played.trouble and len(played.until_quiet) > SPARE_STEPS:
                played.trouble = ENDLESS * (len(played.until_quiet) > self._most_steps(played, begun))

    def _most_steps(self, played: Played, begun: int) -> int:
        """How many steps a pair may take until it is quiet, by what is shown of it before them."""
        played.size = played.size or len(self._asked([f"{PAST.word} {self.name} {begun}"])[0])
        return SPARE_STEPS + STEPS_OF_ONE * played.size

    def _followed(self, events: Sequence[str], tried: Sequence[str], played: Played) -> List[str]:
        """Steps what brings the pair nearer to quiet, and what is tried after it; returns the deliveries of what is then sent."""
        replies = self._asked([f"{STEP.word} {self.name} {it}" for it in (*events, *tried)])
        outcomes = [(event, outcome_of(reply[0])) for event, reply in zip((*events, *tried), replies)]
        stepped = [(event, came) for event, came in outcomes if not (event in tried and came.endswith(NOTHING_PENDING))]
        played.until_quiet += [event for event, _ in stepped]
        played.events += [(event, came) for event, came in stepped if not came.startswith(_IS_REFUSED)]
        refused = [event for event, came in stepped if came.startswith(_IS_REFUSED)]
        if refused:
            played.trouble = f"`{refused[0]}` is refused"
        return [f"{DELIVER.word} {came.split()[1]}" for _, came in stepped if came.startswith(_SENDS)]
