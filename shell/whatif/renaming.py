"""What the frames and states of a run are called in a variant of it."""
from __future__ import annotations

from typing import Dict, Optional, Sequence, Tuple

from ..language.events import HELD_BACK, KILL, PACKET, PASS, SENT
from .faults import Course, Planned


class Names:
    """The tickets and names in a variant that parts from its run after some events. Tickets are counted, so they can be foreseen as
    long as every event that sends is accepted."""

    def __init__(self, course: Course, place: int):
        self.course, self.place = course, place
        self._tickets: Dict[int, int] = {}
        self._next_ticket = 1 + sum(frame.number <= place for frame in course.frames.values())
        # Names, by node and name in the run.
        self._states: Dict[Tuple[str, str], str] = {}

    def line(self, step: Planned) -> Optional[str]:
        """The line of an event, if the frame or the state that it is about exists."""
        words = step.words
        if step.frame:
            ticket = self._of_frame(step.frame)
            return step.line if ticket == step.frame else None if ticket is None else " ".join([words[0], str(ticket), *words[2:]])
        if words[0] == KILL.word:
            name = self._of_state(words[1], words[2])
            return None if name is None else " ".join([*words[:2], name])
        return step.line

    def _of_frame(self, ticket: int) -> Optional[int]:
        """The ticket of a frame, if it was sent. Up to the place, tickets are those of the run."""
        frame = self.course.frames.get(ticket)
        return ticket if frame and frame.number <= self.place else self._tickets.get(ticket)

    def _of_state(self, node: str, name: str) -> Optional[str]:
        """The name of a state, as shown by the newest packet that met it in the run, preferably at this node."""
        elsewhere = [it for (_, its), it in self._states.items() if its == name]
        as_it_was = [name] if self.course.makers.get(name, len(self.course) + 1) <= self.place else []
        return next(iter([*filter(None, [self._states.get((node, name))]), *elsewhere[-1:], *as_it_was]), None)

    def foresee(self, step: Planned) -> None:
        """Assigns a ticket to the frame that an event will send, if it will send one."""
        if step.sends:
            self._tickets[step.sends] = self._next_ticket
            self._next_ticket += 1

    def forget(self, steps: Sequence[Planned]) -> None:
        """Takes back what was foreseen for the newest events."""
        sent = [step.sends for step in steps if step.sends]
        for ticket in sent:
            del self._tickets[ticket]
        self._next_ticket -= len(sent)

    def count(self, outcome: Sequence[str]) -> None:
        """Takes what an event answered that neither the run nor the fault has: a frame that it sent has the next ticket."""
        self._next_ticket += outcome[0] == SENT.word

    def learn(self, step: Planned, outcome: str) -> None:
        """Takes what an event answered. States are called by their names only where one is killed."""
        if step.sends and outcome.startswith(SENT.word):
            self._tickets[step.sends] = int(outcome.split()[1])
        elif self.course.has_kills and step.number and step.words[0] == PACKET.word:
            was, now = self.course.events[step.number - 1].outcome, outcome.split()
            if _has_state(was) and _has_state(now):
                self._states[step.words[1], was[1]] = now[1]


def _has_state(outcome: Sequence[str]) -> bool:
    """Whether a packet met or made a state, and is not dropped."""
    return outcome[0] in (PASS.word, HELD_BACK.word) and outcome[1] != "-"
