"""The frames of a capture, one after another, with their records; and the states, each with what was sent of it."""
from __future__ import annotations

from typing import Dict, List, NamedTuple, Optional, Tuple

from ..console.colours import Paint
from ..language.names import level_name
from .asked import MOST_FRAMES, MOST_STATES, MOST_STEPS
from .decoding import Decoded, Record, protocol_word
from .known import Frame, Known
from .wording import OTHER, UNKNOWN_FLOW, Times, flow_words, lasting, listed, record_words, summary


class Line(NamedTuple):
    """A frame as it is shown, with its records."""

    frame: Frame
    what: str
    records: List[str]


class Step(NamedTuple):
    """What a frame had of a state."""

    frame: Frame
    what: str


class Timeline:
    """Keeps the first frames and states, or all of them."""

    def __init__(self, keeps_all: bool, with_states: bool):
        self._keeps_all, self._with_states = keeps_all, with_states
        self.number = self.states = 0
        self._lines: List[Line] = []
        self._steps: Dict[Tuple[int, int], List[Step]] = {}
        self._shown: Dict[Tuple[int, int], Known] = {}
        self._counted: Dict[Tuple[int, int], int] = {}

    def take(self, frame: Frame, message: Decoded, states: List[Optional[Known]], has_flow: bool) -> None:
        """Takes a frame that is looked at; with a flow, only what it has of that."""
        if self.number >= MOST_FRAMES and not (has_flow or self._keeps_all or self._with_states):
            self.number += 1
            return
        its = [(record, state) for record, state in zip(message.records, states) if not has_flow or state and state.is_selected]
        if has_flow and not its:
            return
        self.number += 1
        if self._keeps_all or self.number <= MOST_FRAMES:
            passed_over = f", {message.passed_over} of IPsec passed over" if message.passed_over else ""
            what = summary(message.records) + passed_over + (f"; {message.fault}" if message.fault else "")
            self._lines.append(Line(frame, what, [record_words(record, state.keys if state else None) for record, state in its]))
        if self._with_states:
            for record, state in its:
                if state:
                    self._step(frame, record, state)

    def _step(self, frame: Frame, record: Record, state: Known) -> None:
        if state.name not in self._counted:
            if not self._keeps_all and len(self._counted) >= MOST_STATES:
                self.states += not state.steps
                state.steps += 1
                return
            self.states += 1
            self._shown[state.name] = state
            self._steps[state.name] = []
        self._counted[state.name] = number = self._counted.get(state.name, 0) + 1
        state.steps += 1
        self._shown[state.name] = state
        if self._keeps_all or number <= MOST_STEPS:
            self._steps[state.name].append(Step(frame, _step_words(record, state)))

    def frames(self, times: Times, paint: Paint) -> List[str]:
        """The frames in words."""
        lines: List[str] = []
        for frame, what, records in self._lines:
            way = f"frame {frame.number}  {frame.node} -> {OTHER[frame.node]}"
            lines.append(f"{times.at(frame.time)}  {way}  {came_words(frame, paint)}  {what}")
            lines += [f"    {record}" for record in records]
        rest = self.number - len(self._lines)
        return lines + ([f"and {rest:,} more frame{'s' * (rest > 1)}; --all lists them"] if rest else [])

    def histories(self, times: Times, paint: Paint) -> List[str]:
        """The states in words, each with what was sent of it."""
        lines: List[str] = []
        for name, state in self._shown.items():
            lines.append(f"{state.text}  {flow_words(state.keys) if state.keys is not None else UNKNOWN_FLOW}")
            steps = [
                f"  {times.at(frame.time)}  frame {frame.number} of {frame.node}  {what}  {came_words(frame, paint)}"
                for frame, what in self._steps[name]
            ]
            lines += listed(steps, self._counted[name], "steps", self._keeps_all)
        rest = self.states - len(self._shown)
        return lines + ([f"and {rest:,} more state{'s' * (rest > 1)}; --all lists them"] if rest else [])


def _step_words(record: Record, state: Known) -> str:
    """What a record says of its state: its kind, and the levels of the ends."""
    if record.source is None or record.destination is None:
        return record.kind.name
    protocol = protocol_word(state.keys[73]) if state.keys is not None else "tcp" if record.timeout < 6 else "udp"
    levels = " and ".join(level_name(protocol, it.level) for it in (record.source, record.destination))
    return f"{record.kind.name}: source and destination {levels}, {record.remaining} s left"


def came_words(frame: Frame, paint: Paint) -> str:
    """Whether a frame came, and how that is known."""
    peer = OTHER[frame.node]
    if frame.arrived is False:
        return paint.bad(f"not in the capture of {peer}")
    if frame.arrived:
        after = f"came after {lasting(frame.came - frame.time)}" if frame.came is not None and frame.came > frame.time else "came"
        return after + (f", but {frame.why}" if frame.why else "")
    if frame.shown is None:
        return paint.dim("not known whether it came")
    if frame.shown:
        return f"came, since {frame.why}"
    return paint.note(f"did not come in time, or a state of it was not kept: {frame.why}")
