"""A run of the program that is written down as a script: its events with comments above them, and both nodes followed by the replies."""
from __future__ import annotations

from typing import Dict, List, Optional, Sequence

from ..language.events import CLEAR, DELIVER, FLUSH, KILL, LAST_MILLISECOND, LOSE, PACKET, RESTART, TICK
from ..language.names import NODES, Name
from ..language.packets import PacketEvent
from ..link.laboratory import Unknown
from ..link.programs import Run, check_setup
from ..model.explanations import read_explanation
from ..model.flights import read_flight
from ..model.frames import Frame
from ..model.pair import read_shown
from .followed import Followed
from .setting import Setting, TooMuch

# The longest run that is written.
MOST_EVENTS = 100000
_REFUSED = "refused"
# In milliseconds.
YEAR = 365 * 86400 * 1000
_MILLISECOND = 10**6


class Playing:
    """A run from the opening on. Refused events are not in the script."""

    def __init__(self, program: str, setting: Setting):
        fault = check_setup(program, setting.lines)
        if fault:
            raise fault
        self.run = Run(program, setting.lines)
        self.followed = Followed(setting.setup, read_shown(self.run.ask("show main")))
        self.script: List[str] = []
        # How many events were stepped, and frames sent.
        self.events = self.tickets = 0
        self.in_flight: Dict[int, Frame] = {}
        # When the clocks are at what they are, in nanoseconds since 1970; not known before the first event.
        self.time: Optional[int] = None

    def close(self) -> None:
        """Ends the run."""
        self.run.close()

    # ---- the script

    def say(self, text: str) -> None:
        """Writes a comment."""
        self.script.append(f"# {text}")

    def say_before_last(self, text: str) -> None:
        """Writes a comment above the last event."""
        self.script.insert(len(self.script) - 1, f"# {text}")

    def begin(self, text: str) -> None:
        """Writes a comment that begins a paragraph."""
        if self.script and self.script[-1]:
            self.script.append("")
        self.say(text)

    # ---- events

    def step(self, event: str) -> List[str]:
        """The words of an event's outcome, or `refused` and the name of its refusal."""
        return self._took(event, self.run.ask(f"step main {event}")[0])

    def _took(self, event: str, reply: str) -> List[str]:
        words = reply.split()
        if words[0] == _REFUSED:
            return [_REFUSED, words[-1]]
        if words[0] != "step":
            raise Unknown(f"the program answers `{reply}` to `{event}`")
        self.script.append(f"step main {event}")
        self.events += 1
        if self.events > MOST_EVENTS:
            raise TooMuch(f"the script would have more than {MOST_EVENTS} events")
        return words[1:-2]

    def tick_to(self, time: int) -> None:
        """Lets both clocks go on to a time, by whole milliseconds."""
        if self.time is None:
            self.time = time
        milliseconds = (time - self.time + _MILLISECOND // 2) // _MILLISECOND
        if milliseconds <= 0:
            return
        for node in NODES:
            if self.step(f"{TICK.word} {node} {milliseconds}")[0] == _REFUSED:
                raise TooMuch(f"the captures cover more than the {LAST_MILLISECOND // YEAR} years that a clock of the laboratory can run")
        self.followed.tick(milliseconds)
        self.time += milliseconds * _MILLISECOND

    def packet(self, packet: PacketEvent) -> List[str]:
        """Lets a packet come."""
        outcome = self.step(event_of(packet))
        if outcome[0] != _REFUSED:
            self.followed.packet(packet, outcome)
        return outcome

    def flush(self, node: str) -> Optional[Frame]:
        """Lets a node send a frame; nothing if it has nothing to send."""
        event = f"{FLUSH.word} {node}"
        sent, shown = self.run.ask_together([f"step main {event}", f"frame main {self.tickets + 1}"])
        outcome = self._took(event, sent[0])
        if outcome[0] == _REFUSED:
            if outcome[1] == "LinkFull":
                raise TooMuch("more frames would be on their way at once than the link carries")
            return None
        self.tickets += 1
        frame = self.in_flight[self.tickets] = read_flight(shown).frame
        self.followed.sent(node, frame)
        return frame

    def deliver(self, ticket: int) -> None:
        """Lets a frame come to its receiver."""
        event = f"{DELIVER.word} {ticket}"
        why, came = self.run.ask_together([f"why main {event}", f"step main {event}"])
        outcome = self._took(event, came[0])
        if outcome[0] == _REFUSED:
            raise TooMuch(f"a frame could not be delivered ({outcome[1]}): more would be pending at a node than it holds")
        self.followed.came(self.in_flight.pop(ticket), read_explanation(why).records)

    def lose(self, ticket: int) -> None:
        """Loses a frame on its way."""
        self.step(f"{LOSE.word} {ticket}")
        del self.in_flight[ticket]

    def kill(self, node: str, name: Name) -> bool:
        """Lets a node delete a state, if it has it."""
        outcome = self.step(f"{KILL.word} {node} {name}")
        if outcome[0] != _REFUSED:
            self.followed.killed(node, name)
        return outcome[0] != _REFUSED

    def clear(self, node: str) -> None:
        """Lets a node give up its states."""
        if self.step(f"{CLEAR.word} {node}")[0] != _REFUSED:
            self.followed.cleared(node)

    def restart(self, node: str) -> None:
        """Lets a node begin anew."""
        if self.step(f"{RESTART.word} {node}")[0] != _REFUSED:
            self.followed.restarted(node)

    def drift(self) -> List[str]:
        """Where the states that were followed are not those that the program shows."""
        return self.followed.differing(read_shown(self.run.ask("show main")))


def passes(outcome: Sequence[str]) -> bool:
    """Whether the outcome of a packet lets it go on, at once or once it was held."""
    return outcome[0] in ("pass", "held")


def event_of(packet: PacketEvent) -> str:
    """A packet as the line of its event."""
    words = f"{PACKET.word} {packet.node} {packet.direction} {packet.protocol} {packet.source} {packet.destination}"
    if not packet.is_tcp:
        return f"{words} {packet.length}"
    scale = "" if packet.scale is None else f" {packet.scale}"
    return f"{words} {packet.flags} {packet.seq} {packet.ack} {packet.window} {packet.length}{scale}"
