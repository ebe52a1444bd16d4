"""The events of a night in the order of their times: frames that were sent and that came, and packets that were carried or blocked."""
from __future__ import annotations

from typing import Callable, Dict, Iterator, NamedTuple

from ..language.packets import PacketEvent
from ..model.pair import other
from .blocking import Blocking
from .carrying import Carrying
from .causes import Causes
from .comparing import Agreement, Comparing
from .night import Night
from .playing import Playing, passes
from .setting import Setting


class Moment(NamedTuple):
    """Something that happens: when; at one time packets come before frames are sent, and these before frames come."""

    time: int
    order: int
    number: int
    happen: Callable[[int], None]


class Happening:
    """Lets a night happen in the laboratory."""

    def __init__(self, night: Night, playing: Playing, setting: Setting):
        self.night, self.playing = night, playing
        self.carrying = Carrying(night, setting)
        self.causes = Causes(night, playing, self.carrying)
        self.blocking = Blocking(night, playing, setting, self.causes.captured)
        self.comparing = Comparing(night, self.causes.captured, setting)
        self._tickets: Dict[int, int] = {}

    @property
    def agreement(self) -> Agreement:
        """How far the frames so far agree with the captured ones."""
        return self.comparing.found

    def play(self) -> None:
        """Lets everything happen."""
        self.carrying.used |= self.blocking.seen_twice()
        moments = sorted(self._moments(), key=lambda it: it[:3])
        if moments:
            self.playing.tick_to(moments[0].time)
        self.causes.begin()
        for it in moments:
            it.happen(it.number)

    def _moments(self) -> Iterator[Moment]:
        for number, (_, carried) in enumerate(self.night.carried):
            yield Moment(carried.time, 0, number, self._carry)
        for number, (_, logged) in enumerate(self.night.logged):
            yield Moment(logged.time, 1, number, self._block)
        for place, sent in enumerate(self.night.sent):
            yield Moment(sent.time, 2, place, self._send)
            if sent.came is not None:
                yield Moment(max(sent.came, sent.time), 3, place, self._come)

    # ---- frames

    def _send(self, place: int) -> None:
        sent = self.night.sent[place]
        self.playing.tick_to(sent.time)
        self.playing.begin(f"{self.night.times.at(sent.time)} frame {sent.number} of {sent.node}; {self._fate(place)}")
        self.causes.cause(sent, place)
        frame = self.playing.flush(sent.node)
        for line in self.comparing.compare(sent, frame):
            if frame:
                self.playing.say_before_last(line)
            else:
                self.playing.say(line)
        if frame:
            self._tickets[place] = frame.ticket
            if sent.came is None:
                self._come(place)

    def _fate(self, place: int) -> str:
        """Whether a frame came, and how that is known."""
        sent, receiver = self.night.sent[place], other(self.night.sent[place].node)
        if sent.arrived is None:
            return "nothing says whether it came"
        if place in self.night.shown:
            what = "it came" if sent.arrived else "it did not come in time, or that a state of it was refused"
            return f"later messages of {receiver} show that {what}"
        if sent.arrived:
            return f"it came to {receiver}"
        return f"it is not in the capture of {receiver} (lost on the way, late, or not captured)"

    def _come(self, place: int) -> None:
        """The frame came, or was lost; one of which nothing is known comes at once."""
        ticket, sent = self._tickets.pop(place, None), self.night.sent[place]
        if ticket is None:
            return
        self.playing.tick_to(sent.time if sent.came is None else max(sent.came, sent.time))
        if sent.arrived is False:
            self.playing.lose(ticket)
            return
        self.causes.before_delivery(sent, place)
        self.playing.deliver(ticket)

    # ---- packets

    def _carry(self, number: int) -> None:
        """A packet that an interface carried."""
        node, carried = self.night.carried[number]
        packet = self.carrying.events[number] if number not in self.carrying.used else None
        if packet is None:
            return
        self.playing.tick_to(carried.time)
        self._forget_other(packet, carried.packet.source)
        outcome = self.playing.packet(packet)
        if packet.direction == "out" and not passes(outcome):
            self.playing.say_before_last(f"this packet left {node}, and is dropped here")

    def _forget_other(self, packet: PacketEvent, source: str) -> None:
        """Deletes the state that would let a packet out with another source than it had on the wire: it was gone by then."""
        state = self.playing.followed.tables[packet.node].found(packet) if packet.direction == "out" else None
        if state and state.wire.near != source:
            gone = f"not with that of {state.name}, which was gone by then"
            self.playing.say(f"the next packet left {packet.node} with the source {source}, and {gone}")
            self.playing.kill(packet.node, state.name)

    def _block(self, number: int) -> None:
        self.blocking.block(*self.night.logged[number])
