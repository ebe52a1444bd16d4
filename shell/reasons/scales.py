"""What becomes of the windows that SYNs offer, by the rule `scale` of the kernel and by the profile: the profile keeps such a window as it
is, and takes it for units of the scale once there is no SYN any more."""
from __future__ import annotations

from dataclasses import replace
from typing import Iterator, List, NamedTuple, Optional

from ..language.commands import KERNEL
from ..language.events import PACKET, read_packet
from ..language.packets import PacketEvent
from ..language.setups import LOOSE, RESET, SCALE, WINDOW
from ..model.kernels import Kernel
from ..model.states import End, State
from ..model.tracking import answers, ends_of, in_units, is_first, judged, void
from .kernel import PAGE, THE_KERNEL, passes
from .questions import Question

BY = f"{KERNEL.word} {SCALE.word}"
# All rules by which the kernel judges a packet.
_EVERY = Kernel((WINDOW, LOOSE, RESET, SCALE))


# ---- windows that are kept


def explain_new_scale(kernel: Kernel, packet: PacketEvent) -> List[str]:
    """How the window of a SYN that makes a state is kept; nothing if it is kept in bytes by both rules."""
    return _kept(kernel, packet) if packet.is_tcp else []


def explain_answered_scale(kernel: Kernel, state: State, packet: PacketEvent) -> List[str]:
    """What a SYN that passes makes of the scales of a state; nothing if both rules keep the same windows."""
    sender, receiver = ends_of(state, packet)
    if not answers(kernel.with_words([SCALE.word]), sender, receiver, packet):
        return []
    if packet.scale is not None:
        return _kept(kernel, packet)
    name, left = "source" if receiver is state.source else "destination", void(receiver)
    return [f"it offers no scale, so by {BY} that of the {name} end is void: its window is {left.window} now"] * kernel.has(SCALE)


def _kept(kernel: Kernel, packet: PacketEvent) -> List[str]:
    window = max(packet.window, 1)
    units = in_units(window, packet.scale or 0)
    if units == window:
        return []
    if kernel.has(SCALE):
        return [f"by {BY} its window {window} is kept as {units}, in units of its scale {packet.scale}"]
    return [f"{THE_KERNEL} keeps its window {window} as {units}, in units of its scale {packet.scale} (by {BY}; {PAGE})"]


# ---- packets of which they decide


class Offered(NamedTuple):
    """The window of an end's first SYN, its scale, and the greatest window of its later packets, wherever these came and passed."""

    window: int
    scale: int
    later: int

    @property
    def units(self) -> int:
        return in_units(self.window, self.scale)


def explain_old_segment(question: Question, state: State) -> List[str]:
    """That the kernel drops a packet which passes here because the window of a SYN counts at its scale; nothing if it passes it, or may."""
    kernel, packet = question.lab.setup.kernel, question.packet
    # (most packets are not old: they pass whatever the window is)
    if kernel.has(SCALE) or passes(judged(kernel, _with_window(state, packet, 0), packet)):
        return []
    offered, (_, receiver) = _offered(question, state), ends_of(state, packet)
    if offered is None or receiver.window != offered.window or max(offered.units, offered.later) >= offered.window:
        return []
    other = _with_window(state, packet, max(offered.units, offered.later))
    if any(passes(judged(one, other, packet)) for one in (kernel.with_words([SCALE.word]), _EVERY)):
        return []
    name, missed = _name(state, receiver), judged(kernel, other, packet).edges["left"].missed
    kept = f"it keeps the window {offered.window} of the SYN of the {name} end as {offered.units}, in units of the scale {offered.scale}"
    return [f"{THE_KERNEL} drops this packet: {kept}, and seq {packet.seq} begins {missed} below what that allows (by {BY}; {PAGE})"]


def explain_kept_in_units(question: Question, state: State) -> List[str]:
    """That the profile passes a packet which is dropped here because the window of a SYN was kept in units of its scale; nothing if it
    drops it, or may."""
    kernel, packet = question.lab.setup.kernel, question.packet
    if not kernel.has(SCALE) or judged(kernel, state, packet).edges["left"].missed is None:
        return []
    offered, (_, receiver) = _offered(question, state), ends_of(state, packet)
    if offered is None or not offered.units <= receiver.window < offered.window:
        return []
    if not passes(judged(kernel.without(SCALE), _with_window(state, packet, offered.window), packet)):
        return []
    name = _name(state, receiver)
    whose = f"by {BY} the window {offered.window} of the SYN of the {name} end"
    kept = f"{whose} was kept as {offered.units}, in units of the scale {offered.scale}"
    return [f"{kept}; by the profile it counts as {offered.window} such units, and this packet passes"]


def _offered(question: Question, state: State) -> Optional[Offered]:
    """What the other end than the sender of the packet has offered, if its state has the scale of its first SYN, and windows count at it."""
    packet, (sender, receiver) = question.packet, ends_of(state, question.packet)
    if not receiver.scale or sender.scale is None or "S" in packet.flags or is_first(question.lab.setup.kernel, sender):
        return None
    its = [it for it in map(read_packet, _packets(question)) if _is_of(state, it) and it.direction != packet.direction]
    syns = [it for it in its if "S" in it.flags and it.scale == receiver.scale]
    if not syns:
        return None
    return Offered(syns[0].window, receiver.scale, max((it.window for it in its if it is not syns[0]), default=0))


def _packets(question: Question) -> Iterator[str]:
    return (line for line in question.history.lines if line.split(None, 1)[0] == PACKET.word)


def _is_of(state: State, packet: PacketEvent) -> bool:
    return packet.is_tcp and packet.key == (state.wire if packet.direction == "in" else state.stack)


def _name(state: State, end: End) -> str:
    return "source" if end is state.source else "destination"


def _with_window(state: State, packet: PacketEvent, window: int) -> State:
    """A state where the end to which a packet goes has another window."""
    if packet.direction == state.direction:
        return replace(state, destination=replace(state.destination, window=window))
    return replace(state, source=replace(state.source, window=window))
