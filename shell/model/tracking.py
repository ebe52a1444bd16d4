"""What packets do to a state, and what they are tested against, by the rules of the profile or of the kernel (pfl_track/specs). The shell
says by this what other rules would do, and `./random-runs` compares it with the program."""
from __future__ import annotations

from dataclasses import replace
from typing import NamedTuple, Optional, Tuple

from ..language.names import CLOSING, ESTABLISHED, FIN_WAIT_2, MULTIPLE, SINGLE, SYN_SENT, TIME_WAIT
from ..language.packets import CIRCLE, PacketEvent, reaches
from ..language.setups import ICMP, LOOSE, RESET, SCALE, WINDOW
from .explanations import Edge, Loose, OfState
from .kernels import Kernel
from .states import End, State

# How far an acknowledged number may be from what is known, and how far a packet that passes loosely: a packet of 65535 bytes, and one more
# of 1500 (MAXACKWINDOW of pf.c).
MOST_APART = 65535 + 1500
# The greatest window that a packet can offer without a scale.
MOST_OFFERED = 65535
# An end that was not heard.
SILENT = End(0, None, 0, 0, 0)


class Segment(NamedTuple):
    """What a packet of TCP is judged by: its sender's end once it has begun, the other end, of which the scale may be void, where the
    packet begins and ends, and what it acknowledges if that counts; the window that it offers, and whether windows count at their scales;
    and whether it is judged by its sender's lo, since it has no data."""

    sender: End
    receiver: End
    seq: int
    end: int
    ack: Optional[int]
    window: int
    is_scaled: bool
    is_eased: bool

    def at_scale(self, end: End, window: int) -> int:
        """A window of an end in bytes."""
        return window << (end.scale or 0) if self.is_scaled else window


def ends_of(state: State, packet: PacketEvent) -> Tuple[End, End]:
    """The sender's end and the other one."""
    return (state.source, state.destination) if packet.direction == state.direction else (state.destination, state.source)


# ---- how a state begins


def in_units(window: int, scale: int) -> int:
    """A window in units of a scale, rounded up."""
    return (window + (1 << scale) - 1) >> scale


def void(end: End) -> End:
    """An end whose offer of a scale is not answered: its window is in bytes again, as far as one can be offered without a scale."""
    return replace(end, window=min(end.window << (end.scale or 0), MOST_OFFERED), scale=None)


def has_levels(kernel: Kernel, protocol: str) -> bool:
    """Whether packets move the levels of a protocol's states: by the kernel's rule those of ICMP are 0."""
    return not (protocol == "icmp" and kernel.has(ICMP))


def started(kernel: Kernel, packet: PacketEvent) -> Tuple[End, End, str]:
    """The source and the destination end, and the class, of the state that a packet makes."""
    if not packet.is_tcp:
        source = replace(SILENT, level=SINGLE) if has_levels(kernel, packet.protocol) else SILENT
        return source, SILENT, f"{packet.protocol if packet.protocol in ('udp', 'icmp') else 'other'}.first"
    window = max(packet.window, 1)
    if kernel.has(SCALE) and packet.scale is not None:
        window = in_units(window, packet.scale)
    return End(SYN_SENT, packet.scale, window, packet.seq, (packet.end + 1) % CIRCLE), SILENT, "tcp.first"


# ---- how a packet is judged


def is_first(kernel: Kernel, sender: End) -> bool:
    """Whether a packet is the first of its sender: by the profile an end is not heard that has level 0. By the kernel its lo is 0. (That it
    has no window is ours: a lo of 0 is met in scripts, whose numbers are small, and an end that has a window was heard.)"""
    return sender.lo == 0 and sender.window == 0 if kernel.has(WINDOW) else sender.level == 0


def answers(kernel: Kernel, sender: End, receiver: End, packet: PacketEvent) -> bool:
    """Whether a packet says what becomes of the scale that the other end has offered, by the kernel's rule: the first SYN of its sender."""
    return kernel.has(SCALE) and "S" in packet.flags and receiver.scale is not None and is_first(kernel, sender)


def segment(kernel: Kernel, sender: End, receiver: End, packet: PacketEvent) -> Segment:
    """What a packet between two ends is judged by."""
    does_answer = answers(kernel, sender, receiver, packet)
    window = packet.window
    if does_answer and packet.scale is None:
        receiver = void(receiver)
    elif does_answer and packet.scale is not None:
        window = in_units(window, packet.scale)
    is_begun = not is_first(kernel, sender)
    scale = packet.scale if not is_begun and ("S" in packet.flags or not kernel.has(WINDOW)) else sender.scale
    is_scaled = scale is not None and receiver.scale is not None and ("S" not in packet.flags or does_answer)
    seen = Segment(replace(sender, scale=scale), receiver, packet.seq, packet.end, None, window, is_scaled, False)
    if not is_begun:
        seen = seen._replace(sender=_begun(kernel, seen))
    counts = "A" in packet.flags and receiver.level >= SYN_SENT
    if not kernel.has(WINDOW):
        return seen._replace(ack=packet.ack if counts else None)
    ack = packet.ack if counts and not ("R" in packet.flags and packet.ack == 0) else receiver.lo
    lo, is_empty = seen.sender.lo, packet.seq == packet.end
    return seen._replace(seq=lo if is_empty else packet.seq, end=lo if is_empty else packet.end, ack=ack, is_eased=is_empty)


def _begun(kernel: Kernel, seen: Segment) -> End:
    """An end with its first packet. By the kernel it keeps its level and its allowance where these are further on."""
    sender, hi = seen.sender, (seen.end + max(1, seen.at_scale(seen.receiver, seen.receiver.window))) % CIRCLE
    if kernel.has(WINDOW) and sender.hi > 1 and not reaches(hi, sender.hi):
        hi = sender.hi
    return replace(sender, level=max(sender.level, SYN_SENT), window=0, lo=seen.seq, hi=hi)


def judged(kernel: Kernel, state: State, packet: PacketEvent) -> OfState:
    """What a packet of a state is tested against."""
    if not packet.is_tcp:
        return OfState(state.name, {})
    sender, receiver = ends_of(state, packet)
    return tested(kernel, state, segment(kernel, sender, receiver, packet), packet)


def tested(kernel: Kernel, state: State, seen: Segment, packet: PacketEvent) -> OfState:
    """What a packet of TCP is tested against, as it is judged."""
    edges = {
        "right": _up_to(seen.sender.hi, seen.end),
        "left": _back_to((seen.sender.lo - seen.at_scale(seen.receiver, seen.receiver.window)) % CIRCLE, seen.seq),
    }
    if seen.ack is not None:
        edges["ack"] = _near(seen.at_scale(seen.sender, MOST_APART), seen.receiver.lo, seen.ack)
    reset = _beside(seen.sender.lo, packet.seq) if kernel.has(RESET) and "R" in packet.flags else None
    inside = OfState(state.name, edges, seen.is_eased, reset)
    may_be_loose = kernel.has(LOOSE) and not inside.is_inside and is_lenient(seen.sender, seen.receiver)
    return inside._replace(loose=_loose(seen)) if may_be_loose else inside


def is_lenient(sender: End, receiver: End) -> bool:
    """Whether a packet between two ends may pass loosely: where the other end was not heard, or an end has closed."""
    return receiver.level < SYN_SENT or max(sender.level, receiver.level) >= FIN_WAIT_2


def _loose(seen: Segment) -> Loose:
    return Loose(_up_to(seen.sender.hi + MOST_APART, seen.end).missed, _back_to(seen.sender.lo - MOST_APART, seen.seq).missed)


def _up_to(bound: int, number: int) -> Edge:
    bound %= CIRCLE
    return Edge(number, (bound,), None if reaches(bound, number) else (number - bound) % CIRCLE)


def _back_to(bound: int, number: int) -> Edge:
    bound %= CIRCLE
    return Edge(number, (bound,), None if reaches(number, bound) else (bound - number) % CIRCLE)


def _near(ahead: int, lo: int, number: int) -> Edge:
    """Of an acknowledged number the nearer bound counts: so far before what the other end has sent, or so far after it."""
    behind = (lo - number) % CIRCLE
    is_near = behind <= ahead or behind >= CIRCLE - MOST_APART
    missed = None if is_near else min(behind - ahead, CIRCLE - MOST_APART - behind)
    return Edge(number, ((lo - ahead) % CIRCLE, (lo + MOST_APART) % CIRCLE), missed)


def _beside(lo: int, number: int) -> Edge:
    """The number of a reset may be the next one of its sender, or one beside it."""
    least, most = (lo - 1) % CIRCLE, (lo + 1) % CIRCLE
    is_beside = number in (least, lo, most)
    return Edge(number, (least, most), None if is_beside else min((least - number) % CIRCLE, (number - most) % CIRCLE))


# ---- what a packet does


def moved(kernel: Kernel, state: State, packet: PacketEvent, now: int) -> Optional[State]:
    """A state after a packet of it at some time; nothing if the packet is dropped. A packet that passes loosely does not renew it."""
    if not packet.is_tcp:
        heard = _with_ends(state, packet, *_heard(*ends_of(state, packet))) if has_levels(kernel, packet.protocol) else state
        return _used(heard, now)
    sender, receiver = ends_of(state, packet)
    seen = segment(kernel, sender, receiver, packet)
    tests = tested(kernel, state, seen, packet)
    if tests.is_inside:
        return _used(_with_ends(state, packet, *_after(seen, packet, is_loose=False)), now)
    return _with_ends(state, packet, *_after(seen, packet, is_loose=True)) if tests.passes_loosely else None


def _with_ends(state: State, packet: PacketEvent, sender: End, receiver: End) -> State:
    source, destination = (sender, receiver) if packet.direction == state.direction else (receiver, sender)
    return replace(state, source=source, destination=destination)


def _heard(sender: End, receiver: End) -> Tuple[End, End]:
    """Ends of another protocol than TCP."""
    answered = replace(receiver, level=MULTIPLE) if receiver.level == SINGLE else receiver
    return replace(sender, level=max(sender.level, SINGLE)), answered


def _after(seen: Segment, packet: PacketEvent, is_loose: bool) -> Tuple[End, End]:
    """The ends after a packet of TCP that passes."""
    level, other = (_loose_levels if is_loose else _levels)(packet, seen.sender.level, seen.receiver.level)
    lo = seen.end if seen.end != seen.sender.lo and reaches(seen.end, seen.sender.lo) else seen.sender.lo
    offered, hi = seen.at_scale(seen.sender, seen.window), seen.receiver.hi
    if seen.ack is not None and reaches(seen.ack + offered, hi):
        hi = (seen.ack + max(offered, 1)) % CIRCLE
    sender = replace(seen.sender, level=level, window=max(seen.sender.window, seen.window, 1), lo=lo)
    return sender, replace(seen.receiver, level=other, hi=hi)


def _levels(packet: PacketEvent, sender: int, receiver: int) -> Tuple[int, int]:
    """The levels of both ends after a packet inside the window."""
    if "R" in packet.flags:
        return TIME_WAIT, TIME_WAIT
    sender = max(sender, SYN_SENT if "S" in packet.flags else 0, CLOSING if "F" in packet.flags else 0)
    acknowledged = {SYN_SENT: ESTABLISHED, CLOSING: FIN_WAIT_2}
    return sender, acknowledged.get(receiver, receiver) if "A" in packet.flags else receiver


def _loose_levels(packet: PacketEvent, sender: int, receiver: int) -> Tuple[int, int]:
    """The same after one that passes loosely: neither SYN nor ACK lifts an end."""
    if "R" in packet.flags:
        return TIME_WAIT, TIME_WAIT
    return max(sender, CLOSING) if "F" in packet.flags else sender, receiver


def _used(state: State, now: int) -> State:
    return replace(state, last=now, timeout_class=_class_of(state.protocol, state.source.level, state.destination.level))


def _class_of(protocol: str, source: int, destination: int) -> str:
    """The class of a state that was used, by the levels of its ends."""
    if protocol == "icmp":
        return "icmp.error"
    if protocol != "tcp":
        kind = "udp" if protocol == "udp" else "other"
        return f"{kind}.multiple" if source == destination == MULTIPLE else f"{kind}.single"
    low, high = sorted((source, destination))
    if low >= FIN_WAIT_2:
        return "tcp.closed"
    if low >= CLOSING:
        return "tcp.finwait"
    if low < ESTABLISHED:
        return "tcp.opening"
    return "tcp.closing" if high >= CLOSING else "tcp.established"
