"""The window test of a TCP packet with its numbers, in words."""
from __future__ import annotations

from typing import List, Optional, Tuple

from ..language.commands import KERNEL
from ..language.names import level_name
from ..language.packets import CIRCLE, PacketEvent
from ..language.setups import LOOSE, RESET, SCALE, WINDOW
from ..model.explanations import Edge, OfState
from ..model.kernels import PROFILE, Kernel
from ..model.states import End, State
from ..model.tracking import ends_of, judged, segment
from .absence import explain_lag
from .elsewhere import is_same
from .expiry import explain_overdue
from .kernel import ANSWERING, PAGE, THE_KERNEL, explain_kernel_window, passes, where_loose, why_inside
from .questions import Question, peer_of, state_words
from .scales import BY as BY_SCALE, explain_answered_scale, explain_kept_in_units, explain_old_segment

# The rules that ask the number of a reset alone.
_ASKING = Kernel((WINDOW, RESET))
# By how much a number misses its bounds, if it does, and the words for that.
Said = Tuple[Optional[int], str]


def explain_window(question: Question, reason: OfState) -> List[str]:
    """The edges that the packet misses, its numbers and those of the state, and what the peer would have done."""
    packet, state = question.packet, question.table(question.packet.node).states[reason.name]
    kernel = question.lab.setup.kernel
    words = [*_tests(kernel, reason, state, packet), *_loose(reason, state, packet)]
    return [
        *(text for missed, text in words if missed is not None),
        f"{state_words(state)} of {packet.node} matches it, and it comes from the {_names(state, packet)[0]} end",
        _packet_words(packet),
        *([f"it has no data, so by {KERNEL.word} {WINDOW.word} it is judged by what it acknowledges alone"] if reason.is_eased else []),
        f"source end: {_end_words(state, state.source)}",
        f"destination end: {_end_words(state, state.destination)}",
        *(question.paint.dim(f"holds: {text}") for missed, text in words if missed is None),
        *explain_kept_in_units(question, state),
        *explain_kernel_window(kernel, state, packet),
        *explain_overdue(question, question.table(packet.node), state),
        *_at_peer(question, state),
    ]


def explain_way(question: Question, reason: OfState, state: State) -> List[str]:
    """By which rule of the kernel a packet of TCP passes that would be dropped otherwise, if it would; what it makes of the scales of the
    state, and whether it passes by that of a SYN alone."""
    kernel, packet = question.lab.setup.kernel, question.packet
    way = _way(kernel, reason, state, packet)
    lines = [*way, *explain_answered_scale(kernel, state, packet), *([] if way else explain_old_segment(question, state))]
    return lines if kernel.has(WINDOW) else [*lines, *_not_next(kernel, state, packet)]


def _way(kernel: Kernel, reason: OfState, state: State, packet: PacketEvent) -> List[str]:
    if reason.passes_loosely:
        return [
            *_missed(kernel, reason, state, packet),
            f"by {KERNEL.word} {LOOSE.word} it passes nevertheless: {where_loose(state, packet)}",
            f"such a packet does not renew the state: it was last used at {state.last} ms, as {state.timeout_class}",
        ]
    missed = _missed(PROFILE, judged(PROFILE, state, packet), state, packet)
    lines = [f"by the profile a packet with these numbers is dropped: {text}" for text in missed[:1]]
    if missed and kernel.has(SCALE) and not passes(judged(kernel.without(SCALE), state, packet)):
        lines.append(f"by {BY_SCALE} it passes: {ANSWERING}")
    elif missed:
        lines.append(f"by {KERNEL.word} {WINDOW.word} it passes: {why_inside(state, packet, reason.reset is not None)}")
    if reason.is_eased and reason.reset is None and "R" in packet.flags:
        lines += _any_number(state, packet)
    return lines


def _any_number(state: State, packet: PacketEvent) -> List[str]:
    """That a reset passes with any number; nothing if it has the one that the kernel asks for from a release on."""
    missed = _missed(_ASKING, judged(_ASKING, state, packet), state, packet)
    said = f"by {KERNEL.word} {WINDOW.word} without {RESET.word} a reset passes with any number; with both this one is dropped"
    return [f"{said}: {text}" for text in missed]


def _not_next(kernel: Kernel, state: State, packet: PacketEvent) -> List[str]:
    """That the kernel drops a reset which passes here, since it does not have the next number; nothing if it passes it."""
    if kernel.has(RESET) or "R" not in packet.flags:
        return []
    by_number = kernel.with_words([RESET.word])
    its = judged(by_number, state, packet)
    missed = [] if passes(its) or its.reset is None else _missed(by_number, its._replace(edges={}), state, packet)
    return [f"{THE_KERNEL} drops this packet from 13.2-RELEASE-p7 on: {text} ({PAGE})" for text in missed]


def _missed(kernel: Kernel, reason: OfState, state: State, packet: PacketEvent) -> List[str]:
    """The tests that a packet does not meet."""
    return [text for missed, text in _tests(kernel, reason, state, packet) if missed is not None]


def _names(state: State, packet: PacketEvent) -> Tuple[str, str]:
    """The names of the sender's end and of the other one."""
    return ("source", "destination") if packet.direction == state.direction else ("destination", "source")


def _tests(kernel: Kernel, reason: OfState, state: State, packet: PacketEvent) -> List[Said]:
    """The edges of the window, and the number of a reset if it is asked for: what is compared, and where its bounds come from."""
    words = [(edge.missed, _edge(which, kernel, reason, state, packet)) for which, edge in reason.edges.items()]
    return [*words, *([(reason.reset.missed, _reset(reason.reset, state, packet))] if reason.reset else [])]


def _edge(which: str, kernel: Kernel, reason: OfState, state: State, packet: PacketEvent) -> str:
    edge, (sender, receiver) = reason.edges[which], ends_of(state, packet)
    name, other = _names(state, packet)
    bound = edge.bounds[0]
    if which == "right":
        beyond = "not above" if edge.missed is None else f"{edge.missed} above"
        end = f"lo {edge.number} of the {name} end is" if reason.is_eased else f"seq {packet.seq} ends at {edge.number},"
        return f"{end} {beyond} {bound} (hi of the {name} end)"
    if which == "left":
        beyond = "not below" if edge.missed is None else f"{edge.missed} below"
        # (an end that had been silent begins with this packet, and the other one's scale may be void by it)
        seen = segment(kernel, sender, receiver, packet)
        first, receiver = seen.sender.lo, seen.receiver
        window = (first - bound) % CIRCLE
        scaled = "" if window == receiver.window else f" ({receiver.window} at scale {receiver.scale})"
        less = f"lo {first} of the {name} end less the window {window}{scaled} of the {other} end{', mod 2^32' * (first < window)}"
        begins = f"lo {edge.number} of the {name} end is" if reason.is_eased else f"seq {edge.number} begins"
        return f"{begins} {beyond} {bound} ({less})"
    return _ack(edge, receiver, other, packet)


def _ack(edge: Edge, receiver: End, other: str, packet: PacketEvent) -> str:
    """What a packet acknowledges; by the kernel's rule, what the other end has sent, if that does not count."""
    bound, most = edge.bounds
    lo, counts = f"lo {receiver.lo} of the {other} end", "A" in packet.flags and edge.number == packet.ack
    ack = f"ack {edge.number} is" if counts else f"no acknowledgement counts, so {lo} does: it is"
    less, more = f"less {(receiver.lo - bound) % CIRCLE}", f"and {(most - receiver.lo) % CIRCLE} more"
    if edge.missed is None:
        return f"{ack} between {bound} and {most} ({lo} {less}, {more})"
    is_above = (edge.number - most) % CIRCLE == edge.missed
    return f"{ack} {edge.missed} above {most} ({lo} {more})" if is_above else f"{ack} {edge.missed} below {bound} ({lo} {less})"


def _reset(edge: Edge, state: State, packet: PacketEvent) -> str:
    """The number of a reset."""
    least, most = edge.bounds
    wanted = f"by {KERNEL.word} {RESET.word} a reset needs lo {(least + 1) % CIRCLE} of the {_names(state, packet)[0]} end, or one beside it"
    if edge.missed is None:
        return f"seq {edge.number} is between {least} and {most} ({wanted})"
    beyond = f"above {most}" if (edge.number - most) % CIRCLE == edge.missed else f"below {least}"
    return f"seq {edge.number} is {edge.missed} {beyond} ({wanted})"


def _loose(reason: OfState, state: State, packet: PacketEvent) -> List[Said]:
    """How a packet that is dropped misses what may pass loosely."""
    if reason.loose is None:
        return []
    right, left = reason.loose
    beyond = [f"ends {right} after that"] * (right is not None) + [f"begins {left} before that"] * (left is not None)
    return [(right or left, f"by {KERNEL.word} {LOOSE.word}, {where_loose(state, packet)}; this one {' and '.join(beyond)}")]


def _at_peer(question: Question, state: State) -> List[str]:
    """What the program answers to the same packet at the peer, if that has other numbers for the state."""
    node, there = question.packet.node, question.at_peer
    peer = peer_of(question, node)
    copy = peer.states.get(state.name)
    if copy is None or is_same(copy, state):
        return []
    gives = f": the same packet at {peer.id} gives `{there.event.came}`" if there else ""
    return [f"node {peer.id} has other numbers for state {state.name}{gives}", *explain_lag(question, state.name, node)]


def _packet_words(packet: PacketEvent) -> str:
    scale = "" if packet.scale is None else f" wscale {packet.scale}"
    return f"packet: flags {packet.flags} seq {packet.seq} ack {packet.ack} win {packet.window} len {packet.length}{scale}"


def _end_words(state: State, end: End) -> str:
    if not end.level:
        return "CLOSED, not heard of yet"
    scale = "no wscale" if end.scale is None else f"wscale {end.scale}"
    return f"{level_name(state.protocol, end.level)} lo {end.lo} hi {end.hi} win {end.window} {scale}"
