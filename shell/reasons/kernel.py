"""Where FreeBSD 13's kernel, as far as its sources are known here, does otherwise than this project's profile (docs/REAL.md).

Each line is about one packet or one record, and about the numbers that the node has here: it is there only where these decide it."""
from __future__ import annotations

from typing import List, Optional, Sequence, Tuple

from ..language.names import SYN_SENT, Name
from ..language.packets import PacketEvent
from ..language.setups import CLEAR, ICMP, LOOSE, MERGE, RESET, REVIVE, RULE, SCALE, WINDOW, Switch
from ..model.explanations import OfState
from ..model.kernels import PROFILE, Kernel
from ..model.pair import Node
from ..model.states import Flow, State, is_closed
from ..model.tracking import MOST_APART, ends_of, judged
from .questions import name_list

PAGE = "docs/REAL.md"
THE_KERNEL = "FreeBSD's kernel, as far as we know its sources,"
# Its rules for packets, as they are now, and before a reset was asked for its number.
_NOW, _BEFORE = Kernel((WINDOW, LOOSE, RESET, SCALE)), Kernel((WINDOW, LOOSE, SCALE))
# The rules that may pass a packet, the fewest first.
_WAYS = ((WINDOW,), (LOOSE,), (SCALE,), (WINDOW, LOOSE), (WINDOW, SCALE), (LOOSE, SCALE))


# The states that are named with their rules.
MOST_KEPT = 3


# ---- packets

ANSWERING = "the answer to a scale, which offers one too, counts at both scales, although it has a SYN"


def explain_kernel_window(kernel: Kernel, state: State, packet: PacketEvent) -> List[str]:
    """That the kernel passes a TCP packet of a state that is dropped here for its window, and why; nothing if it drops it as well."""
    its = judged(_NOW, state, packet)
    if its.is_inside:
        return [f"{THE_KERNEL} passes this packet: {why_inside(state, packet, True)} {_words_for(kernel, state, packet)}"]
    if its.passes_loosely:
        return [f"{THE_KERNEL} passes this packet: {where_loose(state, packet)} {_words_for(kernel, state, packet)}"]
    if judged(_BEFORE, state, packet).is_inside:
        way = f"({_by(WINDOW)} without {RESET.word}; {PAGE})"
        return [f"{THE_KERNEL} may pass this packet: before 13.2-RELEASE-p7 it does not test the number of a reset {way}"]
    return []


def _words_for(kernel: Kernel, state: State, packet: PacketEvent) -> str:
    """With which words besides a packet would pass here, and the page about them."""
    for words in _WAYS:
        if passes(judged(kernel.with_words([one.word for one in words]), state, packet)):
            return f"({_by(*words)}; {PAGE})"
    return f"({PAGE})"


def passes(reason: OfState) -> bool:
    """Whether a packet passes, inside the window or loosely."""
    return reason.is_inside or reason.passes_loosely


def _by(*switches: Switch) -> str:
    return Kernel(switches).by


def rules_without(kernel: Kernel, switch: Switch) -> str:
    """By which rules a pair would go without one of the kernel's: by the profile, unless others of the kernel's are left."""
    others = kernel.without(switch)
    return others.by if others.is_profile else "without it"


def where_loose(state: State, packet: PacketEvent) -> str:
    """Where a packet may pass loosely, and how far it may be from what is known."""
    where = "the other end was not heard" if ends_of(state, packet)[1].level < SYN_SENT else "an end has closed"
    return f"where {where}, a packet may begin {MOST_APART} before lo, and end {MOST_APART} after hi"


def why_inside(state: State, packet: PacketEvent, asks_resets: bool) -> str:
    """Why a packet is inside the window by the kernel's rule, and is not by the profile; the number of a reset may be asked for."""
    sender, _ = ends_of(state, packet)
    if judged(Kernel((SCALE,)), state, packet).is_inside:
        return ANSWERING
    if sender.level and sender.lo == 0 and sender.window == 0:
        return "an end that was not heard begins with its first packet, whatever its level"
    if all(it.missed is None for which, it in judged(PROFILE, state, packet).edges.items() if which != "ack"):
        return "the acknowledged number 0 of a reset says nothing"
    if asks_resets and "R" in packet.flags:
        return "a reset may have the next number, or one beside it"
    return "a packet without data is judged by what it acknowledges alone"


# ---- records


def explain_takeover(names: Sequence[Name]) -> List[str]:
    """That the kernel takes over states that are bad here."""
    if not names:
        return []
    return [f"{THE_KERNEL} takes over {name_list(names)}, since what has the key is closed at both ends ({PAGE})"]


def has_key_of(one: Flow, two: Flow) -> bool:
    """Whether two states have one wire key, or one stack key."""
    return one.protocol == two.protocol and (one.wire == two.wire or one.stack == two.stack)


def gives_way(new: Flow, node: Node) -> bool:
    """Whether all states of a node with a key of a new one are closed at both ends, and began in its direction: to these the kernel
    prefers the new one."""
    old = [it for it in node.states.values() if has_key_of(it, new)]
    return bool(old) and all(is_closed(it) and it.direction == new.direction for it in old)


def explain_destinations(names: Sequence[Name]) -> List[str]:
    """That the kernel takes destination ends that are stale here."""
    if not names:
        return []
    return [f"{THE_KERNEL} takes the destination end of {name_list(names)} too, since the source end is not stale ({_by(MERGE)}; {PAGE})"]


def explain_rules(kept: Sequence[Tuple[Name, Optional[int]]]) -> List[str]:
    """That the kernel gives no rule to states that came as updates, and that keep theirs here."""
    if not kept:
        return []
    they = f"({_by(RULE)} {'they have' if len(kept) > 1 else 'it has'} none, and the default timeouts; {PAGE})"
    return [f"{THE_KERNEL} gives no rule to what comes as an update: here {keeping(kept)} {they}"]


def keeping(kept: Sequence[Tuple[Name, Optional[int]]]) -> str:
    """Which rules states keep; of many only the first."""
    more = f" and {len(kept) - MOST_KEPT} more keep theirs" * (len(kept) > MOST_KEPT)
    return ", ".join(f"{name} keeps rule {rule}" for name, rule in kept[:MOST_KEPT]) + more


def explain_revived(names: Sequence[Name]) -> List[str]:
    """That the kernel takes over states whose deletion is pending here."""
    if not names:
        return []
    return [f"{THE_KERNEL} takes over {name_list(names)}, although the deletion is pending ({_by(REVIVE)}; {PAGE})"]


def explain_spared(names: Sequence[Name]) -> List[str]:
    """That the kernel clears states that are newer than a clear here."""
    if not names:
        return []
    return [f"{THE_KERNEL} clears {name_list(names)} too, since a clear has no bound there ({_by(CLEAR)}; {PAGE})"]


def explain_echoes(names: Sequence[Name]) -> List[str]:
    """That the kernel finds nothing stale of states of ICMP."""
    if not names:
        return []
    return [f"{THE_KERNEL} has no levels of ICMP, so that nothing of {name_list(names)} is stale ({_by(ICMP)}; {PAGE})"]
