"""The pair in the words of `pfctl -vss` and `pfctl -si`, and its link in those of tcpdump."""
from __future__ import annotations

import textwrap
from typing import List, Optional

from ..console.colours import Paint
from ..language.commands import KERNEL
from ..language.events import MOST_TRIES
from ..language.names import COUNTERS, NODES, Name
from ..language.setups import BULK_MS, DEFER_MS
from ..model.checksums import rules_checksum
from ..model.flights import Flight
from ..model.frames import HEADER, Frame
from ..model.pair import Held, Node, Pair, other
from ..model.setups import Setup
from ..model.states import State
from .records import record_line
from .words import (
    FLAGS,
    UNKNOWN_SETUP,
    ago,
    bulk_client,
    bulk_server,
    counted,
    expiry,
    milliseconds_left,
    near_and_far,
    pending_words,
    rule_number,
    scaling,
    seconds,
    sequence,
    state_line,
)

# The length of the lines of a long list, and how far they are indented.
WIDTH, FURTHER = 120, 4


def view(pair: Pair, setup: Optional[Setup], paint: Paint, columns: Optional[int] = None, part: str = "") -> List[str]:
    """All of a pair: both nodes, and what is in flight; or only a node or a state, by its name; and last which rules are the kernel's, if
    any are. Long lists are in lines for this many columns, if that is known."""
    return [*_contents(pair, setup, paint, columns, part), *(_by_kernel(setup, paint) if setup else ())]


def _by_kernel(setup: Setup, paint: Paint) -> List[str]:
    return [] if setup.kernel.is_profile else [paint.note(f"{setup.kernel.by}: not the profile (see: help {KERNEL.word})")]


def _contents(pair: Pair, setup: Optional[Setup], paint: Paint, columns: Optional[int], part: str) -> List[str]:
    undone = pair.events - pair.cursor
    rest = f", {undone} undone" if undone else ""
    lines = [paint.head(f"branch {pair.branch}") + f"  {counted(pair.cursor, 'event')}{rest}"]
    if setup is None:
        lines.append(paint.note(UNKNOWN_SETUP))
    if part and part not in NODES:
        return [*lines, *_both(pair, Name.read(part), setup, paint)]
    for node in [part] if part else NODES:
        lines += _node(pair.nodes[node], setup, paint, columns)
    return lines if part else lines + _link(pair, setup, paint)


def _both(pair: Pair, name: Name, setup: Optional[Setup], paint: Paint) -> List[str]:
    """A state at both nodes, or a line that one of them has no state of this name."""
    lines: List[str] = []
    for node in pair.nodes.values():
        state = node.states.get(name)
        lines.append(paint.head(f"node {node.id}") + ("" if state else f"  no state {name}"))
        lines += _state(state, node, setup, paint) if state else []
    return lines


# ---- nodes


def _node(node: Node, setup: Optional[Setup], paint: Paint, columns: Optional[int]) -> List[str]:
    numbers = f"clock {seconds(node.clock)}, boot {node.boot}, next id {node.next_id}, next queueing number {node.next_number}"
    lines = [paint.head(f"node {node.id}") + f"  {numbers}"]
    if not node.states:
        lines.append("  no states")
    if scaling(setup, node):
        lines.append(paint.note(f"  {scaling(setup, node)}"))
    for name in sorted(node.states):
        lines += _state(node.states[name], node, setup, paint)
    lines.append(_counters(node))
    lines += _to_be_sent(node, paint, min(WIDTH, columns - FURTHER) if columns else WIDTH)
    lines += [paint.note(f"  {held_packet(it, node, setup)}") for it in node.held]
    return lines + _bulk_update(node, setup, paint)


def _state(state: State, node: Node, setup: Optional[Setup], paint: Paint) -> List[str]:
    """A state as `pfctl -vss` prints it: its flow and levels; for TCP its sequence numbers; and what else is known about it."""
    lines = [f"  {state_line(state)}"]
    indent = " " * (len(str(state.name)) + 4)
    if state.protocol == "tcp":
        lines.append(indent + "  ".join(map(sequence, near_and_far(state))))
    return [*lines, indent + ", ".join(_verbose(state, node, setup, paint))]


def _verbose(state: State, node: Node, setup: Optional[Setup], paint: Paint) -> List[str]:
    left = milliseconds_left(setup, node, state)
    said = [expiry(left) if left > 0 else paint.note(expiry(left)), state.timeout_class]
    said.append(f"last used {ago(node.clock - state.last)}")
    if state.flags != "-":
        said.append(FLAGS.get(state.flags, state.flags))
    if state.updates:
        said.append(f"update count {state.updates}")
    if state.peer is not None:
        said.append(f"changed by the peer {seconds(node.clock - state.peer)} ago")
    rule = setup.rule(node.id, state.rule) if setup else None
    return [*said, rule_number(state.rule) + (f": {rule.described}" if rule else "")]


def _counters(node: Node) -> str:
    """The counters that are not 0, each with what it counts."""
    said = [f"{counter.counts} {node.counters[counter.name]}" for counter in COUNTERS if node.counters[counter.name]]
    if not said:
        return "  counters: all 0"
    rest = len(COUNTERS) - len(said)
    return f"  counters: {', '.join(said)}" + (f"; the other {rest} are 0" if rest else "")


def _to_be_sent(node: Node, paint: Paint, width: int) -> List[str]:
    """What a flush has to send, by kind, and whether the frame is wanted soon."""
    push, text = ", push asked" if node.push else "", pending_words(node)
    if not text:
        return [paint.note("  nothing to send to the peer, push asked")] if push else []
    lines = textwrap.wrap(f"to send to {other(node.id)} ({node.pending}{push}): {text}", width, break_long_words=False)
    return [paint.note(" " * (FURTHER if at else 2) + it) for at, it in enumerate(lines)]


def held_packet(held: Held, node: Node, setup: Optional[Setup]) -> str:
    """A held packet with its state, and when it is due."""
    due = held.since + (setup or Setup()).limits[DEFER_MS]
    when = f"due since {seconds(due)}" if due <= node.clock else f"due at {seconds(due)}"
    packet = f" ({held.packet})" if held.packet else ""
    return f"held packet of {held.name}{packet}: since {seconds(held.since)}, {when}"


def _bulk_update(node: Node, setup: Optional[Setup], paint: Paint) -> List[str]:
    lines: List[str] = []
    if node.serve != "-":
        lines.append(f"  serves a bulk update, {bulk_server(node.serve)}")
    if node.sync != "-":
        tries, _, asked = node.sync.partition("/")
        again = seconds(int(asked) + (setup or Setup()).limits[BULK_MS])
        then = f"asks again at {again} at the earliest" if int(tries) < MOST_TRIES else f"gives up at {again} at the earliest"
        lines.append(f"  {bulk_client(node.sync)}; {then}")
    return [paint.note(line) for line in lines]


# ---- the link


def _link(pair: Pair, setup: Optional[Setup], paint: Paint) -> List[str]:
    what = counted(len(pair.frames), "frame") + " in flight" if pair.frames else "nothing in flight"
    lines = [paint.head("link") + f"  {what}, next ticket {pair.next_ticket}, next boot {pair.next_boot}"]
    for ticket in sorted(pair.frames):
        lines += _frame(pair.frames[ticket], setup, paint)
    return lines


def flight(flight: Flight, cursor: int, setup: Optional[Setup], paint: Paint) -> List[str]:
    """A frame as it was sent, and the events that sent it and happened to it, when this many of the branch's events stand."""
    lines = [line[2:] for line in _frame(flight.frame, setup, paint)]
    lines += [f"  {one}" if one.number <= cursor else paint.dim(f"  {one}  (undone)") for one in (flight.sent, *flight.later)]
    is_over = flight.ended is not None and flight.ended.number <= cursor
    return lines + ["  it is in flight"] * (flight.sent.number <= cursor and not is_over)


def _frame(frame: Frame, setup: Optional[Setup], paint: Paint) -> List[str]:
    """A frame in flight, and its records, one per line."""
    head = f"  {frame_head(frame, setup)}"
    if frame.broken:
        return [f"{head}: {paint.bad(frame.summary)}"]
    return [f"{head}: {frame.summary}", *(f"    {record_line(record)}" for record in frame.records)]


def frame_head(frame: Frame, setup: Optional[Setup]) -> str:
    """A frame with its receiver, its size, and whose rules its checksum is of."""
    return f"frame {frame.ticket} to {frame.to}, {counted(len(frame.data), 'byte')}{_rules(frame, setup)}"


def _rules(frame: Frame, setup: Optional[Setup]) -> str:
    """The checksum in the header, compared with those of the rules of the sender and of the receiver."""
    if len(frame.data) < HEADER:
        return ""
    checksum = frame.checksum
    text = f", rules {checksum[:8]}"
    if setup is None:
        return text
    sender = other(frame.to)
    if checksum != rules_checksum(setup.rules[sender]):
        return f"{text}, not those of {sender}"
    same = checksum == rules_checksum(setup.rules[frame.to])
    return f"{text} of {sender}, {frame.to} has {'the same' if same else 'others'}"
