"""States, ends, queues and bulk updates in words: those of pfctl(8) and pfsync(4)."""
from __future__ import annotations

from typing import Dict, List, Optional, Tuple

from ..language.names import ALL_STATES, BULK_STATUSES, Name, level_name
from ..language.records import BULK_STATUS, CLEAR, QUEUES, UPDATE_REQUEST
from ..language.setups import NO_SYNC
from ..model.pair import Cleared, Node
from ..model.setups import Adaptive, Setup
from ..model.states import End, Flow, State

UNKNOWN_SETUP = "the setup is not known here: expiry times are those of the default timeouts and limits"
FLAGS = {"-": "none", "n": NO_SYNC.word, "k": "waits for an acknowledgement"}


def counted(number: int, noun: str, many: Optional[str] = None) -> str:
    """A number with its noun: `1 state`, `2 states`."""
    return f"{number} {noun if number == 1 else many or noun + 's'}"


def seconds(milliseconds: int) -> str:
    """A time in seconds, to the millisecond if it has any: `3 s`, `0.5 s`."""
    whole, part = divmod(milliseconds, 1000)
    return f"{whole}.{part:03}".rstrip("0").rstrip(".") + " s" if part else f"{whole} s"


def ago(milliseconds: int) -> str:
    """How long a time is past; by the kernel's rules a state can count as used at one that is yet to come."""
    return f"{seconds(milliseconds)} ago" if milliseconds >= 0 else f"{seconds(-milliseconds)} ahead of the clock"


# ---- flows and states


def _with_other(printed: str, other: str) -> str:
    return printed if printed == other else f"{printed} ({other})"


def _with_port_of(end: str, other: str) -> str:
    return f"{end.rpartition(':')[0]}:{other.rpartition(':')[2]}"


def flow(state: Flow) -> str:
    """The flow as pfctl prints a state: the near end, an arrow in the direction of its first packet, the far end; in brackets what
    translation hides."""
    outward = state.direction == "out"
    printed, other = (state.wire, state.stack) if outward else (state.stack, state.wire)
    near, far = other.near, other.far
    if state.protocol == "icmp":
        # An echo has its identifier as both ports; pfctl puts it in brackets at only one end.
        near, far = (near, _with_port_of(far, printed.far)) if outward else (_with_port_of(near, printed.near), far)
    arrow = "->" if outward else "<-"
    return f"{state.protocol} {_with_other(printed.near, near)} {arrow} {_with_other(printed.far, far)}"


def near_and_far(state: Flow) -> Tuple[End, End]:
    """The ends of the connection in the order in which pfctl prints them: the near one sent the first packet on its way out."""
    return (state.source, state.destination) if state.direction == "out" else (state.destination, state.source)


def levels(state: Flow) -> str:
    """The levels of the near and the far end, as pfctl prints them."""
    near, far = near_and_far(state)
    return f"{level_name(state.protocol, near.level)}:{level_name(state.protocol, far.level)}"


def state_line(state: Flow) -> str:
    """A state as the first line that pfctl prints of it, after its name."""
    return f"{state.name}  {flow(state)}  {levels(state)}"


def sequence(end: End) -> str:
    """The sequence numbers of an end as `pfctl -vss` prints them, and its greatest window."""
    scale = "" if end.scale is None else f" wscale {end.scale}"
    return f"[{end.lo} + {(end.hi - end.lo) % 2**32}]{scale} win {end.window}"


def expires_at(setup: Optional[Setup], node: Node, state: State) -> int:
    """When a state of a node expires, by the node's clock: its last use, and the timeout of its class under its rule, as shortened by
    the number of states that the node has. Without a setup timeouts and limits are the defaults."""
    known = setup or Setup()
    timeout = known.seconds(node.id, state.rule, state.timeout_class)
    return state.last + 1000 * known.adaptive.scaled(timeout, len(node.states))


def milliseconds_left(setup: Optional[Setup], node: Node, state: State) -> int:
    """How long until a state of a node expires. A purge deletes a state with no time left."""
    return expires_at(setup, node, state) - node.clock


def scaling(setup: Optional[Setup], node: Node) -> str:
    """By how much the number of states shortens the timeouts of a node; empty if it does not."""
    return scaled_by((setup or Setup()).adaptive, node.id, len(node.states))


def scaled_by(adaptive: Adaptive, node: str, states: int) -> str:
    """By how much this number of states shortens the timeouts of a node; empty if it does not."""
    if not adaptive.shortens(states):
        return ""
    start, end = adaptive
    by = f"are scaled by {end - states}/{end - start}" if states < end else "are all 0 s"
    return f"timeouts of {node} {by}: it has {counted(states, 'state')}, `astart` is {start}, `aend` {end}"


def expiry(left: int) -> str:
    """When a state expires, in whole seconds, as in pfctl and in the records of frames."""
    return "expired" if left <= 0 else f"expires in {left // 1000} s"


def expiries(one: int, two: int) -> str:
    """When a state expires at one node and at the other."""
    if one > 0 and two > 0:
        return f"expires in {one // 1000} s | {two // 1000} s"
    return f"{expiry(one)} | {expiry(two)}"


def rule_number(rule: Optional[int]) -> str:
    return "no rule" if rule is None else f"rule {rule}"


def end_fields(protocol: str, end: End) -> Dict[str, str]:
    """An end, field by field."""
    return {
        "level": level_name(protocol, end.level),
        "lo": str(end.lo),
        "hi": str(end.hi),
        "win": str(end.window),
        "wscale": "none" if end.scale is None else str(end.scale),
    }


def state_fields(state: State) -> Dict[str, str]:
    """Everything about a state except its name, field by field."""
    fields = {
        "protocol": state.protocol,
        "direction": state.direction,
        "wire near": state.wire.near,
        "wire far": state.wire.far,
        "stack near": state.stack.near,
        "stack far": state.stack.far,
    }
    for which, end in (("source", state.source), ("destination", state.destination)):
        fields.update({f"{which} {field}": text for field, text in end_fields(state.protocol, end).items()})
    fields.update(
        {
            "class": state.timeout_class,
            "last use": seconds(state.last),
            "rule": "none" if state.rule is None else str(state.rule),
            "flags": FLAGS.get(state.flags, state.flags),
            "update count": str(state.updates),
            "last change by the peer": "never" if state.peer is None else seconds(state.peer),
        }
    )
    return fields


# ---- what is sent to the peer


def request(name: Name) -> str:
    """A name that is asked for."""
    return "0.0 (all states)" if name == ALL_STATES else str(name)


def cleared(cleared: Cleared) -> str:
    return f"creator {cleared.creator} up to id {cleared.bound}"


def bulk_status(status: int) -> str:
    return BULK_STATUSES.get(status, str(status))


def pending_words(node: Node) -> str:
    """What a node has to send, by kind; empty if that is nothing."""
    kinds: Dict[str, List[str]] = {}
    for it in node.queue:
        kinds.setdefault(QUEUES[it.kind], []).append(str(it.name))
    if node.asks:
        kinds[UPDATE_REQUEST.name] = [request(ask) for ask in node.asks]
    if node.statuses:
        kinds[BULK_STATUS.name] = [bulk_status(status) for status in node.statuses]
    if node.clears:
        kinds[CLEAR.name] = [cleared(clear) for clear in node.clears]
    return "; ".join(f"{kind} {', '.join(those)}" for kind, those in kinds.items())


# ---- bulk updates


def bulk_server(serve: str) -> str:
    """What a node serves, from `CURSOR/SINCE`."""
    if serve == "-":
        return "idle"
    cursor, _, since = serve.partition("/")
    upto = "from its first state on" if Name.read(cursor) == ALL_STATES else f"all up to {cursor} had their turn"
    return f"asked for at {seconds(int(since))}, {upto}"


def bulk_client(sync: str) -> str:
    """What a node waits for, from `TRIES/ASKED`."""
    if sync == "-":
        return "idle"
    tries, _, asked = sync.partition("/")
    return f"waits for all states, {counted(int(tries), 'try', 'tries')}, last asked or heard at {seconds(int(asked))}"
