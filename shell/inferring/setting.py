"""The setup of an inferred script: that of `--rules`, whose lines stay as they are, or one whose rules pass all and translate the flows as
the captures show them; and limits that fit."""
from __future__ import annotations

from typing import Counter, Dict, Iterator, List, NamedTuple, Optional, Sequence, Tuple

from ..captures.decoding import Ends, Record
from ..captures.layout import SUBHEADER
from ..captures.pflog import MATCH, Logged
from ..language.commands import RULE, SET
from ..language.lines import opens
from ..language.names import NODES
from ..language.packets import Key, PacketEvent
from ..language.records import DELETE, INSERT, SHORT_DELETE
from ..language.setups import AEND, ASTART, BATCH, BULK_MS, DEFER, FRAMES, MOST_RULES, MTU, QUEUE, STATES, TIMEOUT, Limit
from ..model.frames import HEADER
from ..model.rulings import deciding
from ..model.setups import Rule, Setup
from .night import Night
from .ways import keyed

# A bulk update has a state in each turn, so that it can stop where a captured frame ended; and a request may come again soon.
_TURN, _SOONEST = 1, 1
_PASS_ALL = "pass any flags any"


class TooMuch(Exception):
    """More than a script holds."""


class Setting(NamedTuple):
    """The lines of a setup without `open`, comments among them; what it says; whether its rules are known; and how many rules of each node,
    the first ones, are only here, for translations that the others would do with other ports."""

    lines: List[str]
    setup: Setup
    has_rules: bool
    added: Dict[str, int]


def setting_of(night: Night, rules: Optional[Sequence[str]]) -> Setting:
    """The setup for a night; with the lines of another setup, if there is one."""
    if rules is None:
        lines = [_FITTING, *_limits(night, None), *_rules(night)]
        return Setting(lines, Setup.of(lines), False, dict.fromkeys(NODES, 0))
    own = [rule for rule in rules if not opens(rule)]
    setup = Setup.of(own)
    added = {node: _translations(night, setup, node) for node in NODES}
    if [it.text for it in setup.rules["a"]] == [it.text for it in setup.rules["b"]]:
        # (a rule's number goes with a state only where both nodes have the same rules)
        added = dict.fromkeys(NODES, [*dict.fromkeys(it for node in NODES for it in added[node])])
    for node, its in added.items():
        _refuse_many(len(its), MOST_RULES - len(setup.rules[node]))
    lines = _inserted(own, added)
    lines += [*([""] if lines and lines[-1].strip() else []), f"{_FITTING} The other lines are those of the rules.", *_limits(night, setup)]
    return Setting(lines, Setup.of(lines), True, {node: len(its) for node, its in added.items()})


_FITTING = "# Limits that fit what the captures have."


def _limits(night: Night, setup: Optional[Setup]) -> Iterator[str]:
    """Lines that set limits, beside those of a setup."""
    records = [record for sent in night.sent for record in sent.message.records]
    room, has = _room(night, records), setup.limits if setup else Setup().limits
    limits = {it: number for it, number in room.items() if it is not STATES and has[it] < number}
    limits.update({MTU: _mtu(night), BATCH: _TURN})
    if not setup or not any(line.split()[:2] == [SET.word, STATES.word] for line in setup.lines):
        limits = {STATES: room[STATES], **limits, ASTART: 0, AEND: 0}
    if setup and any(line.split()[:2] == [SET.word, MTU.word] for line in setup.lines) and setup.limits[MTU] >= limits[MTU]:
        del limits[MTU]
    if sum(record.asks_for_all for record in records) > 1:
        limits[BULK_MS] = _SOONEST
    if any(record.kind is INSERT and record.asks_for_acknowledgement for record in records):
        limits[DEFER] = 1
    return (f"{SET.word} {limit.word} {number}" for limit, number in limits.items())


def _room(night: Night, records: Sequence[Record]) -> Dict[Limit, int]:
    """Room for the states that messages name and that packets can make, for their entries in queues, and for all frames at once."""
    states = len({(record.id, record.creator) for record in records}) + len(night.carried) + len(night.logged)
    wanted = {STATES: 2 * states, QUEUE: 8 * states, FRAMES: 2 * len(night.sent)}
    return {it: max(it.default, min(it.most, number)) for it, number in wanted.items()}


def _mtu(night: Night) -> int:
    """How many bytes a frame may have. Where packets were captured, as many as the longest captured one has here: what is pending besides
    goes into the next one, as it does in the kernel."""
    if not night.carried:
        return MTU.most
    longest = max((_size(sent.message.records) for sent in night.sent), default=0)
    return min(max(longest, MTU.least), MTU.most)


def _size(records: Sequence[Record]) -> int:
    """The bytes of a frame of the laboratory with these records."""
    kinds = Counter(SHORT_DELETE if record.kind is DELETE else record.kind for record in records)
    return HEADER + sum(SUBHEADER.size + number * kind.size for kind, number in kinds.items())


# ---- translations as the captures show them


def _translations(night: Night, setup: Setup, node: str) -> List[str]:
    """For a node of a setup the rules of translated flows that its own rules would not give the captured ends: pf takes any port of a
    pool. Each is as the rule that decides, but for these."""
    found: Dict[str, None] = {}
    for name, flow in night.flows.items():
        text = _translating(flow) if node in night.makers(name) else ""
        rule = passing_rule(setup, node, flow) if text else None
        if rule and text and not _is_exact(rule, flow):
            found[" ".join([text, *_timeouts(rule)])] = None
    return [*found]


def _refuse_many(number: int, room: int) -> None:
    """Refuses more rules for translations than there is room for."""
    if number > room:
        raise TooMuch(f"{number} flows are translated with ports that pf chose, and beside its rules a node has room for {room}")


def passing_rule(setup: Setup, node: str, flow: Ends) -> Optional[Rule]:
    """The pass rule that decides on the first packet of a flow, if one does."""
    direction, protocol, *ends = first_packet(flow)
    flags = "S" if protocol == "tcp" else "-"
    rules = setup.rules[node]
    number = deciding(rules, PacketEvent(node, direction, protocol, ends[0], ends[1], 0, flags))
    return rules[number] if number is not None and rules[number].action == "pass" else None


def _is_exact(rule: Rule, flow: Ends) -> bool:
    """Whether a rule translates a flow to just the end that the captures show."""
    pool = rule.pool
    key = keyed(flow.protocol, flow.stack if flow.direction == "in" else flow.wire)
    return pool is not None and pool.ports.is_one and str(pool) == key.near


def _timeouts(rule: Rule) -> Iterator[str]:
    """What a rule says of timeouts."""
    for at, word in enumerate(rule.words[:-2]):
        if word == TIMEOUT.word:
            yield " ".join(rule.words[at : at + 3])


def _inserted(lines: Sequence[str], added: Dict[str, List[str]]) -> List[str]:
    """The lines of a setup with rules before its own, above the comments of the first one."""
    if not any(added.values()):
        return [*lines]
    first = next((at for at, it in enumerate(lines) if it.split()[:1] == [RULE.word]), len(lines))
    while first and lines[first - 1].startswith("#"):
        first -= 1
    rules = [f"{RULE.word} {node} {it}" for node in NODES for it in added[node]]
    return [*lines[:first], "# Translations with the ports that the captures show, of which pf may take any.", *rules, *lines[first:]]


# ---- rules that do what the captures show


def _rules(night: Night) -> Iterator[str]:
    """Rules that block what was logged for want of a state, translate what the captures show translated, and pass everything else."""
    texts = (_translating(flow) for name, flow in night.flows.items() if night.makers(name))
    translated = [*dict.fromkeys(text for text in texts if text)]
    room = MOST_RULES - 1 - len(translated)
    if room < 0:
        why = f"{len(translated)} flows are translated, and a node has at most {MOST_RULES} rules"
        raise TooMuch(f"{why} (--rules takes those of the pair)")
    blocked = _blocked(night, room)
    if any(blocked.values()) or translated:
        yield "# Rules that block what was logged as blocked for want of a state, and translate as the captures show."
    else:
        yield "# The rules of the pair are not known here: whatever makes a state passes."
    for node in NODES:
        yield from (f"{RULE.word} {node} {it}" for it in blocked[node])
        yield from (f"{RULE.word} {node} {it}" for it in translated)
    yield from (f"{RULE.word} {node} {_PASS_ALL}" for node in NODES)


def _translating(flow: Ends) -> str:
    """The rule that translates a flow as its keys show it; empty if it is not translated."""
    wire, stack = (keyed(flow.protocol, it) for it in (flow.wire, flow.stack))
    if wire.near == stack.near:
        return ""
    near = wire if flow.direction == "in" else stack
    source, destination = (near.far, near.near) if flow.direction == "in" else (near.near, near.far)
    translation = f"rdr {stack.near}" if flow.direction == "in" else f"nat {wire.near}"
    flags = " flags any" if flow.protocol == "tcp" else ""
    return f"pass {flow.direction} quick {_matching(flow.protocol, source, destination)}{flags} {translation}"


def _matching(protocol: str, source: str, destination: str) -> str:
    """The words of a rule that match the packets between two ends."""
    has_ports = protocol in ("tcp", "udp")
    ends = []
    for net, port, end in (("from", "fport", source), ("to", "tport", destination)):
        address, _, number = end.rpartition(":")
        ends.append(f"{net} {address.strip('[]')}/{128 if end.startswith('[') else 32}" + f" {port} {number}" * has_ports)
    return f"proto {protocol} {' '.join(ends)}"


def _blocked(night: Night, room: int) -> Dict[str, List[str]]:
    """For each node the rules that block what it logged as blocked for want of a state: first the flows of which messages speak, then
    others, as many as there is room for. A flow whose first packet the node passed at some time has none."""
    made = ((told.sent.node, night.flows[name]) for name, its in night.told.items() for told in its if told.record.kind is INSERT)
    passed = {(node, *first_packet(flow)) for node, flow in made}
    known = {(flow.protocol, *ends) for flow in night.flows.values() for ends in _ends_of(flow)}
    found: Dict[str, Dict[str, None]] = {node: {} for node in NODES}
    for is_known in (True, False):
        for node, logged in night.logged:
            packet = logged.packet
            key = (node, logged.direction, packet.protocol, *packet.ends)
            if logged.reason != MATCH or key in passed or ((packet.protocol, *packet.ends) in known) != is_known:
                continue
            if len(found[node]) < room:
                found[node][f"block {logged.direction} quick {_matching(packet.protocol, *packet.ends)}"] = None
    return {node: [*its] for node, its in found.items()}


def first_packet(flow: Ends) -> Tuple[str, str, str, str]:
    """The direction, the protocol and the ends of the packet that makes a state of a flow."""
    key = keyed(flow.protocol, flow.wire if flow.direction == "in" else flow.stack)
    ends = (key.far, key.near) if flow.direction == "in" else (key.near, key.far)
    return (flow.direction, flow.protocol, *ends)


def _ends_of(flow: Ends) -> Iterator[Tuple[str, str]]:
    """The ends of all packets of a flow, as they come to a node."""
    for key in (flow.wire, flow.stack):
        its: Key = keyed(flow.protocol, key)
        yield its.far, its.near
        yield its.near, its.far


def is_blocked_here(setting: Setting, node: str, logged: Logged) -> bool:
    """Whether the setup's own rules say something about a logged packet that has no state."""
    if setting.has_rules:
        return True
    text = f"block {logged.direction} quick {_matching(logged.packet.protocol, *logged.packet.ends)}"
    return any(rule.text == text for rule in setting.setup.rules[node])
