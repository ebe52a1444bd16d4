"""The rules of a pair that has the states of two dumps, where no others are given: what makes each state's keys, and keeps it from the
peer."""
from __future__ import annotations

from dataclasses import dataclass, field
from typing import Dict, List, NamedTuple, Optional, Sequence, Set, Tuple

from ..language.names import NODES
from ..language.packets import Key
from ..language.setups import FLAGS_ANY, FROM, FROM_PORT, MOST_RULES, NAT, NO_SYNC, PROTO, QUICK, RDR, TO, TO_PORT
from .items import Item, Sort

_WITH_PORTS = ("tcp", "udp")
_EVERYTHING = "pass any flags any"
NO_ROOM = f"there is no room for one more rule among the {MOST_RULES} of a node"
NO_FORM = "no rule here makes these keys of these packets alone"


class Match(NamedTuple):
    """The packets that a rule is for: direction, protocol, and the ends, of which one may be left out."""

    direction: str
    protocol: str
    source: Optional[str]
    destination: Optional[str]

    @property
    def words(self) -> List[str]:
        words = ["pass", self.direction, QUICK.word, PROTO.word, self.protocol]
        for end, net, port in ((self.source, FROM, FROM_PORT), (self.destination, TO, TO_PORT)):
            if end is not None:
                address, _, number = end.rpartition(":")
                words += [net.word, f"{address.strip('[]')}/{128 if address.startswith('[') else 32}"]
                words += [port.word, number] * (self.protocol in _WITH_PORTS)
        return [*words, FLAGS_ANY.word, "any"]

    @property
    def is_short(self) -> bool:
        return self.source is None or self.destination is None


class Made(NamedTuple):
    """What a rule makes of a packet: the other near end, if there is one, and whether the state is kept from the peer."""

    near: str
    is_unsent: bool

    @property
    def words(self) -> List[str]:
        return [NO_SYNC.word] * self.is_unsent


# Of most packets the rule for all others makes a state with their own ends, which is sent.
PLAIN = Made("", False)


@dataclass
class Rules:
    """The rules of both nodes, by the packets that they are for."""

    of: Dict[str, Dict[Match, Made]] = field(default_factory=lambda: {it: {} for it in NODES})

    def lines(self) -> List[str]:
        """The lines of a setup: the same rules for both nodes, except where each makes something else of the same packet."""
        matches = sorted({it: None for node in NODES for it in self.of[node]}, key=lambda it: it.is_short)
        lines: List[str] = []
        for node, peer in zip(NODES, reversed(NODES)):
            for match in matches:
                made = self.of[node].get(match) or self.of[peer][match]
                option = NAT if match.direction == "out" else RDR
                words = [*match.words, *made.words, *([option.word, made.near] if made.near else [])]
                lines.append(f"rule {node} {' '.join(words)}")
            lines.append(f"rule {node} {_EVERYTHING}")
        return lines


def rules_for(items: Sequence[Item]) -> Rules:
    """Rules for all items as far as there is room, those that matter most first. The others get the keys of the wire, or are sent."""
    rules, short, plain = Rules(), _short(items), {_match(it, set()) for it in items if _made(it) == PLAIN}
    matches: Set[Match] = set()
    for item in sorted((it for it in items if _made(it) != PLAIN), key=lambda it: it.harm):
        match, made = _match(item, short), _made(item)
        has_form = _has_form(item) and rules.of[item.node].get(match, made) == made and match not in plain
        if has_form and (match in matches or len(matches) < MOST_RULES - 1):
            rules.of[item.node][match] = made
            matches.add(match)
        else:
            _give_up(item, NO_ROOM if has_form else NO_FORM)
    return rules


def _give_up(item: Item, why: str) -> None:
    """Makes an item without a rule of its own."""
    item.keys, item.why = (item.first.wanted.wire, item.first.wanted.wire), why
    item.sort = Sort.ALONE if item.sort is Sort.UNSENT else item.sort


def _made(item: Item) -> Made:
    wire, stack = item.first.wanted.wire, item.first.wanted.stack
    other = wire.near if item.first.wanted.direction == "out" else stack.near
    return Made(other if wire != stack else "", item.sort is Sort.UNSENT)


def _comes(item: Item) -> Key:
    """The ends of the first packet, as the rules see it."""
    return item.first.wanted.stack if item.first.wanted.direction == "out" else item.first.wanted.wire


def _has_form(item: Item) -> bool:
    """Whether a rule can make the keys of an item: it translates the near end alone."""
    wire, stack = item.first.wanted.wire, item.first.wanted.stack
    addresses = {key.far if item.first.wanted.protocol in _WITH_PORTS else key.far.rpartition(":")[0] for key in (wire, stack)}
    return len(addresses) == 1


def _seen(protocol: str, end: str) -> str:
    """What a rule can see of an end."""
    return end if protocol in _WITH_PORTS else f"{end.rpartition(':')[0]}:0"


_Near = Tuple[str, str, str]


def _near(item: Item) -> _Near:
    wanted = item.first.wanted
    return wanted.direction, wanted.protocol, _seen(wanted.protocol, _comes(item).near)


def _short(items: Sequence[Item]) -> Set[_Near]:
    """The near ends of which one thing is made at both nodes, whatever the far end is."""
    made: Dict[_Near, Set[Made]] = {}
    for it in items:
        made.setdefault(_near(it), set()).add(_made(it))
    return {near for near, its in made.items() if len(its) == 1}


def _match(item: Item, short: Set[_Near]) -> Match:
    """The packets of an item's rule: those of its near end, if the same is made of them all."""
    wanted, comes = item.first.wanted, _comes(item)
    near, far = (_seen(wanted.protocol, end) for end in (comes.near, comes.far))
    shown = None if _near(item) in short else far
    ends = (near, shown) if wanted.direction == "out" else (shown, near)
    return Match(wanted.direction, wanted.protocol, *ends)
