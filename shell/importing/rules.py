"""A rule of pf in the laboratory's language: its lines, and what is lost, or why it cannot be taken in."""
from __future__ import annotations

from dataclasses import dataclass, field
from itertools import islice, product
from typing import Dict, Iterator, List, NamedTuple, Optional, Sequence, Set, Tuple

from ..language.forms import GREATEST
from ..language.lines import LONGEST_LINE
from ..language.setups import CLASSES, MOST_RULES
from .about import About
from .addresses import NETS, Address, Addresses, Network, Span, merged, rest
from .expansion import PfRule
from .grammar import NUMBERING, IcmpType, Operation, Option
from .regions import EVERY_PORT, Ports, Region, Side
from .services import GREATEST_PORT, ICMP, ICMP6, TCP, UDP, WITH_PORTS, icmp_number, number_of, port_number, protocol_number

CLASS_WORDS = tuple(it.word for it in CLASSES)
# The kind of translation of which pfctl does not ask whether its protocol has ports.
NAT = "nat"
# The greatest length of a line without `rule a `.
LONGEST_TEXT = LONGEST_LINE - len("rule a ")
_NAMED = {TCP: "tcp", UDP: "udp", ICMP: "icmp"}
_ECHO = (0, 8)
_NO_SOCKETS = "packets of the laboratory belong to no local socket, like forwarded ones"
_OTHERS_LEFT_OUT = "protocols other than TCP and UDP, for which pf.conf(5) ignores users and groups, are left out"
# What has no effect on the verdict of a rule.
_WITHOUT_EFFECT = ("label", *NUMBERING, "tag", "queue", "dnpipe", "dnqueue", "prio", "set", "allow-opts")
ROUTES = {
    "route-to": "`route-to` is left out: packets go where they would go without it",
    "reply-to": "`reply-to` is left out: answers go where they would go without it",
    "dup-to": "`dup-to` is left out: no copies are sent",
    "fastroute": "`fastroute` is left out",
}
_TRACKED = ("source-track", "max-src-nodes", "max-src-states", "max-src-conn", "max-src-conn-rate", "overload")


class Out(Exception):
    """Why a rule cannot be taken in."""


class Never(Exception):
    """Why a rule matches no packet of the laboratory."""


@dataclass
class Context:
    """What a rule depends on besides its own words: what is above it, and the tags that the file gives to packets anywhere."""

    answer: str = "drop"
    state_defaults: List[Option] = field(default_factory=list)
    tags: Set[str] = field(default_factory=set)
    has_anchors: bool = False
    # The packets that are asked about, if these are not all.
    about: Optional[About] = None


class RuleLine(NamedTuple):
    """A rule of the laboratory; what is empty is left out. `translation` is what becomes of an end."""

    action: str
    direction: str
    is_quick: bool = False
    protocol: str = ""
    source: str = ""
    source_port: str = ""
    destination: str = ""
    destination_port: str = ""
    any_flags: bool = False
    no_sync: bool = False
    most: Optional[int] = None
    translation: str = ""
    timeouts: Sequence[str] = ()

    @property
    def text(self) -> str:
        words = [self.action, self.direction, *["quick"] * self.is_quick]
        named = (("proto", self.protocol), ("from", self.source), ("fport", self.source_port), ("to", self.destination))
        words += [f"{word} {value}" for word, value in (*named, ("tport", self.destination_port)) if value]
        words += [*["flags any"] * self.any_flags, *["no-sync"] * self.no_sync]
        words += [f"max {self.most}"] * (self.most is not None)
        return " ".join([*words, *[self.translation] * bool(self.translation), *(f"timeout {timeout}" for timeout in self.timeouts)])


@dataclass
class Taken:
    """What became of a rule of pf: which packets it is for, None for none, and a line without addresses and ports."""

    base: RuleLine
    region: Optional[Region] = None
    lines: List[RuleLine] = field(default_factory=list)
    lost: List[str] = field(default_factory=list)
    out: str = ""
    # What it translates, as later versions can say: directions, packets, addresses and ports.
    translated: List[Tuple[str, Region, Optional[Address], Optional[Span]]] = field(default_factory=list)


def taken(rule: PfRule, context: Context, direction: str, within: Region, is_quick: bool) -> Taken:
    """What a rule of pf is here, for the packets that come to it in one direction or in any."""
    its = Taken(RuleLine(rule.words.action, common_direction(direction, rule.words.direction), is_quick))
    try:
        region = matched(rule, context, its.lost).common(within)
        if region is None or not its.base.direction:
            return its
        its.region = region
        its.base = _base(its.base, rule, region.protocol, context, its.lost)
        its.lines = lines_of(region, its.base, context.about)
    except Out as why:
        its.out, its.lines = str(why), []
    except Never as why:
        its.lost.append(str(why))
    return its


def matched(rule: PfRule, context: Context, lost: List[str]) -> Region:
    """The packets that a rule is for; what is lost is added to the list."""
    number = _protocol(rule)
    _refused(rule, number)
    lost += [it.lost for it in (rule.source, rule.destination) if it.lost]
    lost += [*_of_options(rule, context), *_of_packets(rule, number)]
    source = Side(rule.source.addresses, _ports(rule.source_port))
    return Region(rule.family, number, source, Side(rule.destination.addresses, _ports(rule.destination_port)))


def _protocol(rule: PfRule) -> Optional[int]:
    """The number of the protocol; None for all."""
    if rule.protocol is None:
        return None
    number = protocol_number(rule.protocol)
    if number is None:
        raise Out(f"the protocol `{rule.protocol}` is neither a number nor a name known here")
    return number or None


def protocol_text(number: Optional[int]) -> str:
    """A protocol in the form of a rule; empty for all."""
    return "" if number is None else _NAMED.get(number, str(number))


def _refused(rule: PfRule, number: Optional[int]) -> None:
    """Raises what pfctl refuses in rules that can be read."""
    words = rule.words
    if rule.has_ports and not words.action.startswith(NAT) and number not in WITH_PORTS:
        raise Out("pfctl takes a port only with `proto tcp` or `proto udp`")
    if (words.flags or words.match.systems) and words.match.protocols and TCP not in map(protocol_number, words.match.protocols):
        raise Out(f"pfctl takes {'flags' if words.flags else 'an operating system'} only with `proto tcp`")
    if rule.icmp_type and number != (ICMP6 if rule.icmp_type.version == 6 else ICMP):
        raise Out("pfctl takes a type of ICMP only with `proto icmp`, and one of ICMPv6 with `proto icmp6`")
    if (number, rule.family) in ((ICMP, 6), (ICMP6, 4)):
        raise Out(f"pfctl takes no `proto {rule.protocol}` with {'inet6' if rule.family == 6 else 'inet'}")
    if words.action == "block" and words.state not in ("", "no"):
        raise Out("pfctl keeps no state by a block rule")
    for side in (rule.source, rule.destination):
        if side.out:
            raise Out(side.out)


# ---- what packets of the laboratory do not have


def _of_options(rule: PfRule, context: Context) -> Iterator[str]:
    """What is lost by the options of a rule and by its routes."""
    if rule.words.route:
        yield ROUTES[rule.words.route]
    for option in rule.words.options:
        if option.word.endswith("tagged"):
            yield from _tagged(option, context)
        elif option.word == "rtable":
            yield "`rtable` is left out: the laboratory has no routes"
        elif option.word == "fragment":
            raise Never("no packet of the laboratory is a fragment")
        elif option.word in ("tos", "dscp"):
            raise Never("packets of the laboratory have no TOS")
        elif option.word == "probability":
            raise Out(f"`{option}`: nothing is left to chance here")
        elif option.word not in _WITHOUT_EFFECT:
            raise Out(f"`{option}`: packets would go to a socket of the firewall")


def _tagged(option: Option, context: Context) -> Iterator[str]:
    """What is lost by asking for a tag, which packets have only if something gives it to them."""
    name = option.values[0]
    if name in context.tags:
        raise Out(f"`{option}`: packets of the laboratory have no tags, and this file gives them this one")
    if context.has_anchors:
        yield f"`{option}`: no packet has this tag, which no rule of this file gives; one of an anchor may"
    if not option.word.startswith("!"):
        raise Never(f"no rule of this file gives a packet the tag `{name}`")


def _of_packets(rule: PfRule, number: Optional[int]) -> Iterator[str]:
    """What is lost by users, operating systems and types of ICMP, which packets of the laboratory do not have."""
    if rule.user or rule.group:
        yield _of_sockets([it for it in (rule.user, rule.group) if it is not None], number)
    if rule.system is not None and number in (None, TCP):
        if rule.system != "unknown":
            raise Never("packets of the laboratory have no fingerprint of an operating system")
        yield "packets of the laboratory have no fingerprint of an operating system: all are unknown"
    if rule.icmp_type is not None:
        yield _of_icmp(rule.words.action, rule.icmp_type)


def _of_sockets(owners: Sequence[Operation], number: Optional[int]) -> str:
    """What is lost by users and groups, which only packets of TCP and UDP can have; for other protocols pf.conf(5) ignores them."""
    if number not in (None, *WITH_PORTS):
        return "users and groups are ignored: packets of its protocol have none"
    if not all(map(_owned_by_none, owners)):
        raise Never(_NO_SOCKETS if number else f"{_NO_SOCKETS}; {_OTHERS_LEFT_OUT}")
    return _NO_SOCKETS


def _owned_by_none(operation: Operation) -> bool:
    """Whether a comparison of users is true for a packet that no local socket owns."""
    return (operation.operator, operation.first == "unknown") in (("=", True), ("!=", False))


def _of_icmp(action: str, icmp_type: IcmpType) -> str:
    """What is lost by a type of ICMP."""
    number = icmp_number(icmp_type.version, icmp_type.text)
    if number is None:
        raise Out(f"the type of ICMP `{icmp_type.text}` is neither a number nor a name known here")
    if icmp_type.version == 4 and number not in _ECHO:
        raise Never("every ICMP packet of the laboratory is an echo request or its reply")
    if action == "block":
        raise Out("a block rule of the laboratory has no type of ICMP, and would block all of them")
    return f"it passes every type of ICMP{'v6' if icmp_type.version == 6 else ''}"


# ---- the lines


def common_direction(one: str, other: str) -> str:
    """The direction of packets that go both ways; empty if none does."""
    return one if other in ("any", one) else other if one == "any" else ""


def _base(begun: RuleLine, rule: PfRule, number: Optional[int], context: Context, lost: List[str]) -> RuleLine:
    """The line of a rule without addresses and ports; what is lost is added to the list."""
    words, line = rule.words, begun._replace(protocol=protocol_text(number))
    if words.action == "block":
        if words.flags not in ("", "any") and number in (None, TCP):
            raise Out(f"`flags {words.flags}`: a block rule of the laboratory takes any flags")
        if (words.answer or context.answer) != "drop":
            lost.append("nothing is sent back: no RST, no ICMP error")
        return line
    if words.state == "no":
        raise Out("`no state`: every pass rule of the laboratory keeps state")
    if number in (None, TCP):
        line = line._replace(any_flags=words.flags == "any")
        lost += [*_of_flags(words.flags), *_of_state(words.state)]
    return _with_options(line, words.state_options if words.state else context.state_defaults, number, lost)


def _of_flags(flags: str) -> Iterator[str]:
    """What is lost by flags, as a pass rule takes SYN without ACK."""
    wanted, _, of = flags.partition("/")
    if flags in ("", "any") or ({*wanted}, {*of}) == ({"S"}, {*"SA"}):
        return
    if {*wanted} != {"S"} or "S" not in of:
        raise Out(f"`flags {flags}`: a pass rule of the laboratory takes SYN without ACK, or any flags")
    yield f"`flags {flags}`: it takes SYN without ACK" + (", and none with it" if "A" not in of else ", whatever else is set")


def _of_state(state: str) -> Iterator[str]:
    if state == "modulate":
        yield "`modulate state` as `keep state`: sequence numbers stay as they are"
    elif state == "synproxy":
        yield "`synproxy state` as `keep state`: the ends shake hands with one another"


def _with_options(line: RuleLine, options: Sequence[Option], number: Optional[int], lost: List[str]) -> RuleLine:
    """A line with the options of its states."""
    seconds: Dict[str, int] = {}
    tracked = [f"`{option.word}`" for option in options if option.word in _TRACKED]
    lost += [f"without {', '.join(tracked)}: sources are not counted"] if tracked else []
    for word, values in options:
        value = number_of(values[0], GREATEST) if values else None
        if word == "no-sync":
            line = line._replace(no_sync=True)
        elif word == "max" and value is not None:
            line = line._replace(most=value or None)
        elif word in CLASS_WORDS and value is not None:
            seconds[word] = value
        elif word == "sloppy" and number in (None, TCP):
            raise Out("`sloppy`: states of the laboratory test the window")
        elif word not in (*_TRACKED, "sloppy", "floating", "if-bound"):
            lost.append(_of_timeout(word))
    # (0 means the seconds of the class)
    return line._replace(timeouts=[f"{it} {seconds[it]}" for it in CLASS_WORDS if seconds.get(it)])


def _of_timeout(word: str) -> str:
    """What is lost by an option of a state that is not a class of timeouts."""
    if word in ("adaptive.start", "adaptive.end"):
        return f"`{word}` of a rule is left out: timeouts shrink only by the states of a node"
    if word in ("src.track", "tcp.tsdiff"):
        return f"`{word}` is left out: the laboratory has nothing that it is for"
    raise Out(f"`{word}` is not an option of a state with its number")


def lines_of(region: Region, base: RuleLine, about: Optional[About] = None) -> List[RuleLine]:
    """The lines for packets, one for each pair of nets and of spans of ports; of these only what is asked about, if not all is. A table
    can expand to any number of nets, and if there are more rules than a node may have, none is written: so at most one more than that is
    made."""
    found = list(islice(_lines(region, base, about), MOST_RULES + 1))
    if any(len(it.text) > LONGEST_TEXT for it in found):
        raise Out(f"a rule here would have more than {LONGEST_TEXT} characters")
    return found


def _lines(region: Region, base: RuleLine, about: Optional[About]) -> Iterator[RuleLine]:
    ports = [*product(_spans_of(region.source.ports), _spans_of(region.destination.ports))]
    sources, others = _nets(region.source, about), _nets(region.destination, about)
    pairs = product(sources, others) if about is None else about.pairs(base.direction, region, sources, others)
    for source, destination in pairs:
        families: Set[int] = {it.version for it in (source, destination) if it is not None}
        if len(families) > 1 or (region.family and families - {region.family}):
            continue
        # (a translation is only for packets of its own family)
        is_said = families or not region.family or base.translation
        line = base._replace(source=_net_text(source if is_said else NETS[region.family]), destination=_net_text(destination))
        for one, other in ports:
            part = region._replace(source=_side(source, one), destination=_side(destination, other))
            if about is None or about.has(base.direction, part):
                yield line._replace(source_port=_span_text(one), destination_port=_span_text(other))


def _nets(side: Side, about: Optional[About]) -> Sequence[Optional[Network]]:
    return [None] if side.addresses is None else [*side.addresses.networks(None if about else MOST_RULES + 1)]


def _side(net: Optional[Network], span: Optional[Span]) -> Side:
    return Side(None if net is None else Addresses.of([net]), None if span is None else (span,))


def _net_text(net: Optional[Network]) -> str:
    return "" if net is None else net.exploded


def _ports(operation: Optional[Operation]) -> Optional[Ports]:
    """The spans of ports that a comparison is for; None for every port."""
    if operation is None:
        return None
    spans = tuple((low, min(high, GREATEST_PORT)) for low, high in merged(_spans(operation)))
    return None if spans == EVERY_PORT else spans


def _spans_of(ports: Optional[Ports]) -> Sequence[Optional[Span]]:
    """Spans of ports, one by one; None for every port."""
    return [None] if ports is None else ports


def _span_text(span: Optional[Span]) -> str:
    return "" if span is None else port_text(span)


def port_text(span: Span) -> str:
    return str(span[0]) if span[0] == span[1] else f"{span[0]}:{span[1]}"


def _spans(operation: Operation) -> List[Span]:
    first, second = port_of(operation.first), port_of(operation.second or operation.first)
    return {
        "=": [(first, first)],
        "!=": rest([(first, first)], GREATEST_PORT),
        "<": [(0, first - 1)],
        "<=": [(0, first)],
        ">": [(first + 1, GREATEST_PORT)],
        ">=": [(first, GREATEST_PORT)],
        ":": [(first, second)],
        "><": [(first + 1, second - 1)],
        "<>": [(0, first - 1), (second + 1, GREATEST_PORT)],
    }[operation.operator]


def port_of(text: str) -> int:
    number = port_number(text)
    if number is None:
        raise Out(f"the port `{text}` is neither a number up to {GREATEST_PORT} nor a name known here")
    return number
