"""The rules of the laboratory for packets that are translated: each translation with the rules of the filter that then apply.

pf translates a packet by the first translation that is for it, and asks the filter about the translated packet. A rule here is asked
about the packet as it comes, and translates as it passes. So each translation is a section of `quick` rules before those of the filter:
the rules that match its packets once they are translated, the one that pf goes by first, each for the packets as they come.
"""
from __future__ import annotations

from dataclasses import dataclass, field
from typing import Iterable, Iterator, List, NamedTuple, Optional, Sequence, Tuple

from ..language.setups import MOST_RULES
from .about import About
from .addresses import Span
from .regions import Region, Side, holds
from .rules import NAT, Out, RuleLine, lines_of, port_text, protocol_text
from .services import ICMP, TCP, UDP
from .translations import BINAT, IN, OUT, POOL, RDR, Piece, few_of

_EVERY_ECHO: Span = (1, 65535)
_WITHOUT: Span = (0, 0)
_STAYS = "a port that stays as it is has no form here"
# Fewer lines are looked for where a rule has at least this many.
FEW_LINES = 4


class Asked(NamedTuple):
    """A rule of the filter: its number in pf and its place, which packets it is for, and its line without addresses and ports."""

    number: str
    place: str
    text: str
    region: Region
    base: RuleLine


class Entry(NamedTuple):
    """Lines of a section, and the rule of the filter that they are from; None if none is asked, or none matches."""

    asked: Optional[Asked]
    lines: List[RuleLine]


@dataclass
class Section:
    """The lines for the packets of a translation, the one with this number in its list, and what is lost by them."""

    owner: int
    piece: Piece
    # The packets that are asked about, if these are not all.
    about: Optional[About] = None
    entries: List[Entry] = field(default_factory=list)
    lost: List[str] = field(default_factory=list)
    # The places whose packets are passed but not translated.
    untranslated: List[str] = field(default_factory=list)
    out: str = ""

    @property
    def count(self) -> int:
        return sum(len(entry.lines) for entry in self.entries)

    @property
    def reasons(self) -> List[str]:
        """What is lost."""
        places = ", ".join(sorted({*self.untranslated}, key=lambda it: (len(it), it)))
        kept = f"{_STAYS}: what is passed by {places} is not translated"
        return [*self.lost, *[kept] * bool(places)]


# A piece of a translation, and the number of the translation in its list.
Owned = Tuple[int, Piece]


def sections(owned: Sequence[Owned], filters: Sequence[Asked], room: int, about: Optional[About] = None) -> List[Section]:
    """The sections of translations, in the order in which pf looks at them. They are filled in the order of the list, until there is
    no more room for rules."""
    ways = _ordered(owned, OUT, (BINAT, NAT)), _ordered(owned, IN, (RDR, BINAT))
    ordered = [it for way in ways for it in _needed(_in_few_nets(way))]
    asked = [*(rule for rule in filters if rule.base.is_quick), *reversed([rule for rule in filters if not rule.base.is_quick])]
    found = [Section(owner, piece, about) for owner, piece in ordered]
    for section in sorted(found, key=lambda it: it.owner):
        if room < 0:
            break
        try:
            section.entries += _entries(section, asked)
        except Out as why:
            section.out = str(why)
        room -= section.count
    return found


def _ordered(owned: Sequence[Owned], direction: str, kinds: Tuple[str, str]) -> List[Owned]:
    """The pieces of a direction in the order in which pf looks at them: those of one kind, then those of the other. An exception of the
    first kind leaves its packets to the second."""
    first, second = ([it for it in owned if (it[1].direction, it[1].kind) == (direction, kind)] for kind in kinds)
    found: List[Owned] = []
    for owner, piece in first:
        found += [it for it in _within(second, piece.region)] if piece.is_no else []
        found.append((owner, piece))
    return [*found, *second]


def _within(owned: Iterable[Owned], region: Region) -> Iterator[Owned]:
    for owner, piece in owned:
        part = piece.region.common(region)
        if part is not None:
            yield owner, piece._replace(region=part)


def _in_few_nets(owned: Sequence[Owned]) -> List[Owned]:
    """The same translations with fewer nets: one that is for all but a few addresses becomes one for all of them, after exceptions,
    which leave their packets to what follows."""
    found: List[Owned] = []
    for owner, piece in reversed(owned):
        exceptions, region = piece.region.but_few() if len(found) < MOST_RULES else ([], piece.region)
        excepted = [(owner, Piece(piece.kind, piece.direction, exception, is_no=True)) for exception in exceptions]
        left = [it for one in excepted for it in (*_within(found, one[1].region), one)]
        found = [*left, (owner, piece._replace(region=region)), *found]
    return found


def _needed(owned: Sequence[Owned]) -> List[Owned]:
    """The pieces that take packets which no earlier one takes, and that change something: an exception does if a later translation
    would take its packets."""
    reached = [it for at, it in enumerate(owned) if not _is_taken(it[1].region, owned[:at])]
    needed: List[Owned] = []
    for at, (owner, piece) in reversed([*enumerate(reached)]):
        parts = (piece.region.common(it.region) for _, it in needed if it.target is not None)
        if piece.target is not None or any(part and not _is_taken(part, reached[:at]) for part in parts):
            needed.append((owner, piece))
    return needed[::-1]


def _is_taken(region: Region, earlier: Sequence[Owned]) -> bool:
    return any(piece.region.holds(region) for _, piece in earlier)


# ---- one section


def _entries(section: Section, asked: Sequence[Asked]) -> Iterator[Entry]:
    """The lines for the packets of a translation: those of the rules that match them, up to one that matches all of them."""
    piece, count = section.piece, 0
    seen: List[Tuple[Region, bool]] = []
    for at, rule in enumerate(() if piece.passes else asked):
        region = _before(piece, rule, section.lost)
        is_full = region is not None and _is_full(rule.base, region)
        if region is None or any(earlier.holds(region) and full >= is_full for earlier, full in seen):
            continue
        ruled = _of_rule(section, region, asked[at:])
        yield from ruled.entries
        seen += [(ruled.region, is_full), *((few, True) for few in ruled.decided)]
        count += ruled.size
        if count > MOST_RULES or _is_decided(piece.region, [earlier for earlier, full in seen if full]):
            return
    yield Entry(None, _of_no_rule(section))


def _is_decided(region: Region, seen: Sequence[Region]) -> bool:
    """Whether the packets of each family are among those of a rule that matches them whatever flags they have."""
    parts = [region._replace(family=family) for family in region.families]
    return all(any(it.holds(part) for it in seen) for part in parts)


class Ruled(NamedTuple):
    """The lines of a rule of the filter for packets of a translation, after those for some about which the rules after it have decided."""

    entries: List[Entry]
    region: Region
    decided: Sequence[Region] = ()

    @property
    def size(self) -> int:
        return sum(len(entry.lines) for entry in self.entries)


def _of_rule(section: Section, region: Region, asked: Sequence[Asked]) -> Ruled:
    """The lines of the first of some rules, for packets as they come. Where it is for all but a few of those of the translation, and that
    makes fewer lines, these few come first, as the rules after it decide about them, and it is then for all."""
    first, *others = asked
    direct = Ruled([Entry(first, _written(section, region, first.base, first.place))], region)
    exceptions, opened = region.but_few() if direct.size >= FEW_LINES else ([], region)
    whole = section.piece.region.common(opened)
    if not exceptions or whole is None:
        return direct
    few = [it for it in map(section.piece.region.common, exceptions) if it is not None]
    within = [Section(section.owner, section.piece._replace(region=it), section.about) for it in few]
    entries = [entry for it in within for entry in _entries(it, others)]
    found = Ruled([*entries, Entry(first, _written(section, whole, first.base, first.place))], whole, few)
    if found.size >= direct.size:
        return direct
    for part in within:
        section.lost += part.lost
        section.untranslated += part.untranslated
    return found


def _is_full(base: RuleLine, region: Region) -> bool:
    """Whether a rule matches all packets of a region, whatever flags they have."""
    return base.action == "block" or base.any_flags or region.protocol not in (None, TCP)


def _before(piece: Piece, asked: Asked, lost: List[str]) -> Optional[Region]:
    """The packets of a translation, as they come, that a rule of the filter matches once they are translated."""
    if asked.base.direction not in ("any", piece.direction):
        return None
    near = asked.region.source if piece.direction == OUT else asked.region.destination
    if piece.target is None:
        return piece.region.common(asked.region)
    if near.addresses is not None and not near.addresses.has(piece.target):
        return None
    if piece.ports is None:
        return piece.region.common(piece.with_near(Side(ports=near.ports), asked.region))
    region = piece.region.common(piece.with_near(Side(), asked.region))
    if region is None or Side(ports=(piece.ports,)).common(near).ports == ():
        return None
    if not holds(near.ports, (piece.ports,)):
        lost.append(f"{asked.place} is for only some of its ports: the first one decides")
    return region if holds(near.ports, ((piece.ports[0],) * 2,)) else None


def is_seen_otherwise(piece: Piece, asked: Asked) -> bool:
    """Whether a rule of the filter matches other packets of a translation once they are translated."""
    return asked.base.direction in ("any", piece.direction) and _before(piece, asked, []) != piece.region.common(asked.region)


def _of_no_rule(section: Section) -> List[RuleLine]:
    """The lines for what no rule of the filter matches: pf passes it, and keeps a state if it is translated."""
    piece = section.piece
    if piece.is_match:
        section.lost.append("what no rule of the filter matches is translated, and makes a state here")
    elif piece.target is None:
        section.lost.append("what no rule of the filter matches makes a state here")
    base = RuleLine("pass", piece.direction, any_flags=piece.region.protocol in (None, TCP))
    return _written(section, piece.region, base, "pf's default rule")


# ---- lines


def _written(section: Section, region: Region, base: RuleLine, place: str) -> List[RuleLine]:
    """The lines of a rule for packets as they come, with what becomes of their ends if it passes them."""
    piece = section.piece
    base = base._replace(direction=piece.direction, is_quick=True)
    if base.action == "block" or piece.target is None:
        return lines_of(region, _narrowed(base, region), section.about)
    return _translated(section, region, base, place)


def _translated(section: Section, region: Region, base: RuleLine, place: str) -> List[RuleLine]:
    pools = _pools(section, region, place)
    texts = ((part, _text(section.piece, ports)) for part, ports in pools)
    bases = ((part, _narrowed(base, part)._replace(translation=text)) for part, text in texts)
    return [line for part, one in bases for line in lines_of(part, one, section.about)]


def as_passed(piece: Piece, base: RuleLine, place: str, lost: List[str], about: Optional[About]) -> List[RuleLine]:
    """The lines of a rule that translates what it passes, as rules here do; what is lost is added to the list."""
    section = Section(0, piece, about)
    if piece.target is None:
        return lines_of(piece.region, _narrowed(base, piece.region), about)
    lines = _translated(section, piece.region, base, place)
    lost += section.reasons
    return lines


def is_asked(piece: Piece, asked: Asked) -> bool:
    """Whether a rule of the filter matches packets of a translation once they are translated."""
    return _before(piece, asked, []) is not None


def _narrowed(base: RuleLine, region: Region) -> RuleLine:
    is_tcp = region.protocol in (None, TCP)
    return base._replace(protocol=protocol_text(region.protocol), any_flags=base.any_flags and is_tcp)


def _text(piece: Piece, ports: Optional[Span]) -> str:
    """The words of a rule for a translation; empty for ports for which none can be written."""
    if ports is None or piece.target is None:
        return ""
    address = f"[{piece.target.exploded}]" if piece.target.version == 6 else str(piece.target)
    return f"{NAT if piece.direction == OUT else RDR} {address}:{port_text(ports)}"


def _pools(section: Section, region: Region, place: str) -> List[Tuple[Region, Optional[Span]]]:
    """The ports to which packets are translated, with the packets; None for those that are passed untranslated."""
    piece = section.piece
    near, protocol = region.source if piece.direction == OUT else region.destination, region.protocol
    if protocol not in (None, TCP, UDP, ICMP):
        return [(region, _WITHOUT)]
    if piece.kind == NAT and protocol == ICMP:
        # (pf chooses among all identifiers, whatever ports there are)
        return [(region, _EVERY_ECHO)]
    is_with_echoes = piece.kind == NAT and protocol is None and region.family == 4 and not region.has_ports
    if is_with_echoes and piece.ports not in (None, POOL):
        return [(region._replace(protocol=ICMP), _EVERY_ECHO), (region, piece.ports)]
    if piece.ports is not None:
        return [(region, piece.ports)]
    few = few_of(near.ports)
    if few:
        return [_of_port(piece, region, near, it) for it in few]
    if piece.direction == IN:
        section.untranslated.append(place)
        return [(region, None)]
    return _instead(section, region, near)


def _of_port(piece: Piece, region: Region, near: Side, port: int) -> Tuple[Region, Optional[Span]]:
    """The packets from a port, and that port, which they keep."""
    return piece.with_near(Side(near.addresses, ((port, port),)), region), (port, port)


def _instead(section: Section, region: Region, near: Side) -> List[Tuple[Region, Optional[Span]]]:
    """The ports used instead of the packets' own, for which a rule here has no form. What goes to a port from the same port, as ISAKMP
    does, keeps it."""
    ports = near.ports[0] if near.ports and len(near.ports) == 1 else _EVERY_ECHO
    same = few_of(region.destination.ports) if near.ports is None else []
    kept = "".join(f", except from port {it} to port {it}" for it in same)
    section.lost.append(f"{_STAYS}: the first free one of {port_text(ports)} is taken{kept}")
    parts = [(region._replace(destination=Side(region.destination.addresses, ((it, it),))), it) for it in same]
    return [*(_of_port(section.piece, part, near, it) for part, it in parts), (region, ports)]
