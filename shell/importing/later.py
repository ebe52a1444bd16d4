"""What later versions of pf.conf(5) have, OpenBSD's and FreeBSD 15's: `match`, and translations as options of a rule.

A rule of the laboratory matches a packet as it comes, and translates it as it passes it, which is what `pass .. nat-to` says. A `match`
that translates is to the rules below it what `nat` and `rdr` are to the whole filter.
"""
from __future__ import annotations

from dataclasses import replace
from typing import Dict, Iterator, List, Optional

from .about import About
from .expansion import PfRule
from .firewall import Firewall
from .grammar import Filter, Translation
from .hosts import NotKnown
from .rules import NAT, ROUTES, Out, Taken
from .sections import as_passed
from .tokens import NotRead
from .translations import BINAT, IN, OUT, RDR, drawn, pieces_of

# What a `match` with a translation may have besides.
_BESIDES = ("label", "ridentifier", "tag", "tagged", "! tagged", "queue", "prio", "set", "rtable", "scrub", "allow-opts")
_LOST: Dict[str, str] = {
    "scrub": "packets are not normalised: they are not fragments, and none of their fields is changed",
    "rtable": "`rtable` is left out: the laboratory has no routes",
}


def match_lost(rule: Filter) -> Iterator[str]:
    """What is lost by a `match` without a translation, which decides nothing."""
    if rule.route:
        yield ROUTES[rule.route]
    yield from (_LOST[option.word] for option in rule.options if option.word in _LOST)
    if rule.state or rule.state_options:
        yield "options of states are left out: rules below it do not get them"


def match_translation(rule: Filter) -> Translation:
    """The translation that a `match` stands for."""
    assert rule.to
    _check_direction(rule, rule.to.kind)
    strange = [option.word for option in rule.options if option.word not in _BESIDES]
    if strange or rule.users or rule.groups or rule.flags or rule.icmp_types or rule.state or rule.route:
        raise Out("a `match` with a translation is taken in by interfaces, protocols, addresses and ports alone")
    options = [*rule.to.options, *(option for option in rule.options if option.word.endswith("tagged"))]
    return replace(rule.to, match=rule.match, options=options, is_match=True)


def _check_direction(rule: Filter, kind: str) -> None:
    """Raises if a translation is not on the way on which one of its kind is here."""
    wanted = {"nat": OUT, "rdr": IN}.get(kind, "any")
    if kind != BINAT and rule.direction == "any":
        raise Out("pfctl takes `nat-to` and `rdr-to` only with a direction")
    if rule.direction != wanted:
        raise Out("here `nat-to` is only on the way out, `rdr-to` only on the way in, and `binat-to` only on both")


def pass_translated(firewall: Firewall, rule: PfRule, its: Taken, place: str, about: Optional[About]) -> Taken:
    """The lines of a rule that translates what it passes, and what it translates."""
    words = rule.words.to
    if words is None or its.region is None or its.out:
        return its
    try:
        if words.kind not in (NAT, RDR) or rule.words.action != "pass":
            raise Out("a translation is taken in only of `match` and `pass`, and `binat-to` only of `match`")
        _check_direction(rule.words, words.kind)
        lost: List[str] = []
        pieces = pieces_of(firewall, replace(words, match=rule.words.match), rule, its.region, lost)
        lines = [line for piece in pieces for line in as_passed(piece, its.base, place, lost, about)]
        its.translated += [(piece.direction, piece.region, piece.target, piece.ports) for piece in pieces]
        return replace(its, lines=lines, lost=[*its.lost, *lost, *drawn(pieces)])
    except (Out, NotRead, NotKnown) as why:
        return replace(its, lines=[], out=str(why))
