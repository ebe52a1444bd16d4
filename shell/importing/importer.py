"""Takes in a pf.conf(5): what becomes of each of its statements on one interface."""
from __future__ import annotations

from collections import Counter
from dataclasses import dataclass
from itertools import accumulate
from typing import Dict, Iterator, List, NamedTuple, Optional, Sequence, Tuple

from ..language.setups import MOST_RULES
from .about import About, Wanted
from .addresses import Address, Network, Span, as_table
from .expansion import PfRule, expanded, without_spoofs
from .firewall import Firewall, TableContent
from .grammar import Antispoof, Content, Faulty, Filter, Interface, Line, Load, Macro, Other, Setting, Table, Translation
from .hosts import SELF, NotKnown, networks_of
from .judged import Judged, Numbered, Verdict
from .later import match_lost, match_translation, pass_translated
from .regions import Region
from .rules import Never, Out, RuleLine, Taken, lines_of, matched, taken
from .rulesets import MAIN, Ruleset, Step, all_lines, as_quick, inner_lines, loaded
from .sections import Asked, Section, is_asked, is_seen_otherwise, sections
from .settings import Settings
from .sources import hosts_in
from .tokens import NotRead
from .translations import TOO_MANY, Piece, translated, within_anchor

RULE_WORDS = ("pass", "block", "antispoof")
TRANSLATION_WORDS = ("nat", "rdr", "binat")
MATCH = "match"
_OTHERS = {
    "scrub": "packets are not normalised: they are not fragments, and none of their fields is changed",
    "altq": "bandwidth is left out",
    "queue": "bandwidth is left out",
}
_ANCHORED = "the rules of this anchor are not in the file: pfctl can load them while pf runs"
_NEVER_ASKED = "pf never reaches these statements: no anchor of the file has this name"
_OF_ANCHOR = "the anchor that it is in is left out"


@dataclass
class Translated:
    """A statement with a translation, and what it does."""

    judged: Judged
    pieces: List[Piece]


class Written(NamedTuple):
    """A statement where pf asks it, with the rules that it has there."""

    judged: Judged
    rules: List[Numbered]


class Import:
    """The statements of a pf.conf as the laboratory has them, in order."""

    def __init__(self, firewall: Firewall, lines: Sequence[Line], about: Optional[About] = None, looks_ahead: bool = False):
        self.firewall, self.settings = firewall, Settings()
        self.about = self.settings.context.about = about
        # Whether only what is translated is looked for, which may be more than there is room for.
        self._looks_ahead = looks_ahead
        self.translated: List[Tuple[str, Region, Optional[Address], Optional[Span]]] = []
        every = [*all_lines(lines)]
        self._see_ahead([it.content for it in every])
        # What becomes of each statement, by its place in memory; and of the statements of files, which of them pf comes to.
        self._judged = {id(it): _begun(it) for it in every}
        self._loads = loaded(lines)
        self._reached = {id(line) for line in lines}
        # The statements that limit states, or say between which numbers of them timeouts shrink.
        self._limiting: List[Judged] = []
        # How many rules a node has so far.
        self.rule_lines = 0
        # The rules of the filter that match something, by their statements.
        self._asked: List[Asked] = []
        self._by_number: Dict[str, Judged] = {}
        # The rules of each statement, with those that are out, as far as it is known which packets they are for.
        self._known: Dict[int, List[Asked]] = {}
        self.translations: List[Translated] = []
        self.written: List[Written] = []
        self._take_all(lines)
        self.judged = [self._judged[id(it)] for it in every if id(it) in self._reached]
        self.sections: List[Section] = []
        if self.rule_lines <= MOST_RULES and not looks_ahead:
            counts = accumulate(len(translation.pieces) for translation in self.translations)
            self.sections = self._sections({at: TOO_MANY for at, count in enumerate(counts) if count > MOST_RULES})
        self.rule_lines += sum(section.count for section in self.sections)
        if about:
            self._leave_out(about)
        for it in self._limiting[-1:]:
            it.lost(self.settings.lost())
        self._say_lost()

    def _see_ahead(self, contents: Sequence[Content]) -> None:
        """What holds for the whole file: interfaces that pf skips, tags that rules give, and whether there are anchors."""
        skipped = [interface for one in contents if isinstance(one, Setting) for interface in one.interfaces]
        rules = [interface for one in contents if isinstance(one, (Filter, Translation)) for interface in one.match.interfaces]
        spoofed = [interface.text for one in contents if isinstance(one, Antispoof) for interface in one.interfaces]
        # The interfaces that rules name.
        self.named = sorted({*spoofed, *(rule.name for rule in rules)})
        self.unknown_groups = sorted({it.name for it in (*skipped, *rules) if self.firewall.is_unknown_group(it.name)})
        self.is_skipped = any(self.firewall.is_for(it) for it in skipped)
        context = self.settings.context
        options = [option for one in contents if isinstance(one, (Filter, Translation)) for option in one.options]
        context.tags = {option.values[0] for option in options if option.word == "tag"}
        context.has_anchors = any(isinstance(it, Filter) and it.is_anchor and it.inner is None for it in contents)

    def _take_all(self, lines: Sequence[Line]) -> None:
        """Takes in the statements, in order. Tables come first: a rule may be above the table that it names."""
        files = [(MAIN, lines), *((name, one.lines or ()) for name, its in self._loads.items() for one in its)]
        for name, its in files:
            for line in its:
                if isinstance(line.content, Table):
                    self._table(self._judged[id(line)], line.content, name)
        ruleset = Ruleset()
        for judged in (self._judged[id(it)] for it in lines):
            self._judge(judged)
            steps = self._steps(judged, ruleset)
            for step in steps:
                self._taken(step)
            self.written += [] if steps else [Written(judged, [])]
        for line in (line for its in self._loads.values() for one in its for line in one.lines or ()):
            self._judge_loaded(line)
        self._judge_loads([it for it in all_lines(lines) if isinstance(it.content, Filter) and it.content.is_anchor], lines)

    def _judge(self, judged: Judged) -> None:
        """What becomes of a statement of the main file, if it is no rule of the filter."""
        content = judged.line.content
        if isinstance(content, Setting):
            before = self.settings.limits
            its = self.settings.take(content)
            self._limiting += [judged] * (self.settings.limits != before)
            judged.settings = its.lines
            judged.lost(its.lost)
            if its.out:
                judged.out(its.out)
        elif isinstance(content, Translation):
            self._translation(judged, content)
        elif isinstance(content, Filter) and content.action.endswith("-anchor"):
            self._translation_anchor(judged, content)
        elif isinstance(content, Other):
            self._other(judged, content)
        elif isinstance(content, Load) and content.why:
            judged.out(f"{content.why}: without the rules of this anchor the others may be stricter or laxer")

    def _judge_loads(self, anchors: Sequence[Line], lines: Sequence[Line]) -> None:
        """What becomes of the statements that load anchors which pf does not come to, or only on other interfaces."""
        for line in lines:
            if isinstance(line.content, Load) and line.content.lines is not None:
                name = line.content.name.strip("/")
                named = [anchor for anchor in anchors if isinstance(anchor.content, Filter) and anchor.content.name.strip("/") == name]
                if not named:
                    self._judged[id(line)].lost([_NEVER_ASKED])
                elif all(self._judged[id(it)].verdict is Verdict.ELSEWHERE for it in named):
                    self._judged[id(line)].elsewhere()

    def _judge_loaded(self, line: Line) -> None:
        """What becomes of a statement of the file of an anchor that pf comes to, if it is no rule of the filter."""
        judged = self._judged[id(line)]
        if id(line) not in self._reached or judged.is_rule:
            return
        if isinstance(line.content, Setting):
            judged.out("settings in the file of an anchor are not taken in")
        elif isinstance(line.content, Other):
            self._other(judged, line.content)
        self.written.append(Written(judged, []))

    def _other(self, judged: Judged, content: Other) -> None:
        """A statement that is neither a rule of the filter nor a translation."""
        if self._is_for(content.interfaces):
            judged.lost([_OTHERS[content.kind]])
        else:
            judged.elsewhere()

    def _is_for(self, interfaces: Sequence[Interface]) -> bool:
        return not self.is_skipped and any(self.firewall.is_for(it) for it in interfaces or (None,))

    # ---- rules

    def _steps(self, judged: Judged, ruleset: Ruleset) -> List[Step]:
        """The rules that pf makes of a statement: they are counted for all interfaces, and taken in for one."""
        content, none = judged.line.content, [Step(judged, ruleset, [], False)]
        if isinstance(content, Faulty):
            ruleset.take(judged.is_rule)
            return none
        if not isinstance(content, (Filter, Antispoof)) or _is_of_translations(content):
            return []
        self.firewall.file = ruleset.file
        try:
            words = without_spoofs(content) if isinstance(content, Antispoof) else [content]
            rules = [it for one in words for it in expanded(self.firewall, one)]
        except NotRead as why:
            ruleset.take(1)
            judged.out(str(why))
            return none
        numbered = zip(ruleset.take(len(rules)), rules)
        own = [(number, it) for number, it in numbered if self._is_for([it.interface] if it.interface else [])]
        if not rules:
            judged.out("pfctl refuses it: its addresses are of two families, so it gives no rule")
        elif not own:
            self._elsewhere(judged)
        elif isinstance(content, Filter) and content.is_anchor:
            return self._anchor(judged, content, own, ruleset)
        elif isinstance(content, Filter) and content.action == MATCH:
            self._match(judged, content, ruleset)
        else:
            return [Step(judged, ruleset, own, content.is_quick)]
        return none

    def _elsewhere(self, judged: Judged) -> None:
        """A statement is for other interfaces, with the rules in its braces."""
        judged.elsewhere()
        for line in all_lines(inner_lines(judged.line.content)):
            self._reached.add(id(line))
            self._judged[id(line)].elsewhere()

    def _anchor(self, judged: Judged, content: Filter, own: Sequence[Tuple[str, PfRule]], ruleset: Ruleset) -> List[Step]:
        """The rules of an anchor, for the packets that come to it."""
        inner, file = self._inner(judged, content, ruleset)
        lost: List[str] = []
        steps: List[Step] = []
        for number, rule in own if inner is not None else ():
            try:
                within = ruleset.within(number, rule, matched(rule, self.settings.context, lost), file)
            except Out as why:
                judged.out(f"{why}; without the rules of this anchor the others may be stricter or laxer")
                within = None
            except Never as why:
                lost.append(str(why))
                within = None
            found = [step for it in inner or () for step in self._steps(it, within)] if within else []
            steps += as_quick(found) if content.is_quick else found
        judged.lost(lost)
        if judged.verdict is Verdict.OUT:
            for line in all_lines(content.inner or ()):
                self._judged[id(line)].out(_OF_ANCHOR)
        return [Step(judged, ruleset, [], False), *(steps if judged.verdict is not Verdict.OUT else ())]

    def _inner(self, judged: Judged, content: Filter, ruleset: Ruleset) -> Tuple[Optional[List[Judged]], str]:
        """The statements of an anchor, and its name if they are from a file; None if they are not known."""
        name = content.name.strip("/")
        loads = self._loads.get(name, []) if not ruleset.prefix else []
        lines = content.inner if not loads else loads[0].lines if len(loads) == 1 and content.inner is None else None
        if lines is None:
            judged.out(loads[0].why or f"several statements give the anchor `{name}` its rules" if loads else _ANCHORED)
            return None, MAIN
        self._reached |= {id(line) for line in all_lines(lines) if not self._is_translation(line)}
        return [self._judged[id(line)] for line in lines], name if loads else ruleset.file

    def _match(self, judged: Judged, content: Filter, ruleset: Ruleset) -> None:
        """A `match` of later versions: a translation, or what affects no verdict."""
        try:
            if content.to is None:
                judged.lost(match_lost(content))
            elif ruleset.prefix:
                raise Out("`match` with a translation is not taken in within anchors")
            else:
                self._translation(judged, match_translation(content))
        except Out as why:
            judged.out(_untranslated(str(why)))

    def _taken(self, step: Step) -> None:
        """The rules of a statement for the interface, where pf comes to them; the statement is out if one of them is."""
        its: Dict[str, Taken] = {}
        judged, ruleset = step.judged, step.ruleset
        self.firewall.file = ruleset.file
        for number, rule in step.rules:
            if self.rule_lines > MOST_RULES and not self._looks_ahead:
                # (more are useless, and there may be very many)
                break
            made = taken(rule, self.settings.context, ruleset.direction, ruleset.region, step.is_quick)
            its[number] = made = pass_translated(self.firewall, rule, made, judged.place, self.about) if rule.words.to else made
            self.rule_lines += len(made.lines)
            self.translated += made.translated
            self._by_number[number] = judged
            if made.region is not None:
                asked = Asked(number, judged.place, judged.line.text, made.region, made.base)
                self._known.setdefault(id(judged), []).append(asked)
                self._asked += [asked] * (not made.out)
        outs = list(dict.fromkeys(it.out for it in its.values() if it.out))
        rules = [Numbered(number, it.lines) for number, it in its.items() if not it.out and (it.lines or not self.about)]
        judged.rules += rules
        self.written.append(Written(judged, rules))
        if outs:
            judged.out(_without(step.rules[0][1].words.action, *outs))
        judged.lost(reason for it in its.values() for reason in it.lost)

    @property
    def passed(self) -> Iterator[Tuple[str, Region]]:
        """What rules of the filter pass and what is translated: directions and packets."""
        yield from ((it.base.direction, it.region) for its in self._known.values() for it in its if it.base.action == "pass")
        yield from ((direction, region) for direction, region, target, _ in self.translated if target)

    def _leave_out(self, about: About) -> None:
        """Leaves out what is for none of the packets that are asked about, neither as these come nor once they are translated."""
        pieces = [piece for one in self.translations for piece in one.pieces if about.has(piece.direction, piece.region)]
        for judged in self.judged:
            known = self._known.get(id(judged), [])
            is_met = any(about.has(it.base.direction, it.region) or any(is_asked(one, it) for one in pieces) for it in known)
            if known and not is_met:
                judged.left()
        for at, one in enumerate(self.translations):
            is_met = any(about.has(piece.direction, piece.region) for piece in one.pieces)
            if not (is_met or one.judged.verdict is Verdict.OUT or any(section.count for section in self.sections if section.owner == at)):
                one.judged.left()

    def _say_lost(self) -> None:
        """Reports what is lost by translations, and for which pf rules several rules here each count their own states."""
        entries = [entry for section in self.sections for entry in section.entries]
        own = [rule.number for judged in self.judged for rule in judged.rules for _ in rule.lines]
        counts = Counter([*own, *(entry.asked.number for entry in entries if entry.asked for _ in entry.lines)])
        several = {it.number: counts[it.number] for it in self._asked if it.base.most is not None and counts[it.number] > 1}
        sections = [section for section in self.sections if section.count]
        lost = [(self.translations[section.owner].judged, [*section.reasons, *self._twice(section)]) for section in sections]
        lost += [(self._by_number[it], [f"each of its {count} rules here has a `max` of its own"]) for it, count in several.items()]
        for judged, reasons in lost:
            judged.lost(reasons)

    def _twice(self, section: Section) -> List[str]:
        """What is lost where a rule of the filter translates the packets of a translation again."""
        asked = [entry.asked for entry in section.entries if entry.asked and section.piece.target]
        contents = ((it.place, self._by_number[it.number].line.content) for it in asked)
        again = (where for where, content in contents if isinstance(content, Filter) and content.to)
        return [f"{it} translates its packets again, and here it does not" for it in again]

    # ---- translations

    def _translation(self, judged: Judged, content: Translation, regions: Optional[Sequence[Region]] = None) -> None:
        """A translation, or of one in an anchor its part for the anchor's packets; what becomes of its packets depends on the whole
        filter, and is decided when everything is read."""
        if not self._is_for(content.match.interfaces):
            judged.elsewhere()
            return
        its = translated(self.firewall, content, self.settings.context)
        pieces = its.pieces if regions is None else within_anchor(its.pieces, regions)
        if its.out:
            judged.out(_untranslated(its.out))
            return
        self.translated += [(piece.direction, piece.region, piece.target, piece.ports) for piece in pieces]
        # (each piece makes at least one rule for each of its nets)
        parts = ((piece.direction, region) for piece in pieces for few, rest in [piece.region.but_few()] for region in (*few, rest))
        counts = accumulate(len(lines_of(region, RuleLine("block", direction), self.about)) for direction, region in parts)
        if any(count > MOST_RULES for count in counts):
            judged.out(_untranslated(TOO_MANY))
            return
        judged.lost(its.lost)
        judged.lost(self._of_order(pieces) if content.is_match else [])
        self.translations.append(Translated(judged, pieces))

    def _of_order(self, pieces: Sequence[Piece]) -> List[str]:
        """What is lost by a `match` with a translation, which comes before all rules here: those above it see its packets as they came,
        and a later one the packets of an earlier one translated."""
        above = dict.fromkeys(it.place for it in self._asked for piece in pieces if is_seen_otherwise(piece, it))
        lost = [f"in pf {', '.join(above)} above it sees packets as they came, and here translated"] if above else []
        earlier = [piece for one in self.translations for piece in one.pieces]
        if any(one.is_again(piece) for one in earlier for piece in pieces):
            lost.append("in pf it gets packets that an earlier translation has translated, and here it does not")
        return lost

    def _is_translation(self, line: Line) -> bool:
        return isinstance(line.content, (Translation, Faulty)) and self._judged[id(line)].is_translation

    def _translation_anchor(self, judged: Judged, content: Filter) -> None:
        """An anchor of translations: those of its kind that are in the file that is loaded into it."""
        kind, loads = content.action.partition("-")[0], self._loads.get(content.name.strip("/"), [])
        if not self._is_for(content.match.interfaces):
            judged.elsewhere()
        elif len(loads) != 1 or loads[0].lines is None:
            judged.out(loads[0].why or f"several files are loaded into `{content.name}`" if loads else _ANCHORED)
        else:
            try:
                rules = [it for it in expanded(self.firewall, content) if self.firewall.is_for(it.interface)]
                lost: List[str] = []
                regions = [matched(rule, self.settings.context, lost) for rule in rules]
            except (Out, Never, NotRead) as why:
                judged.out(_untranslated(str(why)))
                return
            judged.lost(lost)
            self.firewall.file = content.name.strip("/")
            for line in (it for it in loads[0].lines if self._is_translation(it)):
                if isinstance(line.content, Translation) and line.content.kind == kind:
                    self._reached.add(id(line))
                    self._translation(self._judged[id(line)], line.content, regions)
                elif isinstance(line.content, Faulty) and line.content.word == kind:
                    self._reached.add(id(line))
            self.firewall.file = MAIN

    def _sections(self, is_out: Dict[int, str]) -> List[Section]:
        """The rules for packets that are translated, without these translations, and without those that then have no room."""
        owned = [(at, piece) for at, one in enumerate(self.translations) if at not in is_out for piece in one.pieces]
        found = sections(owned, self._asked, MOST_RULES - self.rule_lines, self.about)
        without = {it.owner: it.out for it in found if it.out} or self._too_many(found)
        if without:
            return self._sections({**is_out, **without})
        for at, why in is_out.items():
            self.translations[at].judged.out(_untranslated(why))
        return found

    def _too_many(self, found: Sequence[Section]) -> Dict[int, str]:
        """The first translation whose rules are too many for a node, and all after it."""
        own = [sum(it.count for it in found if it.owner == at) for at in range(len(self.translations))]
        is_over = [self.rule_lines + count > MOST_RULES for count in accumulate(own)]
        return {at: TOO_MANY for at, over in enumerate(is_over) if over}

    # ---- tables

    def _table(self, judged: Judged, table: Table, file: str) -> None:
        """A table of the main file, or of that of an anchor: its nets, and those of its files."""
        files = {path: hosts_in(judged.line.path, path) for path in table.files}
        lost = [f"there is no readable file {path}: nothing is taken from it" for path, its in files.items() if its is None]
        hosts = [*table.hosts, *(it for its in files.values() for it in its or [])]
        entries: List[Tuple[Network, bool]] = []
        for host in hosts:
            try:
                entries += [(net, host.is_not) for net in networks_of(self.firewall, host)]
                lost += [SELF] * (host.text == "self")
            except NotKnown as why:
                lost.append(str(why))
        if not hosts and not lost and "const" not in table.words:
            lost.append(f"<{table.name}> is empty here: pf fills it while it runs")
        self.firewall.add_table(file, table.name, TableContent(as_table(entries), "; ".join(lost)))
        judged.lost(lost)


def imported(firewall: Firewall, lines: Sequence[Line], wanted: Optional[Wanted]) -> Import:
    """The statements of a pf.conf, or of them what is about packets with an address at an end."""
    if wanted is None:
        return Import(firewall, lines)
    ahead = Import(firewall, lines, looks_ahead=True)
    is_own = any(it.ip == wanted.address for it in firewall.addresses_of(firewall.on) or ())
    about = About(wanted.placed(is_own, ahead.passed))
    for it in ahead.translated:
        about.add(*it)
    return Import(firewall, lines, about)


def _begun(line: Line) -> Judged:
    """A statement before anything is known of it but its kind."""
    content, judged = line.content, Judged(line)
    if isinstance(content, Faulty):
        judged.is_rule, judged.is_translation = content.word in RULE_WORDS, content.word in TRANSLATION_WORDS
        return judged.out(_without(content.word, content.why) if judged.is_rule else content.why)
    judged.is_rule = isinstance(content, Antispoof) or isinstance(content, Filter) and content.action in RULE_WORDS
    judged.is_translation = isinstance(content, Translation) or isinstance(content, Filter) and content.action == MATCH and bool(content.to)
    return judged


def _without(action: str, *why: str) -> str:
    """Why a rule is out, and how the others are without it."""
    return "; ".join([*why, f"the rules may be {'stricter' if action == 'pass' else 'laxer'} without it"])


def _untranslated(why: str) -> str:
    """Why a translation is out, and how the rules are without it."""
    return f"{why}; the rules see addresses as they are without it"


def _is_of_translations(content: Content) -> bool:
    return isinstance(content, Filter) and content.action.endswith("-anchor")


def is_counted(judged: Judged) -> bool:
    """Whether a statement counts among the sum's other lines."""
    return not (judged.is_rule or judged.is_translation or isinstance(judged.line.content, Macro))
