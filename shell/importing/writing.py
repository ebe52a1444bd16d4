"""The setup that an import writes, and what it reports."""
from __future__ import annotations

from itertools import accumulate, groupby
from typing import Iterable, Iterator, List, Sequence, Set

from ..console.characters import legible
from ..language.commands import KERNEL, OPEN, RULE
from ..language.comments import of_no_rule, of_reason, of_rule, of_statement, of_translated, short
from ..language.setups import EVERY_SWITCH, MOST_RULES
from ..shows.words import counted
from .importer import Import, is_counted
from .judged import Judged, Numbered, Verdict
from .rules import RuleLine
from .sections import Section


BY_THE_KERNEL = f"{KERNEL.word} {EVERY_SWITCH}"


def setup_lines(its: Import, nodes: Sequence[str], extra: Sequence[str], opens: bool) -> List[str]:
    """The setup: what is set, the rules and where each comes from, and `open`."""
    on = its.firewall.on
    # (whoever has a pf.conf has a real pair)
    hold = "FreeBSD's rules hold where the laboratory has them, as far as we know them, and else its profile"
    kernel = [f"# By `{BY_THE_KERNEL}` {hold}.", BY_THE_KERNEL]
    lines = [f"# The rules of {on}, taken in from a pf.conf by `./lab import`.", *_left_out(its), *kernel, *extra]
    lines += [line for judged in its.judged for line in _settings(judged)]
    lines += [*its.settings.lines(), ""]
    if its.is_skipped:
        lines.append(f"# `set skip` makes pf filter nothing on {on}: without rules every packet passes, and makes no state")
    lines += [line for translation in its.translations for line in _lost(translation.judged)]
    for owner, sections in groupby((section for section in its.sections if section.count), lambda it: it.owner):
        lines += _translated(its.translations[owner].judged, sections, nodes)
    seen: Set[int] = set()
    for judged, rules in its.written:
        lines += _rules(judged, rules, nodes, id(judged) in seen) if judged.verdict is not Verdict.LEFT else []
        seen.add(id(judged))
    return [*lines, OPEN.word] if opens else lines


def _left_out(its: Import) -> List[str]:
    """What is left out where not all packets are asked about, and why that changes nothing about these."""
    if not its.about:
        return []
    left = [it for it in its.judged if it.verdict is Verdict.LEFT]
    rules, others = (counted(sum(it.is_rule is of for it in left), noun) for of, noun in ((True, "rule"), (False, "translation")))
    return [
        f"# Only for {its.about.wanted.said},",
        "# as these come or once they are translated, and for their answers. What matches none of them is left out:",
        f"# {rules} and {others}, and nets and ports of others. So the rules decide about these packets as they would",
        "# without --about. About others they may decide otherwise: a script should have none.",
    ]


def _settings(judged: Judged) -> List[str]:
    """What a statement sets, below a comment that says which statement it is."""
    return [of_statement(judged.place, judged.line.text), *judged.settings] if judged.settings else []


def _translated(judged: Judged, sections: Iterable[Section], nodes: Sequence[str]) -> Iterator[str]:
    """The rules for the packets of a translation, below a comment that says which translation it is."""
    yield of_statement(judged.place, judged.line.text)
    for piece, entry in ((section.piece, entry) for section in sections for entry in section.entries if entry.lines):
        if entry.asked:
            kind, rule = f"{'no ' * piece.is_no}{piece.kind}", entry.asked
            yield of_translated(rule.place, rule.number, rule.text, kind, judged.place)
        elif not piece.passes:
            yield of_no_rule(judged.place, judged.line.text)
        yield from _written(entry.lines, nodes)


def _lost(judged: Judged) -> Iterator[str]:
    return (of_reason(judged.place, judged.verdict.value, reason) for reason in judged.reasons if judged.verdict is Verdict.APPROXIMATED)


def _rules(judged: Judged, rules: Sequence[Numbered], nodes: Sequence[str], is_again: bool) -> Iterator[str]:
    """The rules of a statement where pf comes to it; if it is out, a comment says so instead. What is lost is said once."""
    is_out = judged.verdict is Verdict.OUT
    if not is_again and (is_out or judged.rules):
        yield from (of_reason(judged.place, judged.verdict.value, reason) for reason in judged.reasons)
    if not is_again and is_out:
        yield of_reason(judged.place, judged.verdict.value, short(judged.line.text))
    for it in rules:
        yield from _numbered(judged, it, nodes)


def _numbered(judged: Judged, numbered: Numbered, nodes: Sequence[str]) -> Iterator[str]:
    """The lines of one of pf's rules, below a comment that says which rule it is."""
    yield of_rule(judged.place, numbered.number, judged.line.text, bool(numbered.lines))
    yield from _written(numbered.lines, nodes)


def _written(lines: Sequence[RuleLine], nodes: Sequence[str]) -> Iterator[str]:
    return (f"{RULE.word} {node} {line.text}" for node in nodes for line in lines)


def first_too_many(its: Import) -> str:
    """The statement that gives a node more rules than it may have, with what to do; empty if there is none."""
    counts = accumulate(sum(len(rule.lines) for rule in rules) for _, rules in its.written)
    over = next((one.judged for one, count in zip(its.written, counts) if count > MOST_RULES), None)
    if over is None:
        return ""
    where = f"{legible(over.line.path)}:{over.line.number}"
    hint = "leave statements out, give fewer nets" + (", or ask with --about for an address" if not its.about else "")
    return f"{where}: with its rules a node has more than {MOST_RULES}, so nothing is written: {hint}"


def report(its: Import, path: str) -> Iterator[str]:
    """A line for each statement that is not exact, and the sums."""
    for judged in its.judged:
        if judged.verdict in (Verdict.APPROXIMATED, Verdict.OUT):
            yield f"{legible(judged.line.path)}:{judged.line.number}: {judged.verdict.value}: {'; '.join(judged.reasons)}"
    yield from (f"{legible(path)}: {legible(note)}" for note in _notes(its))
    rules = [it for it in its.judged if it.is_rule]
    tail = f"; {counted(its.rule_lines, 'rule line')} a node"
    yield f"{legible(path)}: {_sum(its, rules, counted(_here(rules), 'rule') + f' of {its.firewall.on}')}{tail}"
    translations = [it for it in its.judged if it.is_translation]
    if translations:
        yield f"{legible(path)}: {_sum(its, translations, counted(_here(translations), 'translation') + f' of {its.firewall.on}')}"
    others = [it for it in its.judged if is_counted(it)]
    if others:
        yield f"{legible(path)}: {_sum(its, others, counted(_here(others), 'other line'))}"


def _here(judged: Sequence[Judged]) -> int:
    return sum(it.verdict not in (Verdict.ELSEWHERE, Verdict.LEFT) for it in judged)


def _sum(its: Import, judged: Sequence[Judged], head: str) -> str:
    """How many statements are exact, approximated and out, and how many are for other interfaces or for packets not asked about."""
    numbers = {verdict: sum(it.verdict is verdict for it in judged) for verdict in Verdict}
    elsewhere, left = numbers.pop(Verdict.ELSEWHERE), numbers.pop(Verdict.LEFT)
    said = ", ".join(f"{number} {verdict.value}" for verdict, number in numbers.items())
    said += f"; {elsewhere} {Verdict.ELSEWHERE.value}" if elsewhere else ""
    return f"{head}: {said}" + (f"; {left} {Verdict.LEFT.value} {its.about.wanted}" if its.about and left else "")


def _notes(its: Import) -> Iterator[str]:
    """What may be meant differently from how it was taken."""
    on = its.firewall.on
    if its.about:
        yield f"only what is about {its.about.wanted.said} is written"
    if its.is_skipped:
        yield f"`set skip` makes pf filter nothing on {on}, so there are no rules"
    if its.named and not any(its.firewall.is_on(it) for it in its.named):
        yield f"no rule names {on}; they name {', '.join(its.named)}"
    for name in its.unknown_groups:
        yield f"`{name}` is taken for an interface other than {on}; if it is a group with {on} in it, --group {name}={on} says so"
