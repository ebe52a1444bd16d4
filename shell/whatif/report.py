"""The answer in words: each group with its faults, and the reason in its first fault."""
from __future__ import annotations

from itertools import groupby
from types import MappingProxyType
from typing import Dict, List, Mapping, Sequence, Tuple

from ..console.colours import PLAIN, Paint
from ..language.events import DELIVER
from ..language.names import NODES
from ..link.histories import History
from ..link.laboratory import Unknown
from ..model.explanations import Judged
from ..model.pair import read_shown
from ..reasons.absence import explain_absence
from ..reasons.explained import explained_ahead, explained_event, reasons
from ..reasons.questions import Question
from ..shows.diffs import between_nodes
from ..shows.words import counted, flow, state_fields, state_line
from .causes import Hung
from .ends import TIMES, Change, End, Where
from .faults import Course, Variant
from .groups import APART, GONE, IMPOSSIBLE, OTHERWISE, REFUSED, Effect, Group, Verdict, goes_on
from .plays import ENDLESS, Played
from .tries import Tried

# How many changes of a group are named, and how many of its faults.
MOST_CHANGES, MOST_NAMED = 3, 3
# How many states that only one node has are shown.
MOST_STATES = 3
# A group with its number.
Numbered = Tuple[int, Group]


def shown_groups(trial: Tried) -> List[Numbered]:
    """The groups that are asked for, each with its number among all of them."""
    numbered = list(enumerate(trial.groups.ordered(), 1))
    for number in trial.asked.only:
        if number > len(numbered):
            groups = f"from 1 to {len(numbered)}" if numbered else "and there is none"
            raise Unknown(f"there is no group {number}: they are numbered {groups}")
    chosen = [(number, group) for number, group in numbered if not trial.asked.only or number in trial.asked.only]
    return [(number, group) for number, group in chosen if trial.asked.watch.has(group.effect)]


def report(trial: Tried, groups: Sequence[Numbered], paint: Paint, others: Mapping[int, str] = MappingProxyType({})) -> List[str]:
    """What was tried, how the run itself ends, and the groups, the most severe first; and by their numbers what the first fault of each
    changes by other rules, where that is something else."""
    ending = f"once nothing is pending or in flight: {between_nodes(read_shown(trial.shown), trial.setup, paint)[0]}"
    lines = [paint.head(_headline(trial)), f"as it was, {f'at the end {trial.base.trouble}' if trial.base.trouble else ending}"]
    if trial.is_interrupted:
        lines.append(paint.note(f"interrupted: {trial.done:,} of {trial.total:,} were tried"))
    for number, group in groups:
        lines += ["", *_group(trial, number, group, others.get(number, ""), paint)]
    if not groups:
        lines += ["", _nothing(trial)]
    if trial.of_one and trial.groups.ordered():
        more = _many(trial.of_one, "more pair changes", "more pairs change")
        lines += ["", paint.dim(f"{more} what one of the two changes alone, or each of them alone")]
    return lines


def _headline(trial: Tried) -> str:
    course, faults = trial.course, counted(len(trial.faults), "single fault")
    where = ""
    if trial.asked.first > 1 or trial.asked.last is not None:
        where = f" at events {trial.asked.first} to {trial.asked.last or len(course)}"
    kinds = f" ({', '.join(trial.asked.kinds)})" if trial.asked.faults else ""
    how = f", two together: {_many(trial.total, 'pair', 'pairs')}" if trial.asked.pairs else ", each by itself"
    return f"{trial.player.branch.name}, {counted(len(course), 'event')}: {faults}{where}{kinds}{how}"


def _many(number: int, one: str, many: str) -> str:
    return f"{number:,} {one if number == 1 else many}"


def _nothing(trial: Tried) -> str:
    """A line that there is no group to show."""
    if not trial.groups.ordered():
        return "no pair does more than its two faults alone" if trial.asked.pairs and trial.done else "nothing was tried"
    return "no fault changes that"


def _group(trial: Tried, number: int, group: Group, other: str, paint: Paint) -> List[str]:
    """A group: what changes, with which faults, what the first of them changes by other rules, and why it does what it does."""
    what = counted(group.many, "pair" if trial.asked.pairs else "fault")
    lines = [f"{paint.head(f'{number}  {what}:')} {change(trial, group.effect, paint)}", f"   {_names(trial, group)}"]
    lines += [f"   {paint.note(_hung(hung))}" for hung in group.effect.hung]
    lines += [f"   {paint.note(other)}"] * bool(other)
    if group.reason is None:
        group.reason = why_first(paint, trial, group.variants[0], group.effect, trial.player.play(group.variants[0]))
    return lines + [f"   {line}" for line in group.reason]


def change(trial: Tried, effect: Effect, paint: Paint) -> str:
    """What changes, in one line. That all is as it was is said only where all of it was compared."""
    parts = [*_verdicts(effect.verdicts, paint), *_changes(effect.changes), *effect.waits]
    if effect.trouble:
        parts.append(paint.bad(f"at the end {effect.trouble}"))
    if not parts:
        but = [f"{counted(len(effect.impossible), 'packet')} could not have come"] * bool(effect.hung)
        but += [f"refused: {_few([_event(trial.course, one) for one in effect.refused])}"] * bool(effect.refused)
        same = "every packet and state as it was" if effect.is_compared else "no packet judged differently"
        parts.append(f"{same}, but {but[0]}" if but else paint.good(same) if effect.is_compared else same)
    return "; ".join([*parts, *_not_compared(trial, effect)])


def _not_compared(trial: Tried, effect: Effect) -> List[str]:
    """That the end was not compared, and why, where it was not."""
    if effect.is_compared:
        return []
    if effect.trouble and not trial.base.trouble:
        return ["the end was not compared"]
    return [f"the end was not compared: the run does not come to rest: at the end {trial.base.trouble}"]


def _hung(hung: Hung) -> str:
    """The packets that could not have come, and what they hang on."""
    if len(hung.numbers) == 1:
        return f"event {hung.numbers[0]} could not have come: it answers event {hung.cause}, {hung.why}"
    return f"events {_few([*map(str, hung.numbers)])} could not have come: they answer event {hung.cause}, {hung.why}"


def _verdicts(verdicts: Sequence[Verdict], paint: Paint) -> List[str]:
    """The packets that get other verdicts; those with the same change together."""
    numbers: Dict[Tuple[str, str], List[str]] = {}
    for it in verdicts:
        numbers.setdefault((it.before, it.after), []).append(str(it.number))
    return [
        f"{'event' if len(those) == 1 else 'events'} {_few(those)} {before} -> {paint.good(after) if goes_on(after) else paint.bad(after)}"
        for (before, after), those in numbers.items()
    ]


def _changes(changes: Sequence[Change]) -> List[str]:
    """The flows of which there is something else at the end; those of which there is the same together."""
    flows: Dict[str, List[str]] = {}
    for it in changes:
        flows.setdefault(it.text, []).append(it.flow)
    return [f"{text}: {_few(those)}" for text, those in flows.items()]


def _few(words: Sequence[str]) -> str:
    """The first words, and how many more there are."""
    more = len(words) - MOST_CHANGES
    return ", ".join(words[:MOST_CHANGES]) + (f" and {more} more" if more > 0 else "")


def _event(course: Course, number: int) -> str:
    return f"event {number} ({course.events[number - 1].line})" if number else "the fault itself"


def text_of(variant: Variant) -> str:
    return " and ".join(it.name for it in variant)


def _names(trial: Tried, group: Group) -> str:
    """The first faults of a group, or all that are kept if only this group is asked for."""
    named = _named(group.variants)
    shown = named if trial.asked.only else named[:MOST_NAMED]
    more = group.many - sum(many for _, many in shown)
    return "; ".join(name for name, _ in shown) + (f"; and {more:,} more" if more else "")


def _named(variants: Sequence[Variant]) -> List[Tuple[str, int]]:
    """The names of variants, and how many share each: what happens before consecutive events has one name."""
    named: List[Tuple[str, int]] = []
    for _, those in groupby(enumerate(variants), lambda it: _row(*it)):
        row = [variant for _, variant in those]
        first, last = row[0], row[-1][0]
        named.append((f"{first[0].text} before events {first[0].at} to {last.at}" if len(row) > 1 else text_of(first), len(row)))
    return named


def _row(place: int, variant: Variant) -> Tuple[str, int]:
    """What is the same for consecutive variants with one name."""
    one = variant[0]
    return (one.text, one.at - place) if len(variant) == 1 and not one.subject else ("", place)


# ---- the first fault of a group


def why_first(paint: Paint, trial: Tried, variant: Variant, effect: Effect, played: Played) -> List[str]:
    """Why the first fault of a group, which was just played, changes what it does, and which events it causes to be refused."""
    if effect.is_nothing:
        return []
    if effect.rank == REFUSED:
        return _refusal(trial, variant, played, effect.refused[0], paint)
    lines: List[str] = []
    if effect.trouble:
        lines = _answered(trial, played, paint)
    elif effect.rank in (GONE, APART, OTHERWISE, IMPOSSIBLE):
        lines = _states(trial, played, effect, paint)
    if effect.possible:
        lines = [*_verdict(trial, variant, played, reason_at(effect), paint), *lines]
    return lines + [paint.note(line) for line in _refused(trial.course, played)]


def _verdict(trial: Tried, variant: Variant, played: Played, number: int, paint: Paint) -> List[str]:
    """Why a packet gets another verdict in the variant that was played last. Of a packet that was held it is what ended that."""
    if any(one.number == number for one in played.refused):
        return _refusal(trial, variant, played, number, paint)
    fate = played.fates.get(number)
    place = number if number <= played.place else played.places[number]
    return _reason(trial, fate.place or place if fate else place, paint, ("held" if fate.place else "`defer`") if fate else "")


def reason_at(effect: Effect) -> int:
    """The packet whose reason is shown: the first that passes or drops, else the first with another verdict, of those that could have
    come."""
    crossed = [it.number for it in effect.possible if it.passes or it.drops]
    return (crossed or [it.number for it in effect.possible])[0]


def _reason(trial: Tried, place: int, paint: Paint, about: str = "") -> List[str]:
    """What `why` says of an event by its place in the variant that was played last: all of it if a group is asked for, else what decided,
    and why no state matched; or the lines about something, if there are any."""
    lab, branch = trial.player.lab, trial.player.lab.branch(trial.player.name)
    question = Question(History(lab, branch.name, branch.events[: place - 1]), lab.explanation(branch.name, place), paint)
    event, lines = question.explanation.event, reasons(question)
    those = [line for line in lines if about and about in line]
    if not trial.asked.only:
        absence = explain_absence(question)[:1] if isinstance(question.reason, Judged) else []
        lines = those or [*lines[:1], *absence]
    return [paint.head(f"{event.line}: {event.came}"), *(f"  {line}" for line in lines)]


def _refusal(trial: Tried, variant: Variant, played: Played, number: int, paint: Paint) -> List[str]:
    """What `why` says of an event that is refused in a variant; the variant is played up to there."""
    refused = next(one for one in played.refused if one.number == number)
    trial.player.play(variant, until=refused.at)
    return explained_ahead(trial.player.lab, trial.player.name, refused.line, paint)


def _answered(trial: Tried, played: Played, paint: Paint) -> List[str]:
    """Why the newest two frames that arrived in a variant are answered, if the nodes go on answering."""
    branch = trial.player.lab.branch(trial.player.name)
    places = [place for place, line in enumerate(branch.events, 1) if line.startswith(f"{DELIVER.word} ")]
    return [line for place in places[-2:] * (played.trouble == ENDLESS) for line in explained_event(trial.player.lab, branch, place, paint)]


def _states(trial: Tried, played: Played, effect: Effect, paint: Paint) -> List[str]:
    """What the nodes have at the end of a variant: how they are apart, as `diff` says it; and what they had in the run, where that is
    gone or otherwise."""
    apart = {one.flow for one in effect.changes if one.is_apart}
    lines: List[str] = []
    if apart or effect.waits:
        answer, *differ = between_nodes(played.pair, trial.setup, PLAIN)
        lines = [paint.bad(answer), *_some([line for line in differ if any(flow in line for flow in apart)])]
    return lines + _some(_otherwise(trial.base.end, End(played.shown, trial.setup)))


def _some(lines: Sequence[str]) -> List[str]:
    """The first lines, and how many more there are."""
    more = [f"{len(lines) - MOST_STATES} more"] if len(lines) > MOST_STATES else []
    return [f"  {line}" for line in [*lines[:MOST_STATES], *more]]


def _otherwise(before: End, after: End) -> List[str]:
    """The states of the run's end that are on neither node at another one, and those that are on the same nodes and changed; what both
    nodes have, once."""
    found: Dict[Tuple[str, str], List[str]] = {}
    for keys in before.changed(after):
        for node in NODES:
            was, now = before.state(keys, node), after.state(keys, node)
            if was and after.where(keys) is Where.NEITHER:
                found.setdefault(("as it was on", state_line(was)), []).append(node)
            elif was and now and before.where(keys) is after.where(keys):
                parts = _parts(state_fields(was), state_fields(now))
                found.setdefault(("on", f"{now.name}  {flow(now)}  {parts}" if parts else ""), []).append(node)
    return [f"{where} {' and '.join(nodes)}: {line}" for (where, line), nodes in found.items() if line]


def _parts(before: Dict[str, str], after: Dict[str, str]) -> str:
    """The fields that are not the same, with both texts."""
    return ", ".join(f"{it} {text} -> {after[it]}" for it, text in before.items() if it not in TIMES and text != after[it])


def _refused(course: Course, played: Played) -> List[str]:
    """The events of a variant that did not happen."""
    parts = [f"{_event(course, one.number)}: {one.why}" for one in played.refused]
    return [f"refused there: {_few(parts)}"] if parts else []
