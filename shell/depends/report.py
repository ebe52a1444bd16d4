"""The answer in words: by each set of rules, which replies are others, the first of them with its reason, and whether the end is."""
from __future__ import annotations

from typing import Container, Dict, Iterator, List, NamedTuple, Sequence, Tuple

from ..console.colours import Paint
from ..language.commands import KERNEL
from ..language.searches import SEARCH
from ..language.setups import SWITCHES, Switch
from ..reasons.kernel import PAGE
from ..shows.words import counted
from .choices import Far, Together, Tried, by_rules, together_words
from .comparing import AtEnd, Compared, Difference, is_look
from .reasons import Reasons
from .replies import KINDS, found_words, kind_of, looked_words, outcome_words

SAME = "no reply changes: the same by the profile and by the kernel, as far as we know it"
SAME_OTHERWISE = "no reply changes: the same with each of these words and without it"
# So many changes of an end are named, and so many events.
MOST_ENDS, MOST_NAMED = 3, 3


class _Group(NamedTuple):
    """Replies that are others by some rules, and the words for these."""

    by: str
    its: Compared
    differences: Sequence[Difference]


class Report:
    """The report on a script that was played by other rules than its own. All replies that change are shown, or the first by each of
    these."""

    def __init__(self, trial: Tried, name: str, shows_all: bool, why: Reasons, paint: Paint):
        self.trial, self.name, self.shows_all, self.why, self.paint = trial, name, shows_all, why, paint
        self.script, self.spots, self.own = trial.script, trial.script.spots, trial.script.own
        self.branches = len({one.branch for one in trial.script.events})

    def lines(self) -> List[str]:
        groups = sorted(self._groups(), key=lambda one: all(is_look(self.spots[difference.place]) for difference in one.differences))
        lines = [self.paint.head(self._headline())]
        for group in groups:
            lines += self._group(group)
        for far in self.trial.far:
            lines += self._far(far)
        if not self.trial.changes:
            lines.append(self.paint.good(SAME if self.own.is_profile else SAME_OTHERWISE))
        words = {word for it in groups for word in self.own.apart(it.its.kernel)}
        return [*lines, *self._only_at_end(), *self._others(words), *self._sure(words)]

    def _headline(self) -> str:
        events = counted(sum(1 for _ in self.script.events), "event")
        where = f" on {counted(self.branches, 'branch', 'branches')}" * (self.branches > 1)
        how = f"each word of `{KERNEL.word}` and all of them" if self.own.is_profile else "each word added or removed, all of them, and none"
        return f"{self.name}: {events}{where}, {self.own.by}; then by {how}"

    # ---- what changes by which rules

    def _groups(self) -> Iterator[_Group]:
        for compared in self.trial.singles:
            if not compared.is_same:
                yield _Group(self._by(compared), compared, compared.differences)
        for far in self.trial.far:
            for one in far.together:
                yield _Group(self._together(one), one.its, [it for it in far.its.differences if it.place in one.places])

    def _by(self, compared: Compared) -> str:
        return by_rules(self.own, compared.kernel)

    def _together(self, together: Together) -> str:
        return together_words(self.own, together.its.kernel)

    def _group(self, group: _Group) -> List[str]:
        """The replies that are others by some rules: how many, and the first in full."""
        ordered = sorted(group.differences, key=lambda it: (is_look(self.spots[it.place]), it.place))
        shown = ordered if self.shows_all else ordered[:1]
        lines = [line for it in shown for line in self._reply(group.its, it)]
        lines += [self.paint.note(parting) for parting in self._partings(group)]
        lines += _ends(group.its.ends)
        return [f"{self.paint.head(group.by)}: {self._tally([it.place for it in group.differences])}", *(f"  {line}" for line in lines)]

    def _tally(self, places: Sequence[int]) -> str:
        """How many replies of each kind."""
        kinds = [kind_of(self.spots[place]) for place in places]
        return ", ".join(kind.counted(kinds.count(kind)) for kind in KINDS if kind in kinds)

    def _reply(self, its: Compared, difference: Difference) -> List[str]:
        """A reply before and after; of an event also why it is another one."""
        spot = self.spots[difference.place]
        line = f" (line {spot.command.number})" if spot.command.number else ""
        if spot.command.word == SEARCH:
            change = f"{found_words(difference.before)} -> {self.paint.bad(found_words(difference.after))}"
            return [f"{self._spot_words(difference.place)}{line}: {change}"]
        if not spot.is_event:
            return [f"{self._spot_words(difference.place)}{line}: {text}" for text in looked_words(spot, difference, self.shows_all)]
        events = self.script.before(difference.place)
        why = self.why.reason(its.kernel, events, spot.event)
        lines = [spot.event, *why.lines]
        if why.since:
            first, *others = why.caused
            lines += [f"since event {why.since}, `{events[why.since - 1]}`: {first}", *others]
        change = f"{outcome_words(difference.before)} -> {self.paint.bad(outcome_words(difference.after))}"
        return [f"{self._spot_words(difference.place)}{line}: {change}", *(f"  {one}" for one in lines)]

    def _spot_words(self, place: int) -> str:
        """A command: an event by its number, anything else by its line."""
        spot = self.spots[place]
        return f"event {spot.number}{f' of {spot.branch}' * (self.branches > 1)}" if spot.is_event else f"`{spot.command.line}`"

    def _partings(self, group: _Group) -> List[str]:
        spots = [self.spots[difference.place] for difference in group.differences]
        those = [(parting.number, f" of {parting.branch}" * (self.branches > 1)) for parting in group.its.partings if parting in spots]
        return [f"from event {number}{on} on it is a different run, and nothing after it is compared" for number, on in those]

    def _few(self, places: Sequence[int]) -> str:
        """The first of some commands, and how many more there are."""
        more = len(places) - MOST_NAMED
        return ", ".join(map(self._spot_words, places[:MOST_NAMED])) + f" and {more} more" * (more > 0)

    # ---- all rules the kernel's, or none

    def _far(self, far: Far) -> List[str]:
        """What all words do, by those that do it alone or together."""
        if not self.trial.changes or far.its.kernel in [single.kernel for single in self.trial.singles]:
            return []
        its_own = [it for it in far.together if it.its.kernel != far.its.kernel]
        as_by = [*(self._by(it) for it in far.alone), *(self._together(it) for it in its_own)]
        what = f"as {_list(as_by)}" if as_by else self._tally([it.place for it in far.its.differences]) or "every reply as it was"
        undone = [it for it in sorted(far.undone) if not is_look(self.spots[it])]
        but = f", but {self._few(undone)} as {self.own.by}" if undone and not far.its.is_same else ""
        is_told = any(it.its.kernel == far.its.kernel for it in far.together) and not (as_by or but)
        return [] if is_told else [f"{self.paint.head(self._by(far.its))}: {what}{but}"]

    # ---- the rest

    def _only_at_end(self) -> List[str]:
        """The rules by which no reply changes, and the end does."""
        found: Dict[Tuple[AtEnd, ...], List[str]] = {}
        for compared in self.trial.singles:
            if compared.is_same and compared.ends:
                found.setdefault(tuple(compared.ends), []).append(self._by(compared))
        return [line for ends, by in found.items() for line in (f"{_list(by)}: only the end", *(f"  {end}" for end in _ends(ends)))]

    def _others(self, words: Container[Switch]) -> List[str]:
        """The words besides some on which nothing depends."""
        same = [single.kernel for single in self.trial.singles if single.is_same and not single.ends]
        others = [switch.word for switch in SWITCHES.values() if switch not in words and self.own.toggled((switch,)) in same]
        return [self.paint.dim(f"no other word changes anything: {', '.join(others)}")] if others and self.trial.changes else []

    def _sure(self, words: Container[Switch]) -> List[str]:
        """How sure we are of these rules."""
        those = (switch for switch in SWITCHES.values() if switch in words)
        return [self.paint.dim(f"how sure we are that FreeBSD has {it.word}: {it.sure} ({PAGE})") for it in those]


def _ends(ends: Sequence[AtEnd]) -> List[str]:
    """What branches end with."""
    changes = [f"{end.branch} ends differently: {text}" for end in ends for text in end.changes]
    more = len(changes) - MOST_ENDS
    return [*changes[:MOST_ENDS], *([f"and so on for {counted(more, 'more flow')}"] if more > 0 else [])]


def _list(words: Sequence[str]) -> str:
    return f"{', '.join(words[:-1])} and {words[-1]}" if len(words) > 1 else words[0]
