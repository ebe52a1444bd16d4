"""What a variant changes, and the variants that change the same."""
from __future__ import annotations

from bisect import bisect
from dataclasses import dataclass, field
from typing import Callable, Dict, FrozenSet, List, NamedTuple, Optional, Tuple

from ..language import events
from ..language.events import HELD_BACK, PACKET, PASS
from ..model.setups import Setup
from .causes import Causes, Hung
from .ends import Change, End
from .faults import Course, Variant
from .holding import DROPPED, Fate
from .plays import Played

# How many variants of a group are kept, to be named.
MOST_KEPT = 200
# The words for a variant that comes to rest though its run did not.
AT_REST = "nothing is pending or in flight any more"
# What changes, the most severe first: a packet goes on that did not, or the reverse; a flow is on neither node any more; a packet gets
# another verdict in some other way; the nodes are apart in another way at the end, or do not come to rest; a state is otherwise; only
# packets are judged otherwise that could not have come, or nothing but that they could not have; events are refused; nothing, but the
# end was not compared; nothing.
CROSSED, GONE, JUDGED, APART, OTHERWISE, IMPOSSIBLE, REFUSED, NOT_COMPARED, AS_IT_WAS = range(9)


class Verdict(NamedTuple):
    """A packet that gets another verdict: its event, and both verdicts."""

    number: int
    before: str
    after: str

    @property
    def passes(self) -> bool:
        """Whether it goes on now, but did not before."""
        return goes_on(self.after) and not goes_on(self.before)

    @property
    def drops(self) -> bool:
        return goes_on(self.before) and not goes_on(self.after)


class Effect(NamedTuple):
    """What a variant changes: verdicts; packets that could not have come; what the nodes have at the end, and whether they wait for a bulk
    update then; or that its end cannot be compared. If nothing else changes it has the numbers of the events that are refused, where 0
    is one that the fault adds."""

    verdicts: Tuple[Verdict, ...] = ()
    hung: Tuple[Hung, ...] = ()
    changes: Tuple[Change, ...] = ()
    waits: Tuple[str, ...] = ()
    refused: Tuple[int, ...] = ()
    # What keeps the variant from coming to rest and not its run, or the reverse; and whether the ends are compared.
    trouble: str = ""
    is_compared: bool = True

    @property
    def impossible(self) -> FrozenSet[int]:
        """The events of the packets that could not have come."""
        return frozenset(number for it in self.hung for number in it.numbers)

    @property
    def possible(self) -> Tuple[Verdict, ...]:
        """The verdicts on packets that could have come."""
        return tuple(verdict for verdict in self.verdicts if verdict.number not in self.impossible)

    @property
    def passes(self) -> bool:
        """Whether a packet that could have come goes on, and did not before."""
        return any(it.passes for it in self.possible)

    @property
    def drops(self) -> bool:
        return any(it.drops for it in self.possible)

    @property
    def is_gone(self) -> bool:
        return any(change.is_gone for change in self.changes)

    @property
    def is_apart(self) -> bool:
        return bool(self.waits or self.trouble) or any(change.is_apart for change in self.changes)

    @property
    def rank(self) -> int:
        """How severe it is; 0 is the most severe."""
        ranks = {
            CROSSED: self.passes or self.drops,
            GONE: self.is_gone,
            JUDGED: self.possible,
            APART: self.is_apart,
            OTHERWISE: self.changes,
            IMPOSSIBLE: self.hung,
            REFUSED: self.refused,
            NOT_COMPARED: not self.is_compared,
        }
        return next((rank for rank, holds in ranks.items() if holds), AS_IT_WAS)

    @property
    def is_nothing(self) -> bool:
        """Whether it changes nothing, as far as is known."""
        return self.rank in (NOT_COMPARED, AS_IT_WAS)

    def without(self, numbers: FrozenSet[int]) -> "Effect":
        """The same without the packets of some events, which did not come, without those that could not have come, and without refusals."""
        return self._replace(verdicts=tuple(verdict for verdict in self.verdicts if verdict.number not in numbers), hung=(), refused=())

    def judges(self, number: int) -> bool:
        """Whether the packet of an event gets another verdict."""
        return any(verdict.number == number for verdict in self.verdicts)


def goes_on(verdict: str) -> bool:
    """Whether a packet with this verdict passes, or is held and not dropped."""
    return verdict != DROPPED and verdict.split()[0] not in (events.DROPPED.word, "refused")


def verdict_of(outcome: str) -> str:
    """The verdict on a packet, whatever its state is called; for a refused packet the refusal."""
    words = outcome.split()
    if words[0] == "refused":
        return f"refused {words[-1]}"
    return words[0] if words[0] in (PASS.word, HELD_BACK.word) and words[1:] != ["-"] else outcome


def _with_fates(verdicts: Dict[int, str], fates: Dict[int, Fate]) -> Dict[int, str]:
    """The verdicts, and for a packet that was held what became of it."""
    return {**verdicts, **{number: it.verdict for number, it in fates.items()}}


class Base:
    """The run as it was: its verdicts by event, what became of held packets, and its end, if it comes to rest."""

    def __init__(self, course: Course, played: Played, setup: Setup):
        self.setup = setup
        self.trouble, self.fates = played.trouble, played.fates
        self.verdicts = {event.number: verdict_of(event.came) for event in course.events if event.kind is PACKET}
        self._numbers = [*self.verdicts]
        self.end = End(played.shown, setup)
        self.causes = Causes(course, played.fates)

    def effect(self, played: Played) -> Effect:
        """What a variant changes."""
        trouble = (played.trouble or AT_REST) if bool(played.trouble) != bool(self.trouble) else ""
        # (what does not come to rest has no end to compare)
        is_compared = not (played.trouble or self.trouble)
        changes, waits = self._at_end(played) if is_compared else ((), ())
        verdicts = self._verdicts(played, is_compared)
        hung = self.causes.hung(played, played.fates) if verdicts or not self._all_came(played) else ()
        is_else = not (verdicts or hung or changes or waits or trouble)
        refused = tuple(sorted({it.number for it in played.refused})) if is_else else ()
        return Effect(verdicts, hung, changes, waits, refused, trouble, is_compared)

    def _all_came(self, played: Played) -> bool:
        """Whether each packet came, and none was held here or in the run. If each verdict is the same as well, what a packet answers had
        gone out before it as it had there."""
        last = len(self._numbers) - bisect(self._numbers, played.place)
        return not (self.fates or played.fates) and last == sum(number in self.verdicts for number in played.came)

    def _verdicts(self, played: Played, is_compared: bool) -> Tuple[Verdict, ...]:
        """The verdicts that are others. What becomes of held packets is a part of the end."""
        came = {number: verdict_of(it) for number, it in played.came.items() if number in self.verdicts}
        before, after = self.verdicts, came
        if is_compared and (self.fates or played.fates):
            before, after = _with_fates(before, self.fates), _with_fates(came, played.fates)
        return tuple(Verdict(number, before[number], it) for number, it in sorted(after.items()) if it != before[number])

    def _at_end(self, played: Played) -> Tuple[Tuple[Change, ...], Tuple[str, ...]]:
        end = End(played.shown, self.setup)
        waits = [f"at the end {it} waits for a bulk update" for it in sorted(end.waiting - self.end.waiting)]
        waits += [f"at the end {it} does not wait for a bulk update" for it in sorted(self.end.waiting - end.waiting)]
        return self.end.changes(end), tuple(waits)


@dataclass
class Group:
    """Variants that change the same: how many there are, and the first ones."""

    effect: Effect
    many: int = 0
    variants: List[Variant] = field(default_factory=list)
    # Why the first one does what it does, in words, if that was asked when it was played.
    reason: Optional[List[str]] = None

    def add(self, variant: Variant) -> None:
        self.many += 1
        if len(self.variants) < MOST_KEPT:
            self.variants.append(variant)


class Groups:
    """The groups of the variants that were tried."""

    def __init__(self) -> None:
        self._by_effect: Dict[Effect, Group] = {}

    def add(self, variant: Variant, effect: Effect) -> Group:
        """Adds a variant to the group of its effect, which is returned."""
        group = self._by_effect.setdefault(effect, Group(effect))
        group.add(variant)
        return group

    def ordered(self) -> List[Group]:
        """The most severe first; equals in the order in which their first variants were tried."""
        return sorted(self._by_effect.values(), key=lambda it: it.effect.rank)


@dataclass(frozen=True)
class Watch:
    """What a group has to change: a packet that passes, or drops; a flow that is on neither node any more; how the nodes are apart; or the
    verdict of one of these events. Everything is watched if nothing is named."""

    words: FrozenSet[str] = frozenset()
    numbers: FrozenSet[int] = frozenset()

    def has(self, effect: Effect) -> bool:
        if not self.words and not self.numbers:
            return True
        return any(_WATCHED[word](effect) for word in self.words) or any(map(effect.judges, self.numbers))


_WATCHED: Dict[str, Callable[[Effect], bool]] = {
    "pass": lambda effect: effect.passes,
    "drop": lambda effect: effect.drops,
    "gone": lambda effect: effect.is_gone,
    "apart": lambda effect: effect.is_apart,
}
WATCHED = tuple(_WATCHED)


def union(one: Effect, two: Effect) -> Optional[Effect]:
    """What two faults change if each does what it does alone; nothing if they change the same packet or flow to something else."""
    verdicts = {it.number: it for it in (*one.verdicts, *two.verdicts)}
    changes = {it.flow: it for it in (*one.changes, *two.changes)}
    if any(verdicts[it.number] != it for it in (*one.verdicts, *two.verdicts)):
        return None
    if any(changes[it.flow] != it for it in (*one.changes, *two.changes)):
        return None
    changed, trouble = tuple(verdicts[verdict] for verdict in sorted(verdicts)), one.trouble or two.trouble
    is_compared = one.is_compared and two.is_compared
    if not is_compared:
        return Effect(changed, trouble=trouble, is_compared=False)
    at_end = tuple(sorted(changes.values(), key=lambda it: (it.text, it.flow)))
    return Effect(changed, changes=at_end, waits=tuple(sorted({*one.waits, *two.waits})))


def is_of_one(effect: Effect, one: Effect, two: Effect, left_out: FrozenSet[int]) -> bool:
    """Whether two faults together change no more, and no less, than one of them alone or each of them alone, except for the packets
    that one of them leaves out."""
    bare, first, second = (it.without(left_out) for it in (effect, one, two))
    return bare in (first, second, union(first, second))
