"""The sets of rules by which a script is played: its own, each word of `kernel` added or taken away, and where all of them are the
kernel's, or none. And the least sets of words that change together what no word changes alone."""
from __future__ import annotations

from typing import Container, Dict, FrozenSet, Iterator, List, NamedTuple, Optional, Tuple

from ..language.commands import KERNEL
from ..language.setups import SWITCHES, Switch
from ..model.kernels import EVERY, PROFILE, Kernel
from .comparing import Compared, compared, is_look
from .replayed import Reply, Script

# So many sets of words are looked for that do something together.
MOST_SETS = 8


class Together(NamedTuple):
    """The least set of rules by which some replies are as in a farther one: none of its words can be left out."""

    its: Compared
    places: FrozenSet[int]


class Far(NamedTuple):
    """All rules the kernel's, or none: the words that bring a reply there alone, and the least sets of those that do it together."""

    its: Compared
    alone: Tuple[Compared, ...]
    together: Tuple[Together, ...]
    # The places whose reply is another one by some word, and by all of them is as it was.
    undone: FrozenSet[int]


class Tried(NamedTuple):
    """A script by other rules than its own: with another rule in one place each, and in all."""

    script: Script
    singles: Tuple[Compared, ...]
    far: Tuple[Far, ...]

    @property
    def changes(self) -> bool:
        """Whether a reply is another one by any of these rules."""
        return any(not it.is_same for it in (*self.singles, *(one.its for one in self.far)))


def tried(script: Script, places: Optional[Container[int]] = None) -> Tried:
    """Plays a script by all of these rules. What several words do together is looked for at all places, or at some."""
    singles = tuple(compared(script, script.own.toggled((switch,))) for switch in SWITCHES.values())
    ends = [it for it in (EVERY, PROFILE) if it != script.own]
    known = {single.kernel: single for single in singles}
    return Tried(script, singles, tuple(_far(script, known, end, places) for end in ends))


def by_rules(own: Kernel, kernel: Kernel) -> str:
    """By which rules: those of the profile, of the kernel, or of a script with other ones in some places."""
    if own.is_profile or kernel in (PROFILE, EVERY):
        return kernel.by
    more = [switch.word for switch in kernel.switches if switch not in own.switches]
    less = [switch.word for switch in own.switches if switch not in kernel.switches]
    parts = [f"also with {KERNEL.word} {', '.join(more)}"] * bool(more) + [f"without {KERNEL.word} {', '.join(less)}"] * bool(less)
    return " and ".join(parts)


def together_words(own: Kernel, kernel: Kernel) -> str:
    """By which rules, where none of their words does it alone."""
    is_several = len(own.apart(kernel)) > 1 and kernel not in (PROFILE, EVERY)
    return f"{by_rules(own, kernel)} together" if is_several else by_rules(own, kernel)


def _far(script: Script, known: Dict[Kernel, Compared], end: Kernel, places: Optional[Container[int]]) -> Far:
    """What comes of it where all rules are the kernel's, or none."""
    its = known[end] if end in known else compared(script, end)
    words = script.own.apart(end)
    singles = [known[script.own.toggled((word,))] for word in words]
    alone = tuple(one for one in singles if any(its.by_place.get(at) == after for at, after in one.by_place.items()))
    told = {at for one in alone for at, after in one.by_place.items() if its.by_place.get(at) == after}
    # (of a shown pair each word may change another part)
    shown = {at for one in singles for at in one.by_place if is_look(script.spots[at])}
    left = {at: after for at, after in its.by_place.items() if at not in told | shown and (places is None or at in places)}
    since = min((place for place, _ in _parted(its)), default=len(script.commands))
    undone = frozenset(at for one in singles for at in one.by_place if at not in its.by_place and at < since)
    return Far(its, alone if len(words) > 1 else (), tuple(_sets(script, known, words, left)), undone)


def _parted(its: Compared) -> Iterator[Tuple[int, Reply]]:
    """The replies from which on branches are other runs."""
    return ((it.place, it.after) for it in its.differences if "refused" in (it.before[0].split()[0], it.after[0].split()[0]))


def _sets(script: Script, known: Dict[Kernel, Compared], words: Tuple[Switch, ...], left: Dict[int, Reply]) -> Iterator[Together]:
    """The least sets of words by which these replies are so: found by taking one word away after the other as long as the first of them
    stays so."""
    for _ in range(MOST_SETS):
        if not left or len(words) < 2:
            return
        place = min(left)
        least = _least(script, known, words, place, left[place])
        places = frozenset(at for at, after in left.items() if least.by_place.get(at) == after)
        yield Together(least, places)
        left = {at: after for at, after in left.items() if at not in places}


def _least(script: Script, known: Dict[Kernel, Compared], words: Tuple[Switch, ...], place: int, after: Reply) -> Compared:
    kept: List[Switch] = [*words]
    for word in words:
        fewer = script.own.toggled([it for it in kept if it is not word])
        if fewer == script.own:
            continue
        if fewer not in known:
            known[fewer] = compared(script, fewer)
        if known[fewer].by_place.get(place) == after:
            kept.remove(word)
    return known[script.own.toggled(kept)] if len(kept) < len(words) else compared(script, script.own.toggled(kept))
