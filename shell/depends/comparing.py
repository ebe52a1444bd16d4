"""Which replies are others by other rules, as long as the events are those of the same run."""
from __future__ import annotations

from typing import Dict, List, NamedTuple, Tuple

from ..language.commands import BACK, COMMANDS, DROP, EXCISE, FORK, FORWARD, NAMES, RESTORE, STEP, WHY
from ..language.names import NODES
from ..model.kernels import Kernel
from ..model.pair import read_shown
from ..searches.answers import is_same, read_answer
from ..shows.words import flow
from ..whatif.ends import End
from .replayed import Reply, Script, Spot

# What moves the cursor of a branch, or takes an event out of it.
_MOVES = (BACK.word, FORWARD.word, EXCISE.word, RESTORE.word)
_REFUSED = "refused"
# Which line of an answer to `why` has what came of the event.
_CAME = 2


class Difference(NamedTuple):
    """A command with another reply: its place among the commands, from 0 on."""

    place: int
    before: Reply
    after: Reply


class AtEnd(NamedTuple):
    """A branch that ends otherwise, and in what: each a text with the flow."""

    branch: str
    changes: Tuple[str, ...]


class Compared(NamedTuple):
    """What comes of a script by other rules than its own: the replies that are others, since which event a branch is another run, and
    what it ends with where it is not."""

    kernel: Kernel
    differences: List[Difference]
    partings: List[Spot]
    ends: List[AtEnd]

    @property
    def by_place(self) -> Dict[int, Reply]:
        return {difference.place: difference.after for difference in self.differences}

    @property
    def is_same(self) -> bool:
        return not self.differences


class _Partings:
    """Since which event each branch is another run; a branch that is none is not there."""

    def __init__(self) -> None:
        self.since: Dict[str, int] = {}
        self.found: List[Spot] = []

    def has(self, spot: Spot) -> bool:
        """Whether a command is about another run. The first events of a branch may be the same nevertheless."""
        if spot.command.word == NAMES.word:
            return bool(self.since)
        since = self.since.get(spot.branch)
        return since is not None and not (spot.command.word == FORK.word and spot.number < since)

    def take(self, spot: Spot, before: Reply, after: Reply) -> None:
        """Takes the replies to a command, by the script's own rules and by others."""
        word, has = spot.command.word, self.has(spot)
        if _REFUSED in (_first(before), _first(after)) and _first(before) != _first(after) and not has:
            self._part(spot)
        if word == FORK.word and before == ("forked",):
            self._fork(spot, has, after)
        elif word == DROP.word and before == ("removed",):
            self.since.pop(spot.branch, None)
        elif word in _MOVES and has:
            # (how far the cursor goes there depends on how many events there are)
            self.since[spot.branch] = 1
        elif word in _MOVES and before != after:
            self._part(spot)

    def _part(self, spot: Spot) -> None:
        if spot.command.word == STEP.word or spot.command.word in _MOVES:
            self.since.setdefault(spot.branch, max(spot.number, 1))
            self.found.append(spot)

    def _fork(self, spot: Spot, has: bool, after: Reply) -> None:
        new = spot.command.words[3]
        self.since.pop(new, None)
        if has:
            self.since[new] = self.since[spot.branch]
        elif after != ("forked",):
            self.since[new] = 1


def compared(script: Script, kernel: Kernel) -> Compared:
    """A script by other rules, reply by reply."""
    partings, differences = _Partings(), []
    replies = zip(script.spots, script.replies(script.own), script.replies(kernel))
    for place, (spot, before, after) in enumerate(replies):
        if not partings.has(spot) and not _says_the_same(spot, before, after):
            differences.append(Difference(place, before, after))
        partings.take(spot, before, after)
    return Compared(kernel, differences, partings.found, [*_ends(script, kernel, partings)])


def is_look(spot: Spot) -> bool:
    """Whether a command only looks at the pair, whose reply has all of it."""
    return spot.command.word in COMMANDS and spot.command.word not in (STEP.word, FORK.word, DROP.word, *_MOVES)


def _first(reply: Reply) -> str:
    return reply[0].split()[0]


def _says_the_same(spot: Spot, before: Reply, after: Reply) -> bool:
    """Whether two replies say the same: of a search that is what was found, and not how many runs that took; of `why` it is what came of
    the event, and not by which tests."""
    if before == after:
        return True
    if spot.command.word == WHY.word and len(before) > _CAME and len(after) > _CAME:
        return before[: _CAME + 1] == after[: _CAME + 1]
    one, two = read_answer(before), read_answer(after)
    return one is not None and two is not None and is_same(one, two)


def _used(before: Reply, after: Reply) -> Tuple[str, ...]:
    """The flows of which nothing but the time of their last use is another one at the end."""
    one, two = (read_shown(it) for it in (before, after))
    pairs = ((node, state, two.nodes[node].states.get(name)) for node in NODES for name, state in one.nodes[node].states.items())
    return tuple(f"last used at a different time on {node}: {flow(was)}" for node, was, now in pairs if now and was.last != now.last)


def _ends(script: Script, kernel: Kernel, partings: _Partings) -> List[AtEnd]:
    """What the branches end with that are the same run."""
    found, setup, there = [], script.setup(script.own), script.ends(kernel)
    for name, before in script.ends(script.own).items():
        if name in there and name not in partings.since and before != there[name]:
            changes = End(before, setup).changes(End(there[name], setup))
            texts = tuple(f"{change.text.replace('at the end ', '')}: {change.flow}" for change in changes) or _used(before, there[name])
            found += [AtEnd(name, texts)] * bool(texts)
    return found
