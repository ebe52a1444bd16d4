"""What became of each packet that a node held: when it went on, or was dropped."""
from __future__ import annotations

from dataclasses import dataclass, field
from typing import Callable, Dict, Iterable, List, NamedTuple, Sequence, Set, Tuple

from ..language.commands import PAST, WHY
from ..language.events import CLEAR, DELIVER, HELD_BACK, KILL, PACKET, PURGE, RELEASE, RESTART
from ..language.names import COUNTERS, NODES

# The events besides packets by which a packet can be held no more.
_ENDING = {it.word for it in (DELIVER, RELEASE, PURGE, KILL, CLEAR, RESTART)}
# How many places are looked at together.
_TOGETHER = 16
RELEASED, DROPPED, KEPT = "held and released", "held and dropped", "still held"
_FREED, _LOST = (2 + next(at for at, it in enumerate(COUNTERS) if it.name == name) for name in ("freed", "lost"))

# Asks for the replies to lines.
Ask = Callable[[Sequence[str]], List[List[str]]]
# A node, and the name of a state of it.
OfNode = Tuple[str, str]
# An event that was accepted, and its outcome.
Accepted = Tuple[str, str]


class Fate(NamedTuple):
    """What became of a held packet, and after how many events; it is still held where the place is 0."""

    verdict: str
    place: int = 0


STILL = Fate(KEPT)


@dataclass
class _Look:
    """What a shown pair says of the packets that are held: the states that they made, and at each node how many went on and were lost."""

    held: Set[OfNode] = field(default_factory=set)
    counts: Dict[str, Tuple[int, int]] = field(default_factory=dict)

    @classmethod
    def at(cls, shown: Sequence[str]) -> "_Look":
        look = cls()
        for line in shown:
            if line.startswith("held "):
                look.held.add((line.split()[1], line.split()[2]))
            elif line.startswith("count "):
                words = line.split()
                look.counts[words[1]] = int(words[_FREED]), int(words[_LOST])
        return look


def fates(ask: Ask, branch: str, events: Sequence[Accepted], held: Dict[int, Dict[OfNode, int]], first: int, room: int) -> Dict[int, Fate]:
    """What became of the packets that a branch held, by their numbers: `held` has those that were held after the first events, and by
    their places those that were held later on. Its events are those after the first ones. A node has room for so many packets."""
    every = {it for those in held.values() for it in those}
    if not every:
        return {}
    found = {number: STILL for those in held.values() for number in those.values()}
    places = [at for at, it in enumerate(events, first + 1) if _can_end(it, every, len(every) > room)]
    coming = sorted(held)
    waiting: Dict[OfNode, int] = {}
    before = _Look.at(ask([f"{PAST.word} {branch} {first}"])[0])
    while places and (waiting or coming):
        those, places = places[:_TOGETHER], places[_TOGETHER:]
        for place, shown in zip(those, ask([f"{PAST.word} {branch} {it}" for it in those])):
            while coming and coming[0] < place:
                waiting.update(held[coming.pop(0)])
            now = _Look.at(shown)
            gone = [it for it in waiting if it not in now.held]
            for it, verdict in zip(gone, _verdicts(ask, branch, place, events[place - first - 1][0], gone, before, now)):
                found[waiting.pop(it)] = Fate(verdict, place)
            before = now
    return found


def _can_end(accepted: Accepted, every: Set[OfNode], is_crowded: bool) -> bool:
    """Whether one of these packets can be held no more after an event. A packet lets that of its own state go; or if it is held itself and
    there is no room for it, the one that was held first."""
    words, outcome = accepted[0].split(), accepted[1].split()
    if words[0] != PACKET.word:
        return words[0] in _ENDING
    return is_crowded if is_held(outcome) else (words[1], outcome[-1]) in every


def _verdicts(ask: Ask, branch: str, place: int, event: str, gone: Sequence[OfNode], before: _Look, now: _Look) -> Iterable[str]:
    """What an event did to the packets that are held no more after it."""
    if not gone or event.startswith(RESTART.word):
        return [DROPPED] * len(gone)
    freed, lost = (sum(now.counts[node][which] - before.counts[node][which] for node in NODES) for which in (0, 1))
    if not (freed and lost):
        return [RELEASED if freed else DROPPED] * len(gone)
    # A frame with both: what was acknowledged went on.
    records = [it.split() for it in ask([f"{WHY.word} {branch} {place}"])[0] if it.startswith("record ")]
    acknowledged = {record[2] for record in records if record[-1] == "acknowledged"}
    return [RELEASED if name in acknowledged else DROPPED for _, name in gone]


def is_held(outcome: Sequence[str]) -> bool:
    return outcome[0] == HELD_BACK.word
