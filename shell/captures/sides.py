"""Which sender is node a, and which node b: the first capture is of a, the second of b."""
from __future__ import annotations

from collections import Counter
from typing import Dict, List, NamedTuple, Optional, Sequence, Tuple

from ..language.names import NODES
from ..shows.words import counted
from .clocks import Both, Clocks, Measured, measured
from .surveys import Survey

# Two medians that are not further apart than this say nothing, where times are in microseconds.
_TOO_NEAR = 2000
# A median is clear beyond so many standard errors. Of what one capture alone has, as many to one, or two and none against, are.
_ERRORS, _TO_ONE, _LEAST_ALONE = 4, 4, 2
_SAID = "as --a says"
_UNSAID = "a guess, since one capture does not show whose it is, and is taken as that of a; --a ADDRESS settles it"
_OWN = "a capture of pfsync0 has what its node sent"


class NoSuchSender(Exception):
    """The address that was given for node a sent nothing."""


class Sides(NamedTuple):
    """The node of each sender, and how that is known; the clocks; the time of the way in nanoseconds, 0 if it is not known; and if the
    captures seem to be exchanged, whose the first one seems to be, and why."""

    nodes: Dict[str, str]
    why: str
    is_guess: bool
    clocks: Clocks
    latency: int
    exchanged: str = ""

    def said(self) -> str:
        """Who is who, and how that is known."""
        who = ", ".join(f"{node} is {sender}" for sender, node in self.nodes.items() if sender)
        return f"{who}: {self.why}" if who else self.why


def sides(surveys: Sequence[Survey], a: Optional[str]) -> Sides:
    """Which sender is which node. `a` is the address that was given for node a."""
    if a is not None and not any(a in survey.senders for survey in surveys):
        raise NoSuchSender(f"no message is from {a}: {_list(_main_senders(surveys, None)) or 'none has an address'}")
    if len(surveys) == 2 and all(survey.is_own for survey in surveys):
        return Sides({}, _OWN, False, Clocks(), 0)
    if len(surveys) == 2 and any(survey.is_own for survey in surveys):
        return _with_one_own(surveys, a)
    if len(surveys) == 2:
        return _of_two(surveys, a)
    if surveys[0].is_own:
        return Sides({"": "a"}, _OWN, False, Clocks(), 0)
    why = f"{_SAID}, and one capture alone is taken as that of a" if a else _UNSAID
    return Sides(dict(zip(_main_senders(surveys, a), NODES)), why, not a, Clocks(), 0)


def _list(those: Sequence[str]) -> str:
    return f"the senders are {' and '.join(those)}" if those else ""


def _main_senders(surveys: Sequence[Survey], a: Optional[str]) -> List[str]:
    """The two senders with the most messages, in the order of their first ones; the one that is a comes first if it is given."""
    numbers: Dict[str, int] = {}
    for survey in surveys:
        for sender in survey.addresses:
            numbers[sender] = numbers.get(sender, 0) + survey.senders[sender]
    most = sorted(numbers, key=lambda it: -numbers[it])
    if a:
        return [a, *[it for it in most if it != a][:1]]
    return [number for number in numbers if number in most[:2]]


def _with_one_own(surveys: Sequence[Survey], a: Optional[str]) -> Sides:
    """One capture is of pfsync0, so that its messages say which sender of the other capture its node is."""
    own = 0 if surveys[0].is_own else 1
    other = surveys[1 - own]
    _thin(surveys)
    without = {mark[1:]: its for mark, its in surveys[own].kept.items()}
    met: List[Both] = []
    for mark, its in other.kept.items():
        partner = without.get(mark[1:])
        if mark[0] and partner and its.often == partner.often == 1:
            met.append(Both(mark[0], *((its.time, partner.time) if own else (partner.time, its.time))))
    its_node = NODES[own]
    those = _main_senders([other], None)
    found = Counter(it.sender for it in met).most_common(1)
    if a:
        nodes, why = dict(zip([a, *(it for it in those if it != a)], NODES)), _SAID
    elif found:
        first = found[0][0]
        nodes = {first: its_node, **{it: NODES[1 - own] for it in those if it != first}}
        why = f"the capture of the pfsync0 of {its_node} has the same messages"
    else:
        nodes, why = dict(zip(those, NODES)), "a guess, since the captures have no message in common; --a ADDRESS settles it"
    clocks = measured([it for it in met if nodes.get(it.sender) == its_node]).clocks
    exchanged = ""
    if a and found and nodes.get(found[0][0]) != its_node:
        first = found[0][0] if own == 0 else "the other node"
        exchanged = f"{first}: the capture of the pfsync0 of {its_node} has the same messages as {found[0][0]} sent"
    return Sides({**nodes, "": its_node}, why, not found and not a, clocks, 0, exchanged)


def _of_two(surveys: Sequence[Survey], a: Optional[str]) -> Sides:
    """Both captures are of the link."""
    those = _main_senders(surveys, a)
    _thin(surveys)
    one, two = (survey.kept for survey in surveys)
    met = [
        Both(mark[0], its.time, two[mark].time)
        for mark, its in one.items()
        if mark[0] in those and mark in two and its.often == two[mark].often == 1
    ]
    its = measured(met)
    latency = abs(next(iter(its.later.values()), 0)) // 2
    least = 0 if any(it.a % 1000 or it.b % 1000 for it in met) else _TOO_NEAR
    way, loss = _by_latency(those, its, least), _by_loss(surveys, those, its.clocks, latency)
    if loss and not (way and way.those == loss.those):
        # (a tcpdump that misses what its own node sends makes it look lost at the other one)
        loss = loss._replace(is_clear=False)
    found = [way, loss]
    clear = next((it for it in found if it and it.is_clear), None)
    if a:
        exchanged = f"{clear.those[0] or 'the other node'}: {clear.why}" if clear and clear.those[0] != a else ""
        return Sides(dict(zip(those, NODES)), _SAID, False, its.clocks, latency, exchanged)
    order = clear or next((it for it in reversed(found) if it), None) or _Order(those, "", False)
    guess = f"a guess: {order.why or 'nothing shows it'}, and nothing else shows it clearly; --a ADDRESS settles it"
    nodes = {it: node for it, node in zip(order.those, NODES) if it}
    return Sides(nodes, clear.why if clear else guess, not clear, its.clocks, latency)


class _Order(NamedTuple):
    """The senders, that of the first capture first; how that is known; and whether it is clear."""

    those: List[str]
    why: str
    is_clear: bool


def _thin(surveys: Sequence[Survey]) -> None:
    """Keeps the same kinds of messages of both captures."""
    mask = max(survey.mask for survey in surveys)
    for it in surveys:
        it.thin(mask)


def _by_loss(surveys: Sequence[Survey], those: List[str], clocks: Clocks, latency: int) -> Optional[_Order]:
    """Whatever one capture alone has was sent by its own node, and lost on the way: as far as both captures cover that time, and neither
    lacks what its own node sent."""
    one, two = surveys
    begin = max(one.first, min(clocks.to_a(two.first), clocks.to_a(two.begun))) + latency
    end = min(one.last, max(clocks.to_a(two.last), clocks.to_a(two.ended))) - latency
    alone: Tuple[Counter[str], Counter[str]] = (Counter(), Counter())
    is_all = not one.mask
    for which, mine, other in ((0, one, two), (1, two, one)):
        for mark, its in mine.kept.items():
            more = its.often - (other.kept[mark].often if mark in other.kept else 0)
            if mark[0] not in those or more <= 0:
                continue
            first, last = (clocks.to_a(it) if which else it for it in (its.time, its.last))
            if begin <= first and last <= end:
                alone[which][mark[0]] += more
            elif more > 1:
                is_all = False
    for order in ([*those, ""][:2], [*those, ""][:2][::-1]):
        agree, against = (alone[0][it] + alone[1][its] for it, its in (order, order[::-1]))
        if agree > against:
            compared = "" if is_all else "of those that are compared, "
            but = f", and {against} in the other alone" * (against > 0)
            is_clear = agree >= _TO_ONE * against if against else agree >= _LEAST_ALONE
            messages = counted(agree, "message is", "messages are")
            return _Order(order, f"{compared}{messages} in the capture of the sender alone{but}", is_clear)
    return None


def _by_latency(those: List[str], its: Measured, least: int) -> Optional[_Order]:
    """A frame is seen at its sender first."""
    order = sorted(those, key=lambda it: -its.later.get(it, 0))
    twice = its.later.get(order[0], 0) if len(order) == 2 else 0
    if not twice:
        return None
    way = twice // 2
    before = f"{way} ns" if way < 1000 else f"{way / 1e6:.3f} ms"
    why = f"messages are in the capture of the sender first, {before} before the other, the difference of the clocks taken off"
    return _Order(order, why, twice > max(least, _ERRORS * its.error))
