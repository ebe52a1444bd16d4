"""Where other rules than those of the pair would do otherwise with the records of a delivered frame."""
from __future__ import annotations

from typing import List, Set

from ..language.commands import KERNEL
from ..language.names import Name
from ..language.records import CLEAR, UPDATE
from ..language.setups import CLEAR as CLEAR_RULE, MERGE, RULE, STATES
from ..link.laboratory import Laboratory
from ..model.frames import Carried, Frame
from ..model.kernels import Kernel
from ..model.merging import is_stale_destination
from ..model.pair import Node, other
from ..model.receiving import received
from .came import Came
from .kernel import (
    PAGE,
    explain_destinations,
    explain_echoes,
    explain_revived,
    explain_rules,
    explain_spared,
    explain_takeover,
    gives_way,
    has_key_of,
    keeping,
    rules_without,
)
from .lifetimes import explain_lifetimes
from .questions import Question, name_list


def explain_other_rules(question: Question, frame: Frame, came: List[Came]) -> List[str]:
    """Where the kernel does otherwise than the profile with these records, and where the profile does otherwise than the kernel."""
    before, after = (it.nodes[frame.to] for it in (question.pair, question.after))
    stale = [it for it in came if it.taken.stale and not it.taken.goes_together]
    echoes = [it.name for it in came if it.taken.stale and _is_echo(it)]
    lines = [
        *_endless(stale),
        *explain_takeover(_in_the_place_of_closed(question.lab, came)),
        *explain_revived(_deleting(question.lab, came)),
        *explain_spared(_spared(came, after)),
        *explain_destinations([it.name for it in stale if it.taken.stale == ("destination",) and not _is_echo(it)]),
        *explain_echoes(echoes),
    ]
    if not question.lab.knows_setup:
        return lines
    setup, fates = question.lab.setup, question.explanation.records
    return [*lines, *_rules(question, frame, after), *explain_lifetimes(setup, frame, fates, before, after)]


def _endless(stale: List[Came]) -> List[str]:
    """States whose updates two nodes go on answering: the one has a destination end of a higher level, and the other one of a later
    number, so that each keeps its own."""
    crossed = [it for it in stale if "destination" in it.taken.stale and _is_crossed(it)]
    if not crossed:
        return []
    node, names = crossed[0].node.id, name_list([it.name for it in crossed])
    answered = f"{other(node)} would find {node}'s own {names} stale in turn, unless it has heard more since"
    rest = f"by {KERNEL.word} {MERGE.word} they come to rest, unless their frames keep crossing"
    return [f"{answered}: by this project's profile the two can continue like this without end; {rest} ({PAGE})"]


def _is_crossed(fate: Came) -> bool:
    """Whether the destination end that is here would be stale at the sender as well, which has what came."""
    known, carried = fate.node.states.get(fate.name), fate.record.state
    if known is None or carried is None or known.protocol != "tcp":
        return False
    came, here = carried.destination, known.destination
    return is_stale_destination(here, came, True) and is_stale_destination(came, here, True)


def _is_echo(fate: Came) -> bool:
    """Whether a record is about a state of ICMP that was there before the frame."""
    known = fate.node.states.get(fate.name)
    return known is not None and known.protocol == "icmp"


def _has_room(lab: Laboratory, came: List[Came]) -> bool:
    """Whether there is room for all that the frame may bring."""
    return lab.knows_setup and len(came[0].node.states) + len(came) <= lab.setup.limits[STATES]


def _in_the_place_of_closed(lab: Laboratory, came: List[Came]) -> List[Name]:
    """The states that are bad here since closed ones have their keys."""
    in_use = [it for it in came if it.taken.fate[:2] in (("bad", "wire"), ("bad", "stack"))] if _has_room(lab, came) else []
    return [it.name for it in in_use if isinstance(it.record.state, Carried) and gives_way(it.record.state, it.node)]


def _deleting(lab: Laboratory, came: List[Came]) -> List[Name]:
    """The states that are bad here since their deletions are pending, and whose keys no other state has."""
    bad = {it.name: it.record.state for it in came if it.taken.fate == ("bad", "deleting")} if _has_room(lab, came) else {}
    brought = [it.record.state for it in came if it.taken.fate[0] == "imported"]
    held = [*came[0].node.states.values(), *(it for it in brought if isinstance(it, Carried))]
    return [name for name, new in bad.items() if isinstance(new, Carried) and not any(has_key_of(it, new) for it in held)]


def _spared(came: List[Came], after: Node) -> List[Name]:
    """The states that clears spare since they are newer, each once, unless what comes after a clear in the frame is about them."""
    without_bound = Kernel((CLEAR_RULE,))
    names: Set[Name] = set()
    for at, clear in enumerate(came):
        if clear.record.kind is not CLEAR or clear.kernel.has(CLEAR_RULE):
            continue
        there = {*clear.node.states, *(it.name for it in came[:at] if it.taken.fate[0] == "imported")}
        rest = there & after.states.keys() - {it.name for it in came[at:]}
        names |= {it for it in rest if clear.taken.takes(without_bound, it)}
    return sorted(names)


# ---- rules


def _rules(question: Question, frame: Frame, after: Node) -> List[str]:
    """The states that have a rule by the profile, and none by the kernel since they came as updates."""
    kernel, fates = question.lab.setup.kernel, question.explanation.records
    came = received(question.lab.setup, kernel.without(RULE), question.pair.nodes[frame.to], frame, fates)
    new = [(record, it.state) for record, it in zip(frame.records, came) if it and not it.merged and record.kind is UPDATE]
    kept = [(state.name, state.rule) for _, state in new if state.rule is not None and state.name in after.states]
    if not kernel.has(RULE):
        return explain_rules(kept)
    names = [it.name for it, _ in new if isinstance(it.state, Carried) and it.state.rule is not None and it.name in after.states]
    if not names:
        return []
    has, came_as = ("have", "they came as updates") if len(names) > 1 else ("has", "it came as an update")
    otherwise = f"; {rules_without(kernel, RULE)} {keeping(kept)}" * bool(kept)
    return [f"by {KERNEL.word} {RULE.word} {name_list(names)} {has} no rule, and the default timeouts, since {came_as}{otherwise}"]
