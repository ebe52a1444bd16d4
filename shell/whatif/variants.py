"""Writes variants as branches of a copy of their script, with their replies."""
from __future__ import annotations

import textwrap
from typing import Iterator, List, NamedTuple, Sequence, Set

from ..console.colours import PLAIN
from ..language.commands import FORK, MOST_BRANCHES, SHOW, STEP
from ..link.laboratory import Unknown
from ..scripts.annotating import annotated
from .groups import Group
from .report import Numbered, change, text_of
from .tries import Tried

WIDE = 126


class Written(NamedTuple):
    """A script with additional branches, and their names."""

    text: str
    names: List[str]

    def message(self, path: str) -> str:
        return f"written: {path}, with {'the branch' if len(self.names) == 1 else 'the branches'} {', '.join(self.names)}"


def with_variants(trial: Tried, text: str, taken: Sequence[str], shown: Sequence[Numbered]) -> Written:
    """A script with a branch for the first fault of each group that is shown and changes something, or is asked for by its number; the
    branches exist at its end."""
    groups = [(number, group) for number, group in shown if trial.asked.only or not group.effect.is_nothing]
    room = MOST_BRANCHES - len(taken)
    if not groups:
        raise Unknown("nothing is written: no group that is shown changes anything")
    if len(groups) > room:
        some = "--only N writes one group, --only N,M two"
        raise Unknown(f"nothing is written: {len(groups)} groups need a branch each, and {room} of {MOST_BRANCHES} are free; {some}")
    names: Set[str] = {*taken}
    written, lines = Written("", []), [text if text.endswith("\n") else f"{text}\n"]
    for number, group in groups:
        written.names.append(_name(number, names))
        names.add(written.names[-1])
        lines += [f"{line}\n" for line in _branch(trial, written.names[-1], group)]
    return written._replace(text=annotated(trial.player.lab.program, "".join(lines)).text)


def _name(number: int, taken: Set[str]) -> str:
    """A name that is not taken, for the branch of a group."""
    name = f"whatif-{number}"
    more = (f"{name}-{again}" for again in range(2, MOST_BRANCHES + 2))
    return name if name not in taken else next(one for one in more if one not in taken)


def _branch(trial: Tried, name: str, group: Group) -> Iterator[str]:
    """The lines of a variant's branch; if there is something else at its end, the steps to that point come too, and what is there."""
    played, branch, effect = trial.player.play(group.variants[0]), trial.player.branch.name, group.effect
    before = {one.number: one.before for one in effect.verdicts}
    yield ""
    yield from _comment(f"What if: {text_of(group.variants[0])}? Then {change(trial, effect, PLAIN)}.")
    yield f"{FORK.word} {branch} {played.place} {name}"
    for number, line in played.steps:
        yield from _comment(f"On {branch} this is {before[number]}.") if number in before else ()
        yield f"{STEP.word} {name} {line}"
    if effect.changes or effect.waits:
        yield from (f"{STEP.word} {name} {line}" for line in played.until_quiet)
        yield f"{SHOW.word} {name}"


def _comment(text: str) -> List[str]:
    return textwrap.wrap(text, WIDE, initial_indent="# ", subsequent_indent="# ", break_on_hyphens=False)
