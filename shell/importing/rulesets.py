"""The rulesets of a pf.conf: the main one, and those of its anchors, whose rules are asked where the anchor stands."""
from __future__ import annotations

from dataclasses import dataclass
from typing import Dict, Iterator, List, NamedTuple, Optional, Sequence, Tuple

from .expansion import PfRule
from .grammar import Content, Filter, Line, Load
from .judged import Judged
from .regions import Region
from .rules import common_direction

MAIN = ""


@dataclass
class Ruleset:
    """The number that pf gives the next rule, after those of the anchors that the ruleset is in, as in 8.2.; the anchor whose file it is
    from; and the packets that come to it."""

    prefix: str = ""
    file: str = MAIN
    direction: str = "any"
    region: Region = Region()
    number: int = 0

    def take(self, count: int) -> List[str]:
        """The numbers of the next rules."""
        first, self.number = self.number, self.number + count
        return [f"{self.prefix}{first + at}" for at in range(count)]

    def within(self, number: str, rule: PfRule, region: Region, file: str) -> Optional["Ruleset"]:
        """The ruleset of an anchor, which is a rule of this one; None if no packet comes to it."""
        direction, both = common_direction(self.direction, rule.words.direction), self.region.common(region)
        return Ruleset(f"{number}.", file, direction, both) if direction and both else None


class Step(NamedTuple):
    """The rules of a statement that are asked one after another, and whether pf goes by the first that matches."""

    judged: Judged
    ruleset: Ruleset
    rules: Sequence[Tuple[str, PfRule]]
    is_quick: bool


def as_quick(steps: Sequence[Step]) -> List[Step]:
    """The rules of an anchor that is `quick`: what matches in it decides, so the last rule that is not quick comes first."""
    quick, others = [step for step in steps if step.is_quick], [step for step in steps if not step.is_quick]
    return [it._replace(is_quick=True) for it in (*quick, *reversed(others))]


def all_lines(lines: Sequence[Line]) -> Iterator[Line]:
    """The statements with those of anchors."""
    for line in lines:
        yield line
        yield from all_lines(inner_lines(line.content))


def inner_lines(content: Content) -> Sequence[Line]:
    """The statements in the braces of an anchor, or in the file that is loaded into one."""
    if isinstance(content, Filter):
        return content.inner or ()
    return content.lines or () if isinstance(content, Load) else ()


def loaded(lines: Sequence[Line]) -> Dict[str, List[Load]]:
    """The files that are loaded into anchors, by the anchors' names."""
    found: Dict[str, List[Load]] = {}
    for line in lines:
        if isinstance(line.content, Load):
            found.setdefault(line.content.name.strip("/"), []).append(line.content)
    return found
