"""What became of the statements of a pf.conf."""
from __future__ import annotations

from dataclasses import dataclass, field
from enum import Enum
from typing import Iterable, List, NamedTuple, Sequence

from ..console.characters import legible
from .grammar import Line
from .rules import RuleLine
from .sources import place


class Verdict(Enum):
    """What became of a statement."""

    EXACT = "exact"
    APPROXIMATED = "approximated"
    OUT = "out"
    # For interfaces other than the one that is taken.
    ELSEWHERE = "for other interfaces"
    # For none of the packets that are asked about.
    LEFT = "not about"


class Numbered(NamedTuple):
    """A rule of pf, by number, with its lines here."""

    number: str
    lines: Sequence[RuleLine]


@dataclass
class Judged:
    """A statement, what became of it, and why if it is not exact; and its lines: those of a setup, and those of each pf rule of it."""

    line: Line
    is_rule: bool = False
    is_translation: bool = False
    verdict: Verdict = Verdict.EXACT
    reasons: List[str] = field(default_factory=list)
    settings: List[str] = field(default_factory=list)
    rules: List[Numbered] = field(default_factory=list)

    @property
    def place(self) -> str:
        """The name of its file, and its line."""
        return place(self.line.path, self.line.number)

    def out(self, why: str) -> "Judged":
        self.verdict, self.reasons = Verdict.OUT, [legible(why)]
        return self

    def elsewhere(self) -> "Judged":
        """It is for other interfaces, unless it is not understood."""
        self.verdict = self.verdict if self.verdict is Verdict.OUT else Verdict.ELSEWHERE
        return self

    def left(self) -> "Judged":
        """It is for none of the packets that are asked about, so nothing of it is lost."""
        self.verdict, self.reasons, self.rules = Verdict.LEFT, [], []
        return self

    def lost(self, reasons: Iterable[str]) -> "Judged":
        """Adds what is lost, each reason once; nothing for a statement that is out."""
        if self.verdict is not Verdict.OUT:
            self.reasons = [*dict.fromkeys([*self.reasons, *map(legible, reasons)])]
        if self.reasons and self.verdict is Verdict.EXACT:
            self.verdict = Verdict.APPROXIMATED
        return self
