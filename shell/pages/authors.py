"""Who stepped the events of a pair, including those that were undone, and those of branches that were forked."""
from __future__ import annotations

from typing import Dict, List, NamedTuple, Sequence

from ..language.events import plain_event
from ..model.branches import Branch, common


class Stepped(NamedTuple):
    event: str
    who: str


class Authors:
    """The name next to each event of each branch; empty if it is not known, as in a script."""

    def __init__(self) -> None:
        self._of: Dict[str, List[Stepped]] = {}
        # The names of a branch before its newest excision.
        self._excised: Dict[str, List[Stepped]] = {}

    def step(self, words: Sequence[str], reply: Sequence[str], who: str) -> None:
        """Takes a step of this person, which drops the events that were undone."""
        own = self._of.setdefault(words[1], [])
        del own[len(own) - int(reply[-1]) :]
        own.append(Stepped(plain_event(words[2:]), who))

    def follow(self, words: Sequence[str], reply: Sequence[str]) -> None:
        """Takes a command that gives events another branch or another place."""
        own = self._of.get("".join(words[1:2]), [])
        if reply[0] == "forked":
            self._of[words[3]] = own[: int(words[2])]
        elif reply[0] == "excised":
            gone = {int(words[2]), *map(int, reply[1:])}
            self._excised[words[1]] = own
            self._of[words[1]] = [it for place, it in enumerate(own, 1) if place not in gone]
        elif reply[0] == "restored":
            self._of[words[1]] = self._excised.pop(words[1], [])

    def names(self, branch: Branch, who: str) -> List[str]:
        """The names next to the events of a branch, where this person stepped the new ones."""
        own = self._of.get(branch.name, [])
        same = common([it.event for it in own], branch.events)
        self._of[branch.name] = own[:same] + [Stepped(event, who) for event in branch.events[same:]]
        return [it.who for it in self._of[branch.name]]
