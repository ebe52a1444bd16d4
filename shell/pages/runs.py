"""A script's run as a page has it."""
from __future__ import annotations

from dataclasses import dataclass, replace
from typing import Dict, Iterator, List, Sequence

from ..console.characters import legible
from ..link.laboratory import Laboratory
from ..model.branches import Branch
from ..model.setups import Setup
from ..scripts.stories import Former, Places, Story, story_of
from ..scripts.texts import title_of
from .record import Record

# How many of the runs that were undone and stepped over, or lost an event, a page keeps: the newest.
MOST_FORMER = 8


@dataclass
class Run:
    """A script's run as a page has it: its story, its setup, and its branches, with those that were undone at the end."""

    title: str
    intro: List[str]
    setup: Setup
    records: List[Record]

    def as_data(self) -> Dict[str, object]:
        branches = [record.as_data() for record in self.records]
        return {**self.head, "branches": branches, "live": None}

    @property
    def head(self) -> Dict[str, object]:
        """What a page has of it besides its branches."""
        return {"title": self.title, "intro": self.intro, "setup": self.setup.lines, "by": self.setup.kernel.by}

    def close(self) -> None:
        for it in self.records:
            it.close()


def run_of(program: str, script: Sequence[str], name: str) -> Run:
    """The run of a script without faults; if it has no title, the name is used."""
    lab = Laboratory(program)
    try:
        story = story_of(lab, script)
        if not lab.is_open:
            lab.open()
        branches = [lab.branch(it) for it in lab.names()]
        records = [_recorded(lab, branch, story.branches[branch.name].notes, branch.name) for branch in branches]
        for record in records:
            record.forks, record.after = story.forks(record.name), {len(record.moments): story.waiting}
        former = enumerate(_others([*story.former, *_undone(story, branches)], branches), 1)
        records += [_recorded(lab, it.branch, it.notes, f"{it.branch.name}~{number}", True) for number, it in former]
        title = legible(title_of(script))
        return Run(title or name, [it for it in story.intro if it.rstrip(".") != title], lab.setup, records)
    finally:
        lab.close()


def _undone(story: Story, branches: Sequence[Branch]) -> Iterator[Former]:
    """The branches that have undone events at their end, with these."""
    for branch in branches:
        if branch.cursor < len(branch.events):
            yield Former(replace(branch, cursor=len(branch.events)), story.branches[branch.name].notes)


def _others(former: Sequence[Former], branches: Sequence[Branch]) -> List[Former]:
    """The newest of the former runs, without those that are the beginning of another one."""
    kept: List[Former] = []
    there = [branch.events[: branch.cursor] for branch in branches]
    for run in reversed(former):
        events = run.branch.events
        if not any(one[: len(events)] == events for one in (*there, *(other.branch.events for other in kept))):
            kept.append(run)
    return kept[:MOST_FORMER][::-1]


def _recorded(lab: Laboratory, branch: Branch, notes: Places, name: str, former: bool = False) -> Record:
    record = Record(lab.program, lab.setup, name, former)
    record.notes = notes
    record.sync(branch)
    record.mark()
    return record
