"""The story of a script by its branches: the paragraphs of its comments, where branches begin, and runs that were undone."""
from __future__ import annotations

from dataclasses import dataclass, field
from typing import Callable, Dict, List, NamedTuple, Optional, Sequence, Set

from ..console.characters import legible
from ..language.commands import BACK, DROP, EXCISE, FORK, FORWARD, RESTORE, STEP
from ..language.comments import is_of_import
from ..language.events import plain_event
from ..language.lines import content_of, has_word
from ..link.laboratory import Laboratory
from ..model.branches import Branch
from .verifying import is_mark

# A script can undo and step anew again and again: only the newest of these runs are kept.
MOST_KEPT = 64
# Paragraphs, or names of branches, by how many events of a branch stood.
Places = Dict[int, List[str]]


@dataclass
class Chapter:
    """What a story has on a branch: its events, including those that were undone, and how many of them stand; and by numbers of
    events the paragraphs about each, and the branches that begin after it."""

    events: List[str] = field(default_factory=list)
    cursor: int = 0
    notes: Places = field(default_factory=dict)
    forks: Places = field(default_factory=dict)
    # All this as it was before events were undone, if none has been stepped since.
    before: Optional["Chapter"] = None
    # The chapters before each excision that can be taken back, newest last.
    excised: List["Chapter"] = field(default_factory=list)

    def first(self, number: int) -> "Chapter":
        """The chapter of the first events."""
        return Chapter(self.events[:number], number, _kept(self.notes, number), _kept(self.forks, number))

    def without(self, gone: Set[int]) -> "Chapter":
        """The chapter without the events at some places. Branches that began after one of these no longer begin here."""
        events = [it for place, it in enumerate(self.events, 1) if place not in gone]
        cursor = self.cursor - sum(it <= self.cursor for it in gone)
        chapter = Chapter(events, cursor, _without(self.notes, gone), _kept(self.forks, min(gone) - 1))
        chapter.before, chapter.excised = chapter.first(len(events)), [*self.excised, self]
        return chapter


class Former(NamedTuple):
    """A branch before it was changed anywhere but at its end, with its paragraphs."""

    branch: Branch
    notes: Places


class Story:
    """A story, read line by line, with the replies."""

    def __init__(self) -> None:
        # The paragraphs of the setup.
        self.intro: List[str] = []
        self.branches: Dict[str, Chapter] = {"main": Chapter()}
        # The runs that were undone and stepped over, or lost an event, newest last.
        self.former: List[Former] = []
        # The paragraphs that no line has followed yet, and whether the next comment continues the last one.
        self.waiting: List[str] = []
        self._goes_on = False

    def comment(self, line: str) -> None:
        """Takes a line that is not read: a part of a paragraph, or an empty line, which ends one."""
        if is_mark(line) or is_of_import(line):
            return
        words = legible(content_of(line).strip().lstrip("#"))
        if words and self._goes_on:
            self.waiting[-1] += f" {words}"
        elif words:
            self.waiting.append(words)
        self._goes_on = bool(words)

    def setup(self) -> None:
        """A line of the setup follows."""
        self.intro += self._paragraphs()

    def command(self, line: str, reply: Sequence[str]) -> None:
        """Takes a command with its reply. A paragraph is about the next event, whatever commands come in between."""
        self._goes_on = False
        words, answer = line.split(), reply[0].split()
        change = _CHANGES.get(words[0])
        if change is None or answer[0] in ("refused", "bad"):
            return
        change(self, words[1], words[2:], answer[1:])

    def above(self, name: str) -> Places:
        """The paragraphs above the events of a branch, by how many events come before them; those at the end of the script come after
        the last event of each branch."""
        chapter = self.branches.get(name, Chapter())
        places = {place - 1: [*those] for place, those in chapter.notes.items() if place <= chapter.cursor}
        if self.waiting and name in self.branches:
            places.setdefault(chapter.cursor, []).extend(self.waiting)
        return places

    def forks(self, name: str) -> Places:
        """The names of the branches that begin after events of a branch, and its own where it begins."""
        chapter = self.branches.get(name, Chapter())
        there = {place: [it for it in names if it in self.branches] for place, names in chapter.forks.items() if place <= chapter.cursor}
        return {place: names for place, names in there.items() if names}

    def _paragraphs(self) -> List[str]:
        paragraphs, self.waiting = self.waiting, []
        self._goes_on = False
        return paragraphs

    # ---- commands that were carried out: a branch, the words after it, and the words of the reply after its first

    def _step(self, name: str, words: Sequence[str], answer: Sequence[str]) -> None:
        chapter = self.branches[name]
        if answer[-1] != "0" and chapter.before is not None:
            self._keep(name, chapter.before)
            chapter = self.branches[name] = chapter.first(chapter.cursor)
        chapter.events.append(plain_event(words))
        chapter.cursor += 1
        paragraphs = self._paragraphs()
        if paragraphs:
            chapter.notes[chapter.cursor] = paragraphs
        chapter.before = None
        chapter.excised.clear()

    def _move(self, name: str, words: Sequence[str], answer: Sequence[str]) -> None:
        chapter = self.branches[name]
        if chapter.before is None:
            chapter.before = chapter.first(len(chapter.events))
        chapter.cursor = int(answer[0])

    def _fork(self, name: str, words: Sequence[str], answer: Sequence[str]) -> None:
        place, new = words
        self.branches[name].forks.setdefault(int(place), []).append(new)
        self.branches[new] = self.branches[name].first(int(place))

    def _drop(self, name: str, words: Sequence[str], answer: Sequence[str]) -> None:
        del self.branches[name]

    def _excise(self, name: str, words: Sequence[str], answer: Sequence[str]) -> None:
        chapter = self.branches[name]
        self._keep(name, chapter)
        self.branches[name] = chapter.without({int(words[0]), *map(int, answer)})

    def _restore(self, name: str, words: Sequence[str], answer: Sequence[str]) -> None:
        chapter = self.branches[name].excised[-1]
        taken_back = next((it for it in reversed(self.former) if it.branch.name == name), None)
        self.former = [it for it in self.former if it is not taken_back]
        chapter.cursor, chapter.before = int(answer[0]), chapter.first(len(chapter.events))
        self.branches[name] = chapter

    def _keep(self, name: str, chapter: Chapter) -> None:
        """Keeps a run as it was before it is changed."""
        self.former.append(Former(Branch(name, [*chapter.events], len(chapter.events)), _copied(chapter.notes)))
        del self.former[:-MOST_KEPT]


_CHANGES: Dict[str, Callable[[Story, str, Sequence[str], Sequence[str]], None]] = {
    STEP.word: Story._step,
    BACK.word: Story._move,
    FORWARD.word: Story._move,
    FORK.word: Story._fork,
    DROP.word: Story._drop,
    EXCISE.word: Story._excise,
    RESTORE.word: Story._restore,
}


def story_of(lab: Laboratory, script: Sequence[str]) -> Story:
    """Runs a script without faults in a new laboratory, all but its questions; returns its story."""
    story = Story()
    lab.try_setup(script)
    for line in script:
        if not has_word(line):
            story.comment(line)
            lab.pass_over(line)
        elif not lab.is_open:
            lab.take_setup(line)
            story.setup()
        elif line.split()[0] in _CHANGES:
            story.command(line, lab.ask(line))
        else:
            # (a question only ends a paragraph)
            story.comment("")
    return story


def _copied(places: Places) -> Places:
    return {place: [*those] for place, those in places.items()}


def _kept(places: Places, last: int) -> Places:
    return {place: those for place, those in _copied(places).items() if place <= last}


def _without(places: Places, gone: Set[int]) -> Places:
    """The places where some events are taken out."""
    return {place - sum(it < place for it in gone): those for place, those in _copied(places).items() if place not in gone}
