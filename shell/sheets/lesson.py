"""A script as a lesson: its lines after the setup, each with the comments above it and, if they are wanted, with the answers."""
from __future__ import annotations

from contextlib import closing
from dataclasses import dataclass, field
from typing import List, NamedTuple, Optional, Sequence

from ..charts.chart import chart
from ..charts.rows import Chart
from ..console.characters import legible
from ..console.colours import PLAIN
from ..language.commands import COMMANDS, FORK, STEP
from ..language.lines import has_word
from ..link.laboratory import Laboratory
from ..model.setups import Setup
from ..scripts.stories import Chapter, Story
from ..scripts.texts import title_of
from ..shows.views import view
from .outcomes import Answer, answer_of

# Lines to write on: for an event, for any other command, and for one whose reply is long.
FOR_EVENT, FOR_COMMAND, FOR_LONG = 2, 1, 4
# How many characters a line of a table has at most.
COLUMNS = 96


@dataclass
class Line:
    """A line of the script: the paragraphs above it, its words, its branch, the number of its event if it is one, and lines to write on.
    An answer is there only if it was asked for."""

    said: List[str]
    text: str
    branch: str
    number: Optional[int]
    room: int
    answer: Optional[Answer] = None
    # The event as its branch has it.
    event: Optional[str] = None
    # Whether it is in no branch at the end.
    is_gone: bool = False

    @property
    def word(self) -> str:
        return self.text.split()[0]


class Ending(NamedTuple):
    """What a branch is at the end: its chart, and both nodes in words."""

    chart: Chart
    tables: List[str]


@dataclass
class Lesson:
    """A script for paper."""

    title: str
    intro: List[str]
    setup: Setup
    has_branches: bool
    has_answers: bool
    lines: List[Line] = field(default_factory=list)
    # The paragraphs below the last line.
    after: List[str] = field(default_factory=list)
    endings: List[Ending] = field(default_factory=list)


class Playing:
    """A script that is played, line by line, with what its comments say."""

    def __init__(self, lab: Laboratory, with_answers: bool) -> None:
        self.lab, self.with_answers = lab, with_answers
        self.story = Story()
        self.lines: List[Line] = []
        # The comments since the last line that was read.
        self._near = Story()

    def take(self, line: str) -> None:
        if not has_word(line):
            self.story.comment(line)
            self._near.comment(line)
            self.lab.pass_over(line)
        elif not self.lab.is_open:
            self.lab.take_setup(line)
            self.story.setup()
            self._near = Story()
        else:
            self._command(line)

    @property
    def waiting(self) -> List[str]:
        """The paragraphs that no line has followed yet."""
        return self._near.waiting

    def _chapter(self, branch: str) -> Chapter:
        return self.story.branches.get(branch, Chapter())

    def _command(self, line: str) -> None:
        words = line.split()
        branch, is_event = "".join(words[1:2]), words[0] == STEP.word
        before, known = self._chapter(branch).cursor, branch in self.story.branches
        long = words[0] in COMMANDS and COMMANDS[words[0]].is_long
        room = FOR_EVENT if is_event else FOR_LONG if long else FOR_COMMAND
        entry = Line(self._near.waiting, " ".join(words), branch if known else "", before + 1 if is_event and known else None, room)
        self._near = Story()
        reply = self.lab.ask(line)
        self.story.command(line, reply)
        chapter = self._chapter(branch)
        if is_event and reply[0].startswith(STEP.word):
            entry.event = chapter.events[chapter.cursor - 1]
        if self.with_answers:
            entry.answer = answer_of(self.lab, line, reply, chapter.cursor, before)
        self.lines.append(entry)

    def mark_gone(self) -> None:
        """Marks the events that stand in no branch. Each event that was stepped is a string of its own, which its branches share."""
        standing = {id(event) for chapter in self.story.branches.values() for event in chapter.events[: chapter.cursor]}
        for line in self.lines:
            line.is_gone = line.event is not None and id(line.event) not in standing

    def endings(self) -> List[Ending]:
        """What each branch is at the end."""
        lab, found = self.lab, []
        for name in lab.names():
            branch, pair = lab.branch(name), lab.with_contents(lab.show(name))
            found.append(Ending(chart(lab, branch, forks=self.story.forks(name)), view(pair, lab.setup, PLAIN, COLUMNS)))
        return found


def lesson_of(program: str, script: Sequence[str], name: str, with_answers: bool) -> Lesson:
    """The lesson of a script without faults; if it has no title, the name is used."""
    with closing(Laboratory(program)) as lab:
        playing = Playing(lab, with_answers)
        for line in script:
            playing.take(line)
        title, story = legible(title_of(script)), playing.story
        intro = [it for it in story.intro if it.rstrip(".") != title]
        has_branches = any(it.word == FORK.word for it in playing.lines)
        lesson = Lesson(title or legible(name), intro, lab.setup, has_branches, with_answers, playing.lines, playing.waiting)
        if with_answers:
            playing.mark_gone()
            lesson.endings = playing.endings()
        return lesson
