"""A script as it is played by the rules of several kernels: its setup, its commands, and the replies."""
from __future__ import annotations

from typing import Dict, Iterator, List, NamedTuple, Sequence, Tuple

from ..language.commands import EXCISE, FORK, KERNEL, OPEN, SHOW, STEP
from ..language.lines import has_word, opens
from ..link.programs import Ended, run_lines
from ..model.kernels import Kernel
from ..model.setups import Setup
from ..scripts.stories import Story

# The lines of a reply.
Reply = Tuple[str, ...]


class Command(NamedTuple):
    """A line after the setup, and its number in the script; 0 where it is from no file."""

    line: str
    number: int = 0

    @property
    def words(self) -> List[str]:
        return self.line.split()

    @property
    def word(self) -> str:
        return self.words[0]


class Spot(NamedTuple):
    """Where a command of a script stands: its branch, and there the number of the event that it steps, of the one that it takes out, or
    of the last one that a new branch has; 0 for any other command."""

    command: Command
    branch: str
    number: int

    @property
    def is_event(self) -> bool:
        return self.command.word == STEP.word

    @property
    def event(self) -> str:
        """The line of its event."""
        return " ".join(self.command.words[2:])


class Script:
    """The lines of a setup, which may be comments, and commands. It is played once by the rules of each kernel that is asked for."""

    def __init__(self, program: str, setup: Sequence[str], commands: Sequence[Command]):
        self.program, self.commands = program, commands
        self.own = Setup.of(setup).kernel
        self._setup = [it for it in setup if it.split()[:1] != [KERNEL.word]]
        # What is asked after the last command: what the branches have at the end. Some may not exist.
        names = dict.fromkeys(["main", *(it.words[3] for it in commands if it.word == FORK.word and len(it.words) == 4)])
        self._looks = {name: f"{SHOW.word} {name}" for name in names}
        self._replies: Dict[Kernel, List[Reply]] = {}
        self._spots: List[Spot] = []

    @classmethod
    def of(cls, program: str, lines: Sequence[str]) -> "Script":
        """The script that these lines are, in which no line is faulty."""
        opened = next((at for at, line in enumerate(lines) if opens(line)), len(lines))
        commands = [Command(line, at) for at, line in enumerate(lines[opened + 1 :], opened + 2) if has_word(line)]
        return cls(program, lines[:opened], commands)

    def setup(self, kernel: Kernel) -> Setup:
        """The setup with the rules of a kernel."""
        return Setup.of([*([] if kernel.is_profile else [kernel.line]), *self._setup])

    @property
    def played(self) -> int:
        """How often it was played."""
        return len(self._replies)

    def replies(self, kernel: Kernel) -> List[Reply]:
        """The replies to the commands by the rules of a kernel."""
        return self._played(kernel)[: len(self.commands)]

    def ends(self, kernel: Kernel) -> Dict[str, Reply]:
        """What `show` prints of each branch that there is at the end."""
        shown = zip(self._looks, self._played(kernel)[len(self.commands) :])
        return {name: reply for name, reply in shown if reply[0].startswith("branch ")}

    def _played(self, kernel: Kernel) -> List[Reply]:
        if kernel not in self._replies:
            lines = [*(command.line for command in self.commands), *self._looks.values()]
            ran = run_lines(self.program, (*self.setup(kernel).lines, OPEN.word, *lines))
            if len(ran.replies) != len(lines):
                raise Ended("; ".join(ran.faults) or f"the program ended with status {ran.status}")
            self._replies[kernel] = [tuple(reply) for reply in ran.replies]
        return self._replies[kernel]

    # ---- by the script's own rules

    @property
    def spots(self) -> List[Spot]:
        """Where each command stands, in the run by the script's own rules."""
        if not self._spots:
            story = Story()
            for command, reply in zip(self.commands, self.replies(self.own)):
                self._spots.append(_spot(story, command))
                story.command(command.line, reply)
        return self._spots

    def before(self, place: int) -> List[str]:
        """The events of its branch before the event that a command steps, or those that stand where it does something else."""
        story = Story()
        for command, reply in zip(self.commands[:place], self.replies(self.own)):
            story.command(command.line, reply)
        chapter = story.branches[self.spots[place].branch]
        return chapter.events[: chapter.cursor]

    @property
    def events(self) -> Iterator[Spot]:
        return (spot for spot in self.spots if spot.is_event)


def _spot(story: Story, command: Command) -> Spot:
    words = command.words
    branch = words[1] if len(words) > 1 else ""
    if words[0] == STEP.word and branch in story.branches:
        return Spot(command, branch, story.branches[branch].cursor + 1)
    number = int(words[2]) if words[0] in (FORK.word, EXCISE.word) and words[2].isdecimal() else 0
    return Spot(command, branch, number)
