"""Places in branches that a person goes back to: by how many events stand there, or by the name of a mark; and the commands of the
program that the shell's own forms stand for."""
from __future__ import annotations

import re
from typing import List, NamedTuple, Optional, Sequence, Tuple

from ..language.commands import BACK, COMMANDS, FORK, FORWARD, WITHOUT_BRANCH
from ..link.laboratory import Laboratory, Unknown
from ..model.branches import Mark
from ..shows.words import counted

TO, HERE = "to", "here"
# The form of a name, the same as for a branch.
NAME = re.compile("[a-z][a-z0-9-]{0,15}")


class Asked(NamedTuple):
    """What `back [BRANCH] to PLACE` says; the branch is empty if it is left out."""

    branch: str
    place: str


def mark(lab: Laboratory, name: str) -> List[str]:
    """Names the place where the branch in use stands; without a name, lists the marks."""
    if not name:
        return [f"{name}: {it}" for name, it in lab.marks.items()] or ["there are no marks; `mark NAME` sets one"]
    if not NAME.fullmatch(name):
        raise Unknown(f"{name} is not the name of a mark: that is a letter from a to z and at most 15 more of a to z, 0 to 9 and `-`")
    branch = lab.branch(lab.in_use)
    lab.marks[name] = Mark(branch.name, tuple(branch.events[: branch.cursor]))
    return [f"{name}: {lab.marks[name]}"]


def line_for(lab: Laboratory, words: Sequence[str]) -> str:
    """The command that words of the shell stand for; empty if they are no form of its own."""
    if list(words[:2]) == [FORK.word, HERE] and len(words) == 3:
        branch = lab.branch(lab.in_use)
        return f"{FORK.word} {branch.name} {branch.cursor} {words[2]}"
    asked = _asked(lab, words)
    if not asked:
        return _of_branch_in_use(lab, words)
    name, place = _place(lab, asked)
    branch = lab.branch(name)
    if place > len(branch.events):
        raise Unknown(f"{name} has {counted(len(branch.events), 'event')}, so it has no place {place}")
    by = branch.cursor - place
    return f"{BACK.word} {name} {by}" if by >= 0 else f"{FORWARD.word} {name} {-by}"


def _of_branch_in_use(lab: Laboratory, words: Sequence[str]) -> str:
    """A command without its branch, which is the one in use then; empty if the words are another line. (The name of a branch begins with a
    letter.) If its last words are missing, the program's line lacks these, and not the branch."""
    word, *others = words
    wanted = COMMANDS[word].values[1:] if word in WITHOUT_BRANCH else ()
    if word not in WITHOUT_BRANCH or len(others) > len(wanted):
        return ""
    is_right = all(form.wrong(other) is None for form, other in zip(wanted, others))
    return " ".join([word, lab.in_use, *others]) if is_right else ""


def _asked(lab: Laboratory, words: Sequence[str]) -> Optional[Asked]:
    """The place that words go back to; nothing if they are another line, such as one about a branch called `to`."""
    if words[0] != BACK.word or TO not in words[1:3]:
        return None
    if len(words) == 4 and words[2] == TO:
        return Asked(words[1], words[3])
    is_own = len(words) == 3 and words[1] == TO and TO not in lab.names()
    return Asked("", words[2]) if is_own else None


def _place(lab: Laboratory, asked: Asked) -> Tuple[str, int]:
    """The branch that is meant, and how many events stand at the place."""
    if re.fullmatch("[0-9]{1,10}", asked.place):
        return asked.branch or lab.in_use, int(asked.place)
    if asked.place not in lab.marks:
        raise Unknown(f"there is no mark {asked.place}; `mark` lists them")
    mark = lab.marks[asked.place]
    name = asked.branch or mark.branch
    if tuple(lab.branch(name).events[: len(mark.stood)]) != mark.stood:
        raise Unknown(f"{name} no longer has the events that stood at mark {asked.place}: {mark}")
    return name, len(mark.stood)
