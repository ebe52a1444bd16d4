"""The lines of a setup and the commands after it, each as a row: its form, what it answers, and why it may be refused."""
from __future__ import annotations

from dataclasses import dataclass
from typing import Optional, Sequence, Tuple

from . import forms as form
from .events import EVENTS
from .forms import Form, choice
from .setups import EVERY_SWITCH, LIMITS, RULE_FORM, SWITCHES, TIMEOUT

MOST_BRANCHES = 16


def _read_apart(name: str) -> Form:
    """A part that a table of its own reads."""
    return Form(name, "", lambda word: None)


LIMIT, EVENT = _read_apart("LIMIT"), _read_apart("EVENT")


@dataclass(frozen=True)
class Other:
    """Another form of a line: the place of the word that identifies it, that word, and the forms that follow the line's word."""

    place: int
    words: Tuple[str, ...]
    values: Tuple[Form, ...]


@dataclass(frozen=True)
class Line:
    """A line: its word and the forms of those that follow, what it does, the forms of its replies, and its refusals."""

    word: str
    values: Tuple[Form, ...]
    what: str
    more: str = ""
    replies: Tuple[str, ...] = ()
    refusals: Tuple[str, ...] = ()
    # Whether its reply continues up to a line `end`.
    is_long: bool = False
    # Whether the shell has a word of its own instead.
    is_hidden: bool = False
    other: Optional[Other] = None

    @property
    def alternatives(self) -> Tuple[Tuple[Form, ...], ...]:
        """The forms of the words that can follow its own."""
        return (self.values, self.other.values) if self.other else (self.values,)

    @property
    def form(self) -> str:
        """Its form, or both forms, one per line."""
        return "\n".join(" ".join([self.word, *(value.name for value in values)]) for values in self.alternatives)

    def values_of(self, words: Sequence[str]) -> Tuple[Form, ...]:
        """The forms of the words after its own, which is the first of these."""
        is_other = self.other and len(words) > self.other.place and words[self.other.place] in self.other.words
        return self.other.values if self.other and is_other else self.values


SET = Line(
    "set",
    (LIMIT, form.N),
    "sets a limit of the pair, or the seconds of a class at both nodes, unless the rule of a state sets them",
    f"Limits: {', '.join(it.word + ' (0 or 1)' * it.is_switch for it in LIMITS.values())}. The last value "
    "of each limit and of each class counts. If a node has more states than `astart` (three fifths of `states` if it is not "
    "set), timeouts are scaled by (aend - its states) / (aend - astart), and from `aend` (six fifths of `states`) on they are 0. If `aend` is "
    "not above `astart`, as with both 0, they are not scaled.",
    other=Other(1, (TIMEOUT.word,), (choice(TIMEOUT.word, (TIMEOUT.word,)), *TIMEOUT.values)),
)
RULE = Line(
    "rule",
    (form.NODE, _read_apart(RULE_FORM)),
    "adds a rule to node a's or b's set; the last rule that matches decides, or the first that is quick",
    "The words come in this order. NET is ADDRESS/LENGTH. PORTS is N, or LO:HI for the ports from LO to HI. POOL is ADDRESS:PORTS, "
    "for IPv6 [ADDRESS]:PORTS: a new state gets the first of its ports that no state uses. `nat` replaces the near end on the "
    "wire, on a rule that is `out`; `rdr` replaces it on the stack, on one that is `in`. If no rule matches, the packet passes "
    "without a state.",
)
# Any number of words, at least one, each of which is one of these.
KERNEL_WORD = choice("WORD..", (*SWITCHES, EVERY_SWITCH))
KERNEL = Line(
    "kernel", (KERNEL_WORD,), "replaces rules of the profile by those of FreeBSD's kernel, as far as we know them, at both nodes",
    "Several lines add up, in any order, and a word may come twice. Here `kernel` alone says which rules are the kernel's.\n"
    + "\n".join(f"{switch.word}: {switch.what} ({switch.sure})" for switch in SWITCHES.values())
    + f"\n{EVERY_SWITCH}: all of these\nThe numbers say how sure we are. These rules are FreeBSD 13's as far as we know its sources, which could "
    "not be looked up here. A kernel before 13.2-RELEASE-p7 has `window` without `reset`: there a reset passes with any number. No kernel that "
    "we know has `reset` without `window`; it is for comparing. docs/KERNEL.md says more.",
)
OPEN = Line("open", (), "ends the setup; events and commands follow", "The branch main is there, with no events.")
SETUP = {it.word: it for it in (SET, RULE, KERNEL, OPEN)}

_BRANCH, _BRANCH_N, _BRANCH_K = (form.BRANCH,), (form.BRANCH, form.N), (form.BRANCH, form.K)
STEP = Line(
    "step", (form.BRANCH, EVENT), "makes an event happen on a branch; events that were undone are discarded",
    "Answers the outcome: see help EVENT.", ("step OUTCOME dropped N",), ("NoBranch", "Event"),
)
BACK = Line(
    "back", _BRANCH_N, "undoes the last N events, which stay after the cursor",
    "Answers `at CURSOR`, or refused TooFarBack.", ("at CURSOR",), ("NoBranch", "TooFarBack"),
)
FORWARD = Line(
    "forward", _BRANCH_N, "makes the next N events after the cursor happen again",
    "Answers `at CURSOR`, or refused NothingForward.", ("at CURSOR",), ("NoBranch", "NothingForward"),
)
FORK = Line(
    "fork", (*_BRANCH_K, form.BRANCH.named("NEW")), "makes a branch NEW of the first K events of BRANCH",
    f"K is at most the number of its events. There are at most {MOST_BRANCHES} branches.",
    ("forked",), ("NoBranch", "NameTaken", "BadName", "NothingForward", "BranchesFull"),
)
DROP = Line(
    "drop", _BRANCH, "removes a branch, unless it is the last",
    "Answers `removed`.", ("removed",), ("NoBranch", "LastBranch"),
)
SHOW = Line(
    "show", _BRANCH, "shows a branch for machines, in columns that docs/FORMATS.md and pfl_lab(1) name",
    "`view` shows the same for people.", ("branch NAME events E cursor C",), ("NoBranch",), is_long=True,
)
PAST = Line(
    "past", _BRANCH_K, "shows a branch, as `show` does, as it was after its first K events, even events after the cursor",
    "K is at most the number of its events, and 0 is the pair of the opening. The branch stays as it is.",
    ("branch NAME events E cursor C",), ("NoBranch", "NothingForward"), is_long=True,
)
WHY = Line(
    "why", _BRANCH_K, "explains the K-th event of the branch, or what would come of an event where the branch stands, and why", "",
    ("why NAME K",), ("NoBranch", "NoEvent"), is_long=True, is_hidden=True,
    other=Other(2, tuple(EVENTS), (form.BRANCH, EVENT)),
)
FRAME = Line(
    "frame", (form.BRANCH, form.TICKET), "shows a frame that an event of the branch sent, and what became of it", "",
    ("frame NAME TICKET",), ("NoBranch", "NoFrame"), is_long=True, is_hidden=True,
)
NAMES = Line("names", (), "lists the names of the branches", "", ("names NAME NAME ..",))
EXCISE = Line(
    "excise", _BRANCH_K, "takes the K-th event out; the others happen again without it",
    "Answers `excised` and the places of those that fell out with it, since they could not happen any more.",
    ("excised PLACE PLACE ..",), ("NoBranch", "NoEvent"),
)
RESTORE = Line(
    "restore", _BRANCH, "brings back what the newest excision took out, unless an event was accepted since",
    "", ("restored CURSOR",), ("NoBranch", "NothingExcised"),
)
LOG = Line(
    "log", _BRANCH, "lists all events of the branch in order, each as the line that steps it, and the cursor",
    "", ("log NAME events E cursor C",), ("NoBranch",), is_long=True, is_hidden=True,
)
COMMANDS = {it.word: it for it in (STEP, BACK, FORWARD, FORK, DROP, SHOW, PAST, WHY, FRAME, NAMES, EXCISE, RESTORE, LOG)}
# The commands that change the pair; the others look.
CHANGING = tuple(it.word for it in (STEP, BACK, FORWARD, FORK, DROP, EXCISE, RESTORE))
LOOKING = tuple(word for word in COMMANDS if word not in CHANGING)
# The commands that are about the branch in use if a person in a dialogue names none. `drop` is not among them.
WITHOUT_BRANCH = tuple(it.word for it in (BACK, FORWARD, FORK, SHOW, PAST, EXCISE, RESTORE))
# The commands that the shell takes as they are.
TYPED = {word: it for word, it in COMMANDS.items() if not it.is_hidden}
