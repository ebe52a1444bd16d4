"""What `help` says about each word: its form, what it does, and what it answers.

The shell's own words are said here alone: `python3 docs/words.py` writes the lists of docs/SHELL.md and of pfl_shell(1) from them.
"""
from __future__ import annotations

import re
import textwrap
from typing import Dict, Iterable, List, NamedTuple, Optional, Sequence, Tuple

from . import commands, events
from .commands import Line
from .events import Event
from .forms import BRANCH
from .lines import FOR_PEOPLE
from .searches import APART, DIFFER, SEARCH


class Help(NamedTuple):
    """A word's form, what it does, and what else to know about it: sentences, its parts or options, and sentences after these."""

    form: str
    what: str
    more: str = ""
    parts: Sequence[Tuple[str, str]] = ()
    end: str = ""
    # What it does, as an instruction.
    order: str = ""


# The end of a verb that an instruction leaves out.
ENDING = re.compile(r"\[(e?s)\]")


def _word(form: str, what: str, more: str = "", parts: Sequence[Tuple[str, str]] = (), end: str = "") -> Help:
    """The help of a word of the shell; what it does is written as "show[s] the pair"."""
    return Help(form, ENDING.sub(r"\1", what), more, parts, end, ENDING.sub("", what))


# The columns of a line.
WIDEST = 100
CHART = "chart"
NOTES = "notes"
WHATIF = "whatif"
DEPENDS = "depends"
VIEW = "view"
# The options of `whatif`, each with what it does.
WHATIF_PARTS = (
    (
        "--faults KINDS",
        "only faults of these kinds, joined by commas. A loss, cut, repeat, restart, kill or clear of the run does not happen (`undone`). A "
        "frame is lost (`lose`), comes twice (`twice`), late (`late`) or last (`last`). A packet or another event of a node does not happen "
        "(`skip`). A node restarts (`restart`), or its clock advances by 61 s (`clock`).",
    ),
    (
        "--watch WHAT",
        "only the groups that change this, joined by commas. A packet passes that did not (`pass`), or the reverse (`drop`). A flow of the "
        "run's end is on neither node (`gone`). The nodes differ in another way at the end, or do not come to rest (`apart`). The packet of "
        "an event with this number gets another verdict (a number).",
    ),
    ("--from K", "only faults at the K-th event and later ones."),
    ("--to L", "only faults at the L-th event and earlier ones."),
    (
        "--pairs",
        "every two faults together, where their change is neither that of one of them nor those of both. Restarts and clocks are tried only "
        "if `--faults` names them.",
    ),
    ("--flushing", "what a fault gives a node to send is sent, and arrives, before the next event of the run."),
    ("--only N", "only the N-th group, with all of its faults and the whole reason; several numbers are joined by commas."),
    (
        "--out FILE.pfl",
        "a copy of the script or dialogue is written, with a branch for the first fault of each group that is shown, and the replies. A group "
        "that changes nothing is written only if `--only` names it.",
    ),
)
WHATIF_OPTIONS = tuple(option for option, _ in WHATIF_PARTS)
# The names in forms that the help writes out.
_WRITTEN_OUT = {"SRC": "SOURCE", "DST": "DESTINATION", "LEN": "LENGTH"}


def _written_out(text: str) -> str:
    return re.sub(rf"\b({'|'.join(_WRITTEN_OUT)})\b", lambda it: _WRITTEN_OUT[it[0]], text)


def typed(form: str) -> str:
    """The form of a line in a dialogue, where some commands may leave out their branch."""
    word = form.split(" ")[0]
    return form.replace(f"{word} {BRANCH.name}", f"{word} [{BRANCH.name}]") if word in commands.WITHOUT_BRANCH else form


def _of_line(line: Line) -> Help:
    return Help(typed(line.form), line.what, line.more)


def _of_event(event: Event) -> Help:
    """The help of an event, with what it answers and refuses in words."""
    *others, last = (f"`{outcome.form}`{outcome.help}" for outcome in event.outcomes)
    answers = f"{', '.join(others)}{',' * (len(others) > 1)} or {last}" if others else last
    more = f"Answers {answers}. Refused: {', '.join(event.refused)}. {event.more}".strip()
    return Help(_written_out("\n".join(event.forms)), _written_out(event.what), _written_out(more))


SETUP = {word: _of_line(it) for word, it in commands.SETUP.items()}
COMMANDS = {word: _of_line(it) for word, it in commands.TYPED.items()}
# What the shell takes besides the forms of the laboratory's own words.
ADDED = {
    "back to": _word(
        "back [BRANCH] to K\nback [BRANCH] to MARK",
        "move[s] the cursor to the place after the first K events, or to a mark, by `back` or `forward`",
        "Without BRANCH it takes the branch in use, or the one where the mark was set. A mark can be found in another branch with the same "
        "events. If a branch is called `to`, the two forms without BRANCH are about that branch.",
    ),
    "fork here": _word("fork here NEW", "make[s] a branch NEW of the events before the cursor of the branch in use"),
}
EVENTS = {word: _of_event(it) for word, it in events.EVENTS.items()}

SEARCH_PARTS = (
    (
        "drops packet ..",
        "the packet would be dropped, for any reason of pf's. A packet that is held is not dropped. One that is refused is neither dropped "
        "nor passes.",
    ),
    ("passes packet ..", "the packet would pass, or be held."),
    ("splits packet ..", "the packet would be dropped at its node, and pass or be held at the other: what a failover harms."),
    (
        DIFFER,
        "a state at both nodes has other levels, numbers or class at one than at the other. A state that is `no-sync` at either node is left "
        "out. Numbers are those of both ends, windows and scales too; rules and times are not compared.",
    ),
    (APART, "one node has a state whose name the other does not have. Nothing else of the states is compared."),
    (
        "quiet",
        "ask only when nothing is in flight or pending, and neither node serves a bulk update; the default, unless a node dies. A node may "
        "wait for a bulk update that was lost.",
    ),
    ("settled", "ask as with `quiet`, and only when neither node waits for a bulk update."),
    ("landed", "ask only when no frame is in flight."),
    ("anywhere", "ask at the cursor of the branch and after each event; the default if a node dies."),
    ("within N", "a run has at most N events, up to 64; by default 8."),
    ("deliver N", "frames are delivered, at most N times in all; by default as often as there are events."),
    ("flush NODE N", "the node flushes, at most N times; by default each does as often as there are events."),
    (
        "lose N, repeat N, cut LENGTH N",
        "frames are lost, doubled, or cut to their first LENGTH bytes, at most N times in all; by default never.",
    ),
    (
        "EVENT [N times]",
        "this event may happen, at most N times; by default once. `lose 2 1 times` is the loss of frame 2. `tick both MS` is two events.",
    ),
    (
        "then",
        "the next phase begins: once an event of a later phase has happened, none of an earlier one does. Each phase has deliveries and "
        "flushes, as many as the one before it unless it says otherwise. Everything else belongs only to the phase that names it.",
    ),
    (
        "dies NODE",
        "the next phase begins: from then on the node does nothing more, and never sends what waits in it. A run need not use this phase, since a "
        "node may do nothing more before it as well: `lose 1, dies a` is one lost frame in all.",
    ),
    ("at most RUNS", "give up if a depth needs more runs than this; by default 1,000,000."),
)

SHELL: Dict[str, Help] = {
    VIEW: _word(
        "view [BRANCH] [K]\nview [BRANCH] [K] NODE\nview [BRANCH] [K] NAME",
        "show[s] the pair, one node, or a state at both nodes in the words of pfctl: states, counters, queues, held packets, frames",
        "With K it shows the pair as it was after the first K events, even events after the cursor. The branch stays as it is.",
    ),
    "diff": _word(
        "diff [BRANCH]\ndiff BRANCH BRANCH",
        "report[s] where nodes a and b differ, or where two branches do, and from which event on",
    ),
    "log": _word("log [BRANCH]", "list[s] the events of a branch with their outcomes, and the place of the cursor"),
    "changes": _word(
        "changes [BRANCH] [K]", "show[s] what the K-th event changed, before and after; without K, the last event before the cursor"
    ),
    "why": _word(
        "why [[BRANCH] K]\nwhy [BRANCH] EVENT",
        "explain[s] the last reply, the outcome of the K-th event, or what an event would do",
        "An event that is only asked about does not happen: the branch stays as it is.",
    ),
    "frame": _word(
        "frame [BRANCH] TICKET",
        "show[s] a frame that an event sent, record by record, and the events that sent, cut, copied, delivered or lost it",
        "Events after the cursor count too, and are marked as undone.",
    ),
    "quiet": _word(
        "quiet [BRANCH]",
        "flush[es] and deliver[s], bulk turns too, until nothing is pending or in flight, and show[s] each step",
        "It gives up after 10,000 steps, or at a step that is refused.",
    ),
    SEARCH: _word(
        "\n".join((*FOR_PEOPLE, f"{SEARCH} BRANCH DEPTH RUNS GOAL [; CHOICE]..")),
        "find[s] a shortest run of events that leads to what you seek, or report[s] that there is none, which is proved",
        "The run begins at the cursor of the branch in use, and nothing changes. The first part says what is sought, and further parts follow "
        "after commas:",
        SEARCH_PARTS,
        "Runs without events are searched first, then those of one event, and so on. If there is none, the answer has the number of runs that "
        "were tried, and of those that end where the question is asked. If the second is 0, it says nothing about the packet or the states. "
        "An interrupt (Ctrl-C) ends the search, which reports up to which depth there is none. It shows the program's line that was "
        "answered last, and `save` writes that line with its answer. The last form is such a line: pfl_lab(1) has its parts. `take` steps what "
        "was found. On a server it works only if the server reports its setup.",
    ),
    "take": _word(
        "take [NAME]",
        "step[s] what the last search found, on a new branch",
        "The branch NAME (`found`, then `found-2` and so on if it is left out) is forked from the one that was searched, and comes into use.",
    ),
    CHART: _word(
        f"{CHART} [BRANCH] [from K] [to L] [flow NAME] [FILE.svg]",
        "draw[s] what happened, as text or as a picture in a file: two lanes, frames as arrows",
        "With K and L the chart has the events from the K-th to the L-th. With NAME it has only what is about this state: packets of its "
        "flow, frames with a record about it, and what removes it from a node.",
    ),
    WHATIF: _word(
        f"{WHATIF} [BRANCH] {' '.join(f'[{it}]' for it in WHATIF_OPTIONS)}",
        "play[s] the events before the cursor again with each single fault, and group[s] the faults by what they change",
        "Each fault is tried in a run of its own, at whose end all that is pending is sent and delivered, as by `quiet`. Nothing changes here. "
        "The groups that change most come first, each with the reason in its first fault. An interrupt (Ctrl-C) ends it, and it shows what it "
        "has found.",
        WHATIF_PARTS,
    ),
    DEPENDS: _word(
        f"{DEPENDS} [BRANCH] [--all-replies]",
        "report[s] which outcomes of a branch's events depend on the choice of rules, the profile's or the kernel's",
        "The events before the cursor are played again with each word of `kernel` and with all of them. If the setup has such a line, each "
        "word is added or removed. For each word it shows the first outcome that changes, with its reason, and how the end differs; then "
        "what several words do only together. Nothing changes here. The command `depends` does the same for scripts, with all of their "
        "replies, searches too.",
        (("--all-replies", "shows each reply that changes."),),
    ),
    "summary": _word(
        "summary", "ask[s] a server for a few numbers that sum up all branches; this is no command, and waits for no one"
    ),
    NOTES: _word(
        f"{NOTES} on\n{NOTES} off",
        "show[s] what others do at a server or a page, or stop[s] that",
        "Notes are on at first. They appear above the prompt, one for each command except those that only look; many in a row are one line. "
        "Each has the name of who gave the command, if a page of the pair knows it. `notes` alone says whether they are on.",
    ),
    "mark": _word(
        "mark [NAME]",
        "name[s] the cursor's place in the branch in use, for `back to NAME`; without NAME, list[s] the marks",
        "Marks last as long as the dialogue; `save` does not write them.",
    ),
    "use": _word("use BRANCH", "choose[s] the branch in use: lines that name no branch are about it"),
    "verify": _word("verify FILE..", "run[s] scripts by themselves, and report[s] where their lines `#>` and the replies differ"),
    "annotate": _word(
        "annotate [--dry-run] FILE..",
        "write[s] the replies into scripts, as lines `#>`",
        "It reports each line that is faulty or refused and had no such reply before, with the reason. The replies are written all the same, "
        "since a story may be about a refusal. A dry run (-n) shows what would change, as `diff -u` does, and writes nothing.",
    ),
    "read": _word("read FILE", "read[s] the lines of a file as if they were typed"),
    "save": _word(
        "save FILE",
        "write[s] the setup and the commands of this session with their replies, as a script",
        "It keeps comments that were typed (`# ..`), so a story can be typed as well; faulty lines are left out. It keeps searches with "
        "their answers, and `verify` asks them again. On a server it has the commands of all sessions, but no searches and no typed "
        "comments.",
    ),
    "help": _word("help [WORD]", "list[s] all words, or explain[s] one"),
    "quit": _word("quit", "end[s] the shell, as the end of input does"),
}

GROUPS = (
    ("Setup, up to `open`", SETUP),
    ("Commands of the laboratory", COMMANDS),
    ("Events: `step BRANCH EVENT`, or the event alone for the branch in use", EVENTS),
    ("Words of the shell", {**SHELL, **ADDED}),
)
WORDS: Dict[str, Help] = {**SETUP, **COMMANDS, **EVENTS, **SHELL}


def overview(columns: Optional[int] = None) -> List[str]:
    """All words, each with what it does; in lines for a terminal of this many columns, if there is one."""
    lines: List[str] = []
    for title, group in GROUPS:
        lines += _wrapped(title, columns)
        for word, it in group.items():
            lines += _wrapped(it.what, columns, f"  {word:10}", " " * 12)
    return [*lines, "`help WORD` shows its form and what it answers."]


def about(word: str, columns: Optional[int] = None) -> List[str]:
    """Everything about one word."""
    lines: List[str] = []
    for entry in (WORDS[word], *(its for added, its in ADDED.items() if added.split()[0] == word)):
        lines += [part for form in entry.form.split("\n") for part in _wrapped(form, columns, "", "    ")]
        first, *parts = entry.more.split("\n")
        lines += _wrapped(entry.what, columns, "  ", "  ") + _wrapped(first, columns, "  ", "  ")
        lines += [line for part in (*parts, *map(": ".join, entry.parts)) for line in _wrapped(part, columns, "  ", "    ")]
        lines += _wrapped(entry.end, columns, "  ", "  ")
    return lines


def shows(word: str, forms: Iterable[str]) -> bool:
    """Whether the help of a word has these forms; before that of an event its command may be."""
    its = tuple(WORDS[word].form.split("\n")) if word in WORDS else ()
    return all(_written_out(typed(form)).endswith(its) for form in forms)


def _wrapped(text: str, columns: Optional[int], first: str = "", others: str = "") -> List[str]:
    """A text in lines with these beginnings, which break no word."""
    width = min(WIDEST, columns or WIDEST)
    return textwrap.wrap(text, width, initial_indent=first, subsequent_indent=others, break_long_words=False, break_on_hyphens=False)
