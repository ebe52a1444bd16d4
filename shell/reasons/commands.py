"""Why a command on branches was refused, in words and numbers."""
from __future__ import annotations

from difflib import get_close_matches
from typing import Callable, Dict, List, Sequence

from ..language.commands import EXCISE, FORK, MOST_BRANCHES, PAST
from ..language.forms import BRANCH
from ..language.searches import FOUND, GAVE_UP, NONE, SEARCH
from ..link.laboratory import Laboratory
from ..model.pair import Pair
from ..shows.words import counted

NOT_SHOWN = "the branches as they are now do not show why: the shell knows no more"
NAME_FORM = f"a branch's name is {BRANCH.what}"


def _branch(lab: Laboratory, words: Sequence[str]) -> Pair:
    return lab.show(words[1])


def _no_branch(lab: Laboratory, words: Sequence[str]) -> List[str]:
    names = lab.names()
    if words[1] in names:
        return [NOT_SHOWN]
    near = get_close_matches(words[1], names, n=1)
    meant = f"; did you mean {near[0]}?" if near else ""
    return [f"there is no branch {words[1]}{meant}", f"the branches: {', '.join(names)}"]


def _name_taken(lab: Laboratory, words: Sequence[str]) -> List[str]:
    return [f"there is a branch {words[3]} already"] if words[3] in lab.names() else [NOT_SHOWN]


def _bad_name(lab: Laboratory, words: Sequence[str]) -> List[str]:
    name = words[3]
    letters, rest = "abcdefghijklmnopqrstuvwxyz", "abcdefghijklmnopqrstuvwxyz0123456789-"
    if name[0] not in letters:
        return [f"`{name}` begins with `{name[0]}`", NAME_FORM]
    wrong = [it for it in name[1:] if it not in rest]
    if wrong:
        return [f"`{name}` has a `{wrong[0]}`", NAME_FORM]
    return [f"`{name}` has {len(name)} characters", NAME_FORM] if len(name) > 16 else [NAME_FORM]


def _too_far_back(lab: Laboratory, words: Sequence[str]) -> List[str]:
    cursor, number = _branch(lab, words).cursor, int(words[2])
    if number <= cursor:
        return [NOT_SHOWN]
    return [f"{counted(number, 'event')} cannot be undone: {words[1]} has {counted(cursor, 'event')} before the cursor"]


def _nothing_forward(lab: Laboratory, words: Sequence[str]) -> List[str]:
    pair, number = _branch(lab, words), int(words[2])
    if words[0] in (FORK.word, PAST.word):
        if number <= pair.events:
            return [NOT_SHOWN]
        return [f"{words[1]} has {counted(pair.events, 'event')}, which is less than {number}"]
    undone = pair.events - pair.cursor
    if number <= undone:
        return [NOT_SHOWN]
    undone_events = f"{counted(undone, 'undone event')} of {words[1]} {'is' if undone == 1 else 'are'} after the cursor"
    return [f"{counted(number, 'event')} cannot happen again: {undone_events}"]


def _last_branch(lab: Laboratory, words: Sequence[str]) -> List[str]:
    if len(lab.names()) > 1:
        return [NOT_SHOWN]
    return [f"{words[1]} is the only branch, and one has to remain: fork another one first"]


def _branches_full(lab: Laboratory, words: Sequence[str]) -> List[str]:
    count = len(lab.names())
    return [f"there are {count} branches, and at most {MOST_BRANCHES} are possible: `drop` one first"]


def _no_event(lab: Laboratory, words: Sequence[str]) -> List[str]:
    number = int(words[2])
    if not number:
        return ["events are counted from 1"]
    events = _branch(lab, words).events
    return [NOT_SHOWN] if number <= events else [f"{words[1]} has {counted(events, 'event')}: there is no event {number}"]


def _no_frame(lab: Laboratory, words: Sequence[str]) -> List[str]:
    sent = lab.past(words[1], _branch(lab, words).events).next_ticket - 1
    sends = f"its events sent {counted(sent, 'frame')}, the last under the ticket {sent}" if sent else "its events sent none"
    return [f"no event of {words[1]} sent a frame under the ticket {int(words[2])}: {sends}"]


def _nothing_excised(lab: Laboratory, words: Sequence[str]) -> List[str]:
    return [f"{words[1]} has nothing to bring back: no event was taken out, or an event was accepted or restored since"]


_REFUSALS: Dict[str, Callable[[Laboratory, Sequence[str]], List[str]]] = {
    "NoBranch": _no_branch,
    "NameTaken": _name_taken,
    "BadName": _bad_name,
    "TooFarBack": _too_far_back,
    "NothingForward": _nothing_forward,
    "LastBranch": _last_branch,
    "BranchesFull": _branches_full,
    "NoEvent": _no_event,
    "NothingExcised": _nothing_excised,
    "NoFrame": _no_frame,
}


# What the first word of a reply to a search says, line by line.
_SEARCHED = {
    FOUND: ["no run of these choices with fewer events leads to the goal: that is proved", "`take` steps this one on a new branch"],
    NONE: [
        "no run of these choices leads to the goal, of at most this many events, or of any length where it says `any`: that is proved",
        "the last number is how many runs end where the goal is asked for; if it is 0, this says nothing about the goal",
    ],
    GAVE_UP: ["there were more runs to try, so nothing is known: allow more runs, or fewer events or choices"],
}


def explain_command(lab: Laboratory, line: str, reply: str) -> List[str]:
    """Why a command was refused, by the name at the end of the reply, as the branches are now."""
    return _REFUSALS[reply.split()[-1]](lab, line.split())


def explain_done(words: Sequence[str], reply: str) -> List[str]:
    """What there is to explain about a command that was done: for an excision, why other events fell out."""
    places = reply.split()[1:]
    if words[0] == SEARCH:
        return _SEARCHED[reply.split()[0]]
    if words[0] != EXCISE.word:
        return ["it was done: `why` gives reasons for events, refusals and faulty lines"]
    if not places:
        return [f"every other event of {words[1]} was accepted without event {words[2]} as well, so none fell out with it"]
    gone = f"events {', '.join(places[:-1])} and {places[-1]}" if len(places) > 1 else f"event {places[0]}"
    numbers = f"{'their places' if len(places) > 1 else 'its place'} in the list as it was"
    return [
        f"without event {words[2]}, {gone} of {words[1]} (by {numbers}) would be refused, and fell out too",
        f"`restore {words[1]}` brings all of them back, until an event is accepted",
    ]
