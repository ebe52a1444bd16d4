"""What a word can be, given the words before it: for the key that completes a line."""
from __future__ import annotations

import glob
import os
import re
from typing import Callable, Dict, Iterable, List, Sequence, Tuple

from ..charts.windows import FLOW, WINDOW_WORDS
from ..depends.asked import ALL_REPLIES
from ..language.commands import BACK, COMMANDS, FORK, FRAME, KERNEL, KERNEL_WORD, RULE, SETUP, STEP, TYPED, WHY
from ..language.events import EVENTS
from ..language.forms import ACTION, DESTINATION, NODE, RULE_DIRECTION, SOURCE
from ..language.helps import CHART, DEPENDS, NOTES, SHELL, VIEW, WHATIF, WHATIF_OPTIONS, WORDS
from ..language.names import NODES
from ..language.searches import SEARCH
from ..language.setups import LIMITS, OPTIONS, TIMEOUT
from ..link.laboratory import MOST_ENDS, Laboratory
from ..model.pair import Pair
from ..searches.offers import offers
from ..whatif.faults import KINDS
from ..whatif.groups import WATCHED
from .places import HERE, TO

Choice = Callable[[Laboratory, Sequence[str]], Iterable[str]]


def _branches(lab: Laboratory, _: Sequence[str]) -> Sequence[str]:
    return lab.names() if lab.is_open else ()


def _pair(lab: Laboratory, words: Sequence[str]) -> Pair:
    return lab.show(words[1] if words[0] in COMMANDS and words[1] not in EVENTS else lab.in_use)


def _tickets(lab: Laboratory, words: Sequence[str]) -> Sequence[str]:
    """The frames in flight, or all frames that were sent."""
    pair = _pair(lab, words)
    return [*map(str, range(1, pair.next_ticket) if words[0] == FRAME.word else pair.frames)]


def _state_names(lab: Laboratory, words: Sequence[str]) -> Sequence[str]:
    node = _pair(lab, words).nodes.get(words[-1])
    return [str(name) for name in node.states] if node else ()


def _ends(lab: Laboratory, words: Sequence[str]) -> List[str]:
    """The ends of packets that were stepped here, the newest first, and then those of states, translated ones too. A packet does not go
    to where it is from."""
    # (a server keeps every command that it was asked, so none is asked for this)
    nodes = _pair(lab, words).nodes.values() if lab.is_own or lab.is_mirrored else ()
    keys = [key for node in nodes for state in node.states.values() for key in (state.wire, state.stack)]
    seen = dict.fromkeys([*reversed([*lab.ends]), *(end for key in keys for end in (key.near, key.far))])
    return [it for it in seen if it != words[-1]][:MOST_ENDS]


# What can take the place of a name in a form, if that is not the same everywhere.
CHOICES: Dict[str, Choice] = {
    "BRANCH": _branches,
    "TICKET": _tickets,
    "NAME": _state_names,
    SOURCE.name: _ends,
    DESTINATION.name: _ends,
    "EVENT": lambda lab, words: EVENTS,
    "LIMIT": lambda lab, words: (*LIMITS, TIMEOUT.word),
    "WORD": lambda lab, words: WORDS,
}


def candidates(lab: Laboratory, before: Sequence[str], begun: str) -> List[str]:
    """What the word being typed can be, given the words before it."""
    words = list(before)
    if not words:
        return _matching(WORDS, begun)
    if words[0] == SEARCH:
        return _search(lab, words, begun)
    if words[0] == CHART:
        return _matching(_chart(lab, words, begun), begun)
    if words[0] == WHATIF:
        return _matching(_whatif(lab, words, begun), begun)
    if words[0] == DEPENDS:
        return _matching([*(_branches(lab, words) if len(words) == 1 else ()), *[ALL_REPLIES] * (ALL_REPLIES not in words)], begun)
    if words[0] == VIEW:
        return _matching(_view(lab, words), begun)
    if words[0] in (BACK.word, FORK.word):
        return _matching(_places(lab, words, begun), begun)
    if words[0] == NOTES:
        return _matching(("on", "off") if len(words) == 1 else (), begun)
    if words[0] == KERNEL.word:
        return _matching((word for word in KERNEL_WORD.words if word not in words), begun)
    # An event follows the branch, which `why` may be without.
    places = {STEP.word: (2,), WHY.word: (1, 2)}.get(words[0], ())
    part = next((words[at:] for at in places if words[at:] and words[at] in EVENTS), words)
    return _matching(_following(lab, words, part, begun), begun)


def _following(lab: Laboratory, words: Sequence[str], part: Sequence[str], begun: str) -> Iterable[str]:
    """What can follow the words of a part of a line, by the first of them."""
    word, at = part[0], len(part) - 1
    values = _values(part)
    if word in SHELL and SHELL[word].form.endswith("FILE.."):
        at = min(at, len(values) - 1)
    if at >= len(values):
        return _options(part[-1]) if word == RULE.word else ()
    name, fixed = values[at]
    if name == "FILE":
        return _paths(begun)
    others = (EVENTS[word].every,) if word in EVENTS else EVENTS if word == WHY.word else ()
    return [*(CHOICES[name](lab, words) if name in CHOICES else fixed), *(it for it in others if it and at == 0)]


def _values(part: Sequence[str]) -> List[Tuple[str, Sequence[str]]]:
    """The names of what can follow the first word of a part of a line, each with the words that it can be if these are always the
    same."""
    word = part[0]
    if word in SHELL:
        return [(it, ()) for it in re.findall("[A-Z]+", SHELL[word].form.split("\n")[-1])]
    row = EVENTS.get(word) or TYPED.get(word) or SETUP.get(word)
    values = (NODE, ACTION, RULE_DIRECTION) if row is RULE else row.values_of(part) if row else ()
    return [(value.name, value.words) for value in values]


def _chart(lab: Laboratory, words: Sequence[str], begun: str) -> Iterable[str]:
    """What can follow the words of a chart: a branch, parts of it in order, and a file."""
    if words[-1] == FLOW:
        return _states_of_both(lab, words)
    if words[-1] in WINDOW_WORDS:
        return ()
    said = [WINDOW_WORDS.index(word) for word in words if word in WINDOW_WORDS]
    branches = _branches(lab, words) if len(words) == 1 else ()
    return [*branches, *WINDOW_WORDS[max(said, default=-1) + 1 :], *_paths(begun)]


def _states_of_both(lab: Laboratory, words: Sequence[str]) -> List[str]:
    """The names of the states at both nodes, in the branch that may be the second word."""
    branch = words[1] if len(words) > 1 and words[1] in lab.names() else lab.in_use
    return sorted({str(name) for node in lab.show(branch).nodes.values() for name in node.states})


def _view(lab: Laboratory, words: Sequence[str]) -> Iterable[str]:
    """What can follow the words of a `view`: a branch, a number that is not completed, and a node or a state."""
    if words[-1] in NODES or "." in words[-1]:
        return ()
    return [*(_branches(lab, words) if len(words) == 1 else ()), *NODES, *_states_of_both(lab, words)]


def _places(lab: Laboratory, words: Sequence[str], begun: str) -> Iterable[str]:
    """What can follow `back` and `fork`: the marks after `back to` and `back BRANCH to`, else the program's words, and `to` or `here`."""
    if words[0] == BACK.word and words[-1] == TO and len(words) < 4:
        return lab.marks
    own = {BACK.word: TO, FORK.word: HERE}[words[0]]
    # (`back 1` is whole)
    is_place = len(words) == 1 or len(words) == 2 and own == TO and not words[1].isdecimal()
    return [*_following(lab, words, words, begun), *[own] * is_place]


def _whatif(lab: Laboratory, words: Sequence[str], begun: str) -> Iterable[str]:
    """What can follow the words of a `whatif`: a branch, options that are not there yet, and their values."""
    values: Dict[str, Iterable[str]] = {"--faults": KINDS, "--watch": WATCHED, "--out": _paths(begun)}
    options = {option.split()[0]: option.split()[1:] for option in WHATIF_OPTIONS}
    if options.get(words[-1]):
        return values.get(words[-1], ())
    branches = _branches(lab, words) if len(words) == 1 else ()
    return [*branches, *(option for option in options if option not in words)]


def _options(word: str) -> Iterable[str]:
    """What can follow an option of a rule, or the words before the options."""
    values = OPTIONS[word].values if word in OPTIONS else ()
    return values[0].words if values else OPTIONS


def _search(lab: Laboratory, words: Sequence[str], begun: str) -> List[str]:
    """What can come in a search, in people's words and in the program's."""
    found = offers(words)
    if not found.event:
        return _matching((*found.words, *(_branches(lab, words) if len(words) == 1 else ())), begun)
    branch = lab.in_use if found.is_for_people else words[1]
    offered = _following(lab, (STEP.word, branch, *found.event), found.event, begun)
    every = () if found.is_for_people else [event.every for event in EVENTS.values()]
    return _matching((it for it in offered if it not in every), begun)


def _paths(begun: str) -> List[str]:
    """The paths that begin this way. The path of a folder ends with a slash, since more can follow."""
    return [f"{it}/" if os.path.isdir(it) else it for it in glob.glob(glob.escape(begun) + "*")]


def _matching(words: Iterable[str], begun: str) -> List[str]:
    return [word for word in words if word.startswith(begun)]
