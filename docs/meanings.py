"""What refuses an event, read from its meaning: the refusals that its definitions name, in their order there."""
from __future__ import annotations

import re
from typing import Dict, Iterator, List, Set

import definitions
from definitions import Place

REFUSALS = "pfl_base.specs.declared.refusal.Refusal.TheVariants"
VARIANT = re.compile(r"^ *(\w+)(?: = \d+)?,$", re.MULTILINE)
# A line of a definition that distinguishes events, with one line for each case: the event, and what is said about it.
CASE = re.compile(r"\w+ .*?\w+\.(?P<event>[A-Z]\w*)[^=]*= (?P<said>.*)$")
WORDS = (("pfl_lines", "event_words"), ("pfl_lines", "node_event_word"), ("pfl_lines", "frame_event_word"))
# The cases that are distinguished further, by the event of a node and by that of a frame.
DISTINGUISHED = {"At", "Of"}


def numbers() -> Dict[str, int]:
    """The refusals, numbered from 1."""
    text = (definitions.CRATES / "pfl_base/src/refusal.rt").read_text()
    names = VARIANT.findall(text[text.index("pub enum Refusal"):].split("\n}")[0])
    return {name: number for number, name in enumerate(names, 1)}


def _named(place: Place, seen: Set[Place]) -> Iterator[str]:
    """The refusals that a definition and those that it is made of name, each at its place."""
    if place[0] == REFUSALS:
        yield place[1]
    elif place in definitions.all_definitions() and place not in seen:
        seen.add(place)
        for name in definitions.all_definitions()[place].names:
            yield from _named(name, seen)


def _cases(place: Place) -> Iterator[re.Match[str]]:
    """The lines of a definition that distinguishes events."""
    return filter(None, map(CASE.match, definitions.all_definitions()[place].lines[1:]))


def words() -> Dict[str, str]:
    """The words of events in lines."""
    cases = (case for word in WORDS for place in definitions.places_of(*word) for case in _cases(place))
    return {case["event"]: case["said"].split('"')[1] for case in cases if '"' in case["said"]}


def refusals(place: Place) -> Dict[str, List[int]]:
    """The events that a definition of meanings distinguishes, each by its word, with the numbers of its refusals in order."""
    known, called, definition = numbers(), words(), definitions.all_definitions()[place]
    refused = {}
    for case in _cases(place):
        meaning = set(re.findall(r"[\w']+", case["said"]))
        seen: Set[Place] = set()
        found = dict.fromkeys(why for name in definition.names if name[1] in meaning for why in _named(name, seen))
        if case["event"] not in DISTINGUISHED:
            refused[called[case["event"]]] = [known[why] for why in found]
    return refused
