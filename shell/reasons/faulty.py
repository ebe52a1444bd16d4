"""Which word of a line is at fault. The program names only the fault; the word is found by the forms of lines, and is named only
if the fault found this way is the program's."""
from __future__ import annotations

from typing import List, Optional, Sequence, Set

from ..console.fitting import shortened
from ..language import helps
from ..language.lines import check_line, wanted_form, wanted_word
from ..language.readers import LineFault
from ..language.searches import words_of
from ..language.setups import LIMITS, MOST_RULES

_WORDS = {
    "Long": "the line is too long",
    "NotAscii": "the line has a character that is not ASCII",
    "Unknown": "a word is unknown",
    "Missing": "a word is missing",
    "Number": "a word has the wrong form",
    "Extra": "there are words left over, or out of order",
    "Packet": "the fields do not make a packet",
}
_OF_SETUPS = {
    "open": "the setup ends without a line `open`",
    "TooMany": f"a node has at most {MOST_RULES} rules",
    "NatNotOut": "a rule with `nat` has to be for the way `out`",
    "RdrNotIn": "a rule with `rdr` has to be for the way `in`",
    "ZeroMax": "a rule has to allow at least one state, but says `max 0`",
    "NoMemory": "the program had no memory for the setup",
}


def explain_fault(line: str, reply: str, columns: Optional[int] = None, shown: Optional[Set[str]] = None) -> List[str]:
    """What is wrong with a line, and where. The reply is the program's `bad 5 Number`, or for a setup `line 5 Number`, or for what
    a line of good form says, `rule 2 NatNotOut` or `world 1 TooSmall`. The line is shown in rows of at most this many columns. A
    dialogue gives the forms that it has shown: they are not shown again, and those of this line are added, as a person may type them."""
    kind, name = reply.split()[0], reply.split()[-1]
    if kind not in ("bad", "line"):
        return _of_content(line.split(), name)
    fault = _first_fault(line, kind == "line")
    if fault is None or fault.name != name:
        lines = [f"{_WORDS.get(name, name)}; the shell cannot say which word"]
    else:
        lines = [shortened(fault.why), *_marked([*map(shortened, words_of(line))], fault.place, columns)]
    forms = wanted_form(line.split())
    if shown is None:
        return [*lines, *(f"expected: {form}" for form in forms)]
    return [*lines, *_wanted([*map(helps.typed, forms)], wanted_word(line.split()), shown)]


def _wanted(forms: Sequence[str], word: str, shown: Set[str]) -> List[str]:
    """The forms of the line that was probably meant, or where these were shown, how to see them again."""
    if not shown.issuperset(forms):
        shown.update(forms)
        return [f"expected: {form}" for form in forms]
    return [f"`help {word}` shows the form"] if forms and helps.shows(word, forms) else []


def _first_fault(line: str, of_setup: bool) -> Optional[LineFault]:
    try:
        check_line(line, of_setup)
    except LineFault as fault:
        return fault
    return None


def _marked(words: Sequence[str], place: Optional[int], columns: Optional[int]) -> List[str]:
    """The line, and under it a mark at the word."""
    if place is None:
        return []
    lines: List[str] = []
    # (a word missing at the end has its mark there)
    left, width = place, len(words[place]) if place < len(words) else 1
    for row in _rows([*words, *[""] * (place == len(words))], columns):
        lines.append(f"  {' '.join(row)}".rstrip())
        if 0 <= left < len(row):
            column = len(" ".join(row[:left])) + (1 if left else 0)
            lines.append(f"  {' ' * column}{'^' * width}")
        left -= len(row)
    return lines


def _rows(words: Sequence[str], columns: Optional[int]) -> List[List[str]]:
    """Words in rows that begin with two spaces and leave room for a mark after the last word."""
    rows: List[List[str]] = [[]]
    for word in words:
        if columns and word and rows[-1] and len("  " + " ".join([*rows[-1], word]) + " ^") > columns:
            rows.append([])
        rows[-1].append(word)
    return rows


def _of_content(words: Sequence[str], name: str) -> List[str]:
    """The faults of lines of good form, by name, with the line's own number if that is at fault."""
    if name not in ("TooSmall", "TooLarge"):
        return [_OF_SETUPS[name]]
    what = f"a limit is {'below' if name == 'TooSmall' else 'above'} its range"
    ranges = {word: f"`{word}` is from {it.least} to {it.most}" for word, it in LIMITS.items()}
    if len(words) == 3 and words[1] in ranges:
        return [f"{what}: {ranges[words[1]]}, and not {int(words[2])}"]
    return [what, *ranges.values()]
