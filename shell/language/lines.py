"""Lines as the program reads them: the lines of a text, and the first fault of a line, read from the left (docs/FORMATS.md)."""
from __future__ import annotations

from typing import List, Sequence

from . import forms as form
from .commands import COMMANDS, EVENT, KERNEL, KERNEL_WORD, OPEN, RULE, SET, SETUP, STEP, WHY
from .events import CUT, CUT_LENGTH, EVENTS, OF_FRAME, OF_NODE, PACKET, read_packet
from .forms import nearest, number
from .packets import PacketEvent
from .pf_conf import hint
from .readers import LineFault, Reader
from .searches import ANY, APART, DIFFER, FORM, GOALS, HEAD, MOST_CHOICES, MOST_PHASES, OF_PAIR, SCOPES, SEARCH, SPLIT, THEN, words_of
from .setups import CLASSES, LIMITS, OPTIONS, TIMEOUT

LONGEST_LINE = 512
# The first words of lines that follow a setup.
KNOWN = (*COMMANDS, SEARCH)
# What the shell takes as a search.
FOR_PEOPLE = (
    *(f"{SEARCH} {it} packet .. [, PART].." for it in ("drops", "passes", "splits")),
    *(f"{SEARCH} {it} [, PART].." for it in (DIFFER, APART)),
)


def lines_of(text: str) -> List[str]:
    """The lines of a text, which only a line feed ends; what follows the last line feed counts."""
    lines = text.split("\n")
    return lines if lines[-1] else lines[:-1]


def content_of(line: str) -> str:
    """A line without the CR that may begin its end."""
    return line[:-1] if line.endswith("\r") else line


def has_word(line: str) -> bool:
    """Whether a line is read: it has a word that does not begin a comment."""
    text = content_of(line).strip(" \t")
    return bool(text) and not text.startswith("#")


def opens(line: str) -> bool:
    """Whether a line ends the setup."""
    return line.split() == [OPEN.word]


def check_line(line: str, of_setup: bool) -> None:
    """Raises the first fault of a line of the setup, or of a line after it."""
    line = content_of(line)
    if len(line) > LONGEST_LINE:
        raise LineFault("Long", None, f"the line has {len(line)} characters, but at most {LONGEST_LINE} are read")
    for at, byte in enumerate(line):
        if byte != "\t" and not " " <= byte <= "~":
            raise LineFault("NotAscii", None, f"character {at + 1}, {byte!r}, is neither a tab nor printable ASCII")
    if of_setup:
        _check_setup(Reader(line.split()))
    else:
        _check_command(line)


def _check_command(line: str) -> None:
    reader = Reader(line.split())
    word = reader.known("command", KNOWN, ": it belongs to the setup, before `open`" if reader.next in SETUP else "")
    if word == SEARCH:
        _check_search(line)
        return
    for wanted in COMMANDS[word].values_of(reader.words):
        if wanted is EVENT:
            _check_step(reader)
        else:
            reader.take(wanted)
    reader.finish()


def _check_setup(reader: Reader) -> None:
    meant = ": it is a command, and those come after `open`" if reader.next in KNOWN else ""
    word = reader.known("line of a setup", SETUP, meant)
    if word == SET.word:
        _check_set(reader)
    elif word == RULE.word:
        _check_rule(reader)
    elif word == KERNEL.word:
        _check_kernel(reader)
    reader.finish()


def _check_set(reader: Reader) -> None:
    word = reader.known("setting", (*LIMITS, TIMEOUT.word))
    for wanted in TIMEOUT.values if word == TIMEOUT.word else (number("N", 1 if LIMITS[word].is_switch else form.GREATEST),):
        reader.take(wanted)


def _check_kernel(reader: Reader) -> None:
    reader.known("rule of the kernel", KERNEL_WORD.words)
    while reader.next is not None:
        reader.known("rule of the kernel", KERNEL_WORD.words)


# ---- rules


def _check_rule(reader: Reader) -> None:
    for wanted in (form.NODE, form.ACTION, form.RULE_DIRECTION):
        reader.take(wanted)
    for option in OPTIONS.values():
        if option is not TIMEOUT and reader.next == option.word:
            reader.at += 1
            for wanted in option.values:
                reader.take(wanted)
    for timeout_class in CLASSES:
        if list(reader.words[reader.at : reader.at + 2]) == [TIMEOUT.word, timeout_class.word]:
            reader.at += 2
            reader.take(TIMEOUT.values[1])
    _check_rule_end(reader)


def _check_rule_end(reader: Reader) -> None:
    word, place = reader.next, reader.at
    if word is None:
        return
    if word == TIMEOUT.word:
        reader.at += 1
        reader.take(TIMEOUT.values[0])
        raise LineFault("Extra", place, "the timeouts must be in the order of their classes' numbers, each class once")
    if word in OPTIONS:
        raise LineFault("Extra", place, f"`{word}` is out of order or repeated: the order is {' '.join(OPTIONS)}")
    meant = f": {hint(word)}" if hint(word) else nearest(word, OPTIONS)
    raise LineFault("Unknown", place, f"`{word}` is not an option of a rule{meant}")


# ---- events


def _check_step(reader: Reader) -> None:
    """The event of a step; its packet is judged once no word is left over."""
    first = reader.at
    _take_event(reader)
    reader.finish()
    _check_event_at(reader, first)


def _check_event(reader: Reader) -> None:
    """An event; its packet is judged as soon as its words are read."""
    first = reader.at
    _take_event(reader)
    _check_event_at(reader, first)


def _take_event(reader: Reader) -> None:
    first = reader.at
    event = EVENTS[reader.known("event", EVENTS)]
    for wanted in event.values_of(reader.words[first : reader.end]):
        if reader.next is not None or not wanted.is_optional:
            reader.take(wanted)


def _check_event_at(reader: Reader, first: int) -> None:
    if reader.words[first] == PACKET.word:
        _check_packet(read_packet(" ".join(reader.words[first : reader.at])), first)


def _check_packet(packet: PacketEvent, first: int) -> None:
    """Raises what keeps fields of the right forms from making a packet; `first` is the place of the word `packet`."""
    last = first + (10 if packet.is_tcp else 6)
    source, destination = first + 4, first + 5
    if packet.length > 65495:
        raise LineFault("Packet", last, f"LEN {packet.length} is above 65495, the most that an IP packet can carry")
    if packet.scale is not None and "S" not in packet.flags:
        raise LineFault("Packet", last + 1, f"only a packet with SYN has a SCALE, but the flags are {packet.flags}")
    if packet.scale is not None and packet.scale > 14:
        raise LineFault("Packet", last + 1, f"SCALE {packet.scale} is above 14")
    if packet.source.startswith("[") != packet.destination.startswith("["):
        raise LineFault("Packet", destination, "one end is IPv4 and the other IPv6")
    ports = [end.rpartition(":")[2] for end in (packet.source, packet.destination)]
    if packet.protocol == "icmp" and ports[0] != ports[1]:
        same = "both ends of icmp have the same identifier in place of a port"
        raise LineFault("Packet", destination, f"{same}, but these are {ports[0]} and {ports[1]}")
    if not packet.is_tcp and packet.protocol not in ("udp", "icmp") and ports != ["0", "0"]:
        place = source if ports[0] != "0" else destination
        raise LineFault("Packet", place, f"protocol {packet.protocol} has no ports: write port 0 at both ends")


# ---- searches


def _check_search(line: str) -> None:
    words = words_of(line)
    ends = [at for at, word in enumerate(words) if word == ";"] + [len(words)]
    first = Reader(words, 1, ends[0])
    for wanted in HEAD:
        first.take(wanted)
    _check_goal(first)
    first.finish("goal")
    choices, phases = 0, 1
    for before, end in zip(ends, ends[1:]):
        is_then = words[before + 1 : end] == [THEN]
        choices, phases = choices + (not is_then), phases + is_then
        if choices > MOST_CHOICES:
            raise LineFault("Extra", before, f"a search has at most {MOST_CHOICES} choices")
        if phases > MOST_PHASES:
            raise LineFault("Extra", before, f"a search has at most {MOST_PHASES} phases")
        if not is_then:
            _check_choice(Reader(words, before + 1, end))


def _check_goal(reader: Reader) -> None:
    if reader.next in SCOPES:
        reader.at += 1
    goal = reader.known("goal", GOALS)
    if goal in OF_PAIR:
        return
    first = reader.at
    _check_event(reader)
    word = reader.words[first]
    if goal == SPLIT and word not in OF_NODE:
        raise LineFault("Unknown", first, f"`{word}` is no event of a node by itself, such as `{PACKET.word}`")


def _check_choice(reader: Reader) -> None:
    reader.take(form.N)
    if reader.next == ANY:
        reader.at += 1
        if reader.known("event of any frame", OF_FRAME) == CUT.word:
            reader.take(CUT_LENGTH)
    else:
        _check_event(reader)
    reader.finish("choice")


# ---- what was wanted


def wanted_word(words: Sequence[str]) -> str:
    """The word by which the form of a line is known: that of its event, or its first one."""
    first = words[0] if words else ""
    return words[2] if first in (STEP.word, WHY.word) and len(words) > 2 and words[2] in EVENTS else first


def wanted_form(words: Sequence[str]) -> List[str]:
    """The form of the line that was probably meant; none if its first word is unknown."""
    first, word = words[0] if words else "", wanted_word(words)
    if first == SEARCH:
        return [FORM, *FOR_PEOPLE]
    if word == first:
        return [it for table in (SETUP, COMMANDS) if first in table for it in table[first].form.split("\n")]
    event = EVENTS[word]
    forms = event.forms if len(words) <= 5 else (event.form_with(event.values_of(words[2:])),)
    return [f"{first} {form.BRANCH} {it}" for it in forms]
