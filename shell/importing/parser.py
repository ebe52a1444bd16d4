"""Reads the statements of a pf.conf(5)."""
from __future__ import annotations

from typing import Callable, Dict, List, Optional

from ..language.forms import GREATEST
from .grammar import (
    NUMBERING,
    Antispoof,
    Content,
    Faulty,
    Filter,
    Host,
    HostKind,
    IcmpType,
    Include,
    Interface,
    Line,
    Load,
    Macro,
    Option,
    Other,
    Setting,
    Source,
    Table,
    Translation,
)
from .reader import FAMILIES, MOST_IN_ONE_ANOTHER, Reader
from .services import number_of
from .tokens import Kind, NotRead, Statement, Token

LONGEST_MACRO = 65536
_RETURNS = ("return", "return-rst", "return-icmp", "return-icmp6")
_ROUTES = ("route-to", "reply-to", "dup-to")
_POOLS = ("bitmask", "random", "source-hash", "round-robin", "static-port", "sticky-address")
_TRANSLATIONS = ("nat", "rdr", "binat")
_BEFORE_OPTIONS = ("in", "out", "log", "quick", "on", "inet", "inet6", "proto", "all", "from", "os", "to")
_FIRST_OF_OPTIONS = ("user", "group", "flags", "icmp-type", "icmp6-type", "keep", "modulate", "synproxy", "no", "!")
_OF_LISTS = ("timeout", "limit")
# What is in the manual of later versions, or of OpenBSD.
_LATER = {
    "ether": "FreeBSD 13's pf has no rules for Ethernet",
    "received-on": "FreeBSD 13's pf has no `received-on`",
    "af-to": "FreeBSD 13's pf has no `af-to`",
}
# The translations of later versions, which are options of a rule.
_TO = {"nat-to": "nat", "rdr-to": "rdr", "binat-to": "binat"}


def parse(statement: Statement, source: Source, depth: int = 0) -> Content:
    """What a statement of a file says, or why it is not understood."""
    first = statement.tokens[0].text if statement.tokens else ""
    if statement.fault:
        return Faulty(first, statement.fault)
    reader = Reader(statement.tokens, source, depth)
    try:
        content = _content(reader)
        reader.finish()
        return content
    except NotRead as why:
        return Faulty(first, str(why))


def _content(reader: Reader) -> Content:
    word = reader.take()
    if reader.accept("="):
        return Macro(word.text, _macro_value(reader))
    read = STATEMENTS.get(word.text) if word.kind is Kind.WORD else None
    if read is None:
        raise NotRead(_LATER.get(word.text, f"{word} begins no statement"))
    return read(reader, word.text)


def _macro_value(reader: Reader) -> str:
    """Words and quoted strings, which are joined by spaces."""
    parts: List[str] = []
    while reader.next.kind in (Kind.WORD, Kind.QUOTED):
        parts.append(reader.take().text)
    if not parts or not reader.is_done:
        raise NotRead(f"{reader.next} in a macro: pfctl expects nets and lists in quotes")
    value = " ".join(parts)
    if len(value) > LONGEST_MACRO:
        raise NotRead(f"a macro has more than {LONGEST_MACRO} characters")
    return value


# ---- rules


def _rule(reader: Reader, word: str) -> Filter:
    rule = Filter(word)
    if word == "block":
        rule.answer = reader.one_of("drop", *_RETURNS)
        _in_parentheses(reader)
    _begin(reader, rule)
    rule.match.interfaces = reader.interfaces()
    rule.route = _route(reader)
    reader.rest_of(rule.match)
    while not reader.is_done:
        _option(reader, rule)
    return rule


def _begin(reader: Reader, rule: Filter) -> None:
    """The direction, `log` and `quick`."""
    rule.direction = reader.one_of("in", "out") or "any"
    while reader.is_next("log", "quick"):
        rule.is_quick = reader.take().text == "quick" or rule.is_quick
        _in_parentheses(reader)


def _in_parentheses(reader: Reader) -> List[Option]:
    return reader.until(")", reader.option) if reader.accept("(") else []


def _route(reader: Reader) -> str:
    """The word for another route, whose gateways are passed over."""
    word = reader.one_of("fastroute", *_ROUTES)
    if word in _ROUTES:
        reader.several(lambda: _gateway(reader))
        _pool(reader)
    return word


def _gateway(reader: Reader) -> None:
    if reader.accept("("):
        reader.word("an interface")
        reader.host()
        reader.expect(")")
    else:
        reader.host()


def _pool(reader: Reader) -> List[Option]:
    """How one of several addresses is chosen."""
    found: List[Option] = []
    while reader.is_next(*_POOLS):
        word = reader.take().text
        key = (reader.take().text,) if word == "source-hash" and reader.next.text.startswith("0x") else ()
        found.append(Option(word, key))
    return found


def _option(reader: Reader, rule: Filter) -> None:
    """One of the options at the end of a rule."""
    is_not = reader.accept("!")
    word = reader.word("an option")
    if is_not and word != "tagged":
        raise NotRead(f"`! {word}` is not understood here")
    if word in ("user", "group"):
        (rule.users if word == "user" else rule.groups).extend(reader.several(reader.user))
    elif word == "flags":
        rule.flags = _flags(reader)
    elif word in ("icmp-type", "icmp6-type"):
        rule.icmp_types += reader.several(lambda: _icmp_type(reader, 6 if word == "icmp6-type" else 4))
    elif word in ("keep", "modulate", "synproxy", "no"):
        reader.expect("state")
        rule.state = word
        has_options = word != "no" and reader.accept("(")
        rule.state_options = reader.until(")", lambda: _state_option(reader)) if has_options else []
    elif word in _TO and rule.to is None and not rule.is_anchor:
        rule.to = _translated(reader, Translation(_TO[word], rule.match))
    elif word in _OPTIONS:
        rule.options.append(Option(f"! {word}" if is_not else word, tuple(_OPTIONS[word](reader))))
    else:
        raise NotRead(_misplaced(word))


def _misplaced(word: str) -> str:
    """Why a word is not one of the options at the end of a rule."""
    if word in _BEFORE_OPTIONS:
        return f"`{word}` is in the wrong place: pfctl expects {', '.join(_BEFORE_OPTIONS)} in this order, and then the options"
    return _LATER.get(word, f"`{word}` is not an option of a rule")


def _flags(reader: Reader) -> str:
    if reader.accept("any"):
        return "any"
    set_ = "" if reader.is_next("/") else reader.word("flags of TCP")
    reader.expect("/")
    return f"{set_}/{reader.word('flags of TCP')}"


def _icmp_type(reader: Reader, version: int) -> IcmpType:
    text = reader.word("a type of ICMP")
    return IcmpType(version, text, reader.word("a code of ICMP") if reader.accept("code") else "")


def _state_option(reader: Reader) -> Option:
    """An option of a state; commas between options may be left out, so each takes the words that belong to it."""
    word = reader.word("an option of a state")
    if word in ("no-sync", "sloppy", "floating", "if-bound", "pflow"):
        return Option(word)
    if word == "source-track":
        kind = reader.one_of("rule", "global")
        return Option(word, (kind,) if kind else ())
    if word == "overload":
        table = reader.host().text
        return Option(word, (table, *(it for it in (reader.one_of("flush"), reader.one_of("global")) if it)))
    value = reader.word("a number")
    return Option(word, (value, reader.word("seconds")) if reader.accept("/") else (value,))


def _state_defaults(reader: Reader) -> List[Option]:
    found: List[Option] = []
    while not reader.is_done:
        found.append(_state_option(reader))
        reader.accept(",")
    return found


def _a_word(reader: Reader) -> List[str]:
    return [reader.word("a word")]


def _a_number(reader: Reader) -> List[str]:
    word = reader.word("a number")
    if number_of(word, GREATEST) is None:
        raise NotRead(f"`{word}` is not a number up to {GREATEST}")
    return [word]


def _queues(reader: Reader) -> List[str]:
    return [option.word for option in _in_parentheses(reader)] if reader.is_next("(") else _a_word(reader)


def _divert(reader: Reader) -> List[str]:
    words = [] if reader.is_next("port") else [reader.host().text]
    return [*words, *(_a_word(reader) if reader.accept("port") else [])]


def _set_priority(reader: Reader) -> List[str]:
    if reader.accept("prio"):
        return _queues(reader)
    return _listed(reader)


def _listed(reader: Reader) -> List[str]:
    """The words in parentheses, with or without commas between them."""
    reader.expect("(")
    return [word for words in reader.until(")", lambda: _queues(reader)) for word in words]


_OPTIONS: Dict[str, Callable[[Reader], List[str]]] = {
    **{it: _a_word for it in ("label", "tag", "tagged", "tos", "dscp", "probability", "rtable", "prio")},
    **{it: _a_number for it in NUMBERING},
    **{it: lambda reader: [] for it in ("fragment", "allow-opts", "divert-reply")},
    **{it: _queues for it in ("queue", "dnpipe", "dnqueue")},
    "set": _set_priority,
    "scrub": _listed,
    "divert-to": _divert,
}


def _anchor(reader: Reader, word: str) -> Filter:
    """An anchor of the filter, with the packets that it is for, and the rules in its braces."""
    rule = Filter(word)
    rule.name = "" if reader.is_next(*_BEFORE_OPTIONS, *_FIRST_OF_OPTIONS, *_OPTIONS, "{") or reader.is_done else reader.word("a name")
    _begin(reader, rule)
    rule.match = reader.match()
    while not reader.is_done and not reader.is_next("{"):
        _option(reader, rule)
    if reader.accept("{"):
        rule.inner = _inner(reader)
    return rule


def _inner(reader: Reader) -> List[Line]:
    """The rules in the braces of an anchor, each of which ends with its line."""
    found: List[Line] = []
    tokens: List[Token] = []
    depth = 1
    while depth and not reader.is_done:
        token = reader.take()
        depth += {"{": 1, "}": -1}.get(token.text, 0) if token.kind is Kind.MARK else 0
        if depth and (token.kind is not Kind.LINE_END or depth > 1):
            tokens.append(token)
        elif tokens:
            found.append(_inner_line(reader, tokens))
            tokens = []
    return found


def _inner_line(reader: Reader, tokens: List[Token]) -> Line:
    if reader.depth >= MOST_IN_ONE_ANOTHER:
        content: Content = Faulty(tokens[0].text, f"anchors are nested more than {MOST_IN_ONE_ANOTHER} deep")
    elif tokens[0].kind is Kind.WORD and tokens[0].text in _IN_BRACES:
        content = parse(Statement(tokens, tokens[0].line, tokens[-1].line), reader.source, reader.depth + 1)
    else:
        content = Faulty(tokens[0].text, f"pfctl takes only rules and anchors in the braces of an anchor, found {tokens[0]}")
    return reader.source.line(tokens[0].line, tokens[-1].line, content)


def _translation_anchor(reader: Reader, word: str) -> Filter:
    """An anchor of translations, with the packets that it is for."""
    rule = Filter(word, name=reader.word("the name of an anchor"))
    rule.match = reader.match()
    while reader.accept("rtable"):
        rule.options.append(Option("rtable", (reader.word("a number"),)))
    return rule


def _load(reader: Reader, _: str) -> Load:
    reader.expect("anchor")
    name = reader.word("the name of an anchor")
    reader.expect("from")
    return Load(name, reader.word("the name of a file"))


def _antispoof(reader: Reader, _: str) -> Antispoof:
    rule = Filter("block")
    _begin(reader, rule)
    reader.expect("for")
    interfaces = reader.several(reader.host)
    family = FAMILIES.get(reader.one_of(*FAMILIES), 0)
    while reader.is_next("label", "rtable", *NUMBERING):
        _OPTIONS[reader.take().text](reader)
    return Antispoof(interfaces, family, rule.is_quick)


# ---- translation


def _translation(reader: Reader, word: str, is_no: bool = False) -> Translation:
    passes = reader.accept("pass")
    if reader.accept("log"):
        _in_parentheses(reader)
    found = Translation(word, reader.match(), is_no, passes)
    while reader.is_next("tag", "tagged", "rtable", "!"):
        mark = "! " * reader.accept("!")
        found.options.append(Option(mark + reader.take().text, (reader.word("a word"),)))
    if reader.accept("->"):
        return _translated(reader, found)
    if not is_no:
        raise NotRead(f"expected `->` and an address, found {reader.next}")
    return found


def _translated(reader: Reader, translation: Translation) -> Translation:
    """Where a translation goes."""
    translation.targets = tuple(reader.several(reader.host))
    translation.port = reader.word("a port") if reader.accept("port") else ""
    translation.options += _pool(reader)
    return translation


def _no(reader: Reader, word: str) -> Content:
    kind = reader.one_of("scrub", *_TRANSLATIONS)
    if not kind:
        raise NotRead(f"expected `nat`, `rdr`, `binat` or `scrub` after `no`, found {reader.next}")
    return _others(reader, kind) if kind == "scrub" else _translation(reader, kind, is_no=True)


# ---- other statements


def _table(reader: Reader, _: str) -> Table:
    reader.expect("<")
    table = Table(reader.word("the name of a table"))
    reader.expect(">")
    while not reader.is_done:
        if reader.accept("{"):
            table.hosts += reader.until("}", reader.host)
        elif reader.accept("file"):
            table.files.append(reader.word("the name of a file"))
        elif reader.is_next("persist", "const", "counters"):
            table.words.append(reader.take().text)
        else:
            raise NotRead(f"{reader.next} is not understood here")
    if any(host.kind is HostKind.RANGE for host in table.hosts):
        raise NotRead("pfctl takes no ranges in tables")
    return table


def _set(reader: Reader, _: str) -> Setting:
    setting = Setting(reader.word("what is set"))
    if setting.word == "skip":
        reader.expect("on")
        setting.interfaces = reader.several(reader.interface)
    elif setting.word == "state-defaults":
        setting.options = _state_defaults(reader)
    elif setting.word in _OF_LISTS:
        pairs = reader.several(lambda: [reader.word("a name"), reader.word("a number")])
        setting.values = [it for pair in pairs for it in pair]
    else:
        while not reader.is_done:
            setting.values.append(reader.take().text)
    return setting


def _include(reader: Reader, _: str) -> Include:
    return Include(reader.word("the name of a file"))


def _others(reader: Reader, word: str) -> Other:
    """A statement of which only the interfaces matter."""
    interfaces: List[Interface] = []
    while not reader.is_done:
        if reader.is_next("on") and not interfaces:
            interfaces = reader.interfaces()
        else:
            reader.take()
    return Other(word, interfaces)


# What may stand in the braces of an anchor.
_IN_BRACES = ("pass", "block", "match", "anchor")
STATEMENTS: Dict[str, Callable[[Reader, str], Content]] = {
    **{it: _rule for it in ("pass", "block", "match")},
    "anchor": _anchor,
    **{f"{it}-anchor": _translation_anchor for it in _TRANSLATIONS},
    "load": _load,
    "antispoof": _antispoof,
    **{it: _translation for it in _TRANSLATIONS},
    "no": _no,
    "table": _table,
    "set": _set,
    "include": _include,
    **{it: _others for it in ("scrub", "altq", "queue")},
}


def host_of(text: str) -> Optional[Host]:
    """An address in the form of a table's file: `!` before it, and a length after a slash."""
    is_not, text = text.startswith("!"), text.lstrip("!")
    address, slash, length = text.partition("/")
    return Host(HostKind.ADDRESS, address, length=length if slash else None, is_not=is_not) if address else None
