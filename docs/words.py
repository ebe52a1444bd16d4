#!/usr/bin/env python3
"""Writes the lists of the shell's words in docs/SHELL.md and docs/man/pfl_shell.1 from shell/language/helps.py, which has what `help` says
of them.

    docs/words.py            writes the lists
    docs/words.py --check    changes nothing, and exits with 1 if a list is stale

In docs/SHELL.md a comment on a line of its own is followed by a table, up to the next empty line:

    <!-- words -->           all words of the shell, each with its first clause
    <!-- parts WORD -->      the parts or options of a word, each with its first sentence

In the manual page the list is between two comments of mdoc(7), one that names this script and `end of words`.
"""
from __future__ import annotations

import re
import sys
import textwrap
from pathlib import Path
from typing import Dict, Iterator, List, Tuple

TOP = Path(__file__).resolve().parent.parent
sys.dont_write_bytecode = True
sys.path.insert(0, str(TOP))
from shell.language import helps
from shell.language.helps import Help

PAGE, MANUAL = TOP / "docs/SHELL.md", TOP / "docs/man/pfl_shell.1"
# The words of the shell, `mark` before what goes to marks.
BEFORE = [*helps.SHELL].index("mark") + 1
OURS: Dict[str, Help] = dict((*[*helps.SHELL.items()][:BEFORE], *helps.ADDED.items(), *[*helps.SHELL.items()][BEFORE:]))
# The sections of the page that say more.
SECTIONS = {"search": "searches", "whatif": "what-if", "depends": "whose-rules-it-depends-on", "notes": "on-a-server"}
TABLE = re.compile(r"(<!-- (words|parts (\w+)) -->\n)(?:\|.*\n)*")
LIST = re.compile(r"(\.\\\" words, by docs/words\.py\n).*(\.\\\" end of words\n)", re.S)
# Several options in a form, which stand for themselves.
OPTIONS = re.compile(r"\[--\w+( [A-Z.a-z]+)?\] \[--.*")
# The parts of a form, and of a sentence.
FORM = re.compile(r"\[|\]|\.\.|[,;]|--[a-z-]+|[A-Z]+(?:\.[a-z]+)?|[a-z-]+")
TOKEN = re.compile(r"\(?`[^`]+`\S*|\S+")
SPAN = re.compile(r"(\(?)`([^`]+)`(\S*)")
NAME = re.compile(r"([A-Z]+)(-th)?([.,;:)]*)")
MANUAL_PAGE = re.compile(r"(\w+)\((\d)\)([.,;:]*)")
SENTENCE_END = re.compile(r"(?<=[.?!]) (?=[A-Z`(])")
CLAUSE_END = re.compile(r"[;:] ")
COLUMNS = 78


def forms(word: Help) -> List[str]:
    """The forms of a word, in which several options are one part."""
    return [OPTIONS.sub("[OPTION ..]", form) for form in word.form.split("\n")]


def rows(word: str) -> Iterator[str]:
    """The table of a word's parts, or of all words."""
    if word:
        is_option = OURS[word].parts[0][0].startswith("--")
        yield f"| {'Option' if is_option else 'Part'} | What it {'does' if is_option else 'says'} |"
        yield "|---|---|"
        for part, what in OURS[word].parts:
            first = SENTENCE_END.split(what)[0].rstrip(".")
            yield f"| {', '.join(f'`{it}`' for it in part.split(', '))} | {first} |"
        return
    yield "| Word | What it does |"
    yield "|---|---|"
    for name, about in OURS.items():
        more = f" ([more](#{SECTIONS[name]}))" if name in SECTIONS else ""
        yield f"| {', '.join(f'`{form}`' for form in forms(about))} | {CLAUSE_END.split(about.what)[0]}{more} |"


def page(text: str) -> Tuple[str, int]:
    """The page with its tables as they are to be, and how many it has."""
    return TABLE.subn(lambda it: it[1] + "".join(f"{row}\n" for row in rows(it[3] or "")), text)


def form_macros(form: str, literal: str) -> str:
    """A form in macros of mdoc(7), whose literal words have this macro."""
    out: List[str] = []
    last = ""
    for part in FORM.findall(form):
        macro = "Ar" if part[0].isupper() else "Fl" if part.startswith("--") else literal if part[0].isalpha() else ""
        if macro and (macro != last or macro == "Fl"):
            out.append(macro)
        if part in "[]":
            out.append("Oo" if part == "[" else "Oc")
        else:
            out.append("..." if part == ".." else part[1:] if macro == "Fl" else part.lower())
        last = macro or ("" if part in "[],;" else last)
        literal = "Cm" if macro else literal
    return " ".join(out)


def macros(token: str, names: Tuple[str, ...]) -> str:
    """The macros for a code span, a name of a form or a manual page; nothing for a plain word."""
    span, name, manual = SPAN.fullmatch(token), NAME.fullmatch(token), MANUAL_PAGE.fullmatch(token)
    if manual:
        return " ".join(("Xr", manual[1], manual[2], *manual[3]))
    if name and name[1] in names:
        return " ".join(("Ar", name[1].lower(), *(("Ns", name[2]) if name[2] else ()), *name[3]))
    if not span:
        return ""
    opened, inner, closed = span.groups()
    if inner.split()[0] in helps.WORDS and (inner in helps.WORDS or any(word in names for word in inner.split())):
        own = form_macros(inner, "Ic")
    elif inner.startswith("--"):
        own = form_macros(inner, "Cm")
    else:
        own = f"Cm {inner}" if re.fullmatch("[a-z-]+", inner) else f"Dq {inner}"
    return " ".join(filter(None, (own.partition(" ")[0], opened, own.partition(" ")[2], *closed)))


def prose(text: str, names: Tuple[str, ...]) -> Iterator[str]:
    """Sentences in mdoc(7), each from a line of its own on."""
    for sentence in SENTENCE_END.split(text):
        words: List[str] = []
        for token in TOKEN.findall(sentence):
            macro = macros(token, names)
            if macro:
                yield from textwrap.wrap(" ".join(words), COLUMNS, break_long_words=False, break_on_hyphens=False)
                yield f".{macro}"
                words = []
            else:
                words.append(token)
        yield from textwrap.wrap(" ".join(words), COLUMNS, break_long_words=False, break_on_hyphens=False)


def item(word: str, about: Help) -> Iterator[str]:
    """A word in the list of the manual page."""
    names = tuple(re.findall(r"\b[A-Z]+\b", " ".join((about.form, *(part for part, _ in about.parts)))))
    for form in forms(about):
        yield f".It {form_macros(form, 'Ic')}"
    yield from prose(f"{about.order[0].upper()}{about.order[1:]}.", names)
    yield from prose(about.more, names)
    if about.parts and about.parts[0][0].startswith("--"):
        yield from ("The options are those of the command", f".Cm {word} .")
    elif about.parts:
        yield ".Bl -tag -width Ds"
        for part, what in about.parts:
            yield f".It {form_macros(part, 'Cm')}"
            yield from prose(f"{what[0].upper()}{what[1:]}", names)
        yield ".El"
        yield ".Pp"
    yield from prose(about.end, names)


def manual(text: str) -> Tuple[str, int]:
    """The manual page with its list as it is to be, and how many it has."""
    lines = (".Bl -tag -width Ds", *(line for word, it in OURS.items() for line in item(word, it)), ".El")
    return LIST.subn(lambda it: it[1] + "".join(f"{line}\n" for line in lines) + it[2], text)


def main(words: List[str]) -> int:
    is_check, status = words == ["--check"], 0
    if words and not is_check:
        print(__doc__.strip(), file=sys.stderr)
        return 2
    for path, written, wanted in ((PAGE, page, 2), (MANUAL, manual, 1)):
        old = path.read_text(encoding="utf-8")
        new, count = written(old)
        if count != wanted:
            print(f"docs/words.py: {path.relative_to(TOP)}: has {count} of {wanted} lists", file=sys.stderr)
            status = 1
        if old == new:
            continue
        if is_check:
            print(f"docs/words.py: {path.relative_to(TOP)}: stale; run python3 docs/words.py", file=sys.stderr)
            status = 1
        else:
            path.write_text(new, encoding="utf-8")
            print(f"{path.relative_to(TOP)}: written")
    return status


if __name__ == "__main__":
    sys.exit(main(sys.argv[1:]))
