#!/usr/bin/env python3
"""Keeps what README.md, docs/*.md and crates/*/*.md quote from the sources up to date.

A page quotes by a comment on a line of its own, and the fenced block after it is what this script writes:

    <!-- definition CRATE NAME.. -->         definitions of specs/, each with the sentence above it, below the name of its file
    <!-- theorem CRATE NAME -->              what a theorem of proofs/ says, without its proof
    <!-- contracts CRATE FUNCTION.. -->      signatures and clauses of public functions, as in `Pending::mark` or `merge`
    <!-- function CRATE FUNCTION -->         a whole function
    <!-- file PATH -->                       a whole file
    <!-- naming PATTERN -->                  the files, folder by folder, with a word that matches a regular expression, in any case
    <!-- refusals CRATE NAME .. -->          the refusals, in order, of the events that these definitions of meanings distinguish
    <!-- reached CRATE NAME .. -->           how many definitions these definitions of specs/ are made of, crate by crate, and how many of
                                             them the page shows
    <!-- reached PAGE -->                    the same for the definitions cited by the contracts that the page quotes

Names are looked up in the crate, in whatever file they are; a name that is gone or that is there twice is an error. A contract is on
one page only: a function that is quoted twice over all pages, by `contracts` or by `function`, is an error. On a page that says what
is reached, a definition that is quoted but not reached is an error: nobody has to believe it. If it says so for another page's
contracts, a definition that one of their clauses cites and that it does not quote is an error, too; for a law, a function without
code, so is a definition that its statement is made of. README.md names in its promises the functions and laws that carry them: each
must be quoted in docs/PROVED.md, and a page must say what that page's contracts reach. The table of laws in docs/ARCHITECTURE.md must have
each law of the crates, and nothing that is no function; docs/PROVED.md must name each.

    docs/reading.py            writes the blocks
    docs/reading.py --check    changes nothing, and exits with 1 if a block is stale or a name is not found
"""

from __future__ import annotations

import collections
import functools
import itertools
import re
import sys
import textwrap
from pathlib import Path
from typing import Callable, Dict, Iterator, List, Sequence, Set, Tuple, TypeVar

sys.dont_write_bytecode = True
import definitions
import meanings
from definitions import Place

TOP = Path(__file__).resolve().parent.parent
# Crates that are one to a page, so that it need not know in which of them a name is.
FAMILIES = {
    "pfl_lab": ("pfl_lab", "pfl_host", "pfl_run"),
    "pfl_node": ("pfl_node", "pfl_desk", "pfl_receive"),
    "test_publish": ("test_publish", "pfl_publish_tests"),
}
# The page that names the functions and laws of the promises, the heading under which it names them, and the page that quotes them.
PROMISES = ("README.md", "## What it promises", "docs/PROVED.md")
# The name of a function or a law, and not a word of a command line: it has its type before it, or consists of several words.
CARRIES = re.compile(r"`((?:\w+::)+\w+|[a-z]\w*_\w+)`")
# The page with the table of laws, the head of that table, and the page that names them crate by crate.
LAWS = ("docs/ARCHITECTURE.md", "| Law | Named by |", "docs/PROVED.md")
# What a row of that table is named by: functions, and the crate that they are of.
NAMED_BY = re.compile(r"`(?P<name>[\w:]+)`|\bof (?P<crate>pfl_\w+)")
WIDTH = 120
MARKER = re.compile(r"<!-- (definition|theorem|contracts|function|file|naming|reached|refusals) (.+?) -->$")
DEFINITION = r"^ *(?:abbrev pub|unfoldable pub|pub record|pub data) {name}(?= |$)"
THEOREM = r"^{name} :"
FUNCTION = r"^ *(?:pub(?:\(crate\))? )?(?:const )?fn {name}[(<]"
PUBLIC = re.compile(r" *pub (?:const )?fn (\w+)[(<]")
CLAUSE = re.compile(r" *(?:ensures|requires)\b")
# Where to look for a change: the crates, and what is around the program.
WITH_SOURCES = ("crates/*/src", "crates/*/specs", "crates/*/proofs", "shell", "oracle", "fuzzing")
SOURCES = (".rt", ".antt", ".py")


# A line in a file: the file, its lines, and the index of the line.
Line = Tuple[Path, List[str], int]
T = TypeVar("T")


class Missing(Exception):
    """A name is nowhere, or in more than one place."""


def crates(family: str) -> Tuple[str, ...]:
    return FAMILIES.get(family, (family,))


def sources(family: str, folder: str, suffix: str) -> Iterator[Tuple[Path, List[str]]]:
    """The files of a crate's folder, with their lines."""
    for crate in crates(family):
        for path in sorted((TOP / "crates" / crate / folder).rglob("*" + suffix)):
            yield path, path.read_text().splitlines()


def only(found: List[Line], what: str) -> Line:
    """The only line that was found."""
    if len(found) != 1:
        places = ", ".join(str(path.relative_to(TOP)) for path, *_ in found)
        raise Missing(f"{what}: " + (f"is in more than one place: {places}" if found else "not found"))
    return found[0]


def all_found(quote: Callable[[str, str], T], family: str, names: Sequence[str]) -> List[T]:
    """What is quoted for each name; an error has all names that are not found."""
    found: List[T] = []
    missing = []
    for name in names:
        try:
            found.append(quote(family, name))
        except Missing as fault:
            missing.append(str(fault))
    if missing:
        raise Missing("; ".join(missing))
    return found


def search(family: str, folder: str, suffix: str, pattern: str, what: str) -> Line:
    """The file, the lines and the index of the one line that matches."""
    matcher = re.compile(pattern)
    return only([(path, lines, at) for path, lines in sources(family, folder, suffix)
                 for at, line in enumerate(lines) if matcher.match(line)], what)


def with_comment(lines: List[str], at: int, *signs: str) -> int:
    """The index of the first line of the comment above."""
    while at > 0 and lines[at - 1].lstrip().startswith(signs):
        at -= 1
    return at


def paragraph_end(lines: List[str], at: int) -> int:
    """The index of the first blank line from here on."""
    while at < len(lines) and lines[at].strip():
        at += 1
    return at


def module(path: Path) -> str:
    return ".".join(path.relative_to(TOP / "crates").with_suffix("").parts)


def dedented(lines: List[str]) -> List[str]:
    return textwrap.dedent("\n".join(lines)).splitlines()


def one_definition(family: str, name: str) -> Tuple[str, List[str]]:
    """The module of a definition, and its lines with the sentence above it."""
    path, lines, at = search(family, "specs", ".antt", DEFINITION.format(name=re.escape(name)), f"definition {name} of {family}")
    return module(path), dedented(lines[with_comment(lines, at, "--"):paragraph_end(lines, at)])


def definition(family: str, *names: str) -> List[str]:
    """Definitions; consecutive ones from one file are together below its name."""
    out: List[str] = []
    for where, its in itertools.groupby(all_found(one_definition, family, names), key=lambda it: it[0]):
        out += ["", f"-- {where}", *"\n\n".join("\n".join(text) for _where, text in its).splitlines()]
    return out[1:]


def folded(statement: str) -> List[str]:
    """An equation on one line, or its two sides on lines of their own."""
    sides = [statement] if len(statement) <= WIDTH else re.split(r" (?=≡ )", statement, maxsplit=1)
    return [line for at, side in enumerate(sides)
            for line in textwrap.wrap(side, WIDTH, initial_indent="    " if at else "", subsequent_indent="    ",
                                      break_long_words=False, break_on_hyphens=False)]


def theorem(family: str, name: str) -> List[str]:
    path, lines, at = search(family, "proofs", ".antt", THEOREM.format(name=re.escape(name)), f"theorem {name} of {family}")
    end = at + 1
    while end < len(lines) and not lines[end].startswith((name + " ", "unfolding ")):
        end += 1
    comment = lines[with_comment(lines, at, "--"):at]
    return [f"-- {module(path)}"] + comment + folded(" ".join(line.strip() for line in lines[at:end]))


def impl_head(lines: List[str], at: int) -> str:
    """The head of the `impl` that the line is in, without what is in angle brackets, or nothing. It may have several lines; the last
    then begins with `>`."""
    if not lines[at].startswith(" "):
        return ""
    while at > 0 and (lines[at].startswith(" ") or not lines[at].strip()):
        at -= 1
    start = at
    while start > 0 and lines[start].startswith((">", " ")):
        start -= 1
    head, angles = " ".join(line.strip() for line in lines[start : at + 1]).split("{")[0], re.compile(r"<[^<>]*>")
    while angles.search(head):
        head = angles.sub("", head)
    return head


def owner(lines: List[str], at: int) -> str:
    """The type of the `impl` that the line is in, or nothing."""
    return re.split(r" for |^impl ", impl_head(lines, at))[-1].strip()


@functools.lru_cache(maxsize=None)
def find_function(family: str, name: str) -> Line:
    """The one function with the name, which has its type before it if it is a method. A type's own method comes before one of a trait."""
    kind, _, last = name.rpartition("::")
    pattern = re.compile(FUNCTION.format(name=re.escape(last)))
    found = [(path, lines, at) for path, lines in sources(family, "src", ".rt")
             for at, line in enumerate(lines) if pattern.match(line) and owner(lines, at) == kind]
    own = [(path, lines, at) for path, lines, at in found if " for " not in impl_head(lines, at)]
    return only(own or found, f"function {name} of {family}")


def indent_of(line: str) -> str:
    return " " * (len(line) - len(line.lstrip()))


def body_start(lines: List[str], at: int) -> int:
    """The index of the line that opens the body: a brace on its own, or at the end of a signature without clauses."""
    alone = (indent_of(lines[at]) + "{", indent_of(lines[at]) + "{}")
    while lines[at] not in alone and not (lines[at].endswith((" {", " {}")) and not CLAUSE.match(lines[at])):
        at += 1
    return at


def contract(family: str, name: str) -> List[str]:
    _path, lines, at = find_function(family, name)
    end = body_start(lines, at)
    comment = [line for line in lines[with_comment(lines, at, "///", "#["):at] if line.lstrip().startswith("///")]
    head = lines[at:end] if lines[end].strip() in ("{", "{}") else lines[at:end] + [re.sub(r" \{\}?$", "", lines[end])]
    named = re.sub(r"\bfn \w+", f"fn {name}", head[0], count=1)
    return dedented([*comment, named, *head[1:]])


def contracts(family: str, *names: str) -> List[str]:
    return "\n\n".join("\n".join(it) for it in all_found(contract, family, names)).splitlines()


def function(family: str, name: str) -> List[str]:
    _path, lines, at = find_function(family, name)
    end = body_start(lines, at)
    while not lines[end].startswith(indent_of(lines[at]) + "}") and not lines[end].endswith("{}"):
        end += 1
    return dedented(lines[with_comment(lines, at, "///", "#["):end + 1])


def file(path: str) -> List[str]:
    return (TOP / path).read_text().splitlines()


def naming(pattern: str) -> List[str]:
    """The files that have a word of the pattern, without wrong bodies and cases."""
    word = re.compile(pattern, re.IGNORECASE)
    out: List[str] = []
    for folder in sorted(it for glob in WITH_SOURCES for it in TOP.glob(glob)):
        found = [str(path.relative_to(folder)) for path in sorted(folder.rglob("*"))
                 if path.suffix in SOURCES and word.search(path.read_text())]
        if found:
            out += textwrap.wrap(f"{folder.relative_to(TOP)}/: {' '.join(found)}", WIDTH, subsequent_indent="    ")
    return out


def place(crate: str, name: str) -> Place:
    """Where a crate of a family defines the name."""
    found = [it for one in crates(crate) for it in definitions.places_of(one, name)]
    if len(found) != 1:
        raise Missing(f"definition {name} of {crate}: " + ("is in more than one place" if found else "not found"))
    return found[0]


def markers(page: Path) -> List[Tuple[str, List[str]]]:
    """The words of the comments that quote on a page, each with what it quotes."""
    return [(found[1], found[2].split()) for found in map(MARKER.match, page.read_text().splitlines()) if found]


def shown_on(page: Path) -> Set[Place]:
    """The definitions that a page shows."""
    quoted = [its for quote, its in markers(page) if quote == "definition"]
    return {place(family, name) for family, *names in quoted for name in names}


def cited_by(family: str, name: str) -> Set[Place]:
    """The definitions that a function's clauses cite."""
    _path, lines, at = find_function(family, name)
    clauses = "\n".join(line for line in lines[at:body_start(lines, at)] if CLAUSE.match(line) or line.startswith("        "))
    return {it for it in definitions.Scope.of(lines).cited(clauses) if it in definitions.all_definitions()}


def is_law(family: str, name: str) -> bool:
    """Whether the function has no code: its contract states a theorem over the definitions."""
    _path, lines, at = find_function(family, name)
    return lines[body_start(lines, at)].endswith("{}")


def stated_by(family: str, name: str) -> Set[Place]:
    """The definitions in which a function's contract is stated: those that it cites, and for a law those that its statement is made of."""
    cited = cited_by(family, name)
    return cited.union(*(definitions.all_definitions()[it].cites for it in cited)) if is_law(family, name) else cited


def stated_on(page: str) -> Set[Place]:
    """The same for all contracts that a page quotes."""
    quoted = [its for quote, its in markers(TOP / page) if quote == "contracts"]
    return {it for family, *names in quoted for name in names for it in stated_by(family, name)}


def reached_from(words: Sequence[str]) -> Set[Place]:
    """The definitions that make up those that the words of a comment name."""
    if len(words) > 1:
        return definitions.reached({place(crate, name) for crate, name in zip(words[::2], words[1::2])})
    return definitions.reached(stated_on(words[0]))


def reached(page: Path, *words: str) -> List[str]:
    found, every = reached_from(words), definitions.all_definitions()
    (count, lines), (all_count, all_lines) = definitions.size(found), definitions.size(every)
    shown_count, shown_lines = definitions.size(found & shown_on(page))
    by_crate = collections.Counter(module.split(".")[0] for module, _name in found)
    counts = ", ".join(f"{crate} {by_crate[crate]}" for crate in sorted(by_crate))
    return [f"{count} of {all_count} definitions, {lines} of {all_lines} lines; this page shows {shown_count} of these {count}, in"
            f" {shown_lines} lines:", *textwrap.wrap(counts, WIDTH)]


def refusals(*words: str) -> List[str]:
    refused: Dict[str, List[int]] = {}
    for it in zip(words[::2], words[1::2]):
        refused.update(meanings.refusals(place(*it)))
    return [f"{word:8} {' '.join(map(str, numbers))}" for word, numbers in refused.items()]


def not_reached(page: Path) -> List[str]:
    """The definitions that a page shows but that are not reached from any of those for which it says what they reach."""
    roots = [its for quote, its in markers(page) if quote == "reached"]
    if not roots:
        return []
    known: Set[Place] = set().union(*map(reached_from, roots))
    return [f"{page.relative_to(TOP)}: {name} of {module} is shown, but not reached" for module, name in sorted(shown_on(page) - known)]


def not_shown(page: Path) -> List[str]:
    """The definitions that a page lacks, though the contracts and laws of another page for which it says what they reach need them."""
    others = [its[0] for quote, its in markers(page) if quote == "reached" and len(its) == 1]
    shown = shown_on(page) if others else set()
    return [f"{page.relative_to(TOP)}: {name} of {module} is cited by a contract or a law of {other}, but not shown"
            for other in others for module, name in sorted(stated_on(other) - shown)]


def quoted_functions(page: Path) -> Iterator[Tuple[str, str, str]]:
    """The functions that a page quotes, each with the place of the comment that quotes it."""
    for number, found in enumerate(map(MARKER.match, page.read_text().splitlines()), 1):
        if found and found[1] in ("contracts", "function"):
            family, *names = found[2].split()
            yield from ((family, name, f"{page.relative_to(TOP)}:{number}") for name in names)


def quoted_twice() -> List[str]:
    """The functions that are quoted again, wherever they are quoted first. What is not found is reported page by page."""
    first: Dict[Tuple[Path, int], str] = {}
    faults = []
    for family, name, at in (its for page in pages() for its in quoted_functions(page)):
        try:
            path, _lines, line = find_function(family, name)
        except Missing:
            continue
        if (path, line) in first:
            faults.append(f"{at}: {name} of {family} is quoted at {first[path, line]}, too")
        first.setdefault((path, line), at)
    return faults


def section(page: Path, heading: str) -> List[str]:
    """The lines below a heading, up to the next one of the same rank."""
    lines = page.read_text().splitlines()
    if heading not in lines:
        raise Missing(f"{page.relative_to(TOP)}: has no heading `{heading}`")
    below = lines[lines.index(heading) + 1:]
    rank = heading.partition(" ")[0] + " "
    return below[:next((at for at, line in enumerate(below) if line.startswith(rank)), len(below))]


def not_carried() -> List[str]:
    """The functions and laws that promises name, but whose contract is not quoted with those of the promises."""
    page, heading, other = PROMISES
    try:
        named = CARRIES.findall("\n".join(section(TOP / page, heading)))
    except Missing as fault:
        return [str(fault)]
    quoted = {name for _family, name, _at in quoted_functions(TOP / other)}
    return [f"{page}: {name} is named by a promise, but {other} does not quote its contract" for name in named if name not in quoted]


def not_judged() -> List[str]:
    """An error if no page says what the contracts of the promises reach, so that none has to show what they cite."""
    other = PROMISES[-1]
    judged = [its for page in pages() for quote, its in markers(page) if quote == "reached"]
    return [] if [other] in judged else [f"{other}: no page says what its contracts reach"]


def laws() -> Set[Tuple[str, str]]:
    """The laws of the crates, each with its crate before it: what is public in a `laws.rt`, and elsewhere what has clauses and no code."""
    found = set()
    for path in sorted((TOP / "crates").glob("pfl_*/src/**/*.rt")):
        lines = path.read_text().splitlines()
        for at, name in ((at, it[1]) for at, it in enumerate(map(PUBLIC.match, lines)) if it):
            end = body_start(lines, at)
            has_clause = any(map(CLAUSE.match, lines[at : end + 1]))
            if path.name == "laws.rt" or (lines[end].endswith("{}") and has_clause and not owner(lines, at)):
                found.add((path.relative_to(TOP / "crates").parts[0], name))
    return found


def table_of_laws() -> Iterator[Tuple[str, str]]:
    """The functions that the table of laws names, each with its crate before it."""
    page, heading, _other = LAWS
    lines = (TOP / page).read_text().splitlines()
    start = lines.index(heading) if heading in lines else len(lines)
    for row in itertools.takewhile(lambda it: it.startswith("|"), lines[start + 2:]):
        names: List[str] = []
        for found in NAMED_BY.finditer(row.split(" | ")[-1]):
            if found["crate"]:
                yield from ((found["crate"], name) for name in names)
                names = []
            else:
                names.append(found["name"])


def not_in_table() -> List[str]:
    """The laws that the table of laws or the page of the promises lacks, and what the table names that is not there."""
    page, _heading, other = LAWS
    known, named = laws(), set(table_of_laws())
    text = (TOP / other).read_text()
    faults = [f"{page}: the table of laws lacks {name} of {crate}" for crate, name in sorted(known - named)]
    faults += [f"{other}: does not name the law {name} of {crate}" for crate, name in sorted(known) if f"`{name}`" not in text]
    for crate, name in sorted(named - known):
        try:
            find_function(crate, name)
        except Missing as fault:
            faults.append(f"{page}: the table of laws: {fault}")
    return faults


LANGUAGES: Dict[Callable[..., List[str]], str] = {definition: "antt", theorem: "antt", contracts: "rust", function: "rust", file: "text", naming: "text", reached: "text",
             refusals: "text"}
QUOTES = {quote.__name__: quote for quote in LANGUAGES}


def refreshed(page: Path) -> Tuple[str, List[str]]:
    """The page's text with each quoted block as the sources have it, and what was not found."""
    lines, at = page.read_text().splitlines(), 0
    out: List[str] = []
    faults: List[str] = []
    while at < len(lines):
        out.append(lines[at])
        marker = MARKER.match(lines[at])
        at += 1
        if not marker:
            continue
        quote, words = QUOTES[marker[1]], marker[2].split()
        try:
            text = reached(page, *words) if quote is reached else quote(*words)
        except (Missing, FileNotFoundError) as fault:
            faults.append(f"{page.relative_to(TOP)}:{at}: {fault}")
            continue
        out += ["```" + LANGUAGES[quote], *text, "```"]
        if at < len(lines) and lines[at].startswith("```"):
            at = lines.index("```", at + 1) + 1
    return "\n".join(out) + "\n", faults


def pages() -> List[Path]:
    return [TOP / "README.md", *sorted((TOP / "docs").glob("*.md")), *sorted((TOP / "crates").glob("*/*.md"))]


def main(words: List[str]) -> int:
    check = words == ["--check"]
    faults: List[str] = []
    if words and not check:
        print(__doc__.strip(), file=sys.stderr)
        return 2
    for page in pages():
        text, missing = refreshed(page)
        faults += missing or [*not_reached(page), *not_shown(page)]
        if text == page.read_text():
            continue
        if check:
            faults.append(f"{page.relative_to(TOP)}: stale; run docs/reading.py, and read what it changed")
        else:
            page.write_text(text)
            print(f"{page.relative_to(TOP)}: written")
    faults += [*quoted_twice(), *not_carried(), *not_judged(), *not_in_table()]
    for fault in faults:
        print(f"docs/reading.py: {fault}", file=sys.stderr)
    return 1 if faults else 0


if __name__ == "__main__":
    sys.exit(main(sys.argv[1:]))
