"""The names that `crates/*/proofs/` declares or passes on, and which of them nothing cites.

A name has to be cited by a proof, a definition or code, outside its own declaration. Two kinds of names need no citation: those that an
answer file hands to the prover, and worked cases. A file of worked cases begins with `-- Worked`, and `proofs/Lib.antt` has it by `mod`,
not `pub mod`; a declaration there without a mark (`abbrev`, `unfoldable`, `record` or `data`) is a case.
"""
from __future__ import annotations

import functools
import re
from dataclasses import dataclass
from pathlib import Path
from typing import Dict, Iterator, List, Set, Tuple

from definitions import CRATES, Place

WORD = r"[^\W\d][\w'-]*"
DECLARES = re.compile(rf"( *)((?:(?:abbrev|unfoldable|pub) )*)(?:({WORD})(?= :(?: |$))|((?:record|data) )({WORD}))")
# A name, with those before it that end with dots; in an attribute of the code it is a path.
NAME = re.compile(rf"(?<![\w'.-])(?:{WORD}\.)*{WORD}")
PATH = re.compile(r"\b(\w+)::(proofs(?:::\w+)+)")
USE = re.compile(r" *(?P<marks>(?:\w+ )*)use Rattle\.(?P<module>[\w.]+?)(?:\.\{(?P<names>.*)\}| as (?P<alias>\w+));?$")
# What is not read: texts and a comment; and what cites nothing: the name of a left side, a `let` or a field.
UNREAD = re.compile(r'"(?:[^"\\]|\\.)*"|(?:^|(?<=\s))--(?:\s.*)?$')
GIVEN = re.compile(rf"(?:^ *|\blet |[{{;] ){WORD}(?= =(?: |$))")
ANSWERS = ("Answers.antt", "Invariants.antt", "Proof.antt")


@dataclass(frozen=True)
class Declaration:
    """A name, with its marks, its lines, and the lines that see it."""

    name: str
    marks: str
    lines: range
    seen: range


class Source:
    """A file of a crate, with the path of each name that it imports, and the names that it passes on."""

    def __init__(self, path: Path) -> None:
        self.path = path
        self.module = ".".join(path.relative_to(CRATES).with_suffix("").parts)
        lines = path.read_text().splitlines()
        uses = list(map(USE.match, lines))
        self.lines = ["" if use else UNREAD.sub("", line) for line, use in zip(lines, uses)]
        self.names = [(at, name) for at, line in enumerate(self.lines) for name in NAME.findall(GIVEN.sub("", line))]
        self.imports: Dict[str, str] = {}
        self.passes: Dict[str, int] = {}
        for at, use in enumerate(uses):
            if use:
                names = (it.partition(" as ") for it in (use["names"] or "").split(", "))
                here = {use["alias"]: use["module"]} if use["alias"] else {new or old: f"{use['module']}.{old}" for old, _, new in names}
                self.imports.update(here)
                self.passes.update(dict.fromkeys(here if "pub " in use["marks"] else (), at))
        is_worked = "".join(lines[:1]).startswith("-- Worked")
        self.is_worked = is_worked and f"mod {path.stem}" in path.with_name("Lib.antt").read_text().splitlines()

    def declarations(self) -> List[Declaration]:
        """What the file declares, also below a `where`. The fields of records are no declarations."""
        found: List[Declaration] = []
        depth = 0
        for at, line in enumerate(self.lines):
            head = None if depth else DECLARES.match(line)
            depth += sum(map(line.count, "([{")) - sum(map(line.count, ")]}"))
            around = [it for it in found if at in it.lines] if head else []
            if head and not any(re.search("record|data", it.marks) for it in around):
                name, seen = head[3] or head[5], around[-1].lines if around else range(len(self.lines))
                found.append(Declaration(name, head[2] + (head[4] or ""), range(at, self._past(at, head[1], name)), seen))
        return found

    def _past(self, first: int, indent: str, name: str) -> int:
        """The line past a declaration: the next that is indented no further, and no clause of it."""
        goes_on = re.compile(rf"\s*$|{indent} | *(?:unfolding |[\])}}]|{re.escape(name)} (?!:))")
        return next((at for at in range(first + 1, len(self.lines)) if not goes_on.match(self.lines[at])), len(self.lines))

    def needs(self) -> Iterator[Declaration]:
        """The declarations that have to be cited."""
        for declaration in self.declarations():
            is_case = self.is_worked and not declaration.marks and len(declaration.seen) == len(self.lines)
            if not is_case and not ("pub" in declaration.marks and self.path.name in ANSWERS):
                yield declaration


@functools.lru_cache(maxsize=None)
def sources() -> List[Source]:
    """The sources of the crates."""
    folders = [crate / folder for crate in sorted(CRATES.iterdir()) for folder in ("src", "specs", "proofs")]
    return [Source(path) for folder in folders for path in sorted(folder.rglob("*")) if path.suffix in (".rt", ".antt")]


@functools.lru_cache(maxsize=None)
def passed_on() -> Dict[Place, str]:
    """The path of each name that a file passes on."""
    return {(source.module, name): source.imports[name] for source in sources() for name in source.passes}


@functools.lru_cache(maxsize=None)
def way(path: str) -> Tuple[Place, ...]:
    """The places that a path leads through; the last is where the name is declared."""
    before, _, name = path.rpartition(".")
    through = way(before) if before else ()
    place = (".".join(filter(None, through[-1])) if through else "", name)
    return (*through, place, *(way(passed_on()[place]) if place in passed_on() else ()))


def cited() -> Set[Place]:
    """The places that the sources cite by an import or a path."""
    found: Set[Place] = set()
    for source in sources():
        paths = {source.imports[name] if name in source.passes else source.imports[name].rpartition(".")[0] for name in source.imports}
        for _, name in source.names:
            first, dot, rest = name.partition(".")
            if first in source.imports:
                paths.add(source.imports[first] + dot + rest)
        if source.path.suffix == ".rt":
            own = source.module.split(".")[0]
            for crate, rest in PATH.findall("\n".join(source.lines)):
                paths.add((own if crate == "crate" else crate) + "." + rest.replace("::", "."))
        found.update(place for path in paths for place in way(path))
    return found


def uncited() -> Iterator[Tuple[Path, int, str]]:
    """The names that nothing cites, each with its file and its line."""
    by_others = cited()
    for source in sources():
        if "proofs" in source.module.split(".")[1:2]:
            own: Dict[str, Set[int]] = {}
            for at, name in source.names:
                own.setdefault(name.split(".")[0], set()).add(at)
            for one in source.needs():
                is_cited_here = any(at in one.seen and at not in one.lines for at in own.get(one.name, ()))
                if (source.module, one.name) not in by_others and not is_cited_here:
                    yield source.path, one.lines.start + 1, one.name
            for name, at in source.passes.items():
                if (source.module, name) not in by_others:
                    yield source.path, at + 1, name
