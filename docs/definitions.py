"""The definitions of `crates/*/specs/`, and which others they are made of: what a reader of one of them has to believe."""
from __future__ import annotations

import functools
import re
from dataclasses import dataclass, field
from pathlib import Path
from typing import AbstractSet, Dict, Iterable, Iterator, List, Set, Tuple

CRATES = Path(__file__).resolve().parent.parent / "crates"
HEAD = re.compile(r" *(?:(?:abbrev|unfoldable) )?(?:pub )?(?:record |data )?(?P<name>[^\W\d][\w']*|◌\S+◌) (?=[:({])")
STARTS = re.compile(r" *(?:abbrev|unfoldable|pub record|pub data) ")
IMPORT = re.compile(r"(?:ghost )?use Rattle\.(?P<module>[\w.]+?)(?:\.\{(?P<names>.*)\}| as (?P<alias>\w+));?$")
# A line with which a crate passes on the specs of one below it, or what that one passes on.
PASSES = re.compile(r"pub use Rattle\.(?P<crate>\w+)\.specs(?:\.(?P<aliases>[\w.]+))? as (?P<name>\w+)$", re.MULTILINE)
BINDERS = re.compile(r"λ ([^.]*)\.|\blet ([\w']+) |[({]([\w' ]+) :")
# A name, with the names before it that end with dots.
NAME = re.compile(r"(?<![\w'.])(?P<before>(?:[^\W\d][\w']*\.)*)(?P<name>[^\W\d][\w']*)")

# A definition's module and its name.
Place = Tuple[str, str]


@functools.lru_cache(maxsize=None)
def passed_on(crate: str) -> Dict[str, str]:
    """The crates whose specs a crate passes on, by the names that it gives to them."""
    path = CRATES / crate / "specs/Lib.antt"
    lines = PASSES.finditer(path.read_text()) if path.exists() else ()
    return {line["name"]: _reached_by(line["crate"], (line["aliases"] or "").split(".")) for line in lines}


def _reached_by(crate: str, aliases: Iterable[str]) -> str:
    """The crate that these names lead to, each passed on by the crate before it."""
    for alias in filter(None, aliases):
        crate = passed_on(crate)[alias]
    return crate


def home(module: str) -> str:
    """The place of a module that is named by what a crate passes on."""
    crate, *rest = module.split(".")
    while rest[:1] == ["specs"] and rest[1:] and rest[1] in passed_on(crate):
        crate, rest = passed_on(crate)[rest[1]], ["specs", *rest[2:]]
    return ".".join([crate, *rest])


@dataclass
class Definition:
    """A definition, without the comment above it; the names of others in it, in order; and those of them that are definitions."""

    lines: List[str]
    names: List[Place] = field(default_factory=list)
    cites: Set[Place] = field(default_factory=set)


@dataclass(frozen=True)
class Scope:
    """What the names of others mean in a file: definitions, and modules with a name there."""

    names: Dict[str, Place]
    modules: Dict[str, str]

    @classmethod
    def of(cls, lines: Iterable[str]) -> Scope:
        names: Dict[str, Place] = {}
        modules: Dict[str, str] = {}
        for found in filter(None, map(IMPORT.match, lines)):
            module = home(found["module"])
            if found["alias"]:
                modules[found["alias"]] = module
            for item in filter(None, (found["names"] or "").split(", ")):
                there, _, here = item.partition(" as ")
                names[here or there] = (module, there)
        return cls(names, modules)

    def cited(self, text: str, own: AbstractSet[str] = frozenset()) -> Iterator[Place]:
        """The places of the names in a text, except its own."""
        for found in NAME.finditer(text):
            before = found["before"].rstrip(".")
            if before in self.modules:
                yield self.modules[before], found["name"]
            name = before.split(".")[0] or found["name"]
            if name in self.names and name not in own:
                yield self.names[name]


def _bound(name: str, lines: List[str]) -> Set[str]:
    """The names that a definition gives to values: on left sides, and wherever a `λ`, a `let` or a type's parenthesis binds them."""
    lefts = (re.match(rf" *{re.escape(name)} ([^=]*)=(?: |$)", line) for line in lines[1:])
    parts = [left[1] for left in lefts if left]
    parts += (part for binder in BINDERS.findall("\n".join(lines)) for part in binder)
    return {word for part in parts for word in re.findall(r"(?<![\w.'])[a-z_][\w']*", part)}


def _definitions(lines: List[str]) -> Iterator[Tuple[str, List[str]]]:
    """Each definition's name and lines: from its head to a blank line."""
    at = 0
    while at < len(lines):
        start, at = at, at + 1
        head = STARTS.match(lines[start]) and HEAD.match(lines[start])
        if head:
            while at < len(lines) and lines[at].strip() and not STARTS.match(lines[at]):
                at += 1
            yield head["name"], [line for line in lines[start:at] if not line.lstrip().startswith("--")]


@functools.lru_cache(maxsize=None)
def all_definitions() -> Dict[Place, Definition]:
    """The definitions of all crates, by place."""
    found: Dict[Place, Definition] = {}
    scopes: Dict[str, Scope] = {}
    for path in sorted(CRATES.glob("*/specs/**/*.antt")):
        module = ".".join(path.relative_to(CRATES).with_suffix("").parts)
        lines = path.read_text().splitlines()
        scopes[module] = Scope.of(lines)
        for name, text in _definitions(lines):
            found[module, name] = Definition(text)
            scopes[module].names[name] = (module, name)
    for (module, name), definition in found.items():
        definition.names = list(scopes[module].cited("\n".join(definition.lines), _bound(name, definition.lines)))
        definition.cites = {place for place in definition.names if place in found and place != (module, name)}
    return found


def places_of(crate: str, name: str) -> List[Place]:
    """Where a crate has a definition of the name."""
    return [definition for definition in all_definitions() if definition[1] == name and definition[0].startswith(f"{crate}.")]


def reached(roots: Iterable[Place]) -> Set[Place]:
    """The roots, and everything that they are made of."""
    seen: Set[Place] = set()
    waiting = list(roots)
    while waiting:
        place = waiting.pop()
        if place not in seen:
            seen.add(place)
            waiting += all_definitions()[place].cites
    return seen


def size(places: Iterable[Place]) -> Tuple[int, int]:
    """How many definitions there are, and how many lines they have."""
    lines = [len(all_definitions()[place].lines) for place in places]
    return len(lines), sum(lines)
