"""What a pf.conf(5) can say, as far as an import looks at it."""
from __future__ import annotations

from dataclasses import dataclass, field
from enum import Enum
from typing import List, NamedTuple, Optional, Sequence, Tuple, Union

from ..console.characters import legible


# Words with the number that pflog(4) has of a rule: FreeBSD's, and pfSense's own until then.
NUMBERING = ("ridentifier", "tracker")


class HostKind(Enum):
    """What an address of a rule is."""

    ANY = 1
    ADDRESS = 2
    RANGE = 3
    TABLE = 4
    # An interface in parentheses, whose addresses are looked up while pf runs.
    DYNAMIC = 5
    NO_ROUTE = 6
    URPF_FAILED = 7
    ROUTE = 8


@dataclass(frozen=True)
class Host:
    """An address of a rule; a range has its two ends, a net its length."""

    kind: HostKind
    text: str = ""
    last: str = ""
    length: Optional[str] = None
    is_not: bool = False


@dataclass(frozen=True)
class Operation:
    """A comparison of a port or of a user: the operator, and one value or two."""

    operator: str
    first: str
    second: str = ""


class Interface(NamedTuple):
    """An interface or a group that a rule is for, or is not for."""

    name: str
    is_not: bool = False


@dataclass(frozen=True)
class IcmpType:
    """A type of ICMP, or of ICMPv6 if `version` is 6, with a code if the rule has one."""

    version: int
    text: str
    code: str = ""


@dataclass(frozen=True)
class End:
    """What a rule says about a packet's source or destination; empty lists are for all."""

    hosts: Tuple[Host, ...] = ()
    ports: Tuple[Operation, ...] = ()


class Option(NamedTuple):
    """A word of a rule with what follows it."""

    word: str
    values: Tuple[str, ...] = ()

    def __str__(self) -> str:
        return " ".join((self.word, *self.values))


@dataclass
class Match:
    """Which packets a statement is for."""

    interfaces: List[Interface] = field(default_factory=list)
    # 4 or 6, and 0 for both.
    family: int = 0
    protocols: List[str] = field(default_factory=list)
    source: End = End()
    systems: List[str] = field(default_factory=list)
    destination: End = End()


@dataclass
class Filter:
    """A rule of the filter: `pass` or `block`, `match` of later versions, or an anchor, which is a rule as well."""

    action: str
    match: Match = field(default_factory=Match)
    # What a block rule does besides dropping; empty if `set block-policy` says it.
    answer: str = ""
    direction: str = "any"
    is_quick: bool = False
    route: str = ""
    users: List[Operation] = field(default_factory=list)
    groups: List[Operation] = field(default_factory=list)
    flags: str = ""
    icmp_types: List[IcmpType] = field(default_factory=list)
    # `keep`, `modulate`, `synproxy` or `no`; empty if the rule does not say it.
    state: str = ""
    state_options: List[Option] = field(default_factory=list)
    options: List[Option] = field(default_factory=list)
    # What follows `nat-to` and the like of later versions.
    to: Optional["Translation"] = None
    # The name of an anchor, and the rules in its braces, if it has any.
    name: str = ""
    inner: Optional[List["Line"]] = None

    @property
    def is_anchor(self) -> bool:
        return self.action.endswith("anchor")


@dataclass
class Antispoof:
    """`antispoof`: which interfaces it is for, and in `dynamic`, by place, which of them are in parentheses."""

    interfaces: List[Host]
    family: int = 0
    is_quick: bool = False


@dataclass
class Translation:
    """`nat`, `rdr` or `binat`: which address is translated, to which one, and to which ports. `no` leaves it as it is."""

    kind: str
    match: Match
    is_no: bool = False
    passes: bool = False
    targets: Tuple[Host, ...] = ()
    port: str = ""
    options: List[Option] = field(default_factory=list)
    # (of a `match` of later versions)
    is_match: bool = False


@dataclass
class Table:
    """A table: its entries, and the files that have more of them."""

    name: str
    hosts: List[Host] = field(default_factory=list)
    files: List[str] = field(default_factory=list)
    words: List[str] = field(default_factory=list)


@dataclass
class Setting:
    """`set WORD ..`, with its values in order; `timeout` and `limit` have pairs of them."""

    word: str
    values: List[str] = field(default_factory=list)
    interfaces: List[Interface] = field(default_factory=list)
    options: List[Option] = field(default_factory=list)


@dataclass
class Macro:
    """A macro and its value."""

    name: str
    value: str


@dataclass
class Include:
    """A file whose statements follow."""

    path: str


@dataclass
class Load:
    """The rules of an anchor in a file: its statements, or why they cannot be read."""

    name: str
    path: str
    lines: Optional[List["Line"]] = None
    why: str = ""


@dataclass
class Other:
    """A statement of which only the kind is needed: `scrub`, `altq` and `queue`."""

    kind: str
    interfaces: List[Interface] = field(default_factory=list)


@dataclass
class Faulty:
    """A statement that is not understood: its first word, and why."""

    word: str
    why: str


Content = Union[Filter, Antispoof, Translation, Table, Setting, Macro, Include, Load, Other, Faulty]


class Line(NamedTuple):
    """A statement in its place: the file as it was named, the number of its first line there, and its text in one line."""

    path: str
    number: int
    text: str
    content: Content


class Source(NamedTuple):
    """A file as it was named, and its lines."""

    path: str
    lines: Sequence[str]

    def line(self, first: int, last: int, content: Content) -> Line:
        """A statement between two of its lines."""
        return Line(self.path, first, legible(" ".join(self.lines[first - 1 : last])), content)
