"""What a `whatif` asks for, from the words of a command line or of a dialogue."""
from __future__ import annotations

import argparse
from dataclasses import dataclass
from typing import Optional, Sequence, Tuple

from ..charts.windows import read_place
from ..language.forms import nearest, one_of
from ..language.helps import WHATIF
from ..link.asking import Asking
from ..link.laboratory import Unknown
from .faults import KINDS, OF_PAIRS
from .groups import WATCHED, Watch


@dataclass(frozen=True)
class Asked:
    """Which faults to try, at which events, alone or two together; which groups to show; and the file for variants."""

    faults: Tuple[str, ...] = ()
    watch: Watch = Watch()
    first: int = 1
    last: Optional[int] = None
    pairs: bool = False
    flushing: bool = False
    only: Tuple[int, ...] = ()
    out: Optional[str] = None

    @property
    def kinds(self) -> Tuple[str, ...]:
        return self.faults or (OF_PAIRS if self.pairs else tuple(KINDS))

    def within(self, branch: str, events: int) -> Tuple[int, int]:
        """The first and the last event at which to try faults; raises what is wrong with them."""
        last = events if self.last is None else self.last
        for number in (self.first, last):
            if not 1 <= number <= events:
                raise Unknown(f"{branch} has no event {number}: those that stand are counted from 1 to {events}")
        if self.first > last:
            raise Unknown(f"there are no events from {self.first} to {last}, which comes before it")
        return self.first, last


class Options(argparse.Namespace):
    """The words that were read: the options, and the branch in a dialogue."""

    branch: str
    faults: Tuple[str, ...]
    watch: Watch
    first: int
    last: Optional[int]
    pairs: bool
    flushing: bool
    only: Tuple[int, ...]
    out: Optional[str]


def add_options(words: argparse.ArgumentParser) -> None:
    """The options, the same on a command line and in a dialogue."""
    every = ",".join(KINDS)
    words.add_argument("--faults", type=_kinds, default=(), metavar="KINDS", help=f"tries only these kinds of faults, out of {every}")
    words.add_argument(
        "--watch", type=_watch, default=Watch(), metavar="WHAT",
        help=f"shows only the groups that change this: {', '.join(WATCHED)}, or numbers of events, joined by commas",
    )
    words.add_argument("--from", dest="first", type=_place, default=1, metavar="K", help="tries faults at the K-th event and later ones")
    words.add_argument("--to", dest="last", type=_place, metavar="L", help="tries faults at the L-th event and earlier ones")
    words.add_argument("--pairs", action="store_true", help="tries every two faults together; restarts and clocks if --faults names them")
    words.add_argument("--flushing", action="store_true", help="what a fault gives a node to send is sent before the next event of the run")
    words.add_argument("--only", type=_groups, default=(), metavar="N", help="shows only the N-th group, with all of its faults")
    words.add_argument(
        "--out", type=_script, metavar="FILE.pfl", help="writes a copy of the script with a branch for each group"
    )


def asked(words: Options) -> Asked:
    return Asked(words.faults, words.watch, words.first, words.last, words.pairs, words.flushing, words.only, words.out)


def read(words: Sequence[str]) -> Tuple[str, Asked]:
    """The branch that is named in a dialogue, or nothing, and what is asked for."""
    reader = Asking(WHATIF)
    add_options(reader)
    options = reader.parse_args(words, Options())
    return options.branch, asked(options)


def _kinds(word: str) -> Tuple[str, ...]:
    kinds = tuple(word.split(","))
    for kind in kinds:
        if kind not in KINDS:
            raise argparse.ArgumentTypeError(f"`{kind}` is not a kind of fault{nearest(kind, KINDS)}: {one_of(KINDS)}, joined by commas")
    return kinds


def _watch(word: str) -> Watch:
    parts = word.split(",")
    for part in parts:
        if part not in WATCHED and not _is_number(part):
            raise argparse.ArgumentTypeError(f"`{part}` is not {one_of((*WATCHED, 'the number of an event'))}")
    numbers = frozenset(int(it) for it in parts if it not in WATCHED)
    return Watch(frozenset(it for it in parts if it in WATCHED), numbers)


def _place(word: str) -> int:
    try:
        return read_place(word)
    except Unknown as why:
        raise argparse.ArgumentTypeError(str(why)) from why


def _groups(word: str) -> Tuple[int, ...]:
    if not all(map(_is_number, word.split(","))):
        raise argparse.ArgumentTypeError(f"`{word}`: groups are numbered from 1 on; several are joined by commas")
    return tuple(sorted({*map(int, word.split(","))}))


def _script(word: str) -> str:
    if not word.endswith(".pfl"):
        raise argparse.ArgumentTypeError(f"{word}: the name of a script must end in .pfl")
    return word


def _is_number(word: str) -> bool:
    return word.isdecimal() and word.isascii() and len(word) <= 10 and int(word) > 0
