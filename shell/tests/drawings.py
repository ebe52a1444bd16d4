"""Scripts whose charts tests draw, and where the words of a drawing are."""
from __future__ import annotations

import random
from functools import lru_cache
from typing import Iterator, List, NamedTuple, Sequence, Tuple

from ..charts.chart import NO_TEXTS, Step, Texts, drawn as drawn_of, explained
from ..charts.elements import BOLDER, Element, text_width
from ..charts.rows import Chart
from ..charts.windows import WHOLE, Window
from . import laboratory

RULES = """
rule a block any
rule a pass out
rule b block any
rule b pass out
open
"""
QUERY = "step main packet a out udp 10.0.0.1:1000 192.0.2.9:53 40\n"
ANSWER = "udp 192.0.2.9:53 10.0.0.1:1000 80\n"
LOST_INSERTION = (
    f"{RULES}{QUERY}step main flush a\nstep main lose 1\nstep main packet a in {ANSWER}step main flush a\nstep main deliver 2\n"
    f"step main packet b in {ANSWER}step main flush b\nstep main deliver 3\nstep main flush a\nstep main deliver 4\n"
)
LONG = "[2001:0db8:85a3:1234:1111:8a2e:0370:7334]:44321 [2001:0db8:85a3:1234:2222:8a2e:0370:7334]:65535"
# Two insertions cross, the first is copied on its way, an update request is cut, and node b begins anew.
CROSSING = f"""{RULES}{QUERY}
step main flush a
step main packet a out udp 10.0.0.2:1000 192.0.2.9:53 40
step main flush a
step main repeat 1
step main deliver 2
step main deliver 1
step main deliver 3
step main tick a 1500
step main tick b 1500
step main restart b
step main flush b
step main cut 4 30
step main deliver 4
"""


@lru_cache(maxsize=None)
def happened(script: str) -> Tuple[Sequence[Step], int]:
    """The events that a script leaves on main, and how many were undone."""
    lab = laboratory(script)
    try:
        branch = lab.branch("main")
        return [*explained(lab, branch)], len(branch.events) - branch.cursor
    finally:
        lab.close()


def drawn(script: str, window: Window = WHOLE, notes: Texts = NO_TEXTS, forks: Texts = NO_TEXTS) -> Chart:
    """The chart of what a script leaves on main."""
    events, undone = happened(script)
    return drawn_of("main", events, undone, notes, forks, window)


def steps(*events: str) -> str:
    """A script of the rules and these events."""
    return RULES + "".join(f"step main {event}\n" for event in events)


_ENDS = (
    "10.0.0.1:1000 192.0.2.9:80",
    "192.0.2.9:80 10.0.0.1:1000",
    "10.100.100.117:51512 192.168.222.180:44343",
    LONG,
)


def random_events(seed: int, number: int) -> Iterator[str]:
    """Events of all kinds, many of which are refused."""
    of = random.Random(seed)
    for _ in range(number):
        node, way, ends, ticket = of.choice("ab"), of.choice(("in", "out")), of.choice(_ENDS), of.randrange(1, 60)
        numbers = " ".join(str(of.choice((0, 1, 60001, 4294967295))) for _ in range(2))
        tcp = f"packet {node} {way} tcp {ends} {of.choice(('S', 'SA', 'A', 'PA'))} {numbers} 60000 {of.choice((0, 1460, 60000))}"
        often = (tcp, tcp, f"packet {node} {way} udp {ends} 40", f"flush {node}", f"deliver {ticket}")
        cut = f"cut {ticket} {of.randrange(10, 200)}"
        seldom = (f"lose {ticket}", f"repeat {ticket}", cut, f"tick {node} 1500", f"turn {node}")
        rare = (f"restart {node}", f"clear {node}", f"purge {node}", f"release {node}", f"retry {node}", f"kill {node} 1.1")
        yield of.choice((*often * 4, *seldom, of.choice(rare)))


class Box(NamedTuple):
    """The place of a text in a picture."""

    left: float
    right: float
    top: float
    bottom: float
    words: str

    def meets(self, other: "Box") -> bool:
        return self.left < other.right and other.left < self.right and self.top < other.bottom and other.top < self.bottom


def boxes(elements: Sequence[Element], top: float = 0) -> List[Box]:
    """The places of all texts of a drawing, or of a sheet of it with this top."""
    found: List[Box] = []
    for name, values, spans in elements:
        if name == "text":
            size, x, y = (float(values[it]) for it in ("font-size", "x", "y"))
            widths = [text_width(span.words, size) * (BOLDER if span.is_bold else 1) for span in spans]
            wide = sum(widths) + text_width(" ", size) * (len(spans) - 1)
            left = x - {"start": 0.0, "middle": wide / 2, "end": wide}[str(values["text-anchor"])]
            words = " ".join(span.words for span in spans)
            found.append(Box(left, left + wide, top + y - size * 0.8, top + y + size * 0.25, words))
    return found


def overlaps(found: Sequence[Box], width: float) -> List[Box]:
    """The texts that are over another, or outside a drawing of this width."""
    found = sorted(found, key=lambda it: it.top)
    wrong = [it for it in found if it.left < 0 or it.right > width]
    for place, it in enumerate(found):
        wrong += [other for other in found[place + 1 :] if it.meets(other)]
    return wrong
