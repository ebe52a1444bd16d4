"""A lesson as one file of HTML, which needs nothing else and has no script."""
from __future__ import annotations

from itertools import zip_longest
from typing import Iterator, List

from ..console.fitting import fitted
from ..language.commands import RULE
from ..language.names import NODES
from ..model.setups import Setup
from ..pages.packing import policy
from .drawing import Piece, pieces
from .lesson import COLUMNS, Ending, Lesson, Line
from .markup import Markup, element, prose
from .outcomes import Answer
from .style import STYLE

START = '<!DOCTYPE html>\n<html lang="en">\n<head>\n<meta charset="utf-8">\n<meta name="viewport" content="width=device-width">\n'
WITH_REPLIES = "with the replies"


def sheet(lesson: Lesson) -> str:
    """The whole file."""
    title = element("title", f"{lesson.title}, {WITH_REPLIES}" if lesson.has_answers else lesson.title)
    policies = f'<meta http-equiv="Content-Security-Policy" content="{policy(STYLE, "", False)}">'
    body = "\n".join(_contents(lesson))
    return f"{START}{title}\n{policies}\n<style>{STYLE}</style>\n</head>\n<body>\n<main>\n{body}\n</main>\n</body>\n</html>\n"


def _contents(lesson: Lesson) -> Iterator[Markup]:
    yield element("h1", lesson.title)
    if lesson.has_answers:
        yield element("p", f"The teacher's sheet, {WITH_REPLIES}.")
    else:
        yield element("p", "Name:", element("span"), "Date:", element("span"), its="form")
    yield from map(prose, lesson.intro)
    yield from _setup(lesson.setup)
    yield element("h2", "Events")
    for line in lesson.lines:
        yield _step(line, lesson)
    if not lesson.lines:
        yield element("p", "The script has no events.")
    yield from map(prose, lesson.after)
    for it in lesson.endings:
        yield from _ending(it)


# ---- the setup


def _setup(setup: Setup) -> Iterator[Markup]:
    """The rules of both nodes side by side, and the other lines."""
    yield element("h2", "Rules")
    head = element("tr", *(element("th", it, scope="col") for it in ("Rule", *(f"Node {node}" for node in NODES))))
    rows = [
        element("tr", element("th", f"{number}", scope="row"), *(element("td", _code(it.described) if it else "none") for it in its))
        for number, its in enumerate(zip_longest(*(setup.rules[node] for node in NODES)))
    ]
    caption = element("caption", "The last rule that matches decides, or the first that is quick.")
    if rows:
        yield element("table", caption, element("thead", head), element("tbody", *rows))
    yield element("p", "A packet that no rule matches passes without a state.")
    others = [line for line in setup.lines if line.split()[0] != RULE.word]
    if others:
        yield element("p", "Other lines of the setup:", its="said")
        yield element("pre", "\n".join(" ".join(it.split()) for it in others))


# ---- lines


def _step(line: Line, lesson: Lesson) -> Markup:
    """A line with what is above it, and its answer or room for one."""
    above = [prose(words, its="said") for words in line.said]
    answer = _answer(line.answer, line.is_gone) if line.answer else _room(line.room)
    body = element("div", element("h3", _heading(line, lesson.has_branches)), element("pre", line.text, its="line"), *answer, its="step")
    return Markup("\n".join([*above, body]))


def _heading(line: Line, has_branches: bool) -> str:
    """The number of an event as charts have it, with its branch if there are several; or the word of another command."""
    if line.number is None:
        return f"Command {line.word}"
    return f"Event {line.number} of {line.branch}" if has_branches else f"Event {line.number}"


def _room(lines: int) -> List[Markup]:
    return [element("p", "Expected outcome:", its="said"), *[element("div", its="room")] * lines]


def _answer(answer: Answer, is_gone: bool) -> List[Markup]:
    terms = [("Reply", [element("pre", "\n".join(answer.reply))]), ("Outcome", [element("p", answer.outcome)] * bool(answer.outcome))]
    terms += [("Why", [prose(words) for words in answer.why])]
    terms += [("Later", [element("p", "It is in no branch at the end, and in no chart.")] * is_gone)]
    return [element("dl", *(part for name, said in terms if said for part in (element("dt", name), element("dd", *said))))]


# ---- the end


def _ending(ending: Ending) -> Iterator[Markup]:
    """The chart of a branch, and both nodes as `view` shows them."""
    name = ending.chart.branch
    yield element("h2", f"Branch {name} at the end", its="branch")
    yield element("h3", "Chart")
    yield element("p", ending.chart.heading, its="said")
    yield from (_figure(piece, ending) for piece in pieces(ending.chart))
    yield element("h3", "State tables")
    yield element("pre", "\n".join(fitted(ending.tables, COLUMNS)), its="tables")


def _figure(piece: Piece, ending: Ending) -> Markup:
    """A piece of a chart. Its text says where the same is in words."""
    events = f"event {piece.first}" if piece.first == piece.last else f"events {piece.first} to {piece.last}"
    words = f"Chart of {ending.chart.branch}, {events}: nodes a and b are two lanes, with time downwards."
    said = f"{words} The replies above say the same in words."
    return element("figure", element("div", *map(Markup, piece.pictures), role="img", aria_label=said))


def _code(text: str) -> Markup:
    return element("code", text)
