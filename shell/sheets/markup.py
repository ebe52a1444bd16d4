"""Elements of HTML. Text is escaped, and what is an element already is not."""
from __future__ import annotations

import re
from typing import Iterable
from xml.sax.saxutils import escape

_CODE = re.compile("`([^`]+)`")


class Markup(str):
    """Text that is HTML."""


def element(name: str, *content: str, **attributes: str) -> Markup:
    """An element with its content. Dashes of attributes are written as underlines, and `its` is `class`."""
    its = "".join(f' {_NAMES.get(key, key).replace("_", "-")}="{_escaped(value)}"' for key, value in attributes.items())
    return Markup(f"<{name}{its}>{joined(content)}</{name}>")


def joined(content: Iterable[str]) -> Markup:
    """Elements and texts one after another."""
    return Markup("".join(it if isinstance(it, Markup) else _escaped(it) for it in content))


def prose(text: str, **attributes: str) -> Markup:
    """A paragraph in which words between backquotes are code."""
    return element("p", Markup(_CODE.sub(r"<code>\1</code>", _escaped(text))), **attributes)


def _escaped(text: str) -> str:
    return escape(text, {'"': "&quot;"})


_NAMES = {"its": "class"}
