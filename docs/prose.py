#!/usr/bin/env python3
"""Checks the prose of the documents for users, of the help and of the language's messages: reports long sentences, and words that give a
translation away.

    docs/prose.py            checks the files below
    docs/prose.py FILE..     checks these files

It prints nothing if all is well. Otherwise it prints each fault with its file and line, and exits with 1.

A sentence may have 35 words. It ends with a full stop, a question mark or an exclamation mark before a space, or with its paragraph,
list item or heading. A code span is one word; the target of a link is none. Code blocks and comments are not read, and sentences in
tables are not counted, but their words are checked. Of a Python file the strings are read, each line of one as a paragraph; of a text
file each line is a paragraph.
"""
from __future__ import annotations

import ast
import re
import sys
from pathlib import Path
from typing import Iterator, List, NamedTuple, Tuple

sys.dont_write_bytecode = True

TOP = Path(__file__).resolve().parent.parent
# What is checked; a file that is not there is left out.
DOCUMENTS = (
    *("README.md", "CHANGELOG.md", "CONTRIBUTING.md", "docs/TUTORIAL.md", "docs/SHELL.md", "docs/PAGE.md", "docs/FIELD.md"),
    *("docs/FIELD-DETAILS.md", "docs/FORMATS.md", "docs/REAL.md", "docs/KERNEL.md", "docs/COLLECT.md", "examples/README.md"),
    *("shell/texts/help.txt", "shell/texts/run.txt", "shell/texts/check.txt", "shell/texts/serve.txt", "shell/arguments.py"),
    *(f"shell/language/{it.name}" for it in sorted((TOP / "shell/language").glob("*.py"))),
)
MOST = 35
# Words and phrases that read like a translation, as regular expressions, each with what to write.
_NAMED = "(?:a|an|the|its|each|every)"
_PLACES = "(?:in|on|at|beside|behind|before|above|below|between|under|around|as|here|there|where|alone)"
PHRASES = {
    r"reckon(?:s|ed|ing)?": "count, think",
    r"c(?:omes?|ame) to (?:something|nothing|the same|several|more|what|this|\d+)": "is, has another outcome",
    r"what (?:it|this|that) comes to": "its outcome",
    rf"stands? (?:also )?{_PLACES}": "is",
    r"(?:is|are|was|were) of another tree": "does not match this tree",
    r"what is left(?! out| is what)": "the rest, what remains",
    r"(?<!what is )go(?:es|ing|ne)? on|went on": "continues, advances, keeps",
    r"so many(?! that| \w+ that)": "this many, up to N",
    r"so long as": "as long as, while",
    rf"behind {_NAMED} (?:\w+ )?(?:colon|comma|comment|command|event|heading|line|name|number|option|path|space|word)s?": "after",
    rf"(?:a|an|each|every|no|all|except|of|for) looks?(?! at| like| up)": "a question, a command that only looks",
    r"(?<!cannot )(?<!could not )tells? (?:of|that|what|which|where|how|whether|node|its|their|the|a|an)(?! [\w ]{1,40}(?:apart|from))":
        "says, shows, reports, sends",
    r"(?:is|are|was|were) told": "is shown, gets",
    r"in the manner of": "like",
    r"holds? of": "is true of, applies to",
    r"lets? go the": "releases",
    r"completing key|tabulator(?: key)?": "Tab key",
    r"in the (?:light and (?:in the )?)?dark": "in light and dark mode",
    r"(?:is|are|was|were) wanted": "is expected",
    r"beside (?:that|this|commands)": "besides",
    r"as (?:it|they) always (?:was|were)": "unchanged",
    r"thereof|whereof|hereby|wherein|therein": "of it, by this, in which",
}
# These do not end a sentence.
ABBREVIATION = re.compile(r"(?:\b(?:e\.g|i\.e|etc|vs|cf|approx|No|Fig)|\.)\.$")
END = re.compile(r"[.?!][)\]\"'*_”’]*(?=\s|$)")
WORD = re.compile(r"[\w`]")
FENCE = re.compile(r"\s*(```|~~~)")
MARK = re.compile(r"\s*(?:[-*+]|\d+[.)]) +")
HEADING = re.compile(r"#+ +")
COMMENT = re.compile(r"<!--.*?-->", re.S)
CODE = re.compile(r"(`+)(.+?)\1", re.S)
LINK = re.compile(r"!?\[([^\]]*)\]\([^)\s]*\)")
# A code span, once it is read: it counts as a word, and no phrase is found in it.
SPAN = "`"


class Block(NamedTuple):
    """A paragraph, list item, heading or row of a table: the number of its first line, its text, and whether its sentences count."""

    line: int
    text: str
    is_prose: bool = True


class Sentence(NamedTuple):
    """A sentence: the number of the line in which it begins, and its words."""

    line: int
    words: Tuple[str, ...]


class Fault(NamedTuple):
    """What is wrong in a line."""

    line: int
    what: str


def _blank(text: str) -> str:
    """As many lines without a word."""
    return "\n" * text.count("\n")


def _read(text: str) -> str:
    """A text of Markdown without its marks: code spans are one word, and links have no targets. Lines stay lines."""
    spans = CODE.sub(lambda it: _blank(it[2]) + SPAN, text)
    return re.sub(r" +\n", "\n", LINK.sub(r"\1", spans))


def markdown(text: str) -> Iterator[Block]:
    """The blocks of a document."""
    begun: List[str] = []
    first, fence = 0, ""
    lines = COMMENT.sub(lambda it: _blank(it[0]), text).splitlines()
    for number, line in enumerate([*lines, ""], 1):
        opened, mark, heading = FENCE.match(line), MARK.match(line), HEADING.match(line)
        is_row = line.lstrip().startswith("|")
        if begun and (fence or opened or mark or heading or is_row or not line.strip()):
            yield Block(first, _read("\n".join(begun)))
            begun = []
        if opened and fence in ("", opened[1]):
            fence = "" if fence else opened[1]
        elif fence or not line.strip():
            continue
        elif heading or is_row:
            yield Block(number, _read(line[heading.end() :] if heading else line), is_prose=False)
        else:
            first = first if begun else number
            begun.append((line[mark.end() :] if mark else line).strip().lstrip("> "))


def strings(text: str) -> Iterator[Block]:
    """The lines of the strings of a Python file that consist of several words."""
    tree = ast.parse(text)
    parts = {id(part) for it in ast.walk(tree) if isinstance(it, ast.JoinedStr) for part in it.values}
    for node in ast.walk(tree):
        for line in _value(node, id(node) in parts).splitlines():
            if " " in line.strip():
                yield Block(getattr(node, "lineno", 0), _read(line.strip()))


def _value(node: ast.AST, is_part: bool) -> str:
    """The text of a string, in which each value that is filled in is a word; nothing for anything else."""
    if isinstance(node, ast.JoinedStr):
        return "".join(_value(part, False) or SPAN for part in node.values)
    is_text = isinstance(node, ast.Constant) and isinstance(node.value, str) and not is_part
    return str(ast.literal_eval(node)) if is_text and isinstance(node, ast.expr) else ""


def plain(text: str) -> Iterator[Block]:
    """The lines of a text file."""
    for number, line in enumerate(text.splitlines(), 1):
        yield Block(number, line)


def sentences(block: Block) -> Iterator[Sentence]:
    """The sentences of a block."""
    words: List[str] = []
    first = block.line
    for number, line in enumerate(block.text.split("\n"), block.line):
        for word in line.split():
            if WORD.search(word):
                first = first if words else number
                words.append(word)
            if words and END.search(word) and not ABBREVIATION.search(word.rstrip(")]\"'*_”’")):
                yield Sentence(first, tuple(words))
                words = []
    if words:
        yield Sentence(first, tuple(words))


# A space of a phrase may be the end of a line.
PATTERNS = tuple((re.compile(rf"\b(?:{phrase})\b".replace(" ", r"\s"), re.I), better) for phrase, better in PHRASES.items())


def faults(blocks: Iterator[Block]) -> Iterator[Fault]:
    """The long sentences of blocks, and the phrases that read like a translation."""
    for block in blocks:
        for sentence in sentences(block) if block.is_prose else ():
            if len(sentence.words) > MOST:
                yield Fault(sentence.line, f"a sentence of {len(sentence.words)} words: {' '.join(sentence.words[:8])} ..")
        for pattern, better in PATTERNS:
            for found in pattern.finditer(block.text):
                line = block.line + block.text.count("\n", 0, found.start())
                yield Fault(line, f"\"{' '.join(found[0].split())}\" reads like a translation: {better}")


def of_file(path: Path) -> List[Fault]:
    """The faults of a file, in the order of its lines."""
    readers = {".py": strings, ".txt": plain}
    return sorted(faults(readers.get(path.suffix, markdown)(path.read_text(encoding="utf-8"))))


def main(words: List[str]) -> int:
    paths = [Path(word) for word in words] or [it for it in (TOP / name for name in DOCUMENTS) if it.exists()]
    status = 0
    for path in paths:
        for fault in of_file(path):
            shown = path.relative_to(TOP) if path.is_absolute() and TOP in path.parents else path
            print(f"{shown}:{fault.line}: {fault.what}")
            status = 1
    return status


if __name__ == "__main__":
    sys.exit(main(sys.argv[1:]))
