"""The documents lead somewhere: each link to a file or a heading of this repository finds it, and README leads to every document."""
from __future__ import annotations

import re
import tempfile
import unittest
from pathlib import Path
from typing import Dict, Iterator, List, Set, Tuple

from . import TOP

# The documents that people read; those that are there are looked at.
PAGES = ("README.md", "CONTRIBUTING.md", "CHANGELOG.md", "docs/*.md", "examples/README.md", "crates/pfl_publish/README.md")
FENCED = re.compile(r"(?ms)^ *(```+|~~~+).*?^ *\1[ \t]*$")
# Code within a paragraph.
CODE = re.compile(r"(?s)(`+)(?!`)((?:(?!\n\n).)+?)(?<!`)\1(?!`)")
TARGET = re.compile(r"\]\(([^()\s]+)(?:\s+\"[^\"]*\")?\)")
HEADING = re.compile(r"(?m)^#{1,6} +(.+?) *#*$")
# A place that a page names itself.
PLACE = re.compile(r"<a (?:id|name)=\"([^\"]+)\"")
ELSEWHERE = re.compile(r"[a-z]+:")


def without_blocks(text: str) -> str:
    return FENCED.sub("", text)


def targets(text: str) -> List[str]:
    """What a page links to and shows, except what is elsewhere. Code has no links."""
    return [it for it in TARGET.findall(CODE.sub("", without_blocks(text))) if not ELSEWHERE.match(it)]


def anchor(heading: str) -> str:
    """A heading's name in links, by GitHub's rule: small letters, digits, `_` and `-`, and `-` for a blank."""
    shown = re.sub(r"\[([^\]]*)\]\([^)]*\)", r"\1", heading)
    return re.sub(r"[^\w\- ]", "", shown.lower()).replace(" ", "-")


def anchors(text: str) -> Set[str]:
    """The places of a page. A heading that is there again gets a number."""
    seen: Dict[str, int] = {}
    found = set(PLACE.findall(text))
    for name in map(anchor, HEADING.findall(without_blocks(text))):
        found.add(f"{name}-{seen[name]}" if name in seen else name)
        seen[name] = seen.get(name, 0) + 1
    return found


def pages(top: Path) -> Iterator[Path]:
    for pattern in PAGES:
        yield from sorted(top.glob(pattern))


def linked(page: Path) -> Iterator[Tuple[str, Path, str]]:
    """The links of a page, each with its file and the place in it."""
    for target in targets(page.read_text(encoding="utf-8")):
        name, _, place = target.partition("#")
        yield target, (page.parent / name).resolve() if name else page.resolve(), place


def broken(top: Path) -> List[str]:
    """The links of all pages that lead nowhere."""
    found = []
    for page in pages(top):
        for link, path, place in linked(page):
            if not path.exists():
                found.append(f"{page.relative_to(top)}: {link}: there is no such file")
            elif place and (path.suffix != ".md" or place not in anchors(path.read_text(encoding="utf-8"))):
                found.append(f"{page.relative_to(top)}: {link}: there is no such heading")
    return found


class Rules(unittest.TestCase):
    """What counts as a link, and what a heading is called."""

    def test_headings_have_the_names_that_github_gives_them(self) -> None:
        for heading, name in (
            ("1. Undoing restores everything", "1-undoing-restores-everything"),
            ("What viewers read is whole, and never older", "what-viewers-read-is-whole-and-never-older"),
            ("pfl_laws: laws of runs", "pfl_laws-laws-of-runs"),
            ("A `pf.conf` & [more](FIELD.md)", "a-pfconf--more"),
        ):
            self.assertEqual(anchor(heading), name)

    def test_a_heading_that_is_there_again_gets_a_number(self) -> None:
        self.assertEqual(anchors("# One\n## Two\n## Two ##\n"), {"one", "two", "two-1"})

    def test_what_is_code_is_neither_a_heading_nor_a_link(self) -> None:
        text = "# One\n```sh\n# two\n[a](b)\n```\n`[c](d)` and [`e`](f) and ![g](h.svg) and [i](https://j)\n"
        self.assertEqual((anchors(text), targets(text)), ({"one"}, ["f", "h.svg"]))

    def test_a_page_may_name_a_place_itself(self) -> None:
        self.assertIn("old", anchors('<a id="old"></a>\n# New\n'))


class Broken(unittest.TestCase):
    """A repository of two pages."""

    def setUp(self) -> None:
        room = tempfile.TemporaryDirectory()
        self.addCleanup(room.cleanup)
        self.top = Path(room.name).resolve()
        (self.top / "docs").mkdir()
        (self.top / "docs/SHELL.md").write_text("# The shell\n[up](../README.md#lab), [here](#the-shell)\n")

    def readme(self, text: str) -> List[str]:
        (self.top / "README.md").write_text(f"# Lab\n{text}\n")
        return broken(self.top)

    def test_links_that_lead_somewhere(self) -> None:
        self.assertEqual(self.readme("[a](docs/SHELL.md#the-shell), [its folder](docs/)"), [])

    def test_a_file_that_is_not_there(self) -> None:
        self.assertEqual(self.readme("[a](docs/PAGE.md)"), ["README.md: docs/PAGE.md: there is no such file"])

    def test_a_heading_that_is_not_there(self) -> None:
        self.assertEqual(self.readme("[a](docs/SHELL.md#install)"), ["README.md: docs/SHELL.md#install: there is no such heading"])


class Links(unittest.TestCase):
    """The documents of this repository."""

    def test_each_leads_somewhere(self) -> None:
        self.assertEqual(broken(Path(TOP)), [])

    def test_the_readme_leads_to_each_document(self) -> None:
        led_to = {path for _, path, _ in linked(Path(TOP, "README.md"))}
        self.assertEqual([it.name for it in sorted(Path(TOP, "docs").resolve().glob("*.md")) if it not in led_to], [])


if __name__ == "__main__":
    unittest.main()
