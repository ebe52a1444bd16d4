"""Which package of shell/ imports which: each imports only packages below it."""
from __future__ import annotations

import ast
import re
import unittest
from pathlib import Path
from typing import Dict, Iterator, Set, Tuple

from . import TOP

SHELL = Path(TOP, "shell")
# The packages, lowest first. A package may import those that are named after it, and itself; imports for types count as well.
LAYERS: Dict[str, Tuple[str, ...]] = {
    "console": (),
    "language": (),
    "model": ("language",),
    "link": ("console", "language", "model"),
    "shows": ("console", "language", "link", "model"),
    "reasons": ("console", "language", "link", "model", "shows"),
    "scripts": ("console", "language", "link", "model", "reasons", "shows"),
    "charts": ("console", "language", "link", "model", "shows"),
    "searches": ("console", "language", "link", "model", "shows"),
    "whatif": ("charts", "console", "language", "link", "model", "reasons", "scripts", "shows"),
    "depends": ("console", "language", "link", "model", "reasons", "scripts", "searches", "shows", "whatif"),
    "captures": ("console", "language", "link", "model", "scripts", "shows"),
    "importing": ("console", "language", "scripts", "shows"),
    "inferring": ("captures", "language", "link", "model", "scripts", "shows"),
    "dumps": ("console", "importing", "inferring", "language", "link", "model", "scripts", "shows"),
    "pages": ("charts", "console", "depends", "language", "link", "model", "reasons", "scripts", "shows"),
    "sheets": ("charts", "console", "depends", "language", "link", "model", "pages", "reasons", "scripts", "shows"),
    "dialogue": ("charts", "console", "depends", "language", "link", "model", "reasons", "scripts", "searches", "shows", "whatif"),
}
# The modules in no package, which carry out the words of the command line.
ABOVE = ("arguments", "installed", "main")


def modules() -> Iterator[Tuple[str, Path]]:
    """The modules of shell/ without its tests, each with the package that it is in, or with its own name if it is in none."""
    for path in sorted(SHELL.rglob("*.py")):
        first, *more = path.relative_to(SHELL).parts
        if first not in ("tests", "__init__.py"):
            yield (first if more else path.stem), path


def imported(path: Path) -> Set[str]:
    """The packages, and the modules in none, that a module imports, in functions and for types too."""
    found = set()
    package = ("shell", *path.relative_to(SHELL).parts[:-1])
    for node in ast.walk(ast.parse(path.read_text(encoding="utf-8"))):
        if not isinstance(node, ast.ImportFrom):
            continue
        base = package[: len(package) - node.level + 1] if node.level else ()
        names = [*base, *(node.module.split(".") if node.module else ())]
        if names[:1] == ["shell"]:
            found |= {names[1]} if names[1:] else {alias.name for alias in node.names}
    return found


class Layers(unittest.TestCase):
    """The table, and what is so."""

    def test_each_package_is_in_the_table(self) -> None:
        self.assertEqual({name for name, _ in modules()}, {*LAYERS, *ABOVE})

    def test_the_document_has_them_in_their_order(self) -> None:
        table = Path(TOP, "docs/ARCHITECTURE.md").read_text(encoding="utf-8").partition("<!-- packages -->\n")[2].partition("\n\n")[0]
        self.assertEqual(re.findall(r"(?m)^\| `([a-z]+)/` \|", table), [*LAYERS])

    def test_a_package_is_above_those_that_it_may_import(self) -> None:
        below: Set[str] = set()
        for name, others in LAYERS.items():
            self.assertLessEqual({*others}, below, name)
            self.assertEqual([*others], sorted(others), name)
            below.add(name)

    def test_a_module_imports_what_its_package_may(self) -> None:
        for name, path in modules():
            allowed = {*LAYERS, *ABOVE} if name in ABOVE else {name, *LAYERS[name]}
            self.assertLessEqual(imported(path), allowed, path.relative_to(SHELL))

    def test_the_table_has_no_package_that_is_not_imported(self) -> None:
        found: Dict[str, Set[str]] = {name: set() for name in LAYERS}
        for name, path in modules():
            if name in LAYERS:
                found[name] |= imported(path) - {name}
        self.assertEqual({name: (*sorted(others),) for name, others in found.items()}, LAYERS)


if __name__ == "__main__":
    unittest.main()
