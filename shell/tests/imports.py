"""What `./lab import` makes of a pf.conf."""
from __future__ import annotations

import io
import os
import tempfile
from contextlib import redirect_stderr, redirect_stdout
from typing import List, NamedTuple

from ..main import main
from . import TOP

CONFS = f"{TOP}/shell/tests/pf_confs"
NAME = "pf.conf"


class Imported(NamedTuple):
    """The status, the lines of the setup and those that are reported, each without the folder of the file."""

    status: int
    setup: List[str]
    said: List[str]

    def rules(self, node: str = "a") -> List[str]:
        return [it[len("rule a ") :] for it in self.setup if it.startswith(f"rule {node} ")]

    @property
    def settings(self) -> List[str]:
        return [it for it in self.setup if it.startswith("set ")]

    @property
    def comments(self) -> List[str]:
        """Those of statements: the first two are about the whole setup."""
        return [it for it in self.setup if it.startswith("# ")][2:]


def imported(path: str, *words: str) -> Imported:
    """What the command makes of a file."""
    out, said = io.StringIO(), io.StringIO()
    with redirect_stdout(out), redirect_stderr(said):
        status = main(["--program", "", "import", path, *words])
    folder = os.path.join(os.path.dirname(path), "")
    return Imported(status, out.getvalue().splitlines(), said.getvalue().replace(folder, "").splitlines())


def taken_in(text: str, *words: str, **files: str) -> Imported:
    """What the command makes of a text, for em0 with an address unless the words say otherwise; files lie beside it."""
    with tempfile.TemporaryDirectory() as folder:
        for name, content in {**files, NAME: text}.items():
            with open(os.path.join(folder, name.replace("_", ".")), "w", encoding="utf-8") as it:
                it.write(content)
        own = words if "--on" in words else ("--on", "em0", "--address", "192.0.2.1/24", *words)
        return imported(os.path.join(folder, NAME), *own)
