"""A repository of four small crates, in which a stand-in for the checker proves and builds."""
from __future__ import annotations

import atexit
import os
import shutil
import subprocess
import sys
import tempfile
import unittest
from functools import lru_cache
from pathlib import Path
from typing import Dict

from . import TOP

CRATES = "pfl_low:\npfl_side:\npfl_run: pfl_low\npfl_lab: pfl_run pfl_side\n"
# What each crate costs.
COSTS = "# in 0.20 s\npfl_low 30\npfl_side 10\npfl_run 60\npfl_lab 5\n"
# A checker that leaves what `rt lib` and `rt run` leave; its program prints the words that it is given.
QUICK = """#!/bin/sh
if [ "$1" = version ]; then echo kit logic 0123; exit; fi
crate=$(basename "$PWD")
echo "$crate" >> "$NOTES/order"
mkdir -p out/rlib
touch out/rlib/stamp
if [ "$1" = run ]; then printf '#!/bin/sh\\necho ran "$@"\\n' > out/pfl_lab; chmod +x out/pfl_lab; fi
"""


def planted(top: Path) -> None:
    """Makes such a repository of an empty folder."""
    for name in ("proving", "shell"):
        shutil.copytree(f"{TOP}/{name}", top / name, ignore=shutil.ignore_patterns("__pycache__", "tests"))
    for name in ("lab", "test", "gate-cost"):
        shutil.copy(f"{TOP}/{name}", top)
    (top / "crates.txt").write_text(CRATES)
    (top / "HANDLES").write_text("Handles allowed: none.\n")
    for name in ("bin", "notes"):
        (top / name).mkdir()
    (top / "proving/seconds.txt").write_text(COSTS)
    for line in CRATES.splitlines():
        folder = top / "crates" / line.split(":")[0] / "src"
        folder.mkdir(parents=True)
        (folder / "lib.rt").write_text("//! Nothing.\n")


def surroundings(top: Path, checker: str) -> Dict[str, str]:
    """The environment of its commands, whose `rt` is this one; without text there is none."""
    env = {name: text for name, text in os.environ.items() if name != "PFL_LAB"}
    path = top / "bin/rt"
    path.unlink(missing_ok=True)
    if checker:
        path.write_text(checker)
        path.chmod(0o755)
    folders = [folder for folder in env["PATH"].split(":") if not os.path.exists(f"{folder}/rt")]
    more = {"NOTES": str(top / "notes"), "XDG_CACHE_HOME": str(top / "cache")}
    return {**env, "PATH": ":".join([str(path.parent), *folders]), **more}


@lru_cache(maxsize=None)
def released() -> Path:
    """Such a repository with a release of its own and nothing built, which is made once: that takes seconds."""
    top = Path(tempfile.mkdtemp())
    atexit.register(shutil.rmtree, top)
    planted(top)
    command = (sys.executable, str(top / "lab"), "release")
    subprocess.run(command, cwd=top, env=surroundings(top, QUICK), stdin=subprocess.DEVNULL, capture_output=True, check=True, timeout=60)
    for built in (top / "crates").glob("*/out"):
        shutil.rmtree(built)
    return top


class SmallTree(unittest.TestCase):
    """A test over such a repository."""

    def setUp(self) -> None:
        self.top = Path(tempfile.mkdtemp())
        self.addCleanup(shutil.rmtree, self.top)
        planted(self.top)

    def release(self) -> None:
        """Gives it its release, with nothing built."""
        shutil.copytree(released(), self.top, dirs_exist_ok=True)

    def environment(self, checker: str) -> Dict[str, str]:
        """An environment whose `rt` is this one; without text there is none."""
        return surroundings(self.top, checker)

    def start(self, checker: str, *words: str) -> "subprocess.Popen[str]":
        """Begins one of the repository's own commands."""
        command = (sys.executable, str(self.top / words[0]), *words[1:])
        return subprocess.Popen(
            command, cwd=self.top, env=self.environment(checker), stdin=subprocess.DEVNULL, stdout=subprocess.PIPE, stderr=subprocess.PIPE, text=True
        )
