#!/usr/bin/env python3
"""Refuses lists of libraries in crates.txt that make the kit's `rt` slow, libraries that a crate lists but never names, and crates
that `src/lib.rt` passes on whole.

`rt` computes the checksum of a crate from those of the libraries that its line lists, theirs from theirs, again on each path
down: so what a check, a build or a test costs before it begins grows with the number of these paths. A crate lists what its
own code and clauses name, and what it names from crates further down comes from those that pass it on (`specs/Lib.antt`,
`proofs/ForCallers.antt` and `src/lib.rt` of each). The last does so name by name: for a crate that is passed on whole, a check
states everything that it passes on in turn, on each path down.
"""
from __future__ import annotations

import re
import sys
from pathlib import Path
from typing import Iterator

TOP = Path(__file__).resolve().parent.parent
sys.dont_write_bytecode = True
sys.path.insert(0, str(TOP))
from proving.crates import PARTS, listed, paths

MOST = 1400
# The names of crates where another one passes them on.
SHORT_NAMES = {name.partition("_")[2] for name in listed()}
# A line that passes on a whole crate, or one that another crate passes on.
WHOLE = re.compile(r"^pub use (pfl_\w+(?:::[a-z]\w*)?)(?: as \w+)?;$", re.M)


def named(crate: str) -> set[str]:
    """The names that begin paths in a crate's sources."""
    files = (path for part in PARTS for path in (TOP / "crates" / crate / part).rglob("*") if path.suffix in (".rt", ".antt"))
    return {name for path in files for pair in re.findall(r"\bRattle\.(\w+)|\b(\w+)::", path.read_text()) for name in pair}


def passed_on_whole(crate: str) -> list[str]:
    """The crates that a library passes on whole."""
    root = TOP / "crates" / crate / "src/lib.rt"
    found = WHOLE.findall(root.read_text()) if root.exists() else []
    return [it for it in found if "::" not in it or it.rpartition("::")[2] in SHORT_NAMES]


def faults() -> Iterator[str]:
    for name, many in paths(listed()).items():
        if many > MOST:
            yield f"{many} paths lead down from {name}, more than {MOST}: list what it names, and name what its neighbours pass on"
    for name, crate in listed().items():
        for library in sorted(set(crate.libraries) - named(name)):
            yield f"{name} lists {library}, but names nothing in it"
        for whole in passed_on_whole(name):
            yield f"{name} passes on {whole} whole: name the types that its callers need"


def main() -> int:
    found = list(faults())
    for fault in found:
        print(f"docs/libraries.py: crates.txt: {fault}", file=sys.stderr)
    return 1 if found else 0


if __name__ == "__main__":
    sys.exit(main())
