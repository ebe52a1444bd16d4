#!/usr/bin/env python3
"""Refuses imports of another crate's proofs that go past its `proofs/ForCallers.antt`, and names of proofs that nothing cites.

That file passes on what the proofs of callers may cite; the rest of proofs/ is the crate's own, and may change independently.
`citations.py` says which names have to be cited.
"""
from __future__ import annotations

import re
import sys
from pathlib import Path
from typing import Iterator, Tuple

sys.dont_write_bytecode = True
import citations
from definitions import CRATES

IMPORT = re.compile(r".*\buse Rattle\.(\w+)\.(?:proofs(?!\.ForCallers\b)|\{[^}]*\bproofs\b)|.*\b(\w+)::proofs::(?!ForCallers\b)")


def sources() -> Iterator[Tuple[str, Path]]:
    """The sources of the crates, each with its crate."""
    for crate in sorted(CRATES.iterdir()):
        for folder in ("src", "specs", "proofs"):
            for path in sorted((crate / folder).rglob("*")):
                if path.suffix in (".rt", ".antt"):
                    yield crate.name, path


def faults() -> Iterator[str]:
    """The lines that import what is not for them, and names that nothing cites. The crates of the kit are not ours."""
    ours = {path.name for path in CRATES.iterdir()}
    for crate, path in sources():
        for number, line in enumerate(path.read_text().splitlines(), 1):
            found = IMPORT.match(line)
            if found and found[1] in ours - {crate}:
                yield f"{path.relative_to(CRATES.parent)}:{number}: of the proofs of {found[1]}, only ForCallers.antt is for others"
    for path, number, name in citations.uncited():
        yield f"{path.relative_to(CRATES.parent)}:{number}: nothing cites {name}"


def main() -> int:
    found = list(faults())
    for fault in found:
        print(f"docs/imports.py: {fault}", file=sys.stderr)
    return 1 if found else 0


if __name__ == "__main__":
    sys.exit(main())
