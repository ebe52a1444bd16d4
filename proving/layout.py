"""The layout of the crates' files, which the gate wants to be that of `rt fmt`.

    python3 -m proving.layout

Puts each file of every crate into that layout, reports the files that were not, and exits with 1 if there were any.
"""
from __future__ import annotations

import subprocess
import sys
from typing import Iterator

from .crates import listed


def formatted() -> Iterator[str]:
    """What `rt fmt` reports for each crate: a line for each file that it wrote, or for what went wrong."""
    for crate in listed().values():
        ran = subprocess.run(("rt", "fmt"), cwd=crate.folder, stdout=subprocess.PIPE, stderr=subprocess.STDOUT, text=True)
        yield from (f"{crate.name}: {line}" for line in ran.stdout.splitlines())
        if ran.returncode:
            yield f"{crate.name}: rt fmt ended with status {ran.returncode}"


def main() -> int:
    lines = list(formatted())
    for line in lines:
        print(f"layout: {line}", file=sys.stderr)
    return int(bool(lines))


if __name__ == "__main__":
    sys.exit(main())
