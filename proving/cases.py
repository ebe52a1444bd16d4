"""The number of case files, which the gate compares with the output of the test that runs them.

    python3 -m proving.cases

Reports, with status 1, if crates/test_cases/stdout does not have the number of cases in the folders that its `args` names: the gate
would find this only after an hour.
"""
from __future__ import annotations

import sys
from pathlib import Path

from .crates import TOP

CRATE = Path(TOP, "crates/test_cases")


def main() -> int:
    folders = (CRATE / "args").read_text().split()
    expected = f"{sum(1 for folder in folders for _ in (CRATE / 'data' / folder).rglob('*.pfl'))} cases passed\n"
    if (CRATE / "stdout").read_text() == expected:
        return 0
    print(f"cases: crates/test_cases/stdout should say: {expected}", end="", file=sys.stderr)
    return 1


if __name__ == "__main__":
    sys.exit(main())
