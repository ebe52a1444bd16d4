"""Colours, for a terminal only."""
from __future__ import annotations

import re
from dataclasses import dataclass

# The sequences that begin and end a colour.
CODE = re.compile("\033\\[[0-9;]*m")
END = "\033[0m"


@dataclass(frozen=True)
class Paint:
    """Paints text for a terminal, or leaves it as it is."""

    on: bool = False

    def _as(self, code: str, text: str) -> str:
        return f"\033[{code}m{text}{END}" if self.on and text else text

    def head(self, text: str) -> str:
        """A heading."""
        return self._as("1", text)

    def good(self, text: str) -> str:
        """What is as it should be."""
        return self._as("32", text)

    def bad(self, text: str) -> str:
        """A drop, a refusal, a difference."""
        return self._as("31", text)

    def note(self, text: str) -> str:
        """What calls for a look: something pending, expired, stale."""
        return self._as("33", text)

    def dim(self, text: str) -> str:
        """A side note."""
        return self._as("2", text)


PLAIN = Paint()
