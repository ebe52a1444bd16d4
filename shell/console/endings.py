"""How the words of the command line end: their statuses, and the reason where one cannot be carried out."""
from __future__ import annotations

# The status of diff(1) where it had trouble; of --strict; and after an interrupt.
TROUBLE, STRICT_STATUS, INTERRUPTED_STATUS = 2, 4, 130


class NotDone(Exception):
    """A word cannot be carried out, for a reason that its user is told."""

    @property
    def told(self) -> str:
        return str(self)
