"""The faults of lines, setups and frames, and the refusals of events and commands, each list in the order of its numbers from 1."""
from __future__ import annotations

from typing import Sequence

LINE_FAULTS = ("Long", "NotAscii", "Unknown", "Missing", "Number", "Extra", "Packet")
RULE_FAULTS = ("TooMany", "NatNotOut", "ZeroMax", "NoMemory", "RdrNotIn")
LIMIT_FAULTS = ("TooSmall", "TooLarge", "NoMemory")
FRAME_FAULTS = ("Short", "Version", "Length", "Action", "Count", "Value")
# Why an event is refused. Any event can be refused for the last reason, which the rows leave out.
EVENT_REFUSALS = (
    *("NoSuchFrame", "NothingPending", "NoSuchState", "LinkFull", "QueueFull", "ClockFull", "CountFull", "NotSyncing", "TooEarly"),
    "NoMemory",
)
COMMAND_REFUSALS = (
    *("NoBranch", "NameTaken", "BadName", "TooFarBack", "NothingForward", "LastBranch", "BranchesFull", "Event", "NoEvent"),
    *("NothingExcised", "NoFrame"),
)


def numbered(name: str, names: Sequence[str]) -> str:
    """A fault or a refusal as in replies, its number before its name: `5 Number`."""
    return f"{names.index(name) + 1} {name}"
