"""`compare`: two dumps, read and compared, with what their counters say."""
from __future__ import annotations

from collections import deque
from typing import Dict, List, NamedTuple, Sequence

from ..console.endings import NotDone
from ..language.names import NODES
from . import statistics
from .comparing import Compared, compare
from .files import Say
from .reading import Dump
from .report import Shown, report

SAME, APART = 0, 1


class NothingRead(NotDone):
    """There is nothing to compare."""


class Answer(NamedTuple):
    """What is printed, whether the nodes are apart, and what was compared."""

    lines: List[str]
    status: int
    found: Compared


def compared(files: Sequence[str], others: Sequence[str], how: Shown, say: Say, keeps_all: bool = False) -> Answer:
    """Compares one file from each node; the counters are in the same files or in files of their own. States that agree are kept, or only
    counted."""
    dumps = {node: Dump(path, say) for node, path in zip(NODES, files)}
    found = compare(dumps["a"].states(), dumps["b"].states(), how.tolerance, keeps_all)
    counters = {node: it.counters for node, it in dumps.items()}
    for node, path in zip(NODES, others):
        counters[node] = {**_counters(Dump(path, say)), **counters[node]}
    has_states, said = any(found.sizes.values()), statistics.report(counters, how.paint)
    if not has_states and not said:
        raise NothingRead(f"{' and '.join(files)} have neither states (pfctl -ss -vv) nor counters (netstat -s -p pfsync)")
    return Answer(report(found, dict(zip(NODES, files)), how) * has_states + said, SAME if found.is_same else APART, found)


def _counters(dump: Dump) -> Dict[str, int]:
    """The counters in a file, whatever else it has."""
    deque(dump.states(), maxlen=0)
    return dump.counters
