"""The records that a delivered frame brought, each with what became of it."""
from __future__ import annotations

from typing import List, NamedTuple

from ..language.names import ALL_STATES, Name
from ..language.records import BULK_STATUS, CLEAR, SHORT_DELETE
from ..language.setups import STATES
from ..link.histories import History
from ..model.explanations import TakenRecord
from ..model.frames import Record
from ..model.kernels import Kernel
from ..model.pair import Node
from ..shows.words import bulk_status


class Came(NamedTuple):
    """A record that came, what became of it, the node that it came to, as it was before the frame, how many states it may have, and which
    rules are the kernel's."""

    record: Record
    taken: TakenRecord
    node: Node
    limit: str
    kernel: Kernel

    @property
    def name(self) -> Name:
        """The name of the state that it is about."""
        return self.record.name

    @property
    def is_deleting(self) -> bool:
        """Whether the node has yet to send its own deletion of the state."""
        return any(one.name == self.name and one.kind == SHORT_DELETE.queue for one in self.node.queue)

    def __str__(self) -> str:
        kind = self.record.kind
        if kind is BULK_STATUS:
            return f"{kind.name} {bulk_status(int(self.record.about[0]))}"
        return kind.name if kind is CLEAR else f"{kind.name} {'of all states' if self.name == ALL_STATES else self.name}"


def came_records(history: History, number: int, ticket: int) -> List[Came]:
    """The records that a delivery brought, by the place of the event."""
    frame = history.flight(ticket).frame
    node, limit, kernel = history.pair(number - 1).nodes[frame.to], history.lab.limit(STATES), history.lab.setup.kernel
    return [Came(*it, node, limit, kernel) for it in zip(frame.records, history.explained(number).records)]
