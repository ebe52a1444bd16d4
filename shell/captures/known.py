"""What is known of frames and states while messages are read: memory grows with the states that are alive, not with the messages."""
from __future__ import annotations

from collections import deque
from typing import Deque, Dict, Iterator, List, NamedTuple, Optional, Tuple

from .decoding import Peer, Record
from .files import NANOSECONDS
from .pairing import Sent

# How long a state is remembered after its deletion, and after its time is up.
REMEMBERED = 10 * NANOSECONDS
# (in seconds)
_OVERDUE = 60
# How many requests for a state wait for one answer.
_MOST_WAITING = 16
# How many deleted states are remembered at most, and how many states there are before those whose time is up are sought.
_MOST_DELETED, _LEAST_SWEPT = 1 << 16, 1 << 14
# How many creators are remembered that were cleared.
_MOST_CLEARED = 4096

StateName = Tuple[int, int]


class Frame:
    """A frame that was sent. Where no capture has whether it came, later frames may show it: `shown` and `why`."""

    __slots__ = ("number", "time", "node", "came", "arrived", "shown", "why", "left")

    def __init__(self, sent: Sent):
        self.number, self.time, self.node, self.came, self.arrived, _ = sent
        # When its states are forgotten, in seconds, without the time that they have left.
        self.left = self.time // NANOSECONDS + _OVERDUE
        self.shown: Optional[bool] = self.arrived
        self.why = ""


# The last record that a node sent of a state: its frame, the number of its kind, and the ends if it has them. (A tuple without names, since
# there is a new one for each record.)
Last = Tuple[Frame, int, Optional[Peer], Optional[Peer]]


class Known:
    """A state of which something was sent. Of each pair of values the first is of a, the second of b."""

    __slots__ = (
        *("name", "keys", "interface", "is_selected", "is_alive", "until", "inserter", "last", "first", "whole", "first_short", "short"),
        *("asked", "waits", "lost", "deleted", "steps"),
    )

    def __init__(self, name: StateName):
        self.name = name
        # The flow as the bytes of `Record.keys`; None until a whole record came.
        self.keys: Optional[bytes] = None
        self.interface = b""
        self.is_selected = False
        self.is_alive = True
        # When it is forgotten if nothing more is sent of it, in seconds: a while after its time is up.
        self.until = 0
        self.inserter = ""
        self.last: List[Optional[Last]] = [None, None]
        # The first and the last frame with it whole, and with a short update of it since the other node asked last.
        self.first: List[Optional[Frame]] = [None, None]
        self.whole: List[Optional[Frame]] = [None, None]
        self.first_short: List[Optional[Frame]] = [None, None]
        self.short: List[Optional[Frame]] = [None, None]
        # What waits for an answer: requests of each node, an insertion for its acknowledgement.
        self.asked: List[Optional[Asked]] = [None, None]
        self.waits: Optional[Frame] = None
        # What each node has sent that is lost and was not sent again; None where nothing is.
        self.lost: List[Optional[Lost]] = [None, None]
        self.deleted: Optional[Frame] = None
        # How many records of it are shown, or would be.
        self.steps = 0

    @property
    def text(self) -> str:
        """Its name as pfctl prints it."""
        return f"{self.name[0]:016x}/{self.name[1]:08x}"

    @property
    def is_tcp(self) -> Optional[bool]:
        """Whether it is of TCP; None if that is not known."""
        return None if self.keys is None else self.keys[73] == 6


class Run:
    """Records of a state that a node sent, which are not in the other capture: how many wait until it sends the state again, and the frame
    that had it; how often it was sent again in frames that are not in the other capture either, and the last of these."""

    __slots__ = ("waiting", "again", "tries", "tried")

    def __init__(self) -> None:
        self.waiting = self.tries = 0
        self.again: Optional[Frame] = None
        self.tried: Optional[Frame] = None


class Lost(NamedTuple):
    """What is lost of a state that a node sent: short updates, which any later record makes up for, and whole records, for which a whole
    one does."""

    short: Run
    whole: Run


class LostState(NamedTuple):
    """A state of a lost frame: its name, the run that its record belongs to, and how many tries of that were before it or are itself."""

    name: str
    run: Run
    tries: int


class LostFrame:
    """A frame that is not in the other capture: what it carried, and its states."""

    __slots__ = ("frame", "summary", "parts")

    def __init__(self, frame: Frame, summary: str):
        self.frame, self.summary = frame, summary
        self.parts: List[LostState] = []


class Asked:
    """A request for a state: why its node may lack it, the one before it if that waits for an answer, too, and what came of it."""

    __slots__ = ("frame", "state", "why", "before", "answer")

    def __init__(self, frame: Frame, state: Known, why: str, before: Optional[Asked]):
        self.frame, self.state, self.why, self.before = frame, state, why, before
        self.answer: Optional[Frame] = None

    def waiting(self) -> Iterator[Asked]:
        """Those that the next answer is for: the last requests, and no more of them than a node sends in a row."""
        ask: Optional[Asked] = self
        for _ in range(_MOST_WAITING):
            if ask is None:
                return
            yield ask
            ask = ask.before
        if ask is not None:
            ask.before = None


class Table:
    """The states by their names. Those that were deleted, or whose time is up, are forgotten."""

    def __init__(self) -> None:
        self.states: Dict[StateName, Known] = {}
        # The states by the keys of their flows.
        self.flows: Dict[bytes, Known] = {}
        self._deleted: Deque[Tuple[int, Known]] = deque()
        # The last clear of each creator's states.
        self._cleared: Dict[int, Frame] = {}
        self._sweep_at = _LEAST_SWEPT
        # States that are to be forgotten, for whoever waits for something of them.
        self.forgotten: List[Known] = []

    def take(self, record: Record, frame: Frame) -> Known:
        """The state of a record, which is new if nothing was sent of it."""
        name = (record.id, record.creator)
        its = self.states.get(name)
        if its is None:
            its = self.states[name] = Known(name)
            its.until = frame.left
            if len(self.states) > self._sweep_at:
                self._sweep(frame.time // NANOSECONDS)
        return its

    def clear(self, creator: int, frame: Frame) -> None:
        """Notes that the states of a creator were cleared."""
        if len(self._cleared) >= _MOST_CLEARED:
            self._cleared.clear()
        self._cleared[creator] = frame

    def cleared(self, state: Known) -> Optional[Frame]:
        """The last clear of the states of its creator."""
        return self._cleared.get(state.name[1])

    def is_alive(self, state: Known) -> bool:
        """Whether a state was neither deleted nor cleared since something was sent of it."""
        cleared = self.cleared(state)
        if cleared is None:
            return state.is_alive
        return state.is_alive and any(it is not None and it[0].time > cleared.time for it in state.last)

    def is_over(self, state: Known, time: int) -> bool:
        """Whether the time that the last record of a state left it is up."""
        return time // NANOSECONDS > state.until - _OVERDUE

    def delete(self, state: Known, frame: Frame) -> None:
        """Notes that a node deleted a state."""
        state.is_alive, state.deleted = False, frame
        self._deleted.append((frame.time, state))
        while self._deleted and (self._deleted[0][0] + REMEMBERED < frame.time or len(self._deleted) > _MOST_DELETED):
            _, old = self._deleted.popleft()
            if not old.is_alive:
                self._forget(old)

    def _forget(self, state: Known) -> None:
        if self.states.get(state.name) is state:
            del self.states[state.name]
            self.forgotten.append(state)
        if state.keys is not None:
            for key in flow_keys(state):
                if self.flows.get(key) is state:
                    del self.flows[key]

    def _sweep(self, seconds: int) -> None:
        """Forgets the states whose time is up."""
        for state in [it for it in self.states.values() if it.until < seconds]:
            self._forget(state)
        self._sweep_at = max(_LEAST_SWEPT, 2 * len(self.states))


def flow_keys(state: Known) -> Tuple[bytes, bytes]:
    """What no two states of a node share: the key on the wire and the key in the stack, each with the protocol, direction and interface."""
    assert state.keys is not None
    rest = state.keys[72:] + state.interface
    return b"w" + state.keys[:36] + rest, b"s" + state.keys[36:72] + rest
