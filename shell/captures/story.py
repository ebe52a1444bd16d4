"""What the messages of a pair say, read in the order of time: states, what became of frames, and what calls for a look."""
from __future__ import annotations

from collections import deque
from functools import partial
from typing import Callable, Deque, Dict, List, Optional, Tuple

from ..language.names import BULK_START, NODES
from ..language.packets import reaches
from ..language.records import (
    BULK_STATUS,
    CLEAR,
    DELETE,
    INSERT,
    INSERT_ACK,
    SHORT_DELETE,
    SHORT_UPDATE,
    UPDATE,
    UPDATE_REQUEST,
)
from .asked import Selection
from .bulk import Bulk
from .decoding import Decoded, Peer, Record
from .files import NANOSECONDS
from .findings import Findings, Kind
from .known import REMEMBERED, Asked, Frame, Known, Last, Lost, LostFrame, LostState, Run, Table, flow_keys
from .pairing import Sent
from .wording import OTHER, UNKNOWN_FLOW, cleared, flow_words, lasting, some, summary

# Within what time an update that is as the other node had it counts as sent back; and how long two states of a flow live before they count.
_SOON = NANOSECONDS
# How many flows with two states are waited for.
_MOST_TWICE = 1 << 16
_WHOLE = (INSERT.number, UPDATE.number)
_CARRYING = (INSERT.number, UPDATE.number, SHORT_UPDATE.number)
_SHORT = SHORT_UPDATE.number

# What takes a record of a frame; returns its state, if it has one.
_Taker = Callable[[Frame, Record, int], Optional[Known]]


class Story:
    """Takes the messages one by one. `hears` says whether a capture would have what a node sends."""

    def __init__(self, selection: Selection, keeps_all: bool, hears: Callable[[str], bool]):
        self.selection, self._hears = selection, hears
        self.findings = Findings(keeps_all)
        self.table = Table()
        self._bulk = Bulk(self.findings, selection.has_time, hears)
        # How many frames of each node came, did not, or may have; and of the last what later frames show.
        self.came: Dict[str, Dict[Optional[bool], int]] = {node: {True: 0, False: 0, None: 0} for node in NODES}
        self.shown: Dict[str, Dict[bool, int]] = {node: {True: 0, False: 0} for node in NODES}
        # How many requests were answered; how many states of lost frames there are, and how many of them were sent again.
        self.answered = self.lost_states = self.sent_again = 0
        self._twice: Deque[Tuple[int, Known, Known]] = deque()
        self._checksums: Dict[str, str] = {}
        # When each node asked last for all states.
        self._restarted: Dict[str, Frame] = {}
        self._records: List[Record] = []
        # The last frame with a whole update, whether a bulk update begins in it, and how many updates and answers stand before that.
        self._started: Optional[Frame] = None
        self._has_start, self._early = False, (0, 0)
        self._takers: Dict[int, _Taker] = {
            INSERT.number: self._whole,
            UPDATE.number: self._whole,
            SHORT_UPDATE.number: self._short,
            INSERT_ACK.number: self._acknowledgement,
            UPDATE_REQUEST.number: self._request,
            DELETE.number: self._deletion,
            SHORT_DELETE.number: self._deletion,
            CLEAR.number: self._clear,
            BULK_STATUS.number: self._status,
        }

    def take(self, sent: Sent) -> Tuple[Frame, List[Optional[Known]]]:
        """Takes a message; returns its frame, and the state of each of its records."""
        frame, message, which = Frame(sent), sent.message, int(sent.node == "b")
        self.came[frame.node][frame.arrived] += 1
        self._bulk.last = frame.time
        if message.fault and self._counts(Kind.UNREAD, frame, None):
            self.findings.keep(Kind.UNREAD, frame.time, f"frame {frame.number} of {frame.node}: {message.fault}")
        if message.checksum and message.checksum != self._checksums.get(frame.node):
            self._checksum(frame, message.checksum)
        while self._twice and (self._twice[0][0] + _SOON < frame.time or len(self._twice) > _MOST_TWICE):
            self._judge_twice(*self._twice.popleft())
        takers = self._takers
        self._records = message.records
        states = [takers[record.kind.number](frame, record, which) for record in message.records]
        if frame.arrived is False:
            self._lose(frame, message, states)
        if self.table.forgotten:
            self._forget()
        return frame, states

    def end(self) -> None:
        """Judges what waited for more messages."""
        for its in self._twice:
            self._judge_twice(*its)
        self.table.forgotten += self.table.states.values()
        self._forget()

    def selects(self, frame: Frame, state: Optional[Known]) -> bool:
        """Whether what a frame has of a state is looked at; of no state, whether the moment is."""
        selection = self.selection
        return selection.has_time(frame.time) and (selection.flow is None or state is None or state.is_selected)

    def _counts(self, kind: Kind, frame: Frame, state: Optional[Known]) -> bool:
        """Counts something that a frame shows; returns whether it is to be kept."""
        return self.selects(frame, state) and self.findings.count(kind)

    def _evidence(self, frame: Frame, value: bool, why: str) -> None:
        """A later frame shows that this one came, or that a state of it is not there."""
        if frame.arrived is None and frame.shown is None:
            frame.shown, frame.why = value, why
            self.shown[frame.node][value] += 1
        elif frame.arrived and not value:
            frame.why = why

    # ---- records of states

    def _short(self, frame: Frame, record: Record, which: int) -> Optional[Known]:
        state = self.table.states.get((record.id, record.creator)) or self.table.take(record, frame)
        last = state.last
        before = last[1 - which]
        if before is not None:
            self._answers(frame, state, which)
            self._compare(frame, record, state, before, which)
        # (as in `_remember`: nearly all records are short updates)
        last[which] = (frame, _SHORT, record.source, record.destination)
        state.until = frame.left + record.remaining
        state.short[which] = frame
        if state.first_short[which] is None:
            state.first_short[which] = frame
        if state.lost[which] is not None:
            self._send_again(frame, state, which, False)
        return state

    def _whole(self, frame: Frame, record: Record, which: int) -> Optional[Known]:
        state = self.table.states.get((record.id, record.creator)) or self.table.take(record, frame)
        state.is_alive = True
        if state.keys is None:
            self._learn(frame, record, state)
        before, ask = state.last[1 - which], state.asked[1 - which]
        if record.kind is INSERT:
            state.inserter = state.inserter or frame.node
            state.waits = frame if record.asks_for_acknowledgement else None
        else:
            is_bulk = self._is_in_bulk(frame, ask is not None)
            if before is not None:
                self._answers(frame, state, which)
                if ask is None and not is_bulk:
                    self._compare(frame, record, state, before, which)
        if ask is not None:
            state.asked[1 - which] = None
            for asked in ask.waiting():
                asked.answer = frame
                self.answered += self.selects(asked.frame, state)
        self._remember(frame, record, state, which)
        state.whole[which] = frame
        if state.first[which] is None:
            state.first[which] = frame
        return state

    def _remember(self, frame: Frame, record: Record, state: Known, which: int) -> None:
        """Keeps what a node has sent of a state."""
        state.last[which] = (frame, record.kind.number, record.source, record.destination)
        state.until = frame.left + record.remaining
        if state.lost[which] is not None:
            self._send_again(frame, state, which, True)

    def _answers(self, frame: Frame, state: Known, which: int) -> None:
        """Who sends something of a state for the first time that the other node has inserted, and sent whole once, has it by that frame."""
        first = state.first[1 - which]
        if first is None or first.shown is not None or state.last[which] is not None:
            return
        if first is state.whole[1 - which] and state.inserter == first.node:
            self._evidence(first, True, f"{frame.node} knows {state.text} in frame {frame.number}")

    def _learn(self, frame: Frame, record: Record, state: Known) -> None:
        """Keeps the flow of a state, and finds another one of it."""
        state.keys, state.interface = record.keys, record.data[8:24]
        state.is_selected = self.selection.has_flow(state.keys)
        flows = self.table.flows
        others = []
        for key in flow_keys(state):
            other = flows.get(key)
            if other is not None and other.name[1] != state.name[1] and other not in others:
                if self.table.is_alive(other) and not self.table.is_over(other, frame.time):
                    others.append(other)
            flows[key] = state
        for other in others:
            self._twice.append((frame.time, other, state))

    def _judge_twice(self, time: int, one: Known, two: Known) -> None:
        """Two states of a flow: if neither was deleted soon, both are alive."""
        if not (self.table.is_alive(one) and self.table.is_alive(two)):
            return
        if self.selection.has_time(time) and (one.is_selected or two.is_selected) and self.findings.count(Kind.TWICE):
            its = f"{one.text} | {two.text}{self._flow(two)}"
            self.findings.keep(Kind.TWICE, time, its)

    def _flow(self, state: Known) -> str:
        return f"  {flow_words(state.keys) if state.keys is not None else UNKNOWN_FLOW}"

    def _compare(self, frame: Frame, record: Record, state: Known, before: Last, which: int) -> None:
        """An update beside what the other node had sent last."""
        earlier, _, source, destination = before
        if source is None or destination is None or record.source is None or record.destination is None:
            return
        is_tcp = state.is_tcp if state.keys is not None else record.timeout < 6
        ends = []
        if is_behind(source, record.source, bool(is_tcp)):
            ends.append("source")
        if is_behind(destination, record.destination, bool(is_tcp)):
            ends.append("destination")
        since, mine = frame.time - earlier.time, state.last[which]
        if ends:
            if earlier.shown is not False and self._counts(Kind.CROSSED, frame, state):
                older = f"{' and '.join(ends)} older than what frame {earlier.number} had {lasting(since)} before{_came_by(earlier, frame)}"
                its = f"frame {frame.number} of {frame.node}: {older}: {state.text}{self._flow(state)}"
                self.findings.keep(Kind.CROSSED, frame.time, its)
        elif source == record.source and destination == record.destination and since <= _SOON:
            if (mine is None or mine[0].time < earlier.time) and self._counts(Kind.BACK, frame, state):
                after = f"{lasting(since)} after frame {earlier.number}"
                its = f"frame {frame.number} of {frame.node}, {after}: {state.text}{self._flow(state)}"
                self.findings.keep(Kind.BACK, frame.time, its)

    def _acknowledgement(self, frame: Frame, record: Record, which: int) -> Optional[Known]:
        state = self.table.states.get((record.id, record.creator))
        if state is None:
            return None
        if state.waits is not None and state.waits.node != frame.node:
            self._evidence(state.waits, True, f"{frame.node} acknowledges {state.text} in frame {frame.number}")
            state.waits = None
        return state

    def _deletion(self, frame: Frame, record: Record, which: int) -> Optional[Known]:
        state = self.table.states.get((record.id, record.creator))
        if state is None:
            return None
        self._answers(frame, state, which)
        is_others = state.is_alive and state.inserter and state.inserter != frame.node
        if is_others and self._counts(Kind.DELETED, frame, state):
            its = f"frame {frame.number} of {frame.node}: {state.text}{self._flow(state)}, which {state.inserter} inserted"
            self.findings.keep(Kind.DELETED, frame.time, its)
        state.lost = [None, None]
        self.table.delete(state, frame)
        return state

    # ---- requests

    def _request(self, frame: Frame, record: Record, which: int) -> Optional[Known]:
        if record.asks_for_all:
            self._bulk.asks(frame)
            self._restarted[frame.node] = frame
            return None
        state = self.table.states.get((record.id, record.creator)) or self.table.take(record, frame)
        short, whole = state.short[1 - which], state.whole[1 - which]
        if short is not None and short is state.first_short[1 - which]:
            self._evidence(short, True, f"{frame.node} asks for a state of it in frame {frame.number}")
        state.short[1 - which] = state.first_short[1 - which] = None
        gone = self._gone(frame, state, whole)
        why = _why_asked(frame, whole, gone)
        if whole is not None and not gone and not _is_later(whole, frame):
            self._evidence(whole, False, f"{frame.node} asks for {state.text} in frame {frame.number}")
        ask = state.asked[which] = Asked(frame, state, why, state.asked[which])
        if self._counts(Kind.REQUESTS, frame, state):
            self.findings.keep(Kind.REQUESTS, frame.time, partial(_asked_words, ask, self._hears(OTHER[frame.node])))
        return state

    def _gone(self, frame: Frame, state: Known, whole: Optional[Frame]) -> str:
        """By what else a node may lack a state that it had since a frame brought it: a deletion, a clear, or a restart."""
        if whole is None:
            return ""
        node, deleted, cleared, restarted = frame.node, state.deleted, self.table.cleared(state), self._restarted.get(frame.node)
        if deleted is not None and deleted.time >= whole.time:
            return f"{deleted.node} deleted it in frame {deleted.number}"
        if cleared is not None and cleared.time >= whole.time:
            return f"{cleared.node} cleared the states of its creator in frame {cleared.number}"
        if restarted is not None and restarted.time >= whole.time:
            return f"{node} asked for all states in frame {restarted.number}, as after a restart"
        return ""

    # ---- frames that are not in the other capture

    def _lose(self, frame: Frame, message: Decoded, states: List[Optional[Known]]) -> None:
        """Counts a frame that is not in the other capture, and waits for its states to be sent again."""
        selection = self.selection
        if not selection.has_time(frame.time) or selection.flow and not any(it and it.is_selected for it in states):
            return
        lost = None
        if self.findings.count(Kind.LOST):
            lost = LostFrame(frame, summary(message.records))
            self.findings.keep(Kind.LOST, frame.time, partial(_lost_words, lost))
        for record, state in zip(message.records, states):
            if state is None or record.kind.number not in _CARRYING or selection.flow and not state.is_selected:
                continue
            self.lost_states += 1
            which = int(frame.node == "b")
            its = state.lost[which] = state.lost[which] or Lost(Run(), Run())
            run = its.whole if record.kind.number in _WHOLE else its.short
            run.waiting += 1
            if lost:
                lost.parts.append(LostState(state.text, run, run.tries))

    def _send_again(self, frame: Frame, state: Known, which: int, is_whole: bool) -> None:
        """A node sends a state again of which a record was lost; a short update does not make up for a whole one, nor does a frame that is
        not in the other capture either."""
        its = state.lost[which]
        assert its is not None
        short, whole = its
        for run in (short, whole) if is_whole else (short,):
            if not run.waiting:
                continue
            if frame.arrived is False:
                run.tries += 1
                run.tried = frame
            else:
                self.sent_again += run.waiting
                run.again = frame
        if frame.arrived is not False:
            state.lost[which] = None if is_whole or not whole.waiting else Lost(Run(), whole)

    # ---- the rest

    def _clear(self, frame: Frame, record: Record, which: int) -> Optional[Known]:
        if self._counts(Kind.CLEARS, frame, None):
            self.findings.keep(Kind.CLEARS, frame.time, f"frame {frame.number} of {frame.node}: {cleared(record)}")
        self.table.clear(record.creator, frame)
        return None

    def _status(self, frame: Frame, record: Record, which: int) -> Optional[Known]:
        self._bulk.status(frame, record)
        if record.status == BULK_START:
            if self._started is frame:
                self._bulk.updates(frame, *self._early)
                self._early = (0, 0)
        return None

    def _is_in_bulk(self, frame: Frame, is_answer: bool) -> bool:
        """Whether a whole update is one of a bulk update, which counts it: its first ones may stand before its start in their frame."""
        if self._started is not frame:
            self._started, self._early = frame, (0, 0)
            self._has_start = any(record.kind is BULK_STATUS and record.status == BULK_START for record in self._records)
        if self._bulk.is_open(frame.node):
            self._bulk.updates(frame, int(not is_answer), int(is_answer))
            return True
        updates, answers = self._early
        self._early = updates + (not is_answer), answers + is_answer
        return self._has_start

    def _checksum(self, frame: Frame, checksum: str) -> None:
        """A node has another checksum of its rules than before, or its first one."""
        former, other = self._checksums.get(frame.node), self._checksums.get(OTHER[frame.node])
        self._checksums[frame.node] = checksum
        if not former and other in (None, checksum) or not self._counts(Kind.RULES, frame, None):
            return
        if former:
            its = f"the checksum of {frame.node} changes from {former} to {checksum}"
            as_other = ", which is that of the other node" if checksum == other else ", which is not that of the other node"
            its += as_other * bool(other)
        else:
            its = ", ".join(f"{node} has {self._checksums[node]}" for node in NODES)
        self.findings.keep(Kind.RULES, frame.time, f"frame {frame.number}: {its}")

    def _forget(self) -> None:
        """Judges states of which nothing more is waited for. What was sent just before the captures end may be acknowledged after it."""
        for state in self.table.forgotten:
            frame = state.waits
            if frame is None or not self._hears(OTHER[frame.node]) or self._bulk.last - frame.time < _SOON:
                continue
            if self._counts(Kind.DEFERRED, frame, state):
                its = f"frame {frame.number} of {frame.node}: {state.text}{self._flow(state)}"
                lost = f", which is not in the capture of {OTHER[frame.node]}" if frame.arrived is False else ""
                self.findings.keep(Kind.DEFERRED, frame.time, its + lost)
        self.table.forgotten.clear()


def _came_by(earlier: Frame, frame: Frame) -> str:
    """Whether a frame had come when its receiver sent another one, as far as a capture says it."""
    if earlier.came is None:
        return ""
    return ", which had come by then" if earlier.came <= frame.time else ", which was on its way"


def is_behind(old: Peer, new: Peer, is_tcp: bool) -> bool:
    """Whether an end is at a lower level than it was, or at the same one with an earlier number."""
    if new.level != old.level:
        return new.level < old.level
    return is_tcp and old.lo != new.lo and reaches(old.lo, new.lo)


def _why_asked(frame: Frame, whole: Optional[Frame], gone: str) -> str:
    """Why a node may lack a state that it asks for: the last frame with it, and what may have taken it away since."""
    if whole is None:
        return f"no frame here has brought it, unless it was gone more than {REMEMBERED // NANOSECONDS} s before"
    before = f"frame {whole.number} had it {lasting(frame.time - whole.time)} before"
    if whole.arrived is False:
        return f"{before}, and is not in the capture of {frame.node}"
    if _is_later(whole, frame):
        assert whole.came is not None
        return f"{before}, and came {lasting(whole.came - frame.time)} after the request"
    if gone:
        return f"{before}{' and came' * bool(whole.arrived)}, and {gone}"
    refused = "refused there (table full, key in use, unknown interface), or gone since"
    return f"{before} and came: the state was {refused}" if whole.arrived else f"{before}: it was lost, or the state was {refused}"


def _is_later(one: Frame, frame: Frame) -> bool:
    """Whether a frame came only after the receiver sent another one."""
    return one.came is not None and one.came > frame.time


def _asked_words(ask: Asked, is_heard: bool) -> str:
    """A request, and what came of it."""
    frame, state, peer = ask.frame, ask.state, OTHER[ask.frame.node]
    flow = f"  {flow_words(state.keys) if state.keys is not None else UNKNOWN_FLOW}"
    if ask.answer:
        missing = f", which is not in the capture of {frame.node}" * (ask.answer.arrived is False)
        end = f"answered in frame {ask.answer.number} after {lasting(ask.answer.time - frame.time)}{missing}"
    elif state.deleted and state.deleted.time >= frame.time:
        end = f"{state.deleted.node} deleted it in frame {state.deleted.number}"
    else:
        end = f"no answer of {peer} is here" if is_heard else f"no capture has what {peer} sends"
    return f"frame {frame.number} of {frame.node} asks for {state.text}{flow}: {ask.why}; {end}"


def _lost_words(lost: LostFrame) -> str:
    """A frame that is not in the other capture, and what of it was sent again."""
    frame, parts = lost.frame, {part.name: part for part in lost.parts}
    again = [part.run.again for part in parts.values() if part.run.again]
    tried = [part for part in parts.values() if not part.run.again and part.run.tries > part.tries]
    never = [part.name for part in parts.values() if not part.run.again and part.run.tries == part.tries]
    said = [f"frame {frame.number} of {frame.node}: {lost.summary}"]
    if again:
        last = max(again, key=lambda it: it.number)
        those = "" if len(parts) == 1 else f"{len(again)} of {len(parts)} states "
        numbers = [f"frame {it}" for it in sorted({it.number for it in again})]
        said.append(f"{those}sent again in {some(numbers)}, after {'up to ' * (len(numbers) > 1)}{lasting(last.time - frame.time)}")
    if tried:
        said.append(_tried_words(frame, tried))
    if never:
        said.append(f"not sent again here: {some(never)}")
    return "; ".join(said)


def _tried_words(frame: Frame, parts: List[LostState]) -> str:
    """States of a lost frame that were sent again only in frames that are not in the other capture either."""
    them = f"{some([it.name for it in parts])} {'was' if len(parts) == 1 else 'were'} sent again only in"
    tries = {part.run.tried for part in parts if part.run.tried}
    last = max(tries, key=lambda it: it.number)
    at = f"frame {last.number} after {lasting(last.time - frame.time)}"
    if len(tries) == 1 and all(part.run.tries == part.tries + 1 for part in parts):
        return f"{them} {at}, which is not in the capture of {OTHER[frame.node]} either"
    return f"{them} frames that are not in the capture of {OTHER[frame.node]} either, the last of them {at}"
