"""Scripts inferred from the captures of a run, by the command line; and pairs compared state by state."""
from __future__ import annotations

import io
import os
import struct
import tempfile
import time
import unittest
from contextlib import redirect_stderr, redirect_stdout
from typing import Dict, List, NamedTuple, Optional, Sequence, Tuple
from unittest.mock import patch

from ..captures.encoding import message
from ..captures.runs import ADDRESSES, Clocks, Seen, capture, captures_of
from ..language.names import Name
from ..link.laboratory import Laboratory
from ..main import main
from ..model.branches import Branch
from ..model.frames import Carried, Changes, Record
from ..model.pair import Pair
from ..model.states import Flow, State
from ..scripts.stories import story_of
from . import program
from .nights import data_captures, log_captures

_SECOND = 10**9
# A frame of Ethernet that is none of IP: it shows that a capture covers a moment.
_BEACON = bytes(12) + b"\x08\x06" + bytes(28)


class Inferred(NamedTuple):
    """What a command wrote: its status, the lines of the script, and standard output and error."""

    status: int
    script: List[str]
    out: List[str]
    said: List[str]

    @property
    def text(self) -> str:
        return "".join(f"{it}\n" for it in self.script)

    @property
    def events(self) -> List[str]:
        return [it.split(" ", 2)[2] for it in self.script if it.startswith("step main ")]


class Nights(unittest.TestCase):
    """Tests with a folder for captures."""

    def setUp(self) -> None:
        folder = tempfile.TemporaryDirectory()
        self.addCleanup(folder.cleanup)
        self.folder = folder.name
        zone = patch.dict(os.environ, {"TZ": "UTC"})
        zone.start()
        self.addCleanup(time.tzset)
        self.addCleanup(zone.stop)
        time.tzset()

    def path(self, name: str) -> str:
        return os.path.join(self.folder, name)

    def save(self, name: str, content: bytes) -> str:
        with open(self.path(name), "wb") as it:
            it.write(content)
        return self.path(name)

    def run_of(self, script: Sequence[str]) -> Laboratory:
        """The run of a script."""
        lab = Laboratory(program())
        self.addCleanup(lab.close)
        story_of(lab, script)
        return lab

    def captured(self, lab: Laboratory, branch: Branch) -> List[str]:
        """The captures of both nodes, which begin with the run and end a second after it."""
        clocks, last = Clocks(branch.events[: branch.cursor]), branch.cursor
        captures = captures_of(lab, branch)
        if not all(captures.values()):
            # (a capture without a message is refused: at the end b sends one that has no records)
            for node, seen in captures.items():
                seen.append(Seen(node == "b", clocks.time(node, last) + _SECOND // 2, message(bytes(16), [])))
        paths = []
        for node, seen in captures.items():
            content = capture(seen, node, False)
            first, end = clocks.time(node, 0), clocks.time(node, last) + _SECOND
            paths.append(self.save(f"{node}.pcap", content[:24] + _beacon(first) + content[24:] + _beacon(end)))
        return paths

    def data(self, lab: Laboratory, branch: Branch, nodes: str = "ab") -> List[str]:
        """The words for the captures of the nodes' interfaces."""
        its = data_captures(lab, branch)
        return [word for node in nodes for word in (f"--data-{node}", self.save(f"data-{node}.pcap", its[node]))]

    def logs(self, lab: Laboratory, branch: Branch, nodes: str = "ab") -> List[str]:
        """The words for what the nodes logged."""
        its = log_captures(lab, branch)
        return [word for node in nodes for word in (f"--log-{node}", self.save(f"log-{node}.pcap", its[node]))]

    def rules(self, lab: Laboratory) -> List[str]:
        """The words for the setup of a run."""
        return ["--rules", self.save("rules.pfl", "".join(f"{line}\n" for line in lab.setup.lines).encode())]

    def infer(self, captures: Sequence[str], *words: str, a: Optional[str] = str(ADDRESSES["a"])) -> Inferred:
        """Infers a script."""
        script, out, said = self.path("night.pfl"), io.StringIO(), io.StringIO()
        if os.path.exists(script):
            os.remove(script)
        asked = ["--program", program(), "capture", *captures, *(["--a", a] if a else []), "--script", script, *words]
        with redirect_stdout(out), redirect_stderr(said):
            try:
                status = main(asked)
            except SystemExit as end:
                status = int(end.code or 0)
        lines: List[str] = []
        if os.path.exists(script):
            with open(script, encoding="utf-8") as it:
                lines = it.read().splitlines()
        return Inferred(status, lines, out.getvalue().splitlines(), said.getvalue().splitlines())


def _beacon(moment: int) -> bytes:
    return struct.pack("<IIII", *divmod(moment, _SECOND), len(_BEACON), len(_BEACON)) + _BEACON


# ---- frames of two runs

_Flow = Tuple[str, object]


def _flow(flow: Flow) -> _Flow:
    return flow.protocol, flow.wire


def frames_of(lab: Laboratory, branch: str = "main") -> List[Tuple[str, Tuple[Record, ...]]]:
    """The frames of a run that its nodes sent, in order: the receiver and the records of each."""
    flights = [lab.flight(branch, ticket) for ticket in range(1, lab.show(branch).next_ticket)]
    return [(flight.to, flight.frame.records) for flight in flights if flight.origin is None]


class Names:
    """Which state of one run is which of another one: those that the nth frames of both bring of one flow."""

    def __init__(self) -> None:
        self.other: Dict[Name, Name] = {}

    def learn(self, ours: Sequence[Record], theirs: Sequence[Record]) -> None:
        named = {(it.kind, _flow(it.state)): it.name for it in theirs if isinstance(it.state, Carried)}
        for record in ours:
            if isinstance(record.state, Carried) and (record.kind, _flow(record.state)) in named:
                self.other.setdefault(record.name, named[record.kind, _flow(record.state)])

    def in_words(self, record: Record, is_ours: bool) -> str:
        """A record with all that is compared: its kind, the other run's name of its state, and its flow, ends and class."""
        is_named = record.about != ("0.0",) and record.kind.word not in ("bus", "clr")
        name: object = (self.other.get(record.name) if is_ours else record.name) if is_named else record.about
        its: object = None
        if isinstance(record.state, Carried):
            state = record.state
            its = (state.protocol, state.direction, state.wire, state.stack, state.source, state.destination, state.timeout_class)
        elif isinstance(record.state, Changes):
            its = (record.state.source, record.state.destination, record.state.timeout_class)
        return f"{record.kind.word} {name} {its}"


def differing_frames(one: Laboratory, other: Laboratory, branch: str = "main") -> List[str]:
    """Where the frames that an inferred run sends are not those of another run."""
    ours, theirs, names = frames_of(one), frames_of(other, branch), Names()
    lines = [f"{len(ours)} frames, not {len(theirs)}"] * (len(ours) != len(theirs))
    for number, ((to, records), (their_to, their_records)) in enumerate(zip(ours, theirs), 1):
        names.learn(records, their_records)
        one_side = sorted(names.in_words(record, True) for record in records)
        other_side = sorted(names.in_words(record, False) for record in their_records)
        if (to, one_side) != (their_to, other_side):
            lines.append(f"frame {number}: {one_side}, not {other_side}")
    return lines


# ---- tables of two runs


def differing_tables(one: Laboratory, other: Laboratory, branch: str = "main") -> List[str]:
    """Where the tables of an inferred run, of both nodes, are not those of another run: flows with their keys, ends, classes and
    directions, and whether two states have one name. Names are given anew."""
    ours, theirs = one.show("main"), other.show(branch)
    lines = []
    for node in "ab":
        one_side, other_side = _table(ours, node), _table(theirs, node)
        flows = [it for it in sorted({*one_side, *other_side}) if one_side.get(it) != other_side.get(it)]
        lines += [f"{node}: {flow}: {one_side.get(flow)}, not {other_side.get(flow)}" for flow in flows]
    return lines + _differing_names(ours, theirs)


def _table(pair: Pair, node: str) -> Dict[str, object]:
    states = pair.nodes[node].states.values()
    return {str(_flow(state)): (state.direction, state.stack, state.source, state.destination, state.timeout_class) for state in states}


def _differing_names(ours: Pair, theirs: Pair) -> List[str]:
    """The flows that have one name at both nodes of one pair alone."""
    shared = [{str(_flow(state)) for state in pair.a.states.values() if _is_shared(state, pair)} for pair in (ours, theirs)]
    return [f"one name at both nodes in one run alone: {it}" for it in sorted(shared[0] ^ shared[1])]


def _is_shared(state: State, pair: Pair) -> bool:
    return state.name in pair.b.states
