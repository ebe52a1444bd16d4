"""A laboratory that a person works with: its setup, the program under it, and the runs that answer questions."""
from __future__ import annotations

import contextlib
from collections import deque
from dataclasses import dataclass, replace
from itertools import takewhile
from typing import ContextManager, Deque, Dict, Iterator, List, Optional, Protocol, Sequence, Tuple, Union

from ..console.endings import NotDone
from ..language.commands import KERNEL, NAMES, OPEN, SETUP, STEP
from ..language.events import PACKET
from ..language.faults import COMMAND_REFUSALS, numbered
from ..language.forms import END
from ..language.lines import check_line, has_word, opens
from ..language.names import NODES
from ..language.readers import LineFault
from ..language.searches import SEARCH
from ..language.setups import Limit
from ..model.branches import Branch, Mark, read_log
from ..model.explanations import Explanation, read_explanation
from ..model.flights import Flight, read_flight
from ..model.held import held_packets, with_packets
from ..model.pair import Pair, read_shown
from ..model.setups import Setup
from .mirror import Entry, Shared, joined
from .programs import FOLLOW, VIEW, Client, Ended, Run, Session, check_setup, run_lines


# What the numbers of a server's summary count, after the number of commands.
SUMMARY = ("branches", "events", "their cursors together", "states at a", "states at b", "frames in flight", "pending")


# How many ends of packets are kept.
MOST_ENDS = 48
# How the reply to an accepted event begins, and what follows its outcome: how many events it discarded.
_STEPPED, _DISCARDS = f"{STEP.word} ", " dropped "
# The reply for a branch whose events sent no such frame.
NO_FRAME = f"refused {numbered('NoFrame', COMMAND_REFUSALS)}"


class Unknown(NotDone):
    """A question that the laboratory cannot answer, with the reason."""


@dataclass(frozen=True)
class Asked:
    """A line that was sent, and its reply."""

    line: str
    reply: Tuple[str, ...]


class Names(Protocol):
    """What knows who gives the commands of a server."""

    def knows(self, entry: Entry, seconds: float = 0) -> bool: ...

    def name(self, entry: Entry) -> str: ...

    def close(self) -> None: ...


class Laboratory:
    """A pair with its branches. A question is answered by a run of its own, and changes nothing here."""

    def __init__(self, program: str, port: Optional[int] = None, setup: Optional[Setup] = None):
        self.program = program
        # Whether the pair is one's own, and not that of a server or of a page.
        self.is_own = port is None
        self.setup = setup or Setup()
        self.knows_setup = port is None or setup is not None
        self.session: Optional[Session] = Client(port) if port else None
        self.last: Optional[Asked] = None
        # The branch that is meant if none is named.
        self.in_use = "main"
        # The named places.
        self.marks: Dict[str, Mark] = {}
        # Who gives the commands of a server, if a page says so.
        self.people: Optional[Names] = None
        # The next lines of the setup, if the program was seen to take them all.
        self._right: Deque[str] = deque()
        # The ends of the packets that were stepped here, the newest last.
        self.ends: Dict[str, None] = {}

    def join(self) -> str:
        """Follows the server, whose sessions are all connected, if it reports its setup; returns what there is to say about that."""
        assert isinstance(self.session, Client)
        self.session, setup, said = joined(self.session, self.program, self.setup if self.knows_setup else None)
        if setup:
            self.setup, self.knows_setup = setup, True
        return said

    def sit(self, session: Shared, setup: Setup) -> None:
        """Takes the session of a pair that is not one's own, with its setup."""
        self.session, self.setup, self.knows_setup, self.is_own = session, setup, True, False

    @property
    def shared(self) -> Optional[Shared]:
        """The session, if it follows its server."""
        return self.session if isinstance(self.session, Shared) else None

    @property
    def is_mirrored(self) -> bool:
        """Whether looks cost the server nothing."""
        return self.shared is not None and self.shared.has_mirror

    @property
    def has_free_looks(self) -> bool:
        """Whether a question costs no server anything: it would keep each one."""
        return self.is_own or self.is_mirrored

    @property
    def searches(self) -> bool:
        """Whether searches are answered: a server does not answer them, and if it is not followed, nothing else can."""
        return self.is_own or self.shared is not None

    def one_moment(self) -> ContextManager[None]:
        """Answers the questions within about one moment of the pair, though other sessions may change it in between."""
        return self.shared.one_moment() if self.shared else contextlib.nullcontext()

    def limit(self, limit: Limit) -> str:
        """A limit in words, with its number; the limits of a server are not known without its setup."""
        if self.knows_setup:
            return f"the limit `{limit.word}` is {self.setup.limits[limit]}"
        return f"the limit `{limit.word}` of the server is not known here ({limit.default} unless its setup says otherwise; see --setup)"

    # ---- lines

    @property
    def is_open(self) -> bool:
        return self.session is not None

    def take_setup(self, line: str) -> None:
        """Takes a line of the setup, or raises what is wrong with it."""
        if opens(line):
            self.open()
            return
        if self._right and self._right[0] == line.strip():
            self._right.popleft()
        else:
            self._right.clear()
            fault = check_setup(self.program, [*self.setup.lines, line])
            if fault:
                raise fault
        self.setup.add(line)

    def try_setup(self, lines: Sequence[str]) -> None:
        """Tries the lines of the setup among those that are to come, up to `open`, by one run of the program. If it takes them all, none
        needs a run of its own, as long as they come in this order."""
        coming = [it.strip() for it in takewhile(lambda it: not opens(it), lines) if is_of_setup(it)]
        if not self.is_open and len(coming) > 1 and not check_setup(self.program, [*self.setup.lines, *coming]):
            self._right = deque(coming)

    def pass_over(self, line: str) -> None:
        """Takes a line that is not read, such as a comment of the setup."""
        if not self.is_open:
            self.setup.pass_over(line)

    def open(self) -> None:
        fault = check_setup(self.program, self.setup.lines)
        if fault:
            raise fault
        self.session = Run(self.program, self.setup.lines)

    def ask(self, line: str) -> List[str]:
        """The reply to a line after the setup; empty if the line is passed over."""
        if not has_word(line):
            return []
        if self.session is None:
            raise Unknown("the pair is not set up: enter `rule NODE ..` for its rules, and then `open`")
        words = line.split()
        if words[0] == FOLLOW and self.shared:
            raise Unknown("this shell follows the server's journal already: `notes` shows what other sessions do")
        reply = self._searched(line) if words[0] == SEARCH and self.searches else self.session.ask(line)
        self.last = Asked(" ".join(words), tuple(reply))
        if reply[0].startswith(STEP.word) and words[2] == PACKET.word:
            self._keep_ends(*map(END.plain, words[6:8]))
        if reply[0] == "removed" and words[1] == self.in_use:
            self.in_use = self.names()[0]
        return reply

    def _keep_ends(self, source: str, destination: str) -> None:
        """Keeps the ends of a packet as the newest, and no more of the oldest than there is room for."""
        for end in (destination, source):
            self.ends.pop(end, None)
            self.ends[end] = None
        for it in [*self.ends][:-MOST_ENDS]:
            del self.ends[it]

    def show(self, branch: str) -> Pair:
        """The pair that a branch shows."""
        return read_shown(self._long_reply(f"show {branch}"))

    def past(self, branch: str, place: int) -> Pair:
        """The pair as it was after the first events of a branch, including those after its cursor."""
        return read_shown(self._long_reply(f"past {branch} {place}"))

    def explanation(self, branch: str, event: Union[int, str]) -> Explanation:
        """What came of the event at a place of a branch, even after its cursor, and why; or what would come of an event, given by its
        line, where the branch stands."""
        return read_explanation(self._long_reply(f"why {branch} {event}"))

    def flight(self, branch: str, ticket: int) -> Flight:
        """A frame that an event of a branch sent, even after its cursor, and what became of it."""
        return read_flight(self._long_reply(f"frame {branch} {ticket}"))

    def summary(self) -> str:
        """A server's answer to a viewer, who waits for no one: a few numbers of one moment, each with its name."""
        words = [] if self.is_own else self._quietly(VIEW)[0].split()
        if words[:1] in ([], ["bad"]):
            raise Unknown("`summary` asks a server; here `view` shows the pair")
        if words[0] != VIEW:
            return f"overtaken by other sessions in each of three tries, the last one from {words[1]} to {words[2]} commands"
        numbers = zip(SUMMARY, words[2:])
        return f"after {words[1]} commands of all sessions: " + ", ".join(f"{name} {number}" for name, number in numbers)

    def branch(self, name: str) -> Branch:
        """A branch with its events, including those that were undone."""
        return read_log(self._long_reply(f"log {name}"))

    def names(self) -> List[str]:
        """The names of the branches, in the order in which they were made."""
        return self._quietly(NAMES.word)[0].split()[1:]

    def _long_reply(self, line: str) -> List[str]:
        """A reply of many lines about a branch, whose name is the second word of the line."""
        reply, name = self._quietly(line), line.split()[1]
        if reply[-1] == "end":
            return reply
        # (a name of the wrong form makes a faulty line)
        if name not in self.names():
            raise Unknown(no_branch(name))
        what = f"no event of {name} sent a frame {line.split()[2]}" if reply[0] == NO_FRAME else f"the program answers `{reply[0]}` to `{line}`"
        raise Unknown(f"{what}; `log {name}` lists its events")

    def _quietly(self, line: str) -> List[str]:
        """The reply to a line that changes nothing, and whose reason no one asks for."""
        if self.session is None:
            raise Unknown("the pair is not set up: enter `rule NODE ..` for its rules, and then `open`")
        return self.session.ask(line)

    def _searched(self, line: str) -> List[str]:
        """The reply to a search, which can take long: if its branch exists, a run of its own is asked."""
        name = "".join(line.split()[1:2])
        if name not in self.names():
            return self._quietly(line)
        with self.aside(self.branch(name)) as run:
            return run.ask_freely(line)

    def close(self) -> None:
        if self.session is not None:
            self.session.close()
        if self.people is not None:
            self.people.close()

    # ---- questions, each answered by a run of its own

    def outcomes(self, events: Sequence[str]) -> List[str]:
        """What became of each event, from the opening on."""
        replies = self.run([f"step main {event}" for event in events])
        return [outcome_of(reply[0]) for reply in replies]

    def with_contents(self, pair: Pair, branch: Optional[Branch] = None) -> Pair:
        """A shown pair with the records of its frames, and with the packets that its nodes hold, from its branch: without the setup
        there is no way to know which those are."""
        for ticket, it in pair.frames.items():
            pair.frames[ticket] = it if it.broken else replace(it, records=self.flight(pair.branch, ticket).frame.records)
        if self.knows_setup and any(node.held for node in pair.nodes.values()):
            stood = (branch or self.branch(pair.branch)).events[: pair.cursor]
            with_packets(pair, held_packets(stood, self.outcomes(stood)))
        return pair

    @contextlib.contextmanager
    def aside(self, branch: Branch) -> Iterator[Run]:
        """A run of its own in which a branch stands as it does here. An interrupt may end that run, and leaves the pair here alone."""
        run = Run(self.program, self.setup.lines)
        try:
            for event in branch.events[: branch.cursor]:
                run.ask_freely(f"step main {event}")
            if branch.name != "main":
                run.ask_freely(f"fork main {branch.cursor} {branch.name}")
            yield run
        except Ended as why:
            raise Unknown(f"{why}: that was a run of its own, and the pair is as it was") from why
        finally:
            run.kill()

    @contextlib.contextmanager
    def beside(self, branch: Branch) -> Iterator["Laboratory"]:
        """A laboratory of its own in which a branch stands as it does here."""
        with self.aside(branch) as run:
            other = Laboratory(self.program, setup=self.setup)
            other.session = run
            yield other

    def run(self, lines: Sequence[str]) -> List[List[str]]:
        """The replies to commands, on a new pair with this setup, which must be known."""
        ran = run_lines(self.program, (*self.setup.lines, OPEN.word, *lines))
        if len(ran.replies) != len(lines):
            raise Ended("; ".join(ran.faults) or f"the program ended with status {ran.status}")
        return ran.replies


def is_of_setup(line: str) -> bool:
    """Whether a line says something of the setup; `kernel` alone asks what was said."""
    words = line.split()
    return has_word(line) and words[0] in SETUP and words != [KERNEL.word]


def no_branch(name: str) -> str:
    """A message that there is no such branch; a node is not a branch."""
    if name in NODES:
        return f"{name} is a node, and there is no branch of that name: `view {name}` shows it, and `diff` compares both"
    return f"there is no branch {name}; `names` lists them"


def event_of(words: Sequence[str]) -> str:
    """An event that was typed, as the program takes it; raises what is wrong with it."""
    event = " ".join(words)
    try:
        check_line(f"{STEP.word} main {event}", False)
    except LineFault as fault:
        raise Unknown(f"`{event}`: {fault.why}") from fault
    return event


def outcome_of(reply: str) -> str:
    """The outcome of an accepted event, from its reply; any other reply as it is."""
    return reply[len(_STEPPED) : reply.rindex(_DISCARDS)] if reply.startswith(_STEPPED) else reply
