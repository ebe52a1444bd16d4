"""The branches of a pair as a session of its server has them."""
from __future__ import annotations

import time
from dataclasses import replace
from typing import Dict, List, Optional, Sequence, Union

from ..language.commands import LOG, NAMES, SHOW, STEP
from ..language.events import plain_event
from ..link.mirror import Entry, Shared, Taken
from ..link.programs import FULL, VIEW, Client, Ended, Session, commands_of
from ..model.branches import Branch, read_log
from ..model.pair import Pair, read_shown

# How long to wait, at most, before branches whose numbers look the same are read again.
LONGEST_PAUSE = 30.0


class Branches:
    """The branches, followed by the replies to this session's own commands, and read again if other sessions have changed something."""

    def __init__(self, session: Session):
        self.session = session
        self.by_name: Dict[str, Branch] = {}
        self._is_stale = True

    @property
    def has_journal(self) -> bool:
        """Whether each command of the server is known."""
        return False

    @property
    def setup(self) -> Sequence[str]:
        """The lines of the setup that the server reports, comments among them."""
        return ()

    def taken(self) -> List[Taken]:
        """The commands of all sessions that were not returned before, if they are known."""
        return []

    def is_own(self, entry: Entry) -> bool:
        """Whether this session gave a command."""
        return False

    def look(self) -> None:
        """Updates the branches."""
        raise NotImplementedError

    def hear(self) -> None:
        """Updates the branches, as far as that is possible without asking a server that is followed."""
        raise NotImplementedError

    def wait(self, seconds: float) -> None:
        """Waits until something may have happened, at most this many seconds."""
        raise NotImplementedError

    def ask(self, line: str) -> List[str]:
        """The reply to a command that changes the pair, with the branches as they are after it."""
        raise NotImplementedError

    def shown(self, name: str) -> Optional[Pair]:
        """The pair that the server shows; none if the branch is gone."""
        lines = self._ask(f"{SHOW.word} {name}")
        return read_shown(lines) if lines[-1] == "end" else None

    def read(self) -> None:
        """Reads all branches."""
        self._is_stale = False
        logs = [self._ask(f"{LOG.word} {name}") for name in self._ask(NAMES.word)[0].split()[1:]]
        # (a branch can be gone by now)
        self.by_name = {it.name: it for it in map(read_log, (lines for lines in logs if lines[-1] == "end"))}

    def _ask(self, line: str) -> List[str]:
        """A command's reply."""
        reply = self.session.ask(line)
        if reply == [FULL]:
            raise Ended("the server has taken all the commands that it can, and takes no more")
        return reply

    def _follow(self, words: Sequence[str], reply: Sequence[str]) -> None:
        """Changes a branch as the reply to a command says."""
        branch = self.by_name.get("".join(words[1:2]), Branch(""))
        if reply[0] == STEP.word:
            events = [*branch.events[: branch.cursor], plain_event(words[2:])]
            self.by_name[branch.name] = Branch(branch.name, events, len(events))
        elif reply[0] == "at":
            self.by_name[branch.name] = replace(branch, cursor=int(reply[1]))
        elif reply[0] == "forked":
            self.by_name[words[3]] = Branch(words[3], branch.events[: int(words[2])], int(words[2]))
        elif reply[0] == "removed":
            del self.by_name[branch.name]
        elif reply[0] in ("excised", "restored"):
            self.by_name[branch.name] = read_log(self._ask(f"{LOG.word} {branch.name}"))


class FollowedBranches(Branches):
    """The branches of a server that is followed. It sends each command, so it is asked for a view only before a command of our own;
    the branches are read from the mirror."""

    def __init__(self, session: Shared):
        super().__init__(session)
        self._shared = session
        session.heard = self._hear
        self._returned = 0

    @property
    def has_journal(self) -> bool:
        return self._shared.has_mirror

    @property
    def setup(self) -> Sequence[str]:
        return self._shared.setup

    def taken(self) -> List[Taken]:
        new = self._shared.taken[self._returned :]
        self._returned += len(new)
        return new

    def is_own(self, entry: Entry) -> bool:
        return entry.session in (0, self._shared.number)

    def look(self) -> None:
        self._shared.level()
        self._renew()

    def hear(self) -> None:
        self._shared.hear()
        self._renew()

    def wait(self, seconds: float) -> None:
        self._shared.client.watch(seconds)

    def ask(self, line: str) -> List[str]:
        reply = self._ask(line)
        if not self._shared.is_level:
            self._shared.level()
        if self._is_stale:
            self.read()
        else:
            self._follow(line.split(), reply[0].split())
        return reply

    def read(self) -> None:
        with self._shared.one_moment():
            super().read()

    def _hear(self, entry: Entry, reply: Optional[List[str]]) -> None:
        self._is_stale = True

    def _renew(self) -> None:
        if self._is_stale:
            self.read()


class PolledBranches(Branches):
    """The branches of a server that does not send its commands: a `view`, which is no command and waits for no one, says whether other
    sessions gave any."""

    def __init__(self, session: Client):
        super().__init__(session)
        # How many commands the server has taken, as far as known here, and the other numbers of the newest view.
        self._commands, self._numbers = 0, [""]
        self._pause, self._not_before = 0.0, 0.0

    def look(self) -> None:
        """Reads the branches again if they may have changed. If only the number of commands in the view changes, others have mostly
        asked questions, and a reading looks like a command to them in turn: so each reading that brings nothing makes the next wait
        longer."""
        self._see()
        if self._is_stale and time.monotonic() >= self._not_before:
            before = dict(self.by_name)
            self.read()
            self._pause = min(LONGEST_PAUSE, 2 * self._pause + 0.5) if self.by_name == before else 0.0
            self._not_before = time.monotonic() + self._pause

    hear = look

    def wait(self, seconds: float) -> None:
        time.sleep(seconds)

    def ask(self, line: str) -> List[str]:
        reply = self._ask(line)
        self._see()
        if self._is_stale:
            self.read()
        else:
            self._follow(line.split(), reply[0].split())
        return reply

    def _see(self) -> None:
        """Looks whether other sessions gave commands, and whether anything but their number changed."""
        view = self.session.ask(VIEW)[0]
        commands, numbers = commands_of(view), view.split()[2:]
        if not view.startswith(f"{VIEW} ") or numbers != self._numbers:
            self._not_before = 0.0
        self._is_stale = self._is_stale or commands != self._commands
        self._commands, self._numbers = commands, numbers

    def _ask(self, line: str) -> List[str]:
        reply = super()._ask(line)
        self._commands += 1
        return reply


def branches_of(session: Union[Client, Shared]) -> Branches:
    """The branches of a session, depending on what its server sends."""
    return FollowedBranches(session) if isinstance(session, Shared) else PolledBranches(session)
