"""The bridge between browsers and a server: one thread owns the session and the records of the branches, takes what browsers send,
one line after another, and makes news of what changed."""
from __future__ import annotations

from concurrent.futures import Future, ThreadPoolExecutor, TimeoutError as TookTooLong
from dataclasses import replace
from itertools import chain
from typing import Callable, Dict, Iterator, List, Optional, Sequence, Tuple, TypeVar

from ..console.colours import PLAIN
from ..depends.why import why_ahead
from ..language.commands import EXCISE, STEP as STEPS
from ..link.laboratory import Laboratory, Unknown
from ..link.mirror import Taken
from ..link.programs import Ended
from ..model.branches import Branch, common
from ..model.pair import Pair
from ..reasons.commands import explain_command, explain_done
from ..reasons.faulty import explain_fault
from .authors import Authors
from .change import Data, Shown, change
from .former import FormerRuns, Lost
from .journal import Journal, Names, Told, plain
from .news import News, message
from .offers import Offer, offers
from .packing import page
from .record import Record
from .runs import Run
from .session import Branches
from .typed import Claim, Typed, Wanted

# How often to look whether something happened, and how long a browser waits for an answer, in seconds.
PERIOD = 0.25
PATIENCE = 60.0
OTHERS = "another session"
NO_JOURNAL = "the server of this page does not report its journal, which a shell needs"
# What someone with the address for it may do.
STEP, WATCH = "step", "watch"
# How often to compare branches at the beginning, while other sessions may be changing them.
TRIES = 3
# Of how many events of a branch it is asked what they come to by other rules: at each step that is some runs of them.
MOST_MARKED = 300
# The name of a branch in the laboratory of its record.
MAIN = "main"

A = TypeVar("A")
T = TypeVar("T")


class KnownBranches(Laboratory):
    """The branches as they are known here, for the reasons of refusals: a server keeps all that it is asked, so it is not asked."""

    def __init__(self, program: str, branches: Dict[str, Branch]):
        super().__init__(program)
        self.branches = branches

    def names(self) -> List[str]:
        return list(self.branches)

    def show(self, branch: str) -> Pair:
        known = self.branches[branch]
        return Pair(known.name, len(known.events), known.cursor)


class Overtaken(Exception):
    """A line was sent before its page knew of a change that gives the line another meaning."""


class Bridge:
    """The pair of a server, for pages."""

    def __init__(self, program: str, run: Run, branches: Branches, watching: str = ""):
        self.news, self.journal = News(), Journal()
        self._names = Names()
        self._program, self._run, self._branches = program, run, branches
        # The token for watching, which a page has for links.
        self._watching = watching
        self._records = {record.name: record for record in run.records if not record.former}
        self._former = FormerRuns(program, run.setup, [record for record in run.records if record.former])
        self._lost: List[Lost] = []
        # The place in the journal of the newest command of the page's own session, if it is known.
        self._own: Optional[int] = None
        # For each branch the version with its newest change.
        self._versions: Dict[str, int] = {}
        self._authors = Authors()
        # The branches as pages have them; and the newest page of each kind, with its version.
        self._shown: Dict[str, Shown] = {}
        # What is offered where each branch stands, at the places that pages have asked about since its newest change.
        self._offered: Dict[str, Dict[str, List[Offer]]] = {}
        self._pages: Dict[str, Tuple[int, bytes]] = {}
        self._worker = ThreadPoolExecutor(1, "bridge")

    # ---- for any thread

    def begin(self) -> None:
        """Reads the branches."""
        self._submitted(self._begin).result()

    def watch(self) -> None:
        """Watches what other sessions do, until the server ends."""
        while True:
            self._submitted(self._hear).result()
            self._branches.wait(PERIOD)

    def do(self, typed: Typed) -> Data:
        """Gives the server a line; returns its reply, the reasons if there is something to say, and the version after it."""
        return self._awaited(self._do, typed)

    def offers(self, wanted: Wanted) -> Data:
        """What is offered at some places of a branch, and the version for which this holds."""
        return self._awaited(self._offers, wanted)

    def level(self, ignored: str = "") -> int:
        """How many commands the journal has once it has all that the server has."""
        return self._awaited(self._level, ignored)

    def claim(self, claim: Claim) -> Data:
        """Takes the name of a session, which is known once it has said its sign."""
        return self._awaited(self._claim, claim)

    @property
    def has_journal(self) -> bool:
        return self._branches.has_journal

    def told(self, may: str, place: int, seconds: float) -> Iterator[List[bytes]]:
        """Messages for a shell, up to the end: what it may do, the setup, and the commands after the first ones as they come; none where
        none come within this many seconds."""
        number = self.level()
        first = message({"may": may, "setup": list(self._branches.setup)})
        return chain([[first]], self._told(min(place, number), seconds))

    def _told(self, place: int, seconds: float) -> Iterator[List[bytes]]:
        while True:
            came = self.journal.after(place, seconds)
            place += len(came)
            yield [message({"told": came})] if came else self.news.ending
            if not came and self.news.has_ended:
                return
            if not self.has_journal:
                yield [message({"ended": NO_JOURNAL})]
                return

    def end(self, why: str) -> None:
        """Announces to all that nothing more will come."""
        self.news.end(why)
        self.journal.end()

    def page_for(self, may: str) -> bytes:
        """The page as of now, for someone who may do this."""
        return self._awaited(self._page, may)

    def close(self) -> None:
        """Ends the work, which goes faster once the session has ended, and closes the records."""
        self._worker.shutdown()
        for it in self._records.values():
            it.close()

    def _awaited(self, task: Callable[[A], T], argument: A) -> T:
        """What a task of the one thread returns, after those before it. A task that has not begun in time never begins."""
        future = self._submitted(task, argument)
        try:
            return future.result(PATIENCE)
        except TookTooLong as error:
            future.cancel()
            raise Ended(f"the server did not answer in {PATIENCE:.0f} seconds") from error
        except (OSError, Unknown) as error:
            # (for example if the program's file is gone: the next look ends the page)
            raise Ended(f"the page cannot continue: {error}") from error

    def _submitted(self, task: Callable[..., T], *arguments: object) -> "Future[T]":
        try:
            return self._worker.submit(task, *arguments)
        except RuntimeError as error:
            raise Ended("the page is no longer served") from error

    # ---- for the one thread

    def _begin(self) -> None:
        """Reads the branches, more than once if other sessions change them meanwhile."""
        for _ in range(TRIES):
            self._branches.look()
            self._learn("")
            self._changes("")
            differing = [name for name in self._shown if self._differs(name)]
            if not differing:
                self._page(STEP)
                return
        raise Unknown(f"{differing[0]} is not the same here as at the server: the server has another setup")

    def _differs(self, name: str) -> bool:
        """Whether the server and the record show a branch differently."""
        own, its = self._records[name].laboratory.show(MAIN), self._branches.shown(name)
        return its is None or (own.nodes, own.frames) != (its.nodes, its.frames)

    def _hear(self) -> None:
        self._branches.hear()
        self._publish(self._learn(""), "", ())

    def _look(self) -> None:
        self._branches.look()
        self._publish(self._learn(""), "", ())

    def _level(self, ignored: str) -> int:
        self._look()
        return len(self.journal)

    def _claim(self, claim: Claim) -> Data:
        self._look()
        return {"session": self._names.claim(claim.sign, claim.name)}

    def _do(self, typed: Typed) -> Data:
        self._look()
        newest, name = self._versions.get(typed.takes_from, 0), typed.takes_from
        if typed.version is not None and typed.version < newest:
            raise Overtaken(f"somebody was faster: {name} has changed since this page last heard of it")
        self._own = None
        reply = self._branches.ask(typed.line)
        first, words = reply[0].split(), typed.line.split()
        self._learn(typed.name)
        if first[0] not in ("bad", "refused"):
            if self._own is None:
                self._authors.follow(words, first)
            self._publish(typed.name, typed.line, reply)
        return {"reply": reply, "why": self._why(words, typed.line, reply[0]), "version": self.news.version, "entry": self._own}

    def _learn(self, who: str) -> str:
        """Takes the commands that came since, those of the page's own session as this person's; returns who gave the others."""
        others = []
        for taken in self._branches.taken():
            is_own = self._branches.is_own(taken.entry)
            if taken.entry.changes:
                its = who if is_own else self._names.of(taken.entry.session)
                others += [its or OTHERS] * (not is_own)
                self._take(taken, its, is_own)
            else:
                self._names.hear(taken.entry.session, taken.entry.command)
        return " and ".join(dict.fromkeys(others)) or OTHERS

    def _take(self, taken: Taken, who: str, is_own: bool) -> None:
        """Takes a command that changes the pair, or is refused."""
        command = plain(taken.entry.command)
        words, first = command.split(), "".join(taken.reply[:1]).split()
        if first[:1] == [STEPS.word]:
            self._authors.step(words, first, who if is_own else who or OTHERS)
        elif first:
            self._authors.follow(words, first)
        self.journal.add(Told(taken.entry.number, 0 if is_own else taken.entry.session, who, command))
        if is_own:
            self._own = len(self.journal)

    def _offers(self, wanted: Wanted) -> Data:
        found: List[Offer] = []
        if wanted.branch in self._shown:
            known = self._offered.setdefault(wanted.branch, {})
            lacking = [place for place in wanted.places if place not in known]
            branch = replace(self._shown[wanted.branch].branch, name=MAIN)
            new = offers(self._records[wanted.branch].laboratory, branch, lacking) if lacking else []
            known.update({place: [it for it in new if it.place == place] for place in lacking})
            found = [offer for place in wanted.places for offer in known[place]]
        return {"version": self.news.version, "offers": found}

    def _page(self, may: str) -> bytes:
        version, content = self._pages.get(may, (-1, b""))
        if version != self.news.version:
            content = page(self._all(may), served=True).encode()
            self._pages[may] = (self.news.version, content)
        return content

    def _all(self, may: str) -> Data:
        live = {"may": may, "watch": self._watching, "version": self.news.version, "people": self.news.people}
        branches = [self._records[name].as_data() for name in self._shown]
        return {**self._run.head, "branches": [*branches, *self._former.data], "live": live}

    def _publish(self, who: str, line: str, reply: Sequence[str]) -> None:
        """Makes news of what changed, if something did."""
        before = list(self._shown)
        changes = self._changes(who)
        names = list(self._shown)
        self._former.leave([it.branch for it in self._shown.values()])
        if changes or names != before:
            self._announce({"who": who, "line": line, "reply": list(reply), "branches": changes})
            self._versions.update({it["name"]: self.news.version for it in changes})
        lost, self._lost = self._lost, []
        for run in self._former.take(lost):
            its_chart = dict(run["chart"], count=len(run["chart"]["sheets"]), sheets=dict(enumerate(run["chart"]["sheets"])))
            self._announce({"who": who, "line": "", "reply": [], "branches": [dict(run, keep=0, chart=its_chart)]})

    def _announce(self, update: Data) -> None:
        """Makes news of an update, with the order of the branches."""
        self.news.publish({**update, "order": [*self._shown, *(it["name"] for it in self._former.data)]})

    def _changes(self, who: str) -> List[Data]:
        """Updates the records to the branches; returns what changed in each."""
        now, before = self._branches.by_name, self._shown
        made = {it.name: self._changed(it, who) for it in now.values() if it.name not in before or it != before[it.name].branch}
        for name in before.keys() - now.keys():
            self._records.pop(name).close()
        for name in {*made, *(before.keys() - now.keys())}:
            self._offered.pop(name, None)
        self._shown = {name: made[name][0] if name in made else before[name] for name in now}
        return [its_change for _, its_change in made.values()]

    def _changed(self, branch: Branch, who: str) -> Tuple[Shown, Data]:
        """A branch as it is now, and what changed in it. A record that fails, for example as its program is gone, is remade once."""
        names, old = self._authors.names(branch, who), self._shown.get(branch.name)
        if old and common(old.branch.events, branch.events) < len(old.branch.events):
            self._lost.append(Lost(old.branch, old.names))
        try:
            return self._recorded(branch, names)
        except Exception:
            return self._recorded(branch, names)

    def _recorded(self, branch: Branch, names: Sequence[str]) -> Tuple[Shown, Data]:
        """Updates the record to a branch, whose events these people stepped."""
        record = self._records.pop(branch.name, None) or Record(self._program, self._run.setup, branch.name)
        old = self._shown.get(branch.name)
        try:
            # (what the script says about events that are gone is gone, too)
            record.keep_texts(common(old.branch.events, branch.events) if old else len(branch.events))
            keep = record.sync(branch)
            record.mark(MOST_MARKED)
            for moment, who in zip(record.moments[keep:], names[keep:]):
                moment.who = who
            new = Shown(branch, names, record.chart_as_data())
            its_change = change(old, new, record, keep)
        except Exception:
            record.close()
            raise
        self._records[branch.name] = record
        return new, its_change

    def _why(self, words: Sequence[str], line: str, reply: str) -> List[str]:
        """Why the program did not take a line; or what fell out with an event that was taken out."""
        if reply.startswith("bad "):
            return explain_fault(line, reply)
        if not reply.startswith("refused "):
            return explain_done(words, reply) if words[0] == EXCISE.word else []
        try:
            if "Event" in reply.split():
                return why_ahead(self._records[words[1]].laboratory, MAIN, " ".join(words[2:]), PLAIN)
            return explain_command(KnownBranches(self._program, self._branches.by_name), line, reply)
        except (Unknown, Ended, KeyError):
            return ["other sessions have changed the branches since: as they are now, they do not show why"]
