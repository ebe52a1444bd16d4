"""A branch moment by moment, kept by a run of the program of its own, in which the branch stands as in the pair."""
from __future__ import annotations

from dataclasses import replace
from typing import Dict, List, Mapping, Sequence

from ..charts.chart import drawn
from ..charts.picture import Drawing
from ..depends.otherwise import MOST_EVENTS, NONE, marks_of
from ..language.commands import BACK, FRAME, SHOW, STEP, WHY
from ..language.events import FLUSH, OF_FRAME, PACKET, REPEAT
from ..language.names import Name
from ..link.laboratory import Laboratory, Unknown
from ..model.branches import Branch, common
from ..model.explanations import read_explanation
from ..model.flights import read_flight
from ..model.held import held_packets, with_packets
from ..model.pair import Pair
from ..model.setups import Setup
from ..reasons.questions import at_other_node
from .facts import Facts, Looker
from .moments import Known, Moment, moment, unseen

# How many lines of shown pairs are read for the new events of a branch, besides those after the last one. In a longer run the pair is
# not looked at after each event.
MOST_SHOWN = 2_500_000


class Record:
    """A branch of a pair, moment by moment."""

    def __init__(self, program: str, setup: Setup, name: str, former: bool = False) -> None:
        """A record without events. A former branch is what a branch was before its events were undone and others stepped."""
        self.name, self.former, self.undone = name, former, 0
        # The paragraphs about events, those after them, and the branches that begin there, by the numbers of the events.
        self.notes: Mapping[int, Sequence[str]] = {}
        self.after: Mapping[int, Sequence[str]] = {}
        self.forks: Mapping[int, Sequence[str]] = {}
        # Which events come to something else by other rules.
        self.marks = NONE
        self._marked: List[str] = []
        self.laboratory = Laboratory(program, setup=setup)
        self.laboratory.open()
        assert self.laboratory.session
        self._session = self.laboratory.session
        self.moments: List[Moment] = []
        self._known = Known()
        self._packets: Dict[Name, str] = {}
        self._looker = Looker(setup, self._with_contents)
        self._drawing = Drawing()
        self._shown = 0
        # The moment of the last look at the pair.
        self._looked = 0
        self.opening = self._looker.take(self._show()).edits

    def sync(self, branch: Branch) -> int:
        """Updates it to the events of a branch that stand; returns how many of its moments are unchanged."""
        events = branch.events[: branch.cursor]
        same = common(events, [it.event for it in self.moments])
        kept = self._take_back(same) if same < len(self.moments) else same
        self._shown = 0
        for number, event in enumerate(events[same:], 1):
            self._step(event, number, len(events) - same)
        self.undone = len(branch.events) - branch.cursor
        return kept

    def mark(self, most: int = MOST_EVENTS) -> None:
        """Asks which of its first events come to something else by other rules, in runs of their own."""
        events = [it.event for it in self.moments[:most]]
        if events != self._marked:
            self.marks, self._marked = marks_of(self.laboratory.program, self.laboratory.setup, events), events

    def keep_texts(self, number: int) -> None:
        """Keeps only the paragraphs of the first events, and the branches that begin after them."""
        all_texts = (self.notes, self.after, self.forks)
        self.notes, self.after, self.forks = ({at: those for at, those in text.items() if at <= number} for text in all_texts)

    def close(self) -> None:
        self.laboratory.close()

    # ---- for a page

    def as_data(self) -> Dict[str, object]:
        """Everything about the branch, for JSON."""
        its: Dict[str, object] = {"name": self.name, "former": self.former, "undone": self.undone, "opening": self.opening}
        its["notes"] = list(self.after.get(0, ()))
        its["forks"] = {str(place): list(names) for place, names in sorted(self.forks.items())}
        return {**its, "moments": self.moments_as_data(), "chart": self.chart_as_data()}

    def moments_as_data(self, first: int = 0) -> List[Dict[str, object]]:
        """The moments after the first ones."""
        numbered = enumerate(self.moments[first:], first + 1)
        return [it.as_data(self.notes.get(number, ()), self.after.get(number, ()), self.rules(number)) for number, it in numbered]

    def rules(self, number: int) -> List[str]:
        """By which other rules an event comes to something else, and to what; and since when the run is another one."""
        others = [f"{by}: a different run from here on" for by, since in self.marks.partings.items() if since == number]
        return [*map(str, self.marks.of.get(number, [])), *others]

    def chart_as_data(self) -> Dict[str, object]:
        """The chart of the events that stand."""
        return self._drawing.plain(drawn(self.name, self._known.explained, self.undone, forks=self.forks))

    # ---- events

    def _step(self, event: str, at: int, last: int) -> None:
        """Steps an event: the one at this place among the new ones."""
        number, word = len(self.moments) + 1, event.split()[0]
        sends = word in (FLUSH.word, REPEAT.word)
        is_seen, was_seen = self._affords(at, last), self._looked == number - 1
        lines = [f"{STEP.word} main {event}", f"{WHY.word} main {number}"]
        # (tickets are counted from 1)
        lines += [f"{FRAME.word} main {len(self._known.flights) + 1}"] * sends + [f"{SHOW.word} main"] * is_seen
        # What a packet would do at the other node is asked before it comes.
        asked = [f"{WHY.word} main {at_other_node(event)}"] * (word == PACKET.word)
        answers = self._session.ask_together([*asked, *lines])
        (stepped, *_), why, *replies = answers[len(asked) :]
        if not stepped.startswith(STEP.word):
            raise Unknown(f"`{event}` was answered `{stepped}` when {self.name} was played again")
        explanation = read_explanation(why)
        self._known.at_peer = read_explanation(answers[0]) if asked else None
        self._known.lines.append(event)
        self._known.explained.append((explanation, read_flight(replies[0]) if sends else None))
        self._remember(number)
        look = self._looker.take(replies[-1]) if is_seen else None
        if look:
            self._looked = number
            self._shown += len(replies[-1])
        self.moments.append(moment(self.laboratory, self._known, look) if look and was_seen else unseen(explanation, look))

    def _remember(self, number: int) -> None:
        """Notes the frame that an event sent, or what happened to a frame, and the packet that was held."""
        explanation, flight = self._known.explained[number - 1]
        self._packets.update(held_packets([explanation.event.line], [explanation.event.came]))
        if flight:
            self._known.flights[flight.ticket] = replace(flight, later=[])
        if explanation.event.words[0] in OF_FRAME:
            self._known.flights[int(explanation.event.words[1])].later.append(explanation.event)

    def _affords(self, at: int, last: int) -> bool:
        """Whether the pair is looked at after an event: always after the last one."""
        return at == last or self._shown + len(self._looker.facts) <= MOST_SHOWN * at // last

    def _take_back(self, number: int) -> int:
        """Goes back to the first events; returns how many moments are unchanged."""
        self.laboratory.ask(f"{BACK.word} main {len(self.moments) - number}")
        del self.moments[number:], self._known.lines[number:], self._known.explained[number:]
        self._known.flights.clear()
        self._packets.clear()
        for place in range(number):
            self._remember(place + 1)
        self._looker.take(self._show())
        self._looked = number
        return self._mended(number)

    def _mended(self, number: int) -> int:
        """Makes the newest moment show what was just looked up, if the pair had not been looked at after it."""
        facts = dict(self.opening)
        for it in self.moments:
            facts.update(it.edits or {})
        old = {key: value for key, value in facts.items() if value is not None}
        new = self._looker.facts
        edits: Facts = {key: new.get(key) for key in sorted({*old, *new}) if old.get(key) != new.get(key)}
        if not edits:
            return number
        newest = self.moments[-1]
        newest.edits = {**(newest.edits or {}), **edits}
        return number - 1

    # ---- looks

    def _show(self) -> List[str]:
        return self.laboratory.ask(f"{SHOW.word} main")

    def _with_contents(self, pair: Pair) -> Pair:
        """A pair with the records of its frames, and with the packets that its nodes hold."""
        for ticket, it in pair.frames.items():
            pair.frames[ticket] = it if it.broken else replace(it, records=self._known.flights[ticket].frame.records)
        return with_packets(pair, self._packets)
