"""The dialogue: lines in, replies out, and the words for people between them."""
from __future__ import annotations

import difflib
import os
import re
import sys
from typing import IO, TYPE_CHECKING, Iterable, List, Optional, Sequence, Set, Tuple

from ..console.characters import shown_safely, without_mark, written_out
from ..console.colours import Paint
from ..console.fitting import shortened
from ..language import helps, pf_conf
from ..language.commands import KERNEL, SETUP, STEP
from ..language.events import BROKEN, DELIVER, DROPPED, EVENTS, TICK
from ..language.forms import GREATEST, NAME as STATE_NAME
from ..language.lines import content_of, has_word, lines_of, opens
from ..language.names import NODES, Name
from ..language.searches import GAVE_UP, SEARCH
from ..link import macros
from ..link.laboratory import Asked, Laboratory, Unknown, event_of
from ..link.programs import Ended, SetupFault
from ..model.branches import Branch
from ..scripts import texts, verifying
from ..scripts.annotating import DRY_RUN, NotWritten, about_slips, annotate
from ..scripts.kinds import OtherFile
from ..scripts.stories import Story
from ..shows import changes, diffs, logs, views
from ..shows.words import counted
from . import places
from .loop import Loop

# (what explains, searches, draws and plays again is imported where it is asked for, so that the first prompt comes early)
if TYPE_CHECKING:
    from ..searches.finder import Finder

# A script to begin with, if it is there.
EXAMPLE = "examples/lost-insertion.pfl"
BAD_WORDS = ("bad", "refused")
# What other programs call a word.
OTHERS_SAY = {"undo": "back", "redo": "forward", "next": "forward"}
# The first words of lines in which IPv6 addresses are written out.
WITH_ADDRESSES = {*helps.SETUP, *helps.COMMANDS, *helps.EVENTS, "why", SEARCH}
# Outcomes of an event that deserve a look.
BAD_OUTCOMES = (DROPPED.word, BROKEN.word)


class Stopped(Exception):
    """A refused or faulty line, when the first one ends the shell."""


class Shell(Loop):
    """A dialogue with a laboratory."""

    def __init__(self, lab: Laboratory, out: IO[str], paint: Paint, strict: bool = False, is_typed: bool = False):
        super().__init__(lab, out, paint, is_typed)
        self.strict = strict
        self.lines: List[Tuple[str, Sequence[str]]] = []
        self.has_faults = False
        # The forms of lines that were shown with a fault.
        self.forms: Set[str] = set()
        # The files being read, newest last.
        self.reading: List[str] = []
        # The lines of the newest reply that no line of a script has repeated yet.
        self.unrepeated: List[str] = []
        self._finder: Optional[Finder] = None

    @property
    def finder(self) -> Finder:
        """What searches for this shell, and keeps what it found."""
        from ..searches.finder import Finder

        self._finder = self._finder or Finder(self)
        return self._finder

    # ---- the loop

    def take(self, lines: Iterable[str], echo: bool) -> bool:
        """Takes lines in turn; returns whether one of them ends the shell."""
        if isinstance(lines, list):
            self.lab.try_setup(lines)
        for line in lines:
            if echo:
                self.echo(line)
            if self.onecmd(line):
                return True
        return False

    def echo(self, line: str) -> None:
        """Shows a line that was read. At a terminal a comment is folded, and a reply that the script repeats is not shown again."""
        if not self.is_typed or has_word(line):
            self.show_whole([self.paint.dim(f"> {self.safe(line)}")])
        elif not line.startswith(verifying.REPLY) or not self.is_repeated(content_of(line)[len(verifying.REPLY) :]):
            self.show([self.paint.dim(f"> {self.safe(line)}")])

    def safe(self, text: str) -> str:
        """A text of somebody else's, which sends a terminal no control characters. Elsewhere it is as it is."""
        return text if self.columns is None else shown_safely(content_of(text))

    def is_repeated(self, text: str) -> bool:
        """Whether this is the next line of the newest reply, as it was shown."""
        return bool(self.unrepeated) and self.unrepeated.pop(0) == text

    def greet(self) -> None:
        """Says how to begin, where a pair has no setup yet."""
        if not self.lab.is_open:
            example = f"`read {EXAMPLE}` shows one; " if os.path.exists(EXAMPLE) else ""
            self.show([self.paint.dim(f"enter rules, then `open`; {example}`help`")])

    def suggest(self) -> None:
        """Says what to ask after a file was read at a terminal."""
        if not self.is_typed or not self.lab.is_open or not self.lab.has_free_looks:
            return
        branch = self.branch("")
        if branch.events:
            place = branch.cursor or len(branch.events)
            self.show([self.paint.dim(f"{counted(len(branch.events), 'event')}; try: view, diff, why {place}, chart")])

    def onecmd(self, line: str) -> bool:
        """Takes one line; returns whether it ends the shell. If a question fails, that is reported, and nothing has changed."""
        try:
            with self.lab.one_moment():
                return bool(super().onecmd(self.written_out(line)))
        except (Stopped, Ended, BrokenPipeError):
            raise
        except SetupFault as fault:
            self.explain(line, fault.fault)
            self.fault(f"this line is left out of the setup: {fault.words}")
        except OSError as error:
            self.fault(f"{error.filename}: {error.strerror}" if error.filename else str(error))
        except (Unknown, macros.NotQuiet, NotWritten, OtherFile) as error:
            self.fault(str(error))
        except Exception as error:  # a fault of the shell's own must not cost the pair
            self.fault(f"the shell failed here, but the pair is as it was: {error!r}")
        return False

    def written_out(self, line: str) -> str:
        """A line with its IPv6 addresses written out, as it is shown then; a line that has none as it is."""
        if not has_word(line) or line.split()[0] not in WITH_ADDRESSES:
            return line
        whole = written_out(line)
        if whole != line:
            self.show_whole([self.paint.dim(f"> {self.safe(whole)}")])
        return whole

    def fault(self, text: str) -> None:
        """Reports what could not be done; if faults stop the shell, this one does."""
        self.has_faults = True
        self.show([self.paint.bad(self.safe(shortened(text)))])
        if self.strict:
            raise Stopped(text)

    def explain(self, line: str, reply: str) -> None:
        """Shows what is wrong with a line. The form of what was meant comes once in a dialogue."""
        from ..reasons.faulty import explain_fault

        word = line.split()[0]
        known = word in helps.WORDS
        lines = explain_fault(line, reply, self.columns, self.forms) if known else [shortened(unknown_word(word))]
        self.show([self.safe(it) for it in lines])

    # ---- lines of the language

    def default(self, line: str) -> None:
        """A line of the laboratory's own language, or an event alone, which goes to the branch in use."""
        words = line.split()
        if not has_word(line):
            self.lines.append((line, ()))
            self.lab.pass_over(line)
        elif not self.lab.is_open and words[0] not in helps.WORDS:
            raise Unknown(unknown_word(words[0]))
        elif words == [KERNEL.word]:
            self.show_kernel()
        elif words[0] in SETUP:
            self.setup_line(line)
        elif words[0] == SEARCH:
            self.finder.search(line)
        elif words[0] in EVENTS:
            self.events(self.lab.in_use, " ".join(words))
        elif words[0] == STEP.word and len(words) > 2:
            self.events(words[1], " ".join(words[2:]), line)
        else:
            own = places.line_for(self.lab, words)
            self.stand_in(own) if own else self.ask(line)

    def stand_in(self, line: str) -> bool:
        """Asks a line in place of what was typed; returns whether it was neither refused nor faulty."""
        self.show_whole([self.paint.dim(f"> {line}")])
        return self.ask(line)

    def record(self, asked: Asked) -> None:
        """Shows a line that was asked in a run of its own, in place of what was typed, and takes it with its reply into the script."""
        self.lines.append((asked.line, asked.reply))
        self.unrepeated = [*asked.reply]
        self.show_whole([self.paint.dim(f"> {asked.line}")])

    def setup_line(self, line: str) -> None:
        if self.lab.is_open:
            self.ask(line)
            return
        self.lab.take_setup(line)
        self.lines.append((line, ()))
        if opens(line) and self.is_typed:
            self.show([self.paint.dim("the pair is set up; its branch is main. `help` lists the words.")])
            self.show([self.paint.note(warning) for warning in self.lab.setup.kernel.warnings])

    def show_kernel(self) -> None:
        """Says which rules are the kernel's, and what to know about them."""
        if not self.lab.knows_setup:
            raise Unknown("which rules are the kernel's is in the server's setup, which is not known here: see --setup")
        kernel = self.lab.setup.kernel
        self.show(["the profile; no switch is on" if kernel.is_profile else kernel.line, *map(self.paint.note, kernel.warnings)])

    def events(self, branch: str, event: str, line: str = "") -> None:
        """Lets an event happen, or those that `tick both` and `deliver all` stand for."""
        words = event.split()
        if words[:2] == [TICK.word, TICK.every] and len(words) == 3:
            self.steps(branch, macros.ticks(words[2]))
        elif words == [DELIVER.word, DELIVER.every]:
            deliveries = macros.deliveries(self.lab.show(branch))
            if not deliveries:
                self.fault("no frame is in flight")
            self.steps(branch, deliveries)
        else:
            self.ask(line or f"step {branch} {event}")

    def steps(self, branch: str, events: Iterable[str]) -> None:
        for event in events:
            if not self.step(branch, event):
                return

    def step(self, branch: str, event: str) -> bool:
        """A step that is a part of what was typed; returns whether it was accepted."""
        return self.stand_in(f"step {branch} {event}")

    def ask(self, line: str) -> bool:
        """Asks a line and shows the reply; returns whether it was neither refused nor faulty."""
        in_use = self.lab.in_use
        reply = self.lab.ask(line)
        self.lines.append((line, tuple(reply)))
        self.unrepeated = [*reply]
        self.show_whole([self.painted(it) for it in reply])
        if self.lab.in_use != in_use:
            self.show([self.paint.note(f"the branch in use is now {self.lab.in_use}")])
        words = reply[0].split()
        if words[0] not in BAD_WORDS:
            return True
        self.has_faults = self.has_faults or words[0] == "bad"
        if self.is_typed and words[0] == "bad":
            self.explain(line, reply[0])
        elif self.is_typed and self.lab.has_free_looks:
            from ..depends.why import why_last

            self.show(why_last(self.lab, self.paint, self.columns)[1:2])
        if self.strict:
            raise Stopped(f"`{line}`: {reply[0]}")
        return False

    def painted(self, line: str) -> str:
        line = self.safe(line)
        words = line.split()
        if words[0] in BAD_WORDS or (words[0] == STEP.word and words[1] in BAD_OUTCOMES):
            return self.paint.bad(line)
        return self.paint.note(line) if words[0] == GAVE_UP else line

    # ---- questions

    def branch(self, name: str) -> Branch:
        return self.lab.branch(name or self.lab.in_use)

    def place(self, words: Sequence[str], what: str) -> Tuple[Branch, int]:
        """The branch and the place of an event, from the words `[BRANCH] [K]`; without K, the newest event that stands."""
        rest = list(words)
        number = rest.pop() if rest and rest[-1].isdecimal() else ""
        if len(rest) > 1:
            raise Unknown(usage(what))
        branch = self.branch(rest[0] if rest else "")
        if not branch.events:
            raise Unknown(f"{branch.name} has no events")
        places = {str(place): place for place in range(1, len(branch.events) + 1)}
        if number and number not in places:
            raise Unknown(f"{branch.name} has no event {number}: they are counted from 1 to {len(branch.events)}")
        return branch, places[number] if number else max(branch.cursor, 1)

    def do_view(self, words: str) -> None:
        setup = self.lab.setup if self.lab.knows_setup else None
        names = words.split()
        part = names.pop() if names and self.is_part(names) else ""
        place = int(names.pop()) if names and names[-1].isdecimal() else None
        if len(names) > 1:
            raise Unknown(usage(helps.VIEW))
        name = names[0] if names else self.lab.in_use
        pair = self.lab.show(name) if place is None else self.lab.past(name, place)
        if part and part not in NODES and not any(Name.read(part) in node.states for node in pair.nodes.values()):
            raise Unknown(f"neither node has a state {part}")
        self.answer(views.view(self.lab.with_contents(pair), setup, self.paint, self.columns, part))

    def is_part(self, names: Sequence[str]) -> bool:
        """Whether the last of these words is a state or a node, and not a branch of the same name."""
        is_node = names[-1] in NODES and (len(names) > 1 or names[0] not in self.lab.names())
        return is_node or STATE_NAME.wrong(names[-1]) is None

    def do_diff(self, words: str) -> None:
        names = words.split()
        setup = self.lab.setup if self.lab.knows_setup else None
        if names == list(NODES) and not {*names} <= {*self.lab.names()}:
            names = []
        if len(names) > 2:
            raise Unknown(usage("diff"))
        if len(names) == 2:
            self.answer(diffs.between_branches(self.lab, self.branch(names[0]), self.branch(names[1]), self.paint))
        else:
            self.answer(diffs.between_nodes(self.lab.show(names[0] if names else self.lab.in_use), setup, self.paint))

    def do_log(self, words: str) -> None:
        self.answer(logs.log(self.lab, self.branch(words.strip()), self.paint))

    def do_changes(self, words: str) -> None:
        branch, number = self.place(words.split(), "changes")
        self.answer(changes.changes(self.lab, branch, number, self.paint))

    def do_why(self, words: str) -> None:
        from ..depends.why import why_ahead, why_event, why_last

        said = words.split()
        # An event that has not happened begins with its word, after a branch if one is given.
        begin = next((at for at, word in enumerate(said[:2]) if word in EVENTS), None)
        if not said:
            self.answer(why_last(self.lab, self.paint, self.columns))
        elif begin is not None:
            self.answer(why_ahead(self.lab, said[0] if begin else self.lab.in_use, event_of(said[begin:]), self.paint))
        else:
            self.answer(why_event(self.lab, *self.place(said, "why"), self.paint))

    def do_frame(self, words: str) -> None:
        *names, ticket = self.needed(words, "frame").split()
        if len(names) > 1 or not re.fullmatch("[0-9]{1,10}", ticket) or int(ticket) > GREATEST:
            raise Unknown(usage("frame"))
        branch, setup = self.branch(names[0] if names else ""), self.lab.setup if self.lab.knows_setup else None
        self.answer(views.flight(self.lab.flight(branch.name, int(ticket)), branch.cursor, setup, self.paint))

    def do_quiet(self, words: str) -> None:
        name = words.strip() or self.lab.in_use
        taken = list(macros.steps_to_quiet(lambda event: self.step(name, event), lambda: self.lab.show(name)))
        self.show([self.paint.dim(f"quiet: nothing is pending or in flight, after {len(taken)} steps")])

    def do_take(self, words: str) -> None:
        self.finder.take(words.split())

    def do_chart(self, words: str) -> None:
        from ..charts.chart import NO_TEXTS, chart
        from ..charts.picture import draw
        from ..charts.text import WIDEST, text as chart_text
        from ..charts.windows import read_asked

        asked = read_asked(words.split())
        if asked is None:
            raise Unknown(usage("chart"))
        if "." in asked.branch:
            # (no branch has such a name)
            raise Unknown(f"{asked.branch}: the name of a picture must end in .svg")
        branch, path = self.branch(asked.branch), asked.file
        drawn = chart(self.lab, branch, NO_TEXTS, self.story().forks(branch.name), asked.window)
        if not path:
            self.answer_whole(chart_text(drawn, self.paint, min(WIDEST, self.columns or WIDEST)))
            return
        with open(path, "w", encoding="utf-8") as it:
            it.write(draw(drawn, os.path.splitext(os.path.basename(path))[0]))
        self.show([f"written: {path}"])

    def story(self) -> Story:
        """What happened to the branches, as far as it is known."""
        story = Story()
        for line, reply in self.lines_of_pair():
            if reply:
                story.command(line, reply)
        return story

    def lines_of_pair(self) -> Sequence[Tuple[str, Sequence[str]]]:
        """The lines of the pair with their replies: from this dialogue, or from all sessions of a server that is followed."""
        if self.lab.is_own:
            return self.lines
        shared = self.lab.shared
        if shared:
            shared.catch_up()
        return shared.journal if shared and shared.has_mirror else ()

    # ---- the shell itself

    def needed(self, words: str, what: str) -> str:
        """The words after one that needs some."""
        if not words.strip():
            raise Unknown(usage(what))
        return words.strip()

    def do_use(self, words: str) -> None:
        name = self.needed(words, "use")
        if name not in self.lab.names():
            raise Unknown(f"there is no branch {name}; `names` lists them")
        self.lab.in_use = name

    def do_mark(self, words: str) -> None:
        self.show(places.mark(self.lab, words.strip()))

    def do_summary(self, words: str) -> None:
        self.show([self.lab.summary()])

    def do_notes(self, words: str) -> None:
        if self.notes is None:
            raise Unknown("notes show what other sessions of a server do, in a dialogue with a server that reports its journal")
        said = words.strip()
        if said not in ("", "on", "off"):
            raise Unknown(usage(helps.NOTES))
        if said:
            self.notes.turn(said == "on")
        self.show([f"notes are {'on' if self.notes.is_on else 'off'}"])

    def do_verify(self, words: str) -> None:
        found = verifying.verified(self.lab.program, self.needed(words, "verify").split())
        *lines, last = found.shown(self.is_typed)
        self.show(lines)
        if found.differing:
            self.fault(last)
        else:
            self.show([last])

    def do_annotate(self, words: str) -> None:
        paths = self.needed(words, "annotate").split()
        is_dry = paths[0] in DRY_RUN
        if not paths[is_dry:]:
            raise Unknown(usage("annotate"))
        found = 0
        for written in annotate(self.lab.program, paths[is_dry:], is_dry):
            # (lines of a script are as they are)
            (self.show_whole if is_dry else self.show)(written.lines)
            self.show([self.paint.bad(shortened(f"{written.path}: {slip}")) for slip in written.slips])
            found += len(written.slips)
        if found:
            self.fault(about_slips(found))

    def do_read(self, words: str) -> bool:
        path = self.needed(words, "read")
        lines = lines_of(without_mark(texts.read(path)))
        if os.path.realpath(path) in self.reading:
            raise Unknown(f"{path} is already being read")
        self.reading.append(os.path.realpath(path))
        try:
            has_ended = self.take(lines, echo=True)
        finally:
            self.reading.pop()
        if not has_ended and not self.reading:
            self.suggest()
        return has_ended

    def do_save(self, words: str) -> None:
        path = self.needed(words, "save")
        texts.write(path, self.script())
        self.show([f"written: {path}"])

    def script(self) -> str:
        """The setup and the commands of the pair with their replies, as a script."""
        lines = self.lines_of_pair()
        if not self.lab.is_own and not lines:
            raise Unknown("a script begins with the setup of its pair, and has the commands of all sessions: this server does not report them")
        # (a faulty line is a slip in the dialogue, and not part of its script; the replies of a script that was read are written anew)
        kept = ((line, reply) for line, reply in lines if not verifying.is_mark(line) and not "".join(reply[:1]).startswith("bad "))
        return "".join(f"{text}\n" for line, reply in kept for text in (line, *(f"{verifying.REPLY}{part}" for part in reply)))

    def do_whatif(self, words: str) -> None:
        from ..whatif.answers import Counter, answer
        from ..whatif.asked import read as read_whatif

        name, asked = read_whatif(words.split())
        counter = Counter(sys.stderr)
        try:
            found = answer(self.lab, self.branch(name), asked, self.paint, counter, self.script)
        finally:
            counter.clear()
        self.answer(found.lines)
        if found.written and asked.out:
            texts.write(asked.out, found.written.text)
            self.show([found.written.message(asked.out)])
        if found.fault:
            self.fault(found.fault)
        if found.is_interrupted and not self.is_typed:
            # (outside a dialogue an interrupt ends the shell)
            raise KeyboardInterrupt

    def do_depends(self, words: str) -> None:
        from ..depends.answers import of_branch
        from ..depends.asked import read as read_depends

        name, shows_all = read_depends(words.split())
        self.answer(of_branch(self.lab, self.branch(name), shows_all, self.paint).lines)

    def do_help(self, words: str) -> None:
        word = {"exit": "quit"}.get(words.strip(), words.strip())
        if not word:
            self.answer(helps.overview(self.columns))
        elif word in helps.WORDS:
            self.answer(helps.about(word, self.columns))
        else:
            raise Unknown(unknown_word(word))

    def do_quit(self, words: str) -> bool:
        return True

    do_exit = do_quit

    def do_EOF(self, words: str) -> bool:
        if self.is_typed:
            self.show([""])
        return True


def usage(word: str) -> str:
    """How a word of the shell is used."""
    return f"usage: {', or '.join(helps.SHELL[word].form.splitlines())}"


def unknown_word(word: str) -> str:
    """A message that there is no such word, with the nearest word that there is."""
    if word in pf_conf.RULES:
        return f"there is no word {word}; a rule begins with `rule a` or `rule b`"
    near = [OTHERS_SAY[word]] if word in OTHERS_SAY else difflib.get_close_matches(word, helps.WORDS, 1)
    return f"there is no word {word}" + (f"; did you mean `{near[0]}`?" if near else "; `help` lists them")
