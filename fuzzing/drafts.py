"""A script whose lines are changed at random."""
from __future__ import annotations

import random
import re
from typing import Callable, List, Sequence, Tuple

from oracle.events import event
from oracle.searches import line_of as search_line
from oracle.setups import setup as small_setup, with_kernel
from shell.language.commands import BACK, COMMANDS, EXCISE, FORK, FORWARD, OPEN, RESTORE
from shell.language.names import NODES
from shell.language.setups import FRAMES, HELD, QUEUE, STATES

from .corpora import Script
from .lines import change_some, kernel, rule, spread, with_other_number, with_other_word
from .vocabulary import BRANCHES, SHOWN

# This many commands run in a moment.
MOST_COMMANDS = 250
GREATEST = tuple(f"set {it.word} {it.most}" for it in (STATES, QUEUE, FRAMES, HELD))
# The commands that change what a branch is.
OFTEN = (BACK, FORWARD, FORK, EXCISE, RESTORE)


class Draft:
    """The lines of a script of the corpus."""

    def __init__(self, chance: random.Random, script: Script, scripts: Sequence[Script]):
        self.chance, self.scripts = chance, scripts
        self.setup, self.commands = list(script.setup), script.commands[:MOST_COMMANDS]
        if chance.random() < 0.8:
            self.setup = [it for it in self.setup if not it.startswith("#")]
            self.commands = [command for command in self.commands if not command.startswith("#")]

    def text(self) -> str:
        return "".join(f"{line}\n" for line in (*self.setup, *self.commands[:MOST_COMMANDS]))

    def change_commands(self, times: int) -> None:
        for _ in range(times):
            self.chance.choice(OF_COMMANDS)(self)

    def change_setup(self) -> None:
        """Sets other limits, mostly small ones, or rules of the kernel, and now and then other rules or a fault."""
        kind = self.chance.random()
        if kind < 0.3:
            self.setup = [*small_setup(self.chance), OPEN.word]
        elif kind < 0.6:
            self.setup[:0] = self.chance.sample([*small_setup(self.chance)], 4)
        if self.chance.random() < 0.4:
            self.setup = [*with_kernel(self.chance, self.setup[:-1]), *self.setup[-1:]]
        if self.chance.random() < 0.03:
            self.setup.insert(0, self.chance.choice(GREATEST))
        for _ in range(self.chance.choice((0, 0, 0, 0, 0, 0, 1, 2))):
            self.chance.choice(OF_SETUPS)(self)

    def names(self) -> List[str]:
        """The names of branches in the script."""
        forks = [line.split() for line in self.commands if line.startswith("fork ")]
        return ["main", *(words[3] for words in forks if len(words) > 3)]

    def name(self) -> str:
        """A branch, which need not exist yet, or any more."""
        return "main" if self.chance.random() < 0.6 else self.chance.choice(self.names())

    def place(self) -> int:
        return self.chance.randint(0, len(self.commands))

    def run(self) -> slice:
        """Some consecutive lines, mostly few."""
        first = self.place()
        return slice(first, first + self.chance.choice((1, 1, 1, 2, 3, 5, 20)))

    # ---- changes of commands

    def repeat(self) -> None:
        run = self.run()
        self.commands[run.stop : run.stop] = self.commands[run] * self.chance.choice((1, 1, 2, 5))

    def delete(self) -> None:
        del self.commands[self.run()]

    def exchange(self) -> None:
        if self.commands:
            one, two = (self.chance.randrange(len(self.commands)) for _ in range(2))
            self.commands[one], self.commands[two] = self.commands[two], self.commands[one]

    def move(self) -> None:
        run = self.run()
        moved = self.commands[run]
        del self.commands[run]
        at = self.place()
        self.commands[at:at] = moved

    def splice(self) -> None:
        """Lines of another script, on a branch of this one."""
        other = self.chance.choice(self.scripts).commands
        first = self.chance.choice((0, self.chance.randint(0, len(other))))
        name, at = self.name(), self.place()
        taken = other[first : first + self.chance.choice((1, 5, 10, 40))]
        self.commands[at:at] = [re.sub(r"^(step|back|forward|excise|restore|why|frame|search) main\b", rf"\1 {name}", it) for it in taken]

    def add_events(self) -> None:
        for _ in range(self.chance.choice((1, 1, 3, 10))):
            is_far = self.chance.random() < 0.5
            self.commands.insert(self.place(), f"step {self.name()} {event(self.chance, SHOWN, is_far)}")

    def add_exchange(self) -> None:
        """What is pending is sent and delivered, and a bulk update takes its turns; some of the tickets are in flight."""
        name, at = self.name(), self.place()
        lines = [f"flush {node}" for node in NODES] + [f"deliver {it}" for it in range(1, self.chance.choice((4, 9, 15)))]
        if self.chance.random() < 0.3:
            lines += [f"restart {self.chance.choice(NODES)}", *lines, "turn a", "turn b", *lines]
        self.commands[at:at] = [f"step {name} {line}" for line in lines if self.chance.random() < 0.9]

    def add_flows(self) -> None:
        """Packets of many flows, so that tables fill up; some come again while states are killed."""
        name, node, at = self.name(), self.chance.choice(NODES), self.place()
        many = self.chance.choice((5, 20, 60))
        ends = [f"10.0.0.{self.chance.randint(0, 255)}:{self.chance.randint(0, 65535)}" for _ in range(many)]
        lines = [f"packet {node} out udp {self.chance.choice(ends)} 192.0.2.9:53 40" for _ in range(2 * many)]
        kills = [f"kill {node} {NODES.index(node) + 1}.{self.chance.randint(1, many)}" for _ in range(many)]
        self.commands[at:at] = [f"step {name} {it}" for it in self.chance.sample(lines + kills, 2 * many)]

    def add_command(self) -> None:
        """A command on a branch, mostly one that can be carried out."""
        name = self.name() if self.chance.random() < 0.95 else self.chance.choice(BRANCHES)
        few = self.chance.choice((0, 1, 1, 2, 3, 5, 8, self.chance.randint(0, 60)))
        new = f"n{len(self.names())}" if self.chance.random() < 0.7 else self.chance.choice(BRANCHES)
        by_name = {"BRANCH": name, "NEW": new, "EVENT": event(self.chance, SHOWN)}
        command = self.chance.choice((*OFTEN, *OFTEN, *COMMANDS.values()))
        words = (by_name.get(it.name, str(few)) for it in self.chance.choice(command.alternatives))
        self.commands.insert(self.place(), " ".join([command.word, *words]))

    def add_search(self) -> None:
        """A search of few runs, mostly from a pair where something is pending or in flight."""
        self.commands.insert(self.place(), search_line(self.chance, self.name(), SHOWN))

    def change_word(self) -> None:
        change_some(self.chance, self.commands, with_other_word)

    def change_number(self) -> None:
        change_some(self.chance, self.commands, with_other_number)

    def spread(self) -> None:
        change_some(self.chance, self.commands, spread)

    # ---- changes of the setup

    def change_word_of_setup(self) -> None:
        change_some(self.chance, self.setup, with_other_word)

    def change_number_of_setup(self) -> None:
        change_some(self.chance, self.setup, with_other_number)

    def change_lines_of_setup(self) -> None:
        """Lines of another setup, or of this one again; one may go, and `open` may come early."""
        other = self.chance.choice((self.setup, self.chance.choice(self.scripts).setup))
        at = self.chance.randint(0, len(self.setup))
        self.setup[at:at] = self.chance.sample(other, min(len(other), self.chance.choice((1, 2, 3))))
        if self.setup and self.chance.random() < 0.2:
            del self.setup[self.chance.randrange(len(self.setup))]

    def add_kernel(self) -> None:
        """One more line `kernel`, or one that is faulty."""
        self.setup.insert(self.chance.randint(0, max(0, len(self.setup) - 1)), kernel(self.chance))

    def add_rule(self) -> None:
        """One more rule, or now and then as many as a node can have."""
        at = self.chance.randint(0, max(0, len(self.setup) - 1))
        self.setup[at:at] = [rule(self.chance)] * self.chance.choice((*(1,) * 40, 255, 256, 257))


Change = Callable[[Draft], None]
OF_COMMANDS: Tuple[Change, ...] = (
    *(Draft.repeat, Draft.delete, Draft.exchange, Draft.move, Draft.splice, Draft.splice, Draft.spread),
    *(Draft.add_events, Draft.add_events, Draft.add_exchange, Draft.add_exchange, Draft.add_flows),
    *(Draft.add_command, Draft.add_command, Draft.add_command),
    *(Draft.add_search, Draft.change_word, Draft.change_number, Draft.change_number),
)
OF_SETUPS: Tuple[Change, ...] = (
    *(Draft.change_word_of_setup, Draft.change_number_of_setup, Draft.change_lines_of_setup, Draft.add_rule, Draft.add_rule),
    *(Draft.add_kernel, Draft.add_kernel),
)
