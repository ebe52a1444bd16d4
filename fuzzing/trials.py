"""Tries a script in every way, and keeps one that fails, reduced to as few lines as still fail."""
from __future__ import annotations

import contextlib
import os
import random
import time
import traceback
from typing import Callable, List, NamedTuple

from oracle.subject import Differs, Subject
from oracle.tallies import Seen

from .readings import Reading, read
from .timelines import replies_to
from .wholes import Ran, ran, ran_in_pieces

# Whatever takes longer hangs, even on a machine that has other work.
SECONDS = 60
SECONDS_OF_MINIMISING = 120
WIDEST = 600


class Trial(NamedTuple):
    """How a script is tried: with which program, and the seed of what is left to chance."""

    program: str
    seed: int

    def run(self, script: str, seen: Seen) -> None:
        """Raises the first difference."""
        reading = read(script)
        seen["setups", reading.fault or "opened"] += 1
        checked, whole = (ran(self.program, word, script, SECONDS) for word in ("check", "run"))
        compare_runs("check", Ran(reading.checked(), reading.reported, reading.status), checked)
        compare_runs("run", Ran(whole.out, reading.reported, reading.status), whole)
        replies = [] if reading.fault else self.replies(reading, seen)
        compare_runs("run", whole._replace(out="".join(f"{reply}\n" for reply in replies)), whole)
        chance = random.Random(self.seed)
        word, wanted = chance.choice((("run", whole), ("run", whole), ("check", checked)))
        compare_runs(f"{word}, in pieces", wanted, ran_in_pieces(self.program, word, script, SECONDS, chance))

    def replies(self, reading: Reading, seen: Seen) -> List[str]:
        with contextlib.closing(Subject(self.program, SECONDS)) as lab:
            replies = replies_to(lab, reading, seen)
        if lab.run.returncode != reading.status:
            raise Differs(f"run, line by line: status {lab.run.returncode}, not {reading.status}")
        return replies

    def difference(self, script: str, seen: Seen) -> str:
        """What differs, or nothing."""
        try:
            self.run(script, seen)
            return ""
        except Differs as why:
            return str(why)
        except Exception:
            # (the program may write anything, which a reader need not expect)
            return traceback.format_exc()


def compare_runs(what: str, wanted: Ran, came: Ran) -> None:
    for part, one, other in zip(Ran._fields, wanted, came):
        if one != other:
            raise Differs(f"{what}: {part}\n{first_difference(str(one), str(other))}")


def first_difference(wanted: str, came: str) -> str:
    """The first line that differs."""
    one, other = wanted.split("\n"), came.split("\n")
    at = next((at for at, lines in enumerate(zip(one, other)) if lines[0] != lines[1]), min(len(one), len(other)))
    rests = (" ".join(lines[at : at + 1]) or "nothing" for lines in (one, other))
    return "line {}\nwanted: {}\ncame: {}".format(at + 1, *rests)


def minimised(script: str, fails: Callable[[str], bool]) -> str:
    """The script with as few lines as still fail, as time permits."""
    lines, until = script.split("\n"), time.monotonic() + SECONDS_OF_MINIMISING
    size = len(lines)
    while size:
        at = 0
        while at < len(lines) and time.monotonic() < until:
            fewer = lines[:at] + lines[at + size :]
            if fails("\n".join(fewer)):
                lines = fewer
            else:
                at += size
        size //= 2
    return "\n".join(lines)


def printable(text: str) -> str:
    """A text without control characters, and without lines that are too long to look at."""
    shown = "".join(it if it.isprintable() or it == "\n" else repr(it)[1:-1] for it in text)
    lines = (it if len(it) <= WIDEST else f"{it[:WIDEST]}.. ({len(it)} characters)" for it in shown.split("\n"))
    return "\n".join(lines)


def keep(trial: Trial, folder: str, name: str, script: str, difference: str) -> str:
    """Keeps a script that fails, whole and minimised, with what differs; returns the report on it."""
    least = minimised(script, lambda it: bool(trial.difference(it, Seen())))
    differs_least = trial.difference(least, Seen()) or "(it does not fail each time)"
    report = printable(f"{difference}\n\nminimised, {name}.least.pfl:\n{least}\n\n{differs_least}\n")
    os.makedirs(folder, exist_ok=True)
    for ending, text in ((".pfl", script), (".least.pfl", least), (".txt", report)):
        with open(f"{folder}/{name}{ending}", "w", encoding="latin-1", newline="") as it:
            it.write(text)
    return report
