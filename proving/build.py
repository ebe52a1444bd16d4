"""Proves and builds crates side by side: of those whose libraries are built, the one at the foot of the most expensive chain first."""
from __future__ import annotations

import os
import re
import shutil
import signal
import subprocess
import sys
import time
from contextlib import suppress
from dataclasses import dataclass
from typing import Dict, List, Optional, Set

from .costs import checks_at_once, files_of, jobs_of_first
from .crates import PARTS, TOP, Crate, Crates, below, chains

LOGS = f"{TOP}/out/lab"
# How many seconds may pass without a line if the progress does not go to a terminal.
SILENCE = 300.0
# How much a check that is not on the most expensive chain gives way to the one that is.
NICE = "10"


def made_of(crate: Crate, what: str) -> bool:
    """Whether a file of the crate is there, and no source of the crate or of those below it is newer."""
    if not os.path.exists(f"{crate.folder}/{what}"):
        return False
    made = os.stat(f"{crate.folder}/{what}").st_mtime
    files = [f"{TOP}/crates.txt", *(file for it in below(crate.name).values() for file in files_of(it.folder))]
    return all(os.stat(file).st_mtime <= made for file in files)


def functions_of(name: str) -> Optional[List[int]]:
    """How many of a crate's functions its check has seen, and how many there are, as far as its log says."""
    with suppress(OSError):
        with open(f"{LOGS}/{name}.log", encoding="utf-8", errors="replace") as it:
            counts = re.findall(r"^so far: (\d+) of (\d+) functions", it.read(), re.M)
        if counts:
            return [int(it) for it in counts[-1]]
    return None


def failed_log(name: str) -> str:
    """The file with the checker's output for a crate when it failed, until it fails again."""
    return f"{LOGS}/{name}.failed.log"


class Progress:
    """Reports on standard error how far the work is: on a terminal in one line that renews itself, elsewhere in a line for each crate,
    and in one when nothing was reported for long."""

    def __init__(self, costs: Dict[str, float]):
        self.costs, self.done, self.start = costs, 0.0, time.monotonic()
        self.said = self.start
        self.is_terminal = sys.stderr.isatty()

    def so_far(self, running: List[str]) -> str:
        """The time, and the share of the whole work."""
        done = self.done
        for name in running:
            seen, all_of_them = functions_of(name) or (0, 1)
            done += self.costs[name] * seen / max(1, all_of_them)
        return f"{(time.monotonic() - self.start) / 60:.0f} min, {100 * done / sum(self.costs.values()):.0f} % of the work"

    def show(self, running: List[str]) -> None:
        if not self.is_terminal and time.monotonic() - self.said < SILENCE:
            return
        each = ", ".join(f"{name} {'/'.join(map(str, functions_of(name) or []))}".strip() for name in running)
        line = f"lab: {self.so_far(running)}: {each}"
        if not self.is_terminal:
            self._say(line)
        else:
            print(f"\r\033[K{line[: shutil.get_terminal_size().columns - 1]}", end="", file=sys.stderr, flush=True)

    def proved(self, name: str, running: List[str]) -> None:
        self.done += self.costs[name]
        if not self.is_terminal:
            self._say(f"lab: {self.so_far(running)}: {name} is proved")

    def _say(self, line: str) -> None:
        self.said = time.monotonic()
        print(line, file=sys.stderr, flush=True)

    def end(self) -> None:
        if self.is_terminal:
            print("\r\033[K", end="", file=sys.stderr, flush=True)


class Lane:
    """A view of the repository through hard links, since rt works in one crate at a time and locks the libraries below it."""

    def __init__(self, folder: str):
        self.folder = folder
        self.taken: Set[str] = set()
        os.makedirs(f"{folder}/crates")

    def take(self, crate: Crate) -> None:
        if crate.name in self.taken:
            return
        self.taken.add(crate.name)
        to = f"{self.folder}/crates/{crate.name}"
        os.mkdir(to)
        for part in (*PARTS, "out"):
            if os.path.isdir(f"{crate.folder}/{part}"):
                subprocess.run(["cp", "-al", f"{crate.folder}/{part}", to], check=True)
        with open(f"{self.folder}/crates.txt", "a", encoding="utf-8") as it:
            it.write(f"{crate.line}\n")

    def prove(self, name: str, words: List[str], is_first: bool) -> subprocess.Popen[bytes]:
        """Begins to prove and build a crate whose libraries are built, in a process group of its own."""
        for it in below(name).values():
            self.take(it)
        command = [*([] if is_first else ["nice", "-n", NICE]), "rt", *words]
        with open(f"{LOGS}/{name}.log", "w", encoding="utf-8") as log:
            return subprocess.Popen(
                command,
                cwd=f"{self.folder}/crates/{name}",
                stdin=subprocess.DEVNULL,
                stdout=log,
                stderr=log,
                preexec_fn=os.setpgrp,
            )

    def give(self, crate: Crate) -> None:
        """Moves what was made into the repository, whole."""
        new, to = f"{self.folder}/{crate.name}.new", f"{crate.folder}/out"
        subprocess.run(["cp", "-al", f"{self.folder}/crates/{crate.name}/out", new], check=True)
        if os.path.isdir(to):
            os.rename(to, f"{self.folder}/{crate.name}.old")
        os.rename(new, to)


def stop(checks: List[subprocess.Popen[bytes]]) -> None:
    """Ends checks and all that they started."""
    for sign in (signal.SIGTERM, signal.SIGKILL):
        for check in checks:
            with suppress(OSError):
                os.killpg(check.pid, sign)
        with suppress(subprocess.TimeoutExpired):
            for it in checks:
                it.wait(timeout=5)


def seconds_of(process: subprocess.Popen[bytes]) -> Optional[float]:
    """The processor seconds of a check that has ended and of all that it started; None while it runs."""
    number, status, used = os.wait4(process.pid, os.WNOHANG)
    if not number:
        return None
    process.returncode = os.WEXITSTATUS(status) if os.WIFEXITED(status) else -os.WTERMSIG(status)
    seconds: float = used.ru_utime + used.ru_stime
    return seconds


@dataclass
class Check:
    """A check under way, where it works, and how many jobs it has."""

    lane: Lane
    process: subprocess.Popen[bytes]
    jobs: int


class Build:
    """The proofs of crates, those of the program last. `program` is built whole, and every other crate as a library."""

    def __init__(self, crates: Crates, program: str, room: str, progress: Progress):
        self.crates, self.program, self.progress = crates, program, progress
        self.idle = [Lane(f"{room}/{it}") for it in range(checks_at_once())]
        self.length = chains(crates, progress.costs)
        self.left = sorted(crates, key=lambda it: -self.length[it])
        self.running: Dict[str, Check] = {}
        self.seconds: Dict[str, float] = {}

    def run(self) -> Optional[str]:
        """Proves all; returns the name of one that is not proved, if any."""
        try:
            while self.left or self.running:
                self.begin()
                time.sleep(0.3)
                self.progress.show(list(self.running))
                failed = self.take_done()
                if failed:
                    return failed
            return None
        finally:
            stop([it.process for it in self.running.values()])

    def is_ready(self, name: str) -> bool:
        return not any(library in self.left or library in self.running for library in self.crates[name].libraries)

    def begin(self) -> None:
        """Begins checks while there are lanes for them, the one with the most expensive chain above it first; that one has more than one job
        if lanes are left."""
        ready = [it for it in self.left if self.is_ready(it)][: len(self.idle)]
        first = jobs_of_first(len(self.idle) + len(self.running) - sum(it.jobs for it in self.running.values()), len(ready))
        for place, name in enumerate(ready):
            is_first = self.length[name] >= max(self.length[it] for it in (*self.running, *ready))
            jobs = 1 if place else first
            words = ["run", "--jobs", str(jobs), "--", "--help"] if name == self.program else ["lib", "--jobs", str(jobs)]
            self.left.remove(name)
            lane = self.idle.pop()
            self.running[name] = Check(lane, lane.prove(name, words, is_first), jobs)

    def take_done(self) -> Optional[str]:
        """Keeps what the checks that have ended have made; returns the name of one that failed, if any."""
        for name, check in list(self.running.items()):
            seconds = seconds_of(check.process)
            if seconds is None:
                continue
            del self.running[name]
            self.seconds[name] = seconds
            if check.process.returncode:
                # (the next check of the crate has a log of its own)
                os.replace(f"{LOGS}/{name}.log", failed_log(name))
                return name
            check.lane.give(self.crates[name])
            self.idle.append(check.lane)
            self.progress.proved(name, list(self.running))
        return None
