#!/usr/bin/env python3
"""Measures what a long seminar costs a server, and checks that its journal gives the replies that its sessions had.

usage: bench/seminar.py [--program PATH] [--sessions N] [--commands N]

Each of the sessions (8) gives its commands (100,000) as fast as they are answered, on a branch of its own: ticks, and their undoing, so
that branches keep next to nothing. What was there after the first thousand is not counted. Then the first one follows the journal from
the beginning, a run of the same setup carries out what it is shown, and each reply is compared with the one that the session had. Last,
a session looks after each of 10,000 commands as the shell does: by `view` at the server, and by `show` in a run of its own. The output
is a table for docs/PERFORMANCE.md; the status is 1 if a reply differs. Linux only.
"""
from __future__ import annotations

import argparse
import os
import re
import socket
import subprocess
import sys
import threading
import time
from typing import Dict, Iterable, Iterator, List, Tuple

TOP = os.path.dirname(os.path.dirname(os.path.realpath(__file__)))
PROGRAM = f"{TOP}/crates/pfl_lab/out/pfl_lab"
SETUP = "rule a pass out\nrule b pass out\nopen\n"
# How many commands a session gives before it reads their replies.
BATCH = 200
# How many it gives before the first look at the memory of the server.
WARM = 1000
LOOKS = 10_000


class Options(argparse.Namespace):
    """The parsed command line."""

    program: str
    sessions: int
    commands: int


class Served:
    """A session of the server."""

    def __init__(self, port: int):
        self.connection = socket.create_connection(("127.0.0.1", port))
        self.connection.setsockopt(socket.IPPROTO_TCP, socket.TCP_NODELAY, 1)
        self.replies = self.connection.makefile("r", encoding="ascii", newline="\n")
        self.had: List[str] = []

    def give(self, lines: Iterable[str]) -> None:
        self.connection.sendall("".join(f"{line}\n" for line in lines).encode())

    def reply(self) -> str:
        return self.replies.readline().rstrip("\n")

    def close(self) -> None:
        self.replies.close()
        self.connection.close()

    def work(self, name: str, commands: int) -> None:
        """Ticks and their undoing."""
        lines = [f"step {name} tick a 1", f"back {name} 1"] * (BATCH // 2)
        for _ in range(commands // BATCH):
            self.give(lines)
            self.had += [self.reply() for _ in lines]

    def followed(self, after: int, up_to: int) -> Iterator[Tuple[int, str]]:
        """The session and the line of each command after the first ones, up to a number."""
        self.give([f"follow {after}"])
        assert self.reply() == f"following {after}"
        number = after
        while number < up_to:
            word, *rest = self.reply().split(" ", 3)
            if word == "entry":
                number += 1
                assert int(rest[0]) == number, rest
                yield int(rest[1]), rest[2]


class Server:
    """The server, and its sessions."""

    def __init__(self, program: str, sessions: int):
        with socket.socket() as free:
            free.bind(("127.0.0.1", 0))
            port = free.getsockname()[1]
        self.process = subprocess.Popen(
            [program, "serve", "--port", f"{port}", "--sessions", f"{sessions}"], stdin=subprocess.PIPE, stdout=subprocess.PIPE, text=True
        )
        assert self.process.stdin and self.process.stdout
        self.process.stdin.write(SETUP)
        self.process.stdin.close()
        self.process.stdout.readline()
        self.sessions = [Served(port) for _ in range(sessions)]

    def kilobytes(self) -> int:
        """The memory that it takes."""
        with open(f"/proc/{self.process.pid}/status", encoding="ascii") as status:
            found = re.search(r"VmRSS:\s+(\d+) kB", status.read())
        assert found
        return int(found.group(1))

    def close(self) -> None:
        for it in self.sessions:
            it.close()
        self.process.wait(timeout=60)


class Replay:
    """A run of the same setup."""

    def __init__(self, program: str):
        self.process = subprocess.Popen([program, "run"], stdin=subprocess.PIPE, stdout=subprocess.PIPE, text=True, bufsize=1 << 20)
        assert self.process.stdin and self.process.stdout
        self.lines, self.replies = self.process.stdin, self.process.stdout
        self.lines.write(SETUP)

    def take(self, lines: List[str]) -> List[str]:
        """The replies to commands of one line each."""
        self.lines.write("".join(f"{line}\n" for line in lines))
        self.lines.flush()
        return [self.replies.readline().rstrip("\n") for _ in lines]

    def show(self, name: str) -> List[str]:
        reply = self.take([f"show {name}"])
        while reply[-1] != "end":
            reply.append(self.replies.readline().rstrip("\n"))
        return reply

    def close(self) -> None:
        self.lines.close()
        self.process.wait()


def agree(server: Server, replay: Replay, entries: int) -> bool:
    """Whether the journal's commands give each session the replies that it had, in order."""
    places: Dict[int, int] = {}
    batch: List[Tuple[int, str]] = []
    for entry in server.sessions[0].followed(0, entries):
        batch.append(entry)
        if len(batch) == BATCH or sum(places.values()) + len(batch) == entries:
            replies = replay.take([line for _, line in batch])
            for (session, line), reply in zip(batch, replies):
                place = places.get(session, 0)
                places[session] = place + 1
                had = server.sessions[session - 1].had[place]
                if had != reply:
                    print(f"session {session}, command {place + 1}, `{line}`: {had}, and replayed {reply}", file=sys.stderr)
                    return False
            batch = []
    return True


def fork(server: Server) -> None:
    """Each session makes a branch of its own."""
    for number, session in enumerate(server.sessions, 1):
        session.give([f"fork main 0 s{number}"])
        session.had.append(session.reply())


def work(server: Server, commands: int) -> float:
    """All sessions work at the same time; returns the seconds that this takes."""
    threads = [threading.Thread(target=it.work, args=(f"s{number}", commands)) for number, it in enumerate(server.sessions, 1)]
    before = time.monotonic()
    for thread in threads:
        thread.start()
    for thread in threads:
        thread.join()
    return time.monotonic() - before


def look(server: Server, replay: Replay, looks: int) -> None:
    """The second session steps, and the first looks after each command as a shell does."""
    looker, stepper = server.sessions[0], server.sessions[1]
    looker.give(["view"])
    while not (reply := looker.reply()).startswith("view "):
        pass
    entries = int(reply.split()[1])
    for _ in range(looks // 2):
        for line in ("step s2 tick a 1", "back s2 1"):
            stepper.give([line])
            stepper.reply()
            entries += 1
            replay.take([line for _, line in looker.followed(entries - 1, entries)])
            looker.give(["view"])
            assert looker.reply() == f"followed {entries}"
            assert int(looker.reply().split()[1]) == entries
            replay.show("s2")


def main() -> int:
    parser = argparse.ArgumentParser(description=__doc__, formatter_class=argparse.RawDescriptionHelpFormatter)
    parser.add_argument("--program", default=PROGRAM)
    parser.add_argument("--sessions", type=int, default=8)
    parser.add_argument("--commands", type=int, default=100_000)
    options = parser.parse_args(namespace=Options())
    server, replay = Server(options.program, options.sessions), Replay(options.program)
    fork(server)
    work(server, WARM)
    before = server.kilobytes()
    seconds = work(server, options.commands)
    new, kept = options.sessions * options.commands, (server.kilobytes() - before) * 1024
    print(f"| {options.sessions} sessions of {options.commands:,} commands | {seconds:.1f} s, {seconds / new * 1e6:.1f} µs a command |")
    print(f"| memory of the server for {new:,} entries | {kept / 1e6:.1f} MB, {kept / new:.1f} bytes an entry |")
    entries = sum(len(session.had) for session in server.sessions)
    began = time.monotonic()
    good = agree(server, replay, entries)
    print(f"| the journal followed and replayed | {time.monotonic() - began:.1f} s, {'all replies are the same' if good else 'A REPLY DIFFERS'} |")
    before, began = server.kilobytes(), time.monotonic()
    look(server, replay, LOOKS)
    more = server.kilobytes() - before
    print(f"| {LOOKS:,} looks at the steps of another session | {time.monotonic() - began:.1f} s, {more} KB more at the server, with {LOOKS:,} entries |")
    replay.close()
    server.close()
    return 0 if good else 1


if __name__ == "__main__":
    sys.exit(main())
