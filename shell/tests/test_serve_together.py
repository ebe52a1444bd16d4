"""Several sessions of the program's own server at the same time: whom it answers when, what each sees of the others, and that one journal
has it all."""
from __future__ import annotations

import random
import threading
import time
import unittest
from typing import Collection, Dict, List, Sequence

from ..link.programs import FULL, VIEW, Client, commands_of
from . import program
from .children import SECONDS
from .followers import STEP
from .served import End, Served
from .servers import Server
from .test_silent_clients import Silent

OUT = ["rule a pass out", "rule b pass out", "open"]
SECOND = "step main packet a out udp 10.0.0.2:1000 192.0.2.9:53 40"
# How long a session says nothing, in seconds.
PAUSE = 0.1
# How many commands a server takes, and how many lines are sent together.
MOST, TOGETHER = 1_000_000, 1000
# A pair that is soon full; how many sessions step on it at once, how many commands each asks, and how many before it looks.
FEW = ["set states 16", "set queue 16", "set frames 16", "set held 4", *OUT]
SESSIONS, COMMANDS, BATCH = 8, 1000, 5


class Turns(Served):
    """Sessions that speak one after another."""

    def test_three_step_and_step_back(self) -> None:
        one, two, three = self.callers(self.serve(3, OUT), 3)
        opening, stepped, undone = "view 0 1 0 0 0 0 0 0", "1 1 1 1 0 0 1", "view 2 1 1 0 0 0 0 0"
        for caller, line, answer in (
            (three, VIEW, opening),
            (one, STEP, "step pass 1.1 dropped 0"),
            (one, VIEW, f"view 1 {stepped}"),
            (three, VIEW, f"view 1 {stepped}"),
            (two, "back main 1", "at 0"),
            (two, VIEW, undone),
            (one, VIEW, undone),
            # (it cuts the first one's event, whose state was 1.1 too)
            (three, SECOND, "step pass 1.1 dropped 1"),
            (one, VIEW, f"view 3 {stepped}"),
        ):
            caller.send(f"{line}\n")
            self.assert_heard(caller, [answer])
        two.say("follow 0\n")
        journal = ["following 0", f"entry 1 1 {STEP}", "entry 2 2 back main 1", f"entry 3 3 {SECOND}", "followed 3"]
        self.assertEqual(two.rest().splitlines(), journal)
        for it in (one, three):
            it.close()
        self.assertEqual(self.end(), End.after(3))

    def test_each_is_served_while_the_others_are(self) -> None:
        # (a service of one to its end before the other would keep one of them waiting)
        callers = self.callers(self.serve(2), 2)
        for caller in callers * 3:
            caller.send("names\n")
            self.assert_heard(caller, ["names main"])

    def test_they_count_in_the_order_in_which_they_came(self) -> None:
        one, two = self.callers(self.serve(2), 2)
        for caller, said, answers in ((two, "fly\nnames\n", ["bad 3 Unknown", "names main"]), (one, "names\n", ["names main"])):
            caller.send(said)
            self.assert_heard(caller, answers)
        one.say("follow 0\n")
        self.assertEqual(one.rest().splitlines(), ["following 0", "entry 1 2 names", "entry 2 1 names", "followed 2"])

    def test_one_ends_before_another(self) -> None:
        one, two = self.callers(self.serve(2), 2)
        for caller in (one, two):
            caller.say("names\n")
            self.assertEqual(caller.rest(), "names main\n")
        self.assertEqual(self.end(), End.after(2))

    def test_one_pauses_after_it_followed(self) -> None:
        [caller] = self.callers(self.serve(1), 1)
        caller.send("follow\n")
        self.assert_heard(caller, ["following 0"])
        for answers in (["followed 0", "view 0 1 0 0 0 0 0 0"], ["view 0 1 0 0 0 0 0 0"]):
            time.sleep(PAUSE)
            caller.send(f"{VIEW}\n")
            self.assert_heard(caller, answers)

    def test_one_that_follows_hears_of_another_without_a_word_of_its_own(self) -> None:
        one, two = self.callers(self.serve(2), 2)
        one.send("follow\n")
        self.assert_heard(one, ["following 0"])
        for number, (line, answer) in enumerate((("back main 0", "at 0"), ("names", "names main")), 1):
            time.sleep(PAUSE)
            two.send(f"{line}\n")
            self.assert_heard(two, [answer])
            self.assert_heard(one, [f"entry {number} 2 {line}"])
        one.say("")
        self.assertEqual(one.rest(), "followed 2\n")

    def test_one_that_fails_ends_no_other(self) -> None:
        port = self.serve(2)
        silent, [other] = Silent(port), self.callers(port, 1)
        silent.fill("fly")
        silent.close()
        other.say("names\n")
        self.assertEqual(other.rest(), "names main\n")
        end = self.end()
        # (which of its calls fails depends on when the connection is cut)
        self.assertIn(end.reported, (["pfl_lab: write"], ["pfl_lab: read"]))
        self.assertEqual((end.written, end.status), (["closed 1"], 1))

    def test_a_full_journal_takes_no_command_of_any(self) -> None:
        one, two = self.callers(self.serve(2), 2)
        for _ in range(MOST // TOGETHER):
            one.send("names\n" * TOGETHER)
            self.assert_heard(one, ["names main"] * TOGETHER)
        for caller in (two, one):
            caller.say(f"names\n{VIEW}\nfollow {MOST - 1}\n")
            answers = [FULL, f"view {MOST} 1 0 0 0 0 0 0", f"following {MOST - 1}", f"entry {MOST} 1 names", f"followed {MOST}"]
            self.assertEqual(caller.rest().splitlines(), answers)
        self.assertEqual(self.end(), End.after(MOST))


def event(chance: random.Random, ticket: int) -> str:
    """An event of a pair, mostly one that it accepts, or of the frame that was sent last."""
    node, host = chance.choice("aaab"), f"10.0.0.{chance.randint(0, 15)}:1000"
    packets = [f"packet {node} out udp {host} 192.0.2.9:53 40", f"packet {node} in udp 192.0.2.9:53 {host} 40"]
    frames = [f"{word} {chance.choice([ticket, ticket, chance.randint(1, 40)])}" for word in ("deliver", "deliver", "deliver", "lose")]
    times = [f"tick {node} {chance.randint(0, 20_000)}", f"purge {node}"]
    return chance.choice([packets[0]] * 7 + [packets[1]] * 3 + [f"flush {node}"] * 3 + frames + times)


def command(chance: random.Random, ticket: int) -> str:
    """A command. As many events are taken back as happen, so branches stay short. The last frame that was sent has this ticket."""
    branch, other = chance.choice(["main", "main", "main", "one", "two"]), chance.choice(["one", "two", "three"])
    kind, place = chance.randrange(100), chance.randint(0, 24)
    kinds = {
        64: f"step {branch} {event(chance, ticket)}",
        76: f"back {branch} {chance.randint(0, 15)}",
        82: f"forward {branch} {chance.randint(0, 3)}",
        86: f"excise {branch} {place}",
        90: f"restore {branch}",
        94: f"fork {branch} {place} {other}",
        95: f"drop {other}",
        96: f"show {branch}",
        97: f"past {branch} {place}",
        98: f"why {branch} {place}",
        99: f"why {branch} {event(chance, ticket)}",
        100: chance.choice(["names", f"log {branch}", f"frame {branch} {ticket}"]),
    }
    return next(it for most, it in kinds.items() if kind < most)


class Player:
    """A session that asks commands from a seed, and looks after some of them each time."""

    def __init__(self, session: Client, seed: int):
        self.session, self.chance, self.ticket = session, random.Random(seed), 1
        self.replies: List[List[str]] = []
        self.views: List[str] = []
        # Each view was no older than the commands that the session had asked before it.
        self.sees_its_own = True

    def play(self) -> None:
        for _ in range(COMMANDS // BATCH):
            replies = self.session.ask_together([command(self.chance, self.ticket) for _ in range(BATCH)])
            self.ticket = next((int(it.split()[2]) for [it, *_] in replies if it.startswith("step sent ")), self.ticket)
            self.replies += replies
            [view] = self.session.ask(VIEW)
            self.sees_its_own = self.sees_its_own and commands_of(view) >= len(self.replies)
            if view.startswith(VIEW):
                self.views.append(view)


class Replay(Server):
    """The commands of a journal on a pair of their own: the replies to each session, and what a view shows after some of the commands."""

    def __init__(self, entries: Sequence[str], viewed: Collection[int]):
        super().__init__(program(), FEW, SESSIONS)
        self.listener.close()
        self.replies: Dict[int, List[List[str]]] = {it + 1: [] for it in range(SESSIONS)}
        self.views: Dict[int, str] = {}
        for number, entry in enumerate(entries, 1):
            word, place, session, line = entry.split(" ", 3)
            assert (word, place) == ("entry", str(number))
            self.replies[int(session)].append(self.take(int(session), line))
            if number in viewed:
                self.views[number] = self.view()


class AtOnce(Served):
    """Eight sessions, whose commands come as they come."""

    def test_one_journal_gives_all_that_each_was_answered(self) -> None:
        port = self.serve(SESSIONS, FEW)
        players = [Player(self.client(port), seed) for seed in range(1, SESSIONS + 1)]
        threads = [threading.Thread(target=it.play, daemon=True) for it in players]
        for one in threads:
            one.start()
        for one in threads:
            one.join(SECONDS)
        last = players[0].session
        shown, entries = last.ask("show main"), journal(last, SESSIONS * COMMANDS)
        replay = Replay(entries, {commands_of(view) for it in players for view in it.views})
        self.ends.callback(replay.run.close)
        for number, player in enumerate(players, 1):
            self.assertEqual(player.replies, replay.replies[number], f"session {number}")
            self.assertTrue(player.sees_its_own)
            self.assertEqual(player.views, sorted(player.views, key=commands_of))
            self.assertEqual(player.views, [replay.views[commands_of(view)] for view in player.views])
        self.assertEqual(replay.run.ask("show main"), shown)


def journal(session: Client, entries: int) -> List[str]:
    """The first entries of a server's journal."""
    session.follow()
    came: List[str] = []
    while len(came) < entries:
        came += [it for it in session.come(1) if it.startswith("entry ")]
    return came[:entries]


if __name__ == "__main__":
    unittest.main()
