"""Random nights as captures: how many frames of the inferred scripts are those of the night, and how many nights end as they did."""
from __future__ import annotations

import os
import random
import re
from collections import Counter
from typing import NamedTuple, Tuple

from ..inferring.playing import event_of
from ..link.laboratory import Laboratory
from . import program
from .inferred import Inferred, Nights, differing_frames, differing_tables, frames_of
from .nights import packets_of
from .random_nights import SETUP, play

SEEDS = range(8)
EVENTS = 160
# How many times the files of a night are damaged: more by an environment variable.
DAMAGED = int(os.environ.get("PFL_DAMAGED", "40"))
_HELD = re.compile(r"# Held against the captured frames, ([0-9]+) of ([0-9]+) (?:have|has) the same records, by kind and by state\.")

_BLOCKED = re.compile("Of ([0-9]+) packets? that pf logged as blocked, ([0-9]+) (?:is|are) blocked for the same reason here")


def damaged(chance: random.Random, content: bytes) -> bytes:
    """A file with some bytes changed, or cut; every third one as it was. Its header stays."""
    data = bytearray(content)
    for _ in range(chance.choice((1, 2, 5, 30, 200)) if len(data) > 24 and chance.random() < 0.7 else 0):
        at = chance.randrange(24, len(data))
        if chance.random() < 0.02:
            del data[max(at, 25) :]
        data[min(at, len(data) - 1)] = chance.choice((0, 1, 2, 4, 6, 9, 10, 12, 17, 58, 255, chance.randrange(256)))
    return bytes(data)


class Share(NamedTuple):
    """How many frames there were, and how many the scripts send with the same records; how many nights have all of these, with all that a
    record has; and how many end with the same tables."""

    frames: int
    same: int
    nights: int
    ends: int


class RandomNights(Nights):
    def night(self, seed: int) -> Laboratory:
        lab = Laboratory(program())
        self.addCleanup(lab.close)
        for line in SETUP:
            lab.take_setup(line)
        lab.open()
        play(lab, seed, EVENTS)
        return lab

    def share(self, with_rules: bool, with_data: bool) -> Share:
        frames = same = nights = ends = 0
        for seed in SEEDS:
            lab = self.night(seed)
            branch = lab.branch("main")
            words = self.rules(lab) * with_rules + (self.data(lab, branch) if with_data else [])
            made = self.infer(self.captured(lab, branch), *words)
            played, number = self.run_of(made.script), len(frames_of(lab))
            said = self.held(made)
            self.assertEqual(number, said[1])
            frames, same = frames + number, same + said[0]
            is_same = not differing_frames(played, lab)
            # (what the head says of all frames holds where the runs are laid side by side)
            self.assertEqual("# No frame parts." in made.script, is_same, seed)
            nights, ends = nights + is_same, ends + (not differing_tables(played, lab))
        return Share(frames, same, nights, ends)

    def held(self, made: Inferred) -> "tuple[int, int]":
        """How many frames have the same records, of how many."""
        found = next(it for it in map(_HELD.fullmatch, made.script) if it)
        return int(found[1]), int(found[2])

    def at_least(self, share: Share, nights: float, ends: float) -> None:
        """The floors: of frames, of nights whose frames are all the same, and of nights that end the same."""
        self.assertGreater(share.frames, 20 * len(SEEDS))
        self.assertGreaterEqual(share.same, 0.98 * share.frames, share)
        self.assertGreaterEqual(share.nights, nights * len(SEEDS), share)
        self.assertGreaterEqual(share.ends, ends * len(SEEDS), share)

    def test_what_was_blocked(self) -> None:
        """With packets, logs and rules: nearly all that was blocked is blocked in the script, and for the same reason."""
        blocked = same = 0
        for seed in SEEDS:
            lab = self.night(seed)
            branch = lab.branch("main")
            made = self.infer(self.captured(lab, branch), *self.rules(lab), *self.data(lab, branch), *self.logs(lab, branch))
            played = self.run_of(made.script)
            theirs, ours = (self.drops(it) for it in (lab, played))
            blocked, same = blocked + sum(theirs.values()), same + sum((theirs & ours).values())
            said = _BLOCKED.search(made.text)
            if theirs:
                self.assertEqual(sum(theirs.values()), int(said[1]) if said else None)
                self.assertEqual(sum((theirs & ours).values()), int(said[2]) if said else None)
        self.assertGreaterEqual(same, 0.9 * blocked, (same, blocked))

    def drops(self, lab: Laboratory) -> "Counter[Tuple[str, str]]":
        """The packets that a run drops, and why."""
        its = packets_of(lab, lab.branch("main"))
        return Counter((event_of(it.packet), it.outcome[1]) for it in its if it.outcome[0] == "drop")

    def test_damaged_files(self) -> None:
        """Whatever is in the files, there is a script or one clear message, and a status."""
        lab = self.night(0)
        branch = lab.branch("main")
        captures = self.captured(lab, branch)
        words = [*self.data(lab, branch), *self.logs(lab, branch)]
        whole = {path: self.content(path) for path in (*captures, *words[1::2])}
        for seed in range(DAMAGED):
            chance = random.Random(seed)
            for path, content in whole.items():
                self.save(path, damaged(chance, content))
            made = self.infer(captures, *words)
            self.assertIn(made.status, (0, 1, 2), seed)
            self.assertTrue(made.script or made.status == 2 and made.said, (seed, made.said))
            self.assertNotIn("not as the replies suggest", " ".join(made.said), seed)

    def content(self, path: str) -> bytes:
        with open(path, "rb") as it:
            return it.read()

    def test_messages_alone(self) -> None:
        self.at_least(self.share(False, False), 0.7, 0.0)

    def test_with_rules(self) -> None:
        self.at_least(self.share(True, False), 0.7, 0.0)

    def test_with_packets(self) -> None:
        self.at_least(self.share(True, True), 0.7, 0.5)
