"""Random captures of a pair of which all is known: who sent what, when, and what was lost. PFL_NIGHTS sets how many are tried."""
from __future__ import annotations

import os
import random
import unittest
from typing import List, NamedTuple, Tuple

from . import capture_files as made
from .capture_cases import MILLISECOND, CaptureCase
from .capture_files import A, B, NOON, SECOND, ethernet, group, ip, message, name, pcap

NIGHTS = int(os.environ.get("PFL_NIGHTS", "120"))
# How exact times are that are said by the clock of a.
EXACT = 2 * MILLISECOND


class Fact(NamedTuple):
    """A message as it was sent."""

    time: int
    node: str
    is_lost: bool


class Night(NamedTuple):
    """How a night goes: how many messages there are, how far the clock of b is ahead and how much it drifts, the time between messages, and
    which shares are lost, and are of the same bytes as others."""

    messages: int
    ahead: int
    drift: float
    gap: int
    lost: float
    same: float

    @classmethod
    def drawn(cls, rng: random.Random) -> Night:
        ahead = rng.choice((0, 1, -1)) * rng.choice((3 * MILLISECOND, SECOND, 3600 * SECOND, 40 * 3600 * SECOND))
        gap = rng.choice((MILLISECOND // 10, 5 * MILLISECOND, 200 * MILLISECOND, 3 * SECOND))
        sizes = rng.choice((3, 10, 50, 300, 1000)), ahead, rng.choice((0.0, 0.0, 1e-5, -5e-5, 2e-4)), gap
        return cls(*sizes, rng.choice((0, 0.01, 0.1, 0.4)), rng.choice((0, 0.1, 0.5)))

    def play(self, rng: random.Random) -> Tuple[List[Fact], List[bytes]]:
        """What was sent, and the captures of it."""
        seen: Tuple[List[Tuple[int, bytes]], List[Tuple[int, bytes]]] = ([], [])
        truth, time = [], NOON
        for nth in range(self.messages):
            which, is_lost, way = int(rng.random() < 0.4), rng.random() < self.lost, rng.randrange(60_000, 400_000)
            its = group(made.UPD_REQ, name(rng.randrange(3))) if rng.random() < self.same else group(made.DEL_C, name(1000 + nth))
            packet = ethernet(ip((A, B)[which], message(its)))
            for at in (0, 1):
                if at == which or not is_lost:
                    there = time + way * (at != which)
                    seen[at].append((there + (self.ahead + int((there - NOON) * self.drift)) * at, packet))
            truth.append(Fact(time, "ab"[which], is_lost))
            time += 500_000 + rng.randrange(self.gap // 10, self.gap)
        return truth, [pcap(sorted(its, key=lambda it: it[0]), nanoseconds=True) for its in seen]


class Truth(CaptureCase):
    def test_random_nights(self) -> None:
        guesses = 0
        for seed in range(NIGHTS):
            rng = random.Random(seed)
            night = Night.drawn(rng)
            truth, files = night.play(rng)
            overlay = self.overlay(*files)
            if overlay.sides.is_guess:
                guesses += 1
                continue
            sent, what = [*overlay.sent()], f"seed {seed}: {night}"
            self.assertEqual([it.node for it in sent], [it.node for it in truth], what)
            for one, true in zip(sent, truth):
                self.assertLess(abs(one.time - true.time), EXACT, what)
                if one.arrived is not None:
                    self.assertEqual(one.arrived, not true.is_lost, what)
        self.assertLess(guesses, NIGHTS // 4)


if __name__ == "__main__":
    unittest.main()
