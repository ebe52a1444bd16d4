"""What a live page offers where a branch stands."""
from __future__ import annotations

import unittest
from typing import Dict, List
from unittest import mock

from ..language.commands import WHY
from ..link.programs import Stream
from ..pages.door import Door
from ..pages.offers import Offer, offers
from ..pages.typed import MOST_PLACES
from . import laboratory
from .bridges import PACKET, Answer, Bridged

SETUP = """
    set defer 1
    rule a pass any
    rule b pass any
    open
"""
QUERY = "step main packet a out udp 10.0.0.1:1000 192.0.2.9:53 40"


def offered(script: str, *places: str) -> Dict[str, Offer]:
    lab = laboratory(SETUP + script)
    found = {offer.event: offer for offer in offers(lab, lab.branch("main"), places)}
    lab.close()
    return found


class Offers(unittest.TestCase):
    def test_a_new_pair_offers_what_a_node_can_do(self) -> None:
        found = offered("", "a", "b")
        self.assertEqual({it.place for it in found.values()}, {"a", "b"})
        self.assertEqual(found["restart a"], Offer("a", "restart a", "boot 3", True))
        self.assertEqual(found["purge b"], Offer("b", "purge b", "purged 0", True))
        refused = found["flush a"]
        self.assertEqual(
            (refused.would, refused.accepted),
            ("node a has nothing to send: no state is queued, and no request, bulk status or clear is listed", False),
        )

    def test_states_frames_and_held_packets_are_offered(self) -> None:
        found = offered(f"{QUERY}\nstep main flush a", "a", "a/state/1.1", "frame/1")
        self.assertEqual(found["kill a 1.1"], Offer("a/state/1.1", "kill a 1.1", "killed", True))
        of_frame = [(it.event, it.would) for it in found.values() if it.place == "frame/1"]
        wanted = [("deliver 1", "taken 1"), ("lose 1", "lost"), ("repeat 1", "sent 2 148"), ("cut 1 74", "cut 74")]
        self.assertEqual(of_frame, wanted)
        self.assertEqual(
            found["release a"].would,
            "the oldest packet that a holds (of state 1.1) is due at 20 ms: it has waited since 0 ms, and `defer_ms` is 20 ms; "
            "the clock of a is at 0 ms: `tick a 20` first",
        )

    def test_they_are_those_where_the_branch_stands(self) -> None:
        self.assertEqual(offered(f"{QUERY}\nback main 1", "a/state/1.1"), {})

    def test_a_place_that_the_pair_does_not_have_offers_nothing(self) -> None:
        self.assertEqual(offered(QUERY, "b/state/1.1", "a/state/1.2", "frame/1", "frame/0", "c", "a/state/1", "link", ""), {})


class Asked(Bridged):
    """Pages ask what is offered at the places that are open there."""

    def asks(self, door: Door, query: str) -> Answer:
        return self.asked(door, "GET", f"/{door.tokens.step}/offers?{query}")

    def counting(self) -> List[str]:
        """The lines that ask why, as they come."""
        lines: List[str] = []
        sends = Stream.ask_together

        def ask_together(its: Stream, those: List[str]) -> List[List[str]]:
            lines.extend(it for it in those if it.startswith(f"{WHY.word} "))
            return sends(its, those)

        patch = mock.patch.object(Stream, "ask_together", ask_together)
        patch.start()
        self.addCleanup(patch.stop)
        return lines

    def test_the_places_that_are_asked_about_are_answered(self) -> None:
        door = self.live(PACKET, "step main flush a")
        answer = self.asks(door, "branch=main&places=frame/1,a/state/1.1").data
        self.assertEqual(answer["version"], 0)
        self.assertEqual([it[1] for it in answer["offers"]], ["deliver 1", "lose 1", "repeat 1", "cut 1 74", "kill a 1.1"])
        self.step(door, "step main lose 1")
        answer = self.asks(door, "branch=main&places=frame/1,a/state/1.1").data
        self.assertEqual((answer["version"], [it[1] for it in answer["offers"]]), (1, ["kill a 1.1"]))
        self.assertEqual(self.asks(door, "branch=other&places=a").data["offers"], [])

    def test_a_step_asks_nothing_for_them_and_a_place_is_asked_about_once(self) -> None:
        packets = [PACKET.replace("10.0.0.1:", f"10.0.0.{it}:") for it in range(1, 61)]
        door = self.live(*packets, "step main flush a")
        lines = self.counting()
        self.step(door, "step main tick a 1")
        # (what came of the event itself is asked)
        self.assertEqual(lines, ["why main 62"])
        for _ in range(3):
            self.asks(door, "branch=main&places=a,a/state/1.7")
        self.assertEqual(len(lines), 1 + 7 + 1)
        self.asks(door, "branch=main&places=a,b")
        self.assertEqual(len(lines), 1 + 7 + 1 + 7)
        self.step(door, "step main tick a 1")
        self.asks(door, "branch=main&places=a")
        self.assertEqual(len(lines), 1 + 7 + 1 + 7 + 1 + 7)

    def test_the_longest_names_and_as_many_places_as_a_page_asks_about_are_taken(self) -> None:
        door = self.live(PACKET)
        most = 2**64 - 1
        places = [f"a/state/{most}.{most - it}" for it in range(MOST_PLACES - 1)]
        answer = self.asks(door, f"branch=main&places={','.join(places)},a/state/1.1")
        self.assertEqual([it[1] for it in answer.data["offers"]], ["kill a 1.1"])

    def test_who_may_only_watch_gets_none(self) -> None:
        door = self.live(PACKET)
        answer = self.asked(door, "GET", f"/{door.tokens.watch}/offers?branch=main&places=a")
        self.assertEqual((answer.status, answer.body), (403, "this address is for watching, not for stepping\n"))
        self.assertEqual(self.asked(door, "POST", f"/{door.tokens.step}/offers?branch=main&places=a", b"").status, 405)

    def test_other_queries_are_refused(self) -> None:
        door = self.live(PACKET)
        many = ",".join(f"frame/{it}" for it in range(MOST_PLACES + 1))
        wrong = ("", "c", "a/state/1", "frame/-1", "a%20b", many)
        for query in ("", "branch=main", "branch=Main&places=a", "places=a&branch=main", *(f"branch=main&places={it}" for it in wrong)):
            answer = self.asks(door, query)
            self.assertEqual(answer.status, 400, query)
            self.assertIn("offers?branch=NAME&places=PLACE,.. is expected", answer.body)


if __name__ == "__main__":
    unittest.main()
