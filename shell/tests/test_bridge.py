"""A live page: what is stepped, and how it comes to all who watch."""
from __future__ import annotations

import json
import os
import threading
import time
import tracemalloc
from typing import List, Tuple
from unittest import mock

from ..pages import news
from ..pages.former import MOST_EVENTS
from .bridges import PACKET, PROMPT, Bridged, Data, Watcher


class Steps(Bridged):
    def test_a_step_is_seen_by_others_with_the_name_of_who_did_it(self) -> None:
        door = self.live()
        watcher, begun = self.watcher(door), time.monotonic()
        answer = self.step(door, PACKET, "Ann")
        self.assertEqual(answer, {"reply": ["step pass 1.1 dropped 0"], "why": [], "version": 1, "entry": 1})
        update = watcher.update()
        self.assertLess(time.monotonic() - begun, PROMPT)
        self.assertEqual((update["version"], update["who"], update["line"], update["people"]), (1, "Ann", PACKET, 1))
        self.assertEqual((update["reply"], update["order"]), (["step pass 1.1 dropped 0"], ["main"]))
        [branch] = update["branches"]
        self.assertEqual((branch["name"], branch["keep"], branch["undone"]), ("main", 0, 0))
        self.assertEqual([(one["event"], one["who"]) for one in branch["moments"]], [(PACKET[len("step main ") :], "Ann")])
        self.assertNotIn("offers", branch)

    def test_two_who_step_have_one_order(self) -> None:
        door = self.live()
        watcher = self.watcher(door)
        replies: List[Data] = []

        def ticks(name: str) -> None:
            for _ in range(10):
                replies.append(self.step(door, "step main tick a 1", name))

        threads = [threading.Thread(target=ticks, args=(name,)) for name in ("Ann", "Bob")]
        for it in threads:
            it.start()
        for it in threads:
            it.join()
        updates = [watcher.update() for _ in range(20)]
        self.assertEqual([update["version"] for update in updates], [*range(1, 21)])
        self.assertEqual([update["branches"][0]["keep"] for update in updates], [*range(20)])
        self.assertEqual([update["branches"][0]["moments"][0]["outcome"] for update in updates], [f"clock {it}" for it in range(1, 21)])
        self.assertEqual({reply["version"]: reply["reply"] for reply in replies}, {it["version"]: it["reply"] for it in updates})
        self.assertEqual({update["who"] for update in updates}, {"Ann", "Bob"})

    def test_a_refused_or_faulty_line_comes_with_its_reason_and_makes_no_update(self) -> None:
        door = self.live(PACKET)
        refused = self.step(door, "step main retry a")
        self.assertEqual(refused["reply"], ["refused 8 Event 8 NotSyncing"])
        self.assertIn("node a waits for no bulk update", refused["why"][1])
        self.assertIn("did you mean main?", self.step(door, "back mian 1")["why"][0])
        self.assertEqual(self.step(door, "fork main 0 main")["why"], ["there is a branch main already"])
        self.assertEqual(self.step(door, "back main 2")["why"], ["2 events cannot be undone: main has 1 event before the cursor"])
        self.assertIn("the event is missing", self.step(door, "step main")["why"][0])
        self.assertEqual(self.step(door, "step main tick a 1")["version"], 1)

    def test_a_line_whose_sender_was_given_up_does_not_happen_later(self) -> None:
        door = self.live()
        busy = threading.Event()
        door.bridge._worker.submit(busy.wait)
        with mock.patch("shell.pages.bridge.PATIENCE", 0.2):
            answer = self.asked(door, "POST", f"/{door.tokens.step}/do", json.dumps({"line": PACKET}))
        self.assertEqual((answer.status, answer.body), (503, "the server did not answer in 0 seconds\n"))
        busy.set()
        self.assertEqual(self.page(door)["branches"][0]["moments"], [])

    def test_branches_come_change_and_go(self) -> None:
        door = self.live(PACKET, "step main flush a")
        watcher = self.watcher(door)
        for line in ("back main 1", "forward main 1", "fork main 1 other", "excise main 2", "restore main", "drop main"):
            self.step(door, line)
        updates = [watcher.update() for _ in range(7)]
        orders = [["main"]] * 2 + [["main", "other"]] * 2 + [["main", "other", "main~1"], ["main", "other"], ["other"]]
        self.assertEqual([update["order"] for update in updates], orders)
        former = updates.pop(4)["branches"][0]
        self.assertEqual((former["name"], former["former"], [it["outcome"] for it in former["moments"]]), ("main~1", True, ["pass 1.1", "sent 1 148"]))
        changes = [update["branches"][0] for update in updates[:5]]
        numbers = [(change["keep"], len(change["moments"]), change["undone"]) for change in changes]
        self.assertEqual(numbers, [(1, 0, 1), (1, 1, 0), (0, 1, 0), (1, 0, 0), (1, 1, 0)])
        self.assertEqual(["opening" in change for change in changes], [False, False, True, False, False])
        self.assertEqual((updates[5]["branches"], updates[5]["reply"]), ([], ["removed"]))

    def test_an_event_keeps_the_name_of_who_stepped_it(self) -> None:
        door = self.live("step main tick a 1")
        for name, line in (("Ann", "step main tick a 2"), ("Bob", "step main tick b 3"), ("Cid", "step main tick b 4")):
            self.step(door, line, name)
        for line in ("back main 3", "forward main 3", "fork main 3 other", "excise main 2"):
            self.step(door, line, "Dan")
        main, other, former = self.page(door)["branches"]
        self.assertEqual([it.get("who", "") for it in main["moments"]], ["", "Bob", "Cid"])
        self.assertEqual([it.get("who", "") for it in former["moments"]], ["", "Ann", "Bob", "Cid"])
        self.assertEqual([it.get("who", "") for it in other["moments"]], ["", "Ann", "Bob"])
        self.step(door, "restore main", "Dan")
        self.assertEqual([it.get("who", "") for it in self.page(door)["branches"][0]["moments"]], ["", "Ann", "Bob", "Cid"])

    def test_what_was_undone_and_stepped_over_is_an_earlier_run(self) -> None:
        door = self.live(PACKET, "step main flush a")
        watcher = self.watcher(door)
        for line in ("back main 1", "step main tick a 1"):
            self.step(door, line, "Ann")
        updates = [watcher.update() for _ in range(3)]
        self.assertEqual([update["order"] for update in updates], [["main"]] * 2 + [["main", "main~1"]])
        self.assertEqual([(update["who"], update["line"]) for update in updates[2:]], [("Ann", "")])
        self.assertEqual([it["event"] for it in self.page(door)["branches"][1]["moments"]], [PACKET[len("step main ") :], "flush a"])

    def test_of_two_who_undo_at_once_one_does(self) -> None:
        door = self.live(PACKET, "step main flush a")
        self.step(door, "fork main 2 other")
        body = json.dumps({"line": "back main 1", "version": 1})
        answers = [self.asked(door, "POST", f"/{door.tokens.step}/do", body) for _ in range(2)]
        self.assertEqual([it.status for it in answers], [200, 409])
        self.assertEqual(answers[1].body, "somebody was faster: main has changed since this page last heard of it\n")
        self.assertEqual(self.page(door)["branches"][0]["undone"], 1)
        # What is no matter of how many events there are is done all the same, and so is what another branch is asked.
        for line in ("step main tick a 1", "back other 1"):
            answer = self.asked(door, "POST", f"/{door.tokens.step}/do", json.dumps({"line": line, "version": 1}))
            self.assertEqual(answer.status, 200, line)

    def test_a_page_that_is_behind_forks_no_other_events_than_it_shows(self) -> None:
        door = self.live(*[f"step main tick a {it}" for it in range(1, 4)])
        for line in ("back main 2", "step main tick b 8", "step main tick b 9"):
            self.step(door, line, "Bob")
        fork = {"line": "fork main 3 other", "version": 0}
        refused = self.asked(door, "POST", f"/{door.tokens.step}/do", json.dumps(fork))
        self.assertEqual((refused.status, refused.body), (409, "somebody was faster: main has changed since this page last heard of it\n"))
        self.assertNotIn("other", [it["name"] for it in self.page(door)["branches"]])
        taken = self.asked(door, "POST", f"/{door.tokens.step}/do", json.dumps({**fork, "version": self.page(door)["live"]["version"]}))
        self.assertEqual((taken.status, taken.data["reply"]), (200, ["forked"]))
        other = next(it for it in self.page(door)["branches"] if it["name"] == "other")
        self.assertEqual([it["event"] for it in other["moments"]], ["tick a 1", "tick b 8", "tick b 9"])

    def test_a_long_run_is_not_kept(self) -> None:
        door = self.live(*[f"step main tick a {it}" for it in range(1, MOST_EVENTS + 2)])
        self.step(door, "back main 1")
        self.step(door, "step main tick b 1")
        self.assertEqual([it["name"] for it in self.page(door)["branches"]], ["main"])

    def test_a_script_tells_no_more_of_events_that_are_gone(self) -> None:
        door = self.live("# First.", "step main tick a 1", "# Second.", "step main tick a 2")
        self.assertEqual([it["notes"] for it in self.page(door)["branches"][0]["moments"]], [["First."], ["Second."]])
        self.step(door, "back main 1")
        self.step(door, "forward main 1")
        self.assertEqual(self.page(door)["branches"][0]["moments"][1]["notes"], ["Second."])
        self.step(door, "back main 1")
        self.step(door, "step main tick a 3")
        self.assertEqual([it["notes"] for it in self.page(door)["branches"][0]["moments"]], [["First."], []])

    def test_a_branch_begins_no_more_after_an_event_that_is_gone(self) -> None:
        door = self.live("step main tick a 1", "step main tick a 2", "fork main 2 other")
        begins = "begins here"
        self.assertIn(begins, json.dumps(self.page(door)["branches"][0]["chart"]))
        self.step(door, "back main 2")
        self.step(door, "step main tick b 1")
        self.step(door, "step main tick b 2")
        self.assertNotIn(begins, json.dumps(self.page(door)["branches"][0]["chart"]))

    def test_runs_that_a_script_stepped_over_come_last_and_stay(self) -> None:
        door = self.live("step main tick a 1", "back main 1", "step main tick a 2")
        watcher = self.watcher(door)
        self.assertEqual([(it["name"], it["former"]) for it in self.page(door)["branches"]], [("main", False), ("main~1", True)])
        self.step(door, "fork main 0 other")
        self.assertEqual(watcher.update()["order"], ["main", "other", "main~1"])


class Watching(Bridged):
    def test_who_comes_late_has_all_and_then_what_follows(self) -> None:
        door = self.live(PACKET)
        for number in range(5):
            self.step(door, f"step main tick a {number}")
        page = self.page(door)
        self.assertEqual((len(page["branches"][0]["moments"]), page["live"]), (6, {"may": "watch", "watch": door.tokens.watch, "version": 5, "people": 0}))
        watcher = self.watcher(door, page["live"]["version"])
        self.step(door, "step main flush a")
        update = watcher.update()
        self.assertEqual((update["version"], update["branches"][0]["keep"]), (6, 6))

    def test_who_connects_again_gets_what_was_missed(self) -> None:
        door = self.live()
        for number in range(5):
            self.step(door, f"step main tick a {number}")
        watcher = self.watcher(door, 2)
        self.assertEqual([watcher.update()["version"] for _ in range(3)], [3, 4, 5])

    def test_who_missed_more_than_is_kept_loads_the_page_again(self) -> None:
        door = self.live()
        with mock.patch.object(news, "MOST_UPDATES", 2):
            for number in range(4):
                self.step(door, f"step main tick a {number}")
        watcher = self.watcher(door, 1)
        self.assertEqual((watcher.update(), watcher.update()), ({"reload": True}, {}))
        self.assertEqual(self.watcher(door, 2).update()["version"], 3)
        self.assertEqual(self.watcher(door, 9).update(), {"reload": True})

    def test_updates_take_no_more_room_than_a_limit(self) -> None:
        kept = news.News()
        with mock.patch.object(news, "MOST_BYTES", 1000):
            for _ in range(10):
                kept.publish({"line": "x" * 300})
        self.assertEqual(len(kept.awaited(news.Stream(8), 0)), 2)
        self.assertEqual(kept.awaited(news.Stream(3), 0), [news.RELOAD])

    def test_those_who_lack_much_share_what_is_kept(self) -> None:
        door = self.live()
        for _ in range(20):
            door.bridge.news.publish({"line": "x" * 1_000_000})
        tracemalloc.start()
        self.addCleanup(tracemalloc.stop)
        watchers = [self.watcher(door) for _ in range(5)]
        time.sleep(0.3)
        self.assertLess(tracemalloc.get_traced_memory()[1], 20_000_000)
        self.assertEqual([watcher.update()["version"] for watcher in watchers], [1] * 5)

    def test_fifty_get_each_of_twenty_updates_in_order(self) -> None:
        door = self.live()
        watchers = [self.watcher(door) for _ in range(50)]
        for number in range(20):
            self.step(door, f"step main tick a {number}")
        for it in watchers:
            self.assertEqual([it.update()["version"] for _ in range(20)], [*range(1, 21)])

    def test_how_many_watch_is_told_when_it_changes(self) -> None:
        door = self.live()
        first = self.watcher(door)
        self.assertEqual(first.next(), {"people": 1})
        second = Watcher(door)
        self.assertEqual((first.next(), second.next()), ({"people": 2}, {"people": 2}))
        second.close()
        self.assertEqual(first.next(), {"people": 1})
        self.assertEqual(self.page(door)["live"]["version"], 0)

    def test_who_never_reads_holds_nobody_up_and_is_dropped(self) -> None:
        with mock.patch("shell.pages.serving.WRITE_SECONDS", 1.0):
            door = self.live()
            idle = self.watcher(door)
            self.assertEqual(idle.next(), {"people": 1})
            watcher = self.watcher(door)
            for number in range(10):
                begun = time.monotonic()
                door.bridge.news.publish({"line": "x" * 1_000_000})
                self.assertEqual(watcher.update()["version"], number + 1)
                self.assertLess(time.monotonic() - begun, PROMPT)
            self.assertEqual(watcher.next(), {"people": 1})
        self.assertEqual(door.bridge.news.people, 1)

    def test_nothing_is_left_of_a_thousand_requests(self) -> None:
        door = self.live()
        self.page(door)
        before = left()
        for number in range(250):
            self.step(door, f"step main tick a {number}" if number < 50 else "back main 0")
            self.page(door)
            self.assertEqual(self.asked(door, "GET", "/x/").status, 404)
            Watcher(door).close()
        # (a thread that was ending before can be gone since)
        end = time.monotonic() + 5
        while not is_within(left(), before) and time.monotonic() < end:
            time.sleep(0.05)
        self.assertTrue(is_within(left(), before), f"{left()} of {before}")


def left() -> Tuple[int, int]:
    """The threads and the open files of this process."""
    return threading.active_count(), len(os.listdir("/dev/fd"))


def is_within(now: Tuple[int, int], before: Tuple[int, int]) -> bool:
    """Whether there are no more of them than before."""
    return all(it <= then for it, then in zip(now, before))
