"""Each field of a pair is set against that of another pair."""
from __future__ import annotations

import copy
import unittest
from dataclasses import replace
from typing import Callable, List

from ..language.names import Name
from ..language.packets import Key
from ..model.pair import Cleared, Held, Pair, Queued, read_shown
from ..model.states import End
from ..shows.differences import differences
from .test_frames import NAME, UDP, frame, framed

SHOWN = [
    "branch main events 5 cursor 3",
    "node a clock 0 boot 1 id 2 seq 2 push 0 serve - sync -",
    "count a 1 0 0 0 0 0 0",
    "state a 1.1 tcp out 192.0.2.9:80 10.0.0.1:1000 192.0.2.9:80 10.0.0.1:1000 2 3 1000 101 102 0 - 0 0 0 tcp.first 0 0 - 0 -",
    "queue a ins 1 1.1",
    "node b clock 0 boot 2 id 1 seq 1 push 0 serve - sync -",
    "count b 0 0 0 0 0 0 0",
    "link next 2 boot 3",
    "end",
]
ONE = Name(1, 1)
PACKET = "udp 10.0.0.1:1000 192.0.2.9:53 40"


def found(change: Callable[[Pair], None]) -> List[str]:
    """What differs between the pair above and the same with a change."""
    before = read_shown(SHOWN)
    before.frames[1] = framed(frame("01000001", UDP))
    after = copy.deepcopy(before)
    change(after)
    return [str(difference) for difference in differences(before, after)]


def of_state(**fields: object) -> List[str]:
    """What differs if the state has these fields."""

    def change(pair: Pair) -> None:
        pair.a.states[ONE] = replace(pair.a.states[ONE], **fields)

    return found(change)


class Nodes(unittest.TestCase):
    def test_the_same_pair_under_another_name(self) -> None:
        other = read_shown(["branch other events 9 cursor 9", *SHOWN[1:]])
        self.assertEqual(differences(read_shown(SHOWN), other), [])

    def test_numbers(self) -> None:
        for field, value, text in (
            ("clock", 3000, "a: clock: 0 s -> 3 s"),
            ("boot", 3, "a: boot: 1 -> 3"),
            ("next_id", 3, "a: next id: 2 -> 3"),
            ("next_number", 3, "a: next queueing number: 2 -> 3"),
            ("push", True, "a: push: not asked -> asked"),
            ("serve", "0.0/5000", "a: bulk server: idle -> asked for at 5 s, from its first state on"),
            ("sync", "1/0", "a: bulk client: idle -> waits for all states, 1 try, last asked or heard at 0 s"),
        ):
            with self.subTest(field):
                self.assertEqual(found(lambda pair: setattr(pair.a, field, value)), [text])

    def test_counters(self) -> None:
        self.assertEqual(found(lambda it: it.b.counters.update(stale=2)), ["b: counter updates older than the state: 0 -> 2"])

    def test_queues_and_lists(self) -> None:
        for change, text in (
            (lambda it: it.a.queue.clear(), "a: queue 1.1 gone: insert, number 1"),
            (lambda it: it.b.queue.append(Queued("del", 4, ONE)), "b: queue 1.1 new: short delete, number 4"),
            (lambda it: it.b.asks.append(ONE), "b: request 1.1 new: asks for the state"),
            (lambda it: it.b.asks.append(Name(0, 0)), "b: request 0.0 new: asks for all states"),
            (lambda it: it.b.statuses.append(2), "b: bulk status new: end"),
            (lambda it: it.b.clears.append(Cleared(1, 7)), "b: clear new: creator 1 up to id 7"),
            (lambda it: it.b.held.append(Held(ONE, 20, PACKET)), f"b: held packet 1.1 new: {PACKET}, since 0.02 s"),
            (lambda it: it.b.held.append(Held(ONE, 20)), "b: held packet 1.1 new: since 0.02 s"),
        ):
            with self.subTest(text):
                self.assertEqual(found(change), [text])
        requeued = found(lambda it: it.a.queue.__setitem__(0, Queued("updc", 2, ONE)))
        self.assertEqual(requeued, ["a: queue 1.1: insert, number 1 -> short update, number 2"])

    def test_the_order_of_a_list_counts(self) -> None:
        before, after = read_shown(SHOWN), read_shown(SHOWN)
        before.a.statuses, after.a.statuses = [1, 2], [2, 1]
        self.assertEqual(len(differences(before, after)), 2)
        after.a.statuses = [1, 2]
        self.assertEqual(differences(before, after), [])


class States(unittest.TestCase):
    def test_new_and_gone(self) -> None:
        text = "a: state 1.1 gone: tcp 10.0.0.1:1000 -> 192.0.2.9:80  SYN_SENT:CLOSED  tcp.first"
        self.assertEqual(found(lambda it: it.a.states.clear()), [text])
        new = found(lambda it: it.b.states.update(it.a.states))
        self.assertEqual(new, [text.replace("a:", "b:", 1).replace("gone", "new")])

    def test_each_field(self) -> None:
        key = Key("192.0.2.9:80", "198.51.100.1:4000")
        for field, value, text in (
            ("direction", "in", "direction: out -> in"),
            ("wire", key, "wire near: 10.0.0.1:1000 -> 198.51.100.1:4000"),
            ("stack", key, "stack near: 10.0.0.1:1000 -> 198.51.100.1:4000"),
            ("source", End(4, 3, 1000, 101, 102), "source level: SYN_SENT -> ESTABLISHED"),
            ("source", End(2, None, 1000, 101, 102), "source wscale: 3 -> none"),
            ("source", End(2, 3, 1001, 101, 102), "source win: 1000 -> 1001"),
            ("source", End(2, 3, 1000, 100, 102), "source lo: 101 -> 100"),
            ("source", End(2, 3, 1000, 101, 103), "source hi: 102 -> 103"),
            ("destination", End(0, 2, 0, 0, 0), "destination wscale: none -> 2"),
            ("timeout_class", "tcp.opening", "class: tcp.first -> tcp.opening"),
            ("last", 1500, "last use: 0 s -> 1.5 s"),
            ("rule", None, "rule: 0 -> none"),
            ("flags", "k", "flags: none -> waits for an acknowledgement"),
            ("updates", 1, "update count: 0 -> 1"),
            ("peer", 0, "last change by the peer: never -> 0 s"),
        ):
            with self.subTest(field, text=text):
                self.assertEqual(of_state(**{field: value}), [f"a: state 1.1 {text}"])


class Links(unittest.TestCase):
    def test_tickets_and_boots(self) -> None:
        self.assertEqual(found(lambda it: setattr(it, "next_ticket", 3)), ["link: next ticket: 2 -> 3"])
        self.assertEqual(found(lambda it: setattr(it, "next_boot", 4)), ["link: next boot: 3 -> 4"])

    def test_frames(self) -> None:
        self.assertEqual(found(lambda it: it.frames.clear()), ["link: frame 1 gone: to b, 148 bytes: 1 insert"])

        def put(to: str, data: bytes) -> List[str]:
            return found(lambda it: it.frames.update({1: replace(framed(data), to=to)}))

        whole = frame("01000001", UDP)
        self.assertEqual(put("a", whole), ["link: frame 1 receiver: b -> a"])
        cut = "link: frame 1 content: 1 insert -> broken: bytes 2 and 3 of its header say 148 bytes, but 100 are there"
        self.assertEqual(put("b", whole[:100]), ["link: frame 1 size: 148 bytes -> 100 bytes", cut])
        rules = "link: frame 1 checksum: d41d8cd98f00b204e9800998ecf8427e -> 00" + "1d8cd98f00b204e9800998ecf8427e"
        self.assertEqual(put("b", whole[:4] + b"\0" + whole[5:]), [rules])
        insert = "insert 1.1  udp 198.51.100.1:4000 (10.0.0.1:1000) -> 192.0.2.9:53  SINGLE:NO_TRAFFIC"
        old, new = (f"{insert}  {it} s left of udp.first, rule 0, asks for an acknowledgement" for it in (60, 59))
        other = frame("01000001", UDP.replace("0000003c", "0000003b"))
        self.assertEqual(put("b", other), [f"link: frame 1 record gone: {old}", f"link: frame 1 record new: {new}"])

    def test_bytes_that_say_the_same(self) -> None:
        # The pad byte of the header is all that differs.
        one = frame("02000001", NAME)
        two = one[:1] + bytes([1]) + one[2:]
        before, after = read_shown(SHOWN), read_shown(SHOWN)
        before.frames[1], after.frames[1] = framed(one), framed(two)
        (difference,) = differences(before, after)
        self.assertEqual((difference.part, difference.before, difference.after), ("bytes", one.hex(), two.hex()))


if __name__ == "__main__":
    unittest.main()
