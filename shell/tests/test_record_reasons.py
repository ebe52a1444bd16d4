"""`why` of deliveries: record by record, and frames that cannot be read. Levels and sequence numbers are worked out by hand."""
from __future__ import annotations

import unittest

from . import reasons
from .test_reasons import ACK, FLUSH, OPEN, QUERY, RESET, SECOND, SYN, SYN_ACK, SYNC, Cases

# The source's acknowledgement: its lo is 6001 then, and the destination ESTABLISHED.
ACKED = ACK.format(5001, 9001)
FLUSH_B = "step main flush b\n"
KILL = "step main kill a 1.1\n"
ANSWER = "step main packet b in udp 192.0.2.9:53 10.0.0.1:1000 80\n"
# A's update of the SYN and ACK: the source ESTABLISHED at 5000, the destination SYN_SENT at 9001.
ANSWERED = OPEN + SYN + SYNC + SYN_ACK + FLUSH
# What the kernel does with a record instead.
TAKES = "FreeBSD's kernel, as far as we know its sources, takes {}"
COUNTS = "FreeBSD's kernel, as far as we know its sources, counts the last use differently: by kernel expiry {} (docs/REAL.md)"
GIVES_NO_RULE = (
    "FreeBSD's kernel, as far as we know its sources, gives no rule to what comes as an update: here {} (by kernel rule it has none, and the "
    "default timeouts; docs/REAL.md)"
)
# An echo whose answer comes over b: a's next update is behind it.
ECHO = (
    OPEN + "step main packet a out icmp 10.0.0.1:7 192.0.2.9:7 64\n" + SYNC + "step main packet b in icmp 192.0.2.9:7 10.0.0.1:7 64\n"
    "step main packet a out icmp 10.0.0.1:7 192.0.2.9:7 64\n" + FLUSH + "step main deliver 2"
)
NO_LEVELS = "FreeBSD's kernel, as far as we know its sources, has no levels of ICMP, so that nothing of 1.1 is stale (by kernel icmp; docs/REAL.md)"
# An echo and its answer; before a's update of them comes, b sees them too, and one more echo, which lifts the end that answered.
ECHO_AFTER_ANSWER = (
    OPEN + "step main packet a out icmp 10.0.0.1:7 192.0.2.9:7 64\n" + SYNC + "step main packet a in icmp 192.0.2.9:7 10.0.0.1:7 64\n" + FLUSH
    + "step main packet b in icmp 192.0.2.9:7 10.0.0.1:7 64\nstep main packet b out icmp 10.0.0.1:7 192.0.2.9:7 64\nstep main deliver 2"
)
CLEARS = "FreeBSD's kernel, as far as we know its sources, clears {} too, since a clear has no bound there (by kernel clear; docs/REAL.md)"
# A connection is closed at both nodes, and the next one has its ports: a frame inserts the new state, and deletes the old one.
CLOSED_THEN_NEW = OPEN + SYN + SYN_ACK + RESET + SYNC + SYN + FLUSH + "step main deliver 2"
# B restarts and asks; the start comes with 1.1 in frame 3, which is lost, and the end with 1.2 in frame 4, which is in flight.
UNHEARD = (
    "set batch 1\n" + OPEN + QUERY + SECOND + SYNC + "step main restart b\nstep main flush b\nstep main deliver 2\n"
    "step main turn a\nstep main flush a\nstep main lose 3\nstep main turn a\nstep main flush a\n"
)

CASES: Cases = {
    "new": (OPEN + QUERY + SYNC, ["frame 1 came to node b with 1 record:", "1. insert 1.1: new: inserted; last used at 0 ms"]),
    "new, and to be acknowledged": (
        "set defer 1\n" + OPEN + QUERY + SYNC,
        ["1. insert 1.1: new: inserted; last used at 0 ms; it asks for an acknowledgement, which is queued"],
    ),
    "new, without its rule": (
        "rule a pass out\nrule b pass any\nopen\n" + QUERY + SYNC,
        ["without the number of its rule, since the sender's rules are not those of b: 1.1"],
    ),
    "acknowledged": (
        "set defer 1\n" + OPEN + QUERY + SYNC + "step main flush b\nstep main deliver 2",
        ["1. insert acknowledgement 1.1: acknowledged: its held packet is released"],
    ),
    "acknowledged too late": (
        "set defer 1\n" + OPEN + QUERY + SYNC + FLUSH_B + "step main tick a 20\nstep main release a\nstep main deliver 2",
        ["1. insert acknowledgement 1.1: acknowledged: nothing was waiting for it any more"],
    ),
    "acknowledged, but deleted": (
        "set defer 1\n" + OPEN + QUERY + SYNC + "step main flush b\nstep main kill a 1.1\nstep main deliver 2",
        ["1. insert acknowledgement 1.1: unknown: a has no such state, and ignores it"],
    ),
    "merged": (ANSWERED + "step main deliver 2", ["1. short update 1.1: merged: neither end is behind the one here; last used at 0 ms"]),
    "merged, by an update that was sent late": (
        # 20 s after the packet, of 30; b's clock stands at 7 s, and what would be before 0 is 0.
        OPEN + QUERY + SYNC + QUERY + "step main tick a 20000\nstep main tick b 7000\n" + FLUSH + "step main deliver 2",
        [
            "1. short update 1.1: merged: neither end is behind the one here; last used at 0 ms",
            COUNTS.format("1.1 lives until 37000 ms, and not until 30000 ms"),
        ],
    ),
    "merged, by one that was sent a moment late": (
        OPEN + QUERY + SYNC + QUERY + "step main tick a 1\nstep main tick b 7000\n" + FLUSH + "step main deliver 2",
        ["1. short update 1.1: merged: neither end is behind the one here; last used at 6000 ms"],
    ),
    "new, of a longer timeout": (
        "rule a pass out timeout udp.first 600\nrule b pass out\nopen\n" + QUERY + SYNC,
        [
            "1. insert 1.1: new: inserted; last used at 0 ms",
            COUNTS.format("1.1 lives until 600000 ms, and not until 60000 ms"),
        ],
    ),
    "new, with nothing left": (
        # A bulk update brings what has expired at a.
        OPEN + QUERY + "step main tick a 100000\nstep main tick b 100000\n" + SYNC,
        [
            "1. insert 1.1: new: inserted; last used at 40000 ms",
            COUNTS.format("1.1 lives until 160000 ms, and not until 100000 ms"),
        ],
    ),
    "new, where timeouts are shortened": (
        # Of 60 s a has 30, among three states; b 60 when the first two come, 45 at the third, and then 30.
        "set astart 1\nset aend 5\n" + OPEN + QUERY + SECOND + SECOND.replace("0.2:", "0.3:") + "step main tick b 100000\n" + SYNC,
        [
            *(f"{it}. insert 1.{it}: new: inserted; last used at 70000 ms" for it in (1, 2)),
            "3. insert 1.3: new: inserted; last used at 85000 ms",
            COUNTS.format("1.3 lives until 100000 ms, and not until 115000 ms"),
        ],
    ),
    "stale by sequence and level": (
        ANSWERED + ACKED + FLUSH + "step main deliver 3\nstep main deliver 2",
        [
            "1. short update 1.1: stale: the source end's lo 6001 here is after the 5000 that came; "
            "the destination end came as SYN_SENT, and is ESTABLISHED here; b queues its own state for a, as a short update"
        ],
    ),
    "merged in part": (
        # B has heard 1000 bytes more of the destination than a has, and a 1000 more of the source.
        ANSWERED
        + "step main deliver 2\nstep main packet b in tcp 192.0.2.9:80 10.0.0.1:1000 A 9001 5001 60000 1000\n"
        + ACKED
        + FLUSH
        + "step main deliver 3",
        [
            "1. short update 1.1: merged in part, counted as stale: the source end is taken; "
            "the destination end's lo 10001 here is after the 9001 that came; last used at 0 ms; "
            "b has its own state queued for a already (short update)",
            # By its level b's destination end is the older one.
            "a would find b's own 1.1 stale in turn, unless it has heard more since: "
            "by this project's profile the two can continue like this without end; "
            "by kernel merge they come to rest, unless their frames keep crossing (docs/REAL.md)",
            TAKES.format("the destination end of 1.1 too, since the source end is not stale (by kernel merge; docs/REAL.md)"),
        ],
    ),
    "merged in part, and at rest after an answer": (
        # What a has of the destination is older in number, and not newer in level.
        ANSWERED
        + "step main deliver 2\nstep main packet b in tcp 192.0.2.9:80 10.0.0.1:1000 A 9001 5001 60000 1000\n"
        + (FLUSH_B + ACKED.replace(" A ", " P ") + FLUSH + "step main deliver 4"),
        [
            "frame 4 came to node b with 1 record:",
            "1. short update 1.1: merged in part, counted as stale: the source end is taken; "
            "the destination end's lo 10001 here is after the 9001 that came; last used at 0 ms; "
            "b queues its own state for a, as a short update",
            TAKES.format("the destination end of 1.1 too, since the source end is not stale (by kernel merge; docs/REAL.md)"),
        ],
    ),
    "stale by level, of UDP": (
        OPEN + QUERY + SYNC + QUERY + FLUSH + ANSWER + "step main deliver 2",
        [
            "1. short update 1.1: stale: the source end came as SINGLE, and is MULTIPLE here; "
            "the destination end came as NO_TRAFFIC, and is SINGLE here; b has its own state queued for a already (short update)"
        ],
    ),
    "unknown": (
        OPEN + QUERY + FLUSH + QUERY + FLUSH + "step main deliver 2",
        ["1. short update 1.1: unknown: b has no such state, and asks for it"],
    ),
    "unknown again": (
        OPEN + QUERY + FLUSH + QUERY + FLUSH + QUERY + FLUSH + "step main deliver 2\nstep main deliver 3",
        ["1. short update 1.1: unknown: b has no such state, and has asked for it already"],
    ),
    "asked for": (
        OPEN + QUERY + FLUSH + QUERY + FLUSH + "step main deliver 2\nstep main flush b\nstep main deliver 3",
        ["1. update request 1.1: asked for: the whole state is queued as an update"],
    ),
    "asked for, but deleted": (
        OPEN + QUERY + FLUSH + QUERY + FLUSH + "step main deliver 2\n" + FLUSH_B + KILL + "step main deliver 3",
        ["1. update request 1.1: bad: a has no such state to send"],
    ),
    "bad, the name is there": (
        OPEN + QUERY + FLUSH + "step main repeat 1\nstep main deliver 1\nstep main deliver 2",
        ["1. insert 1.1: bad: b has a state 1.1 already (udp 10.0.0.1:1000, 192.0.2.9:53)"],
    ),
    "bad, the key is there": (
        OPEN + QUERY + QUERY.replace(" a ", " b ") + SYNC,
        ["1. insert 1.1: bad: its wire key is in use: b has state 2.1 for 10.0.0.1:1000 and 192.0.2.9:53"],
    ),
    "bad, the key is that of a closed connection": (
        CLOSED_THEN_NEW,
        [
            "1. insert 1.2: bad: its wire key is in use: b has state 1.1 for 10.0.0.1:1000 and 192.0.2.9:80",
            "2. short delete 1.1: deleted",
            TAKES.format("over 1.2, since what has the key is closed at both ends (docs/REAL.md)"),
        ],
    ),
    "bad, the deletion is to be told": (
        OPEN + QUERY + FLUSH + "step main repeat 1\nstep main deliver 1\nstep main kill b 1.1\nstep main deliver 2",
        [
            "1. insert 1.1: bad: b has deleted the state, and has yet to report that",
            TAKES.format("over 1.1, although the deletion is pending (by kernel revive; docs/REAL.md)"),
        ],
    ),
    "bad, the table is full": (
        "set states 1\n" + OPEN + QUERY + SECOND.replace(" a ", " b ") + SYNC,
        ["1. insert 1.1: bad: the state table of b is full: the limit `states` is 1"],
    ),
    "bad, the deletion is to be told, and another state has the key": (
        # The next packet makes state 2.1 at b.
        OPEN + QUERY + FLUSH + "step main repeat 1\nstep main deliver 1\nstep main kill b 1.1\n"
        + QUERY.replace(" a ", " b ") + "step main deliver 2",
        ["1. insert 1.1: bad: b has deleted the state, and has yet to report that"],
    ),
    "stale, of ICMP": (
        ECHO,
        [
            "1. short update 1.1: stale: the source end came as level 1, and is level 2 here; the destination end came as level 0, and is level 1 "
            "here; b has its own state queued for a already (short update)",
            NO_LEVELS,
        ],
    ),
    "stale in the destination alone, of ICMP": (
        # That the kernel takes a stale destination says nothing here: by its levels none is stale.
        ECHO_AFTER_ANSWER,
        [
            "1. short update 1.1: merged in part, counted as stale: the source end is taken; the destination end came as level 1, and is level 2 "
            "here; last used at 0 ms; b has its own state queued for a already (short update)",
            NO_LEVELS,
        ],
    ),
    "cleared, and spared": (
        # The frame has the insertion first.
        OPEN + QUERY + SYNC + "step main clear a\n" + SECOND + FLUSH + "step main deliver 2",
        [
            "2. clear: b cleared 1 state of boot 1 up to id 1: 1.1",
            CLEARS.format("1.2"),
        ],
    ),
    "cleared, and spared by two": (
        OPEN + QUERY + SYNC + "step main clear a\n" * 2 + SECOND + FLUSH + "step main deliver 2",
        [
            "2. clear: b cleared 1 state of boot 1 up to id 1: 1.1",
            "3. clear: b cleared 0 states of boot 1 up to id 1",
            CLEARS.format("1.2"),
        ],
    ),
    "cleared, and many spared": (
        OPEN + QUERY + SYNC + "step main clear a\n" + "".join(SECOND.replace("0.2:", f"0.{it}:") for it in range(2, 10)) + FLUSH
        + "step main deliver 2",
        [
            "9. clear: b cleared 1 state of boot 1 up to id 1: 1.1",
            CLEARS.format("1.2, 1.3, 1.4, 1.5, 1.6, 1.7 and 2 more"),
        ],
    ),
    "cleared, and nothing is newer": (
        OPEN + QUERY + SECOND + SYNC + "step main clear a\n" + FLUSH + "step main deliver 2",
        ["1. clear: b cleared 2 states of boot 1 up to id 2: 1.1, 1.2"],
    ),
    "deleted": (
        OPEN + QUERY + SYNC + "step main kill a 1.1\nstep main flush a\nstep main deliver 2",
        ["1. short delete 1.1: deleted"],
    ),
    "deleted already": (
        OPEN + QUERY + SYNC + KILL + FLUSH + "step main repeat 2\nstep main deliver 2\nstep main deliver 3",
        ["1. short delete 1.1: bad: b has no such state to delete"],
    ),
    "cleared": (
        OPEN + QUERY + SECOND + SYNC + "step main clear a\nstep main flush a\nstep main deliver 2",
        ["1. clear: b cleared 2 states of boot 1 up to id 2: 1.1, 1.2"],
    ),
    "all asked for": (
        OPEN + QUERY + SYNC + "step main restart b\nstep main flush b\nstep main deliver 2",
        [
            "1. update request of all states: a begins a bulk update",
            "after this frame the bulk update of a has 1 state to send: 1.1",
        ],
    ),
    "all asked for, where nothing may be sent": (
        # The one state is on the insert queue, and the other one of a rule with `no-sync`.
        "rule a pass out\nrule a pass out from 10.0.0.2/32 no-sync\nopen\n"
        + (QUERY + SECOND + "step main restart b\nstep main flush b\nstep main deliver 1"),
        [
            "1. update request of all states: a begins a bulk update",
            "after this frame the bulk update of a has 0 states to send; "
            "turns skip states that are already queued or `no-sync`",
        ],
    ),
    "all asked for, with a state in the same frame": (
        "rule b pass out\nopen\nstep main restart b\n" + QUERY.replace(" a ", " b ") + "step main flush b\nstep main deliver 1",
        ["after this frame the bulk update of a has 1 state to send: 3.1"],
    ),
    "all asked for, where there is no state": (
        OPEN + "step main restart b\nstep main flush b\nstep main deliver 1",
        ["1. update request of all states: a has no state to send: the bulk update is over at once"],
    ),
    "the end of a bulk update": (
        OPEN + "step main restart b\nstep main flush b\nstep main deliver 1\nstep main flush a\nstep main deliver 2",
        [
            "1. bulk status end: the server says that it is at the end; b, which was waiting, no longer waits, whatever arrived",
        ],
    ),
    "the start of a bulk update": (
        UNHEARD.replace("step main lose 3", "step main deliver 3").partition(
            "step main turn a\nstep main flush a\nstep main deliver 3"
        )[0]
        + "step main turn a\nstep main flush a\nstep main deliver 3",
        ["2. bulk status start: the bulk update begins, and b continues to wait for its end", GIVES_NO_RULE.format("1.1 keeps rule 0")],
    ),
    "the end of a bulk update without its start": (
        UNHEARD + "step main deliver 4",
        [
            "1. update 1.2: new: inserted, since b did not know the state; last used at 0 ms",
            "2. bulk status end: the server says that it is at the end; b, which was waiting, no longer waits, whatever arrived",
            "b has not heard the start since it asked for all states (event 5, `restart b`): frame 3, which had it, was lost "
            "(event 10)",
            GIVES_NO_RULE.format("1.2 keeps rule 0"),
        ],
    ),
    "the end of a bulk update after the start of an older one": (
        # B hears the first start, asks again after 10 s, and does not hear the second.
        UNHEARD.replace("step main lose 3", "step main deliver 3")
        + "step main tick b 10000\nstep main retry b\nstep main flush b\nstep main deliver 5\n"
        + "step main turn a\nstep main flush a\n"
        + "step main lose 6\nstep main turn a\nstep main flush a\nstep main deliver 7",
        [
            "b has not heard the start since it asked for all states (event 14, `retry b`): frame 6, which had it, was lost "
            "(event 19)",
            GIVES_NO_RULE.format("1.2 keeps rule 0"),
        ],
    ),
    "the end of a bulk update before its start": (
        UNHEARD.replace("step main lose 3\n", "") + "step main deliver 4",
        [
            "b has not heard the start since it asked for all states (event 5, `restart b`): frame 3, which has it, "
            "is still in flight",
            GIVES_NO_RULE.format("1.2 keeps rule 0"),
        ],
    ),
    "an end that nobody waits for": (
        UNHEARD + "step main repeat 4\nstep main deliver 4\nstep main deliver 5",
        ["2. bulk status end: the server says that it is at the end; b was not waiting for it"],
    ),
    "cut within its header": (
        OPEN + QUERY + FLUSH + "step main cut 1 3",
        ["frame 1 had 148 bytes; 3 are less than a header, so its receiver cannot read it (Short)"],
    ),
    "broken, cut within its records": (
        OPEN + QUERY + FLUSH + "step main cut 1 40\nstep main repeat 1\nstep main deliver 2",
        [
            "Length: bytes 2 and 3 of its header say 148 bytes, but 40 are there",
            "frame 2 is a copy of frame 1 (event 4)",
            "event 3 cut frame 1 from 148 bytes to 40",
        ],
    ),
    "broken, cut within its header": (
        OPEN + QUERY + FLUSH + "step main cut 1 4\nstep main deliver 1",
        ["Short: it has 4 bytes, but a header alone has 20", "event 3 cut frame 1 from 148 bytes to 4"],
    ),
}


class RecordReasons(unittest.TestCase):
    def test_records(self) -> None:
        for name, (script, expected) in CASES.items():
            with self.subTest(name):
                lines = reasons(script)
                for line in expected:
                    self.assertIn(line, lines)
                # Where the kernel does otherwise is said only where that is expected.
                self.assertEqual([it for it in lines if "REAL.md" in it], [it for it in expected if "REAL.md" in it])

    def test_keys_that_the_kernel_leaves_to_their_states(self) -> None:
        """The state that has them is not closed, or there may be no room."""
        half_closed = CLOSED_THEN_NEW.replace(RESET + SYNC, SYNC + RESET)
        for name, script in (("half closed", half_closed), ("little room", "set states 2\n" + CLOSED_THEN_NEW)):
            with self.subTest(name):
                self.assertNotIn("REAL.md", "".join(reasons(script)))


if __name__ == "__main__":
    unittest.main()
