"""`why` where rules of the kernel decide: by which of them a packet passes or is dropped, and which ends of an update are taken. The numbers
are worked out by hand from docs/FORMATS.md and docs/KERNEL.md."""
from __future__ import annotations

import unittest
from . import reasons
from .test_kernel_reasons import FAR_PACKET, HIGH, KNOWN, LEAST, MOST, PACKET, UNHEARD
from .test_reasons import ANSWER_AT_B, FAR_FIN, FIN, FLUSH, OPEN, QUERY, SECOND, SYN, SYN_ACK, SYNC, WALLS, Cases
from .test_record_reasons import ACKED, ANSWERED, ECHO, TAKES

# The source's lo is 5000, and its hi 65001.
FAR = "seq 200000 ends at 200000, 134999 above 65001 (hi of the source end)"
NO_DATA = "by kernel window it passes: a packet without data is judged by what it acknowledges alone"
WHERE_UNHEARD = "where the other end was not heard, a packet may begin 67035 before lo, and end 67035 after hi"
WHERE_CLOSED = "where an end has closed, a packet may begin 67035 before lo, and end 67035 after hi"
ANY_NUMBER = "by kernel window without reset a reset passes with any number; with both this one is dropped: "
NEXT = "(by kernel reset a reset needs lo 5000 of the source end, or one beside it)"
NOT_RENEWED = "such a packet does not renew the state: it was last used at 0 ms, as {}"
EASED = "it has no data, so by kernel window it is judged by what it acknowledges alone"
# What the kernel, and what this pair by `kernel scale`, makes of the window of a SYN.
KEEPS = "FreeBSD's kernel, as far as we know its sources, keeps its window {} as {}, in units of its scale {} (by kernel scale; docs/REAL.md)"
KEPT = "by kernel scale its window {} is kept as {}, in units of its scale {}"
# A client that begins at 100 offers 65535 and the scale 7; so does the server, which begins at 4000000. Then the client offers 512 units.
OFFER = "rule a pass out\nopen\n" + PACKET + "S 100 0 65535 0 7\n"
ANSWER = FAR_PACKET + "SA 4000000 101 65535 0 7\n"
AGREED = OFFER + ANSWER + PACKET + "A 101 4000001 512 0\n"
OLD = FAR_PACKET + "A 3000000 101 512 1000"
# The server acknowledges 100000 bytes less than the client has sent: 67035 is the most at no scale.
FAR_ANSWER = "rule a pass out\nopen\n" + PACKET + "S 1000000 0 60000 0 7\n" + FAR_PACKET + "SA 500 900000 60000 0 7"
FAR_ACK = "ack 900000 is 32965 below 932965 (lo 1000000 of the source end less 67035)"
# B has heard 1000 bytes more of the destination than a, and a 1000 more of the source.
CROSSED = ANSWERED + "step main deliver 2\nstep main packet b in tcp 192.0.2.9:80 10.0.0.1:1000 A 9001 5001 60000 1000\n" + ACKED + FLUSH


# A's update of a query is sent 20 s after its packet, of the 30 that its class has; b's clock stands at 7 s.
LATE = OPEN + QUERY + SYNC + QUERY + "step main tick a 20000\nstep main tick b 7000\n" + FLUSH + "step main deliver 2"
# The rules of both give 600 s to what has 60 without a rule.
LONG_AT_BOTH = "rule a pass out timeout udp.first 600\nrule b pass out timeout udp.first 600\nopen\n"
# The rule of a gives 600 s to what has 60 at b.
LONGER = "rule a pass out timeout udp.first 600\nrule b pass out\nopen\n" + QUERY + SYNC


def dropped(text: str) -> str:
    return f"by the profile a packet with these numbers is dropped: {text}"


PASSES: Cases = {
    "no data": ("kernel window\n" + KNOWN + PACKET + "A 200000 9001 100 0", [dropped(FAR), NO_DATA]),
    "no data, and inside by the profile too": ("kernel window\n" + KNOWN + PACKET + "A 5001 9001 100 0", []),
    "the acknowledged number 0 of a reset": (
        "kernel all\n" + HIGH + PACKET + "RA 5001 0 0 0",
        [
            dropped("ack 0 is 432966 below 432966 (lo 500001 of the destination end less 67035)"),
            "by kernel window it passes: the acknowledged number 0 of a reset says nothing",
        ],
    ),
    "a reset with any number": (
        "kernel window\n" + KNOWN + PACKET + "R 200000 0 0 0",
        [dropped(FAR), NO_DATA, f"{ANY_NUMBER}seq 200000 is 194999 above 5001 {NEXT}"],
    ),
    "a reset with a number that the profile passes": (
        "kernel window loose\n" + KNOWN + PACKET + "R 5002 0 0 0",
        [f"{ANY_NUMBER}seq 5002 is 1 above 5001 {NEXT}"],
    ),
    "a reset with the next number": ("kernel window\n" + KNOWN + PACKET + "R 5001 0 0 0", []),
    "a reset one before the next number": (
        "kernel window reset\n" + UNHEARD + PACKET + "R 4999 0 0 0",
        [
            dropped("seq 4999 begins 1 below 5000 (lo 5000 of the source end less the window 0 of the destination end)"),
            "by kernel window it passes: a reset may have the next number, or one beside it",
        ],
    ),
    "the first packet of an end that a reset closed": (
        "kernel window\n" + UNHEARD + PACKET + "R 5001 0 0 0\n" + SYN_ACK,
        [
            dropped("seq 9000 ends at 9001, 9000 above 1 (hi of the destination end)"),
            "by kernel window it passes: an end that was not heard begins with its first packet, whatever its level",
            KEEPS.format(60000, 7500, 3),
        ],
    ),
    "loosely, as the other end was not heard": (
        "kernel loose\n" + UNHEARD + PACKET + "PA 5001 1 100 1000",
        [
            "seq 5001 ends at 6001, 999 above 5002 (hi of the source end)",
            f"by kernel loose it passes nevertheless: {WHERE_UNHEARD}",
            NOT_RENEWED.format("tcp.first"),
        ],
    ),
    "loosely, as an end has closed": (
        "kernel loose\n" + KNOWN + FIN + FAR_FIN + FAR_PACKET + f"A {9001 + 65535} 5002 100 100",
        [
            "seq 74536 ends at 74636, 100 above 74536 (hi of the destination end)",
            f"by kernel loose it passes nevertheless: {WHERE_CLOSED}",
            NOT_RENEWED.format("tcp.finwait"),
        ],
    ),
    "the window of a SYN that answers a scale": ("kernel scale\n" + OFFER + ANSWER.strip(), [KEPT.format(65535, 512, 7)]),
    "an answer without a scale": (
        "kernel scale\n" + OFFER + FAR_PACKET + "SA 500 101 60000 0",
        ["it offers no scale, so by kernel scale that of the source end is void: its window is 65535 now"],
    ),
    "an answer that counts at its scale": (
        "kernel scale\n" + FAR_ANSWER,
        [
            dropped(FAR_ACK),
            "by kernel scale it passes: the answer to a scale, which offers one too, counts at both scales, although it has a SYN",
            KEPT.format(60000, 469, 7),
        ],
    ),
    "a segment that is not too old": ("kernel scale\n" + AGREED + OLD.replace("3000000", "3940000"), []),
    "loosely, a reset with another number": (
        "kernel loose reset\n" + KNOWN + FIN + FAR_FIN + FAR_PACKET + "R 15554 5002 100 100",
        [
            "seq 15554 is 6551 above 9003 (by kernel reset a reset needs lo 9002 of the destination end, or one beside it)",
            f"by kernel loose it passes nevertheless: {WHERE_CLOSED}",
            NOT_RENEWED.format("tcp.finwait"),
            "it closes the state: FIN_WAIT_2:CLOSING -> TIME_WAIT:TIME_WAIT",
        ],
    ),
}

DROPS: Cases = {
    "no data, and a far acknowledgement": (
        "kernel window\n" + KNOWN + PACKET + f"A 200000 {9001 + 67036} 100 0",
        [
            "ack 76037 is 1 above 76036 (lo 9001 of the destination end and 67035 more)",
            EASED,
            "holds: lo 5000 of the source end is not above 65001 (hi of the source end)",
            "holds: lo 5000 of the source end is not below 4294492296 (lo 5000 of the source end less the window 480000 (60000 at scale 3) "
            "of the destination end, mod 2^32)",
        ],
    ),
    "a byte, and no acknowledgement": (
        "kernel all\n" + KNOWN + PACKET + "P 200000 0 100 1",
        [
            "seq 200000 ends at 200001, 135000 above 65001 (hi of the source end)",
            "holds: no acknowledgement counts, so lo 9001 of the destination end does: it is between 4294708157 and 76036 "
            "(lo 9001 of the destination end less 268140, and 67035 more)",
        ],
    ),
    "a reset above the next number": ("kernel reset\n" + KNOWN + PACKET + "R 6000 0 0 0", [f"seq 6000 is 999 above 5001 {NEXT}"]),
    "a reset below it": ("kernel all\n" + KNOWN + PACKET + "R 4000 0 0 0", [f"seq 4000 is 999 below 4999 {NEXT}", EASED]),
    "a reset with the next number, outside the window": (
        "kernel reset\n" + HIGH + PACKET + "RA 5001 0 0 0",
        [
            "ack 0 is 432966 below 432966 (lo 500001 of the destination end less 67035)",
            f"holds: seq 5001 is between 4999 and 5001 {NEXT}",
        ],
    ),
    "too old for a window that is kept in units": (
        "kernel scale\n" + AGREED + OLD,
        [
            "seq 3000000 begins 934465 below 3934465 (lo 4000001 of the destination end less the window 65536 (512 at scale 7) of the source end)",
            "by kernel scale the window 65535 of the SYN of the source end was kept as 512, in units of the scale 7; by the profile it counts as "
            "65535 such units, and this packet passes",
        ],
    ),
    "above what the other node does not send": (
        # B has deleted the state, which comes again, and then the answer comes there; it allows a what a does not hear of.
        "kernel revive\n" + OPEN + SYN + FLUSH + "step main repeat 1\nstep main deliver 1\nstep main kill b 1.1\nstep main deliver 2\n"
        + SYN_ACK.replace(" a ", " b ") + PACKET + "A 5001 9001 100 1000",
        [
            "seq 5001 ends at 6001, 999 above 5002 (hi of the source end)",
            "node b has other numbers for state 1.1: the same packet at b gives `pass 1.1`",
            "b sends nothing of it but its own deletion, which is pending (`flush b` sends it)",
        ],
    ),
    "too far after what may pass loosely": (
        "kernel loose\n" + UNHEARD + PACKET + f"PA {MOST - 999} 1 100 1000",
        [
            "seq 71038 ends at 72038, 67036 above 5002 (hi of the source end)",
            f"by kernel loose, {WHERE_UNHEARD}; this one ends 1 after that",
        ],
    ),
    "too far before it": (
        "kernel loose\n" + UNHEARD + PACKET + f"PA {LEAST - 1} 1 100 1000",
        [
            "seq 4294905260 begins 67036 below 5000 (lo 5000 of the source end less the window 0 of the destination end)",
            f"by kernel loose, {WHERE_UNHEARD}; this one begins 1 before that",
        ],
    ),
}

# Where both rules keep the same, or the profile's is not known to decide, nothing is said of scales.
ALIKE: Cases = {
    "a SYN at the scale 0": (OFFER.replace(" 7\n", " 0"), []),
    "a SYN without a scale": (OFFER.replace(" 7\n", ""), []),
    "an answer to none": (OFFER.replace(" 7\n", "\n") + ANSWER.strip(), []),
    "a segment that both pass": (AGREED + OLD.replace("3000000", "3940000"), []),
    "a later packet has offered as much": (AGREED + PACKET + "A 101 4000001 65535 0\n" + OLD, []),
    "one that both drop": (AGREED + FAR_PACKET + "A 3000000000 101 512 1000", []),
}

# What is said of the kernel where a packet is dropped by some of its rules.
OTHERS: Cases = {
    "by all of them": ("kernel all\n" + KNOWN + PACKET + "A 200000 9001 100 1", []),
    "by another one": (
        "kernel loose\n" + KNOWN + PACKET + "A 200000 9001 100 0",
        ["passes this packet: a packet without data is judged by what it acknowledges alone (by kernel window; docs/REAL.md)"],
    ),
    "by two": (
        "kernel reset\n" + KNOWN + FIN + FAR_FIN + PACKET + f"PA {5002 + 480000} 9002 100 100",
        [f"passes this packet: {WHERE_CLOSED} (by kernel loose; docs/REAL.md)"],
    ),
    "without one": (
        "kernel window reset\n" + KNOWN + PACKET + "R 200000 0 0 0",
        [
            "may pass this packet: before 13.2-RELEASE-p7 it does not test the number of a reset "
            "(by kernel window without reset; docs/REAL.md)"
        ],
    ),
}

# B has lost what it knew, and gets it by a bulk update.
BULK = (
    QUERY + FLUSH + "step main lose 1\nstep main restart b\nstep main flush b\nstep main deliver 2\nstep main turn a\n" + FLUSH
    + "step main deliver 3"
)
NEW = "new: inserted, since b did not know the state"
BEGINS = "bulk status start: the bulk update begins, and b continues to wait for its end"
ENDS = "bulk status end: the server says that it is at the end; b, which was waiting, no longer waits, whatever arrived"
# B has yet to send its deletion of what comes again.
PENDING = QUERY + FLUSH + "step main repeat 1\nstep main deliver 1\nstep main kill b 1.1\nstep main deliver 2"

# So it has when the second answer to its requests brings what it has deleted since (the case revive-second-bulk).
SECOND_BULK = (
    WALLS + "step main packet b out udp 10.0.0.1:1000 192.0.2.9:53 40\nstep main flush b\nstep main lose 1\nstep main restart a\n" + FLUSH
    + "step main deliver 2\nstep main turn b\nstep main flush b\nstep main repeat 3\nstep main deliver 3\nstep main kill a 2.1\nstep main deliver 4"
)
BULK_AGAIN = [
    "2. bulk status start: the bulk update begins, and a was not waiting for one",
    "3. bulk status end: the server says that it is at the end; a was not waiting for it",
]
REVIVED_21 = (
    "1. update 2.1: new: inserted, since a did not know the state; last used at 0 ms; by kernel revive, although a has yet to send its own "
    "deletion of it"
)

RECORDS: Cases = {
    "a state that has no rule, since it came as an update": (
        "kernel rule\n" + OPEN + BULK,
        [
            "1. update 1.1: new: inserted, since b did not know the state; last used at 0 ms",
            f"2. {BEGINS}",
            f"3. {ENDS}",
            "by kernel rule 1.1 has no rule, and the default timeouts, since it came as an update; by the profile 1.1 keeps rule 0",
        ],
    ),
    "a state that has no rule by the profile either": (
        "kernel rule\nrule a pass out\nrule b pass any\nopen\n" + BULK,
        [
            "1. update 1.1: new: inserted, since b did not know the state; last used at 0 ms",
            f"2. {BEGINS}",
            f"3. {ENDS}",
            "by kernel rule 1.1 has no rule, and the default timeouts, since it came as an update",
        ],
    ),
    "two states that have no rule, where other rules are the kernel's too": (
        # By `rule` their timeout is the default. 600 s are left of them: by `expiry` b counts these, and without it at most those 60.
        "kernel all\n" + LONG_AT_BOTH + BULK.replace(QUERY, QUERY + SECOND),
        [
            *(f"{it}. update 1.{it}: {NEW}; last used at 540000 ms, which is ahead of b's clock" for it in (1, 2)),
            f"3. {BEGINS}",
            f"4. {ENDS}",
            "by kernel rule 1.1, 1.2 have no rule, and the default timeouts, since they came as updates; without it 1.1 keeps rule 0, 1.2 keeps "
            "rule 0",
            "by kernel expiry 1.1 lives until 600000 ms, and without it until 60000 ms; 1.2 lives until 600000 ms, and without it until 60000 ms",
        ],
    ),
    "a state that has no rule, and that is taken over by another rule": (
        # By the profile the record is bad.
        "kernel rule revive\n" + SECOND_BULK,
        [
            REVIVED_21,
            *BULK_AGAIN,
            "by kernel rule 2.1 has no rule, and the default timeouts, since it came as an update; without it 2.1 keeps rule 1",
        ],
    ),
    "the same by all": (
        "kernel all\n" + SECOND_BULK,
        [
            REVIVED_21,
            *BULK_AGAIN,
            "by kernel rule 2.1 has no rule, and the default timeouts, since it came as an update; without it 2.1 keeps rule 1",
        ],
    ),
    "a state that is asked for where its deletion is pending": (
        # B's update goes out, a deletes the state and asks for it, and b deletes it too before an old insertion brings it back.
        "kernel revive\n" + OPEN + QUERY + FLUSH + "step main repeat 1\nstep main deliver 1\n" + ANSWER_AT_B
        + "step main flush b\nstep main kill a 1.1\nstep main flush a\nstep main lose 4\nstep main deliver 3\nstep main flush a\n"
        + "step main kill b 1.1\nstep main deliver 2\nstep main deliver 5",
        ["1. update request 1.1: asked for: b sends only its own deletion of it, which is queued"],
    ),
    "a state whose rule an insertion brings": (
        "kernel rule\n" + OPEN + QUERY + SYNC.strip(),
        ["1. insert 1.1: new: inserted; last used at 0 ms"],
    ),
    "a state that comes back": (
        "kernel revive\n" + OPEN + PENDING,
        ["1. insert 1.1: new: inserted; last used at 0 ms; by kernel revive, although b has yet to send its own deletion of it"],
    ),
    "a state that comes back, and is not acknowledged": (
        "kernel revive\nset defer 1\n" + OPEN + PENDING,
        [
            "1. insert 1.1: new: inserted; last used at 0 ms; by kernel revive, although b has yet to send its own deletion of it; it asks for an "
            "acknowledgement, in place of which the deletion is sent"
        ],
    ),
    "a clear without a bound": (
        "kernel clear\n" + OPEN + QUERY + SYNC + "step main clear a\n" + SECOND + FLUSH + "step main deliver 2",
        [
            "1. insert 1.2: new: inserted; last used at 0 ms",
            "2. clear: b cleared 2 states of boot 1, by kernel clear also past id 1",
        ],
    ),
    "an echo without levels": (
        "kernel icmp\n" + ECHO,
        ["1. short update 1.1: merged: neither end is behind the one here; last used at 0 ms"],
    ),
    "the destination with the source": (
        "kernel merge\n" + CROSSED + "step main deliver 3",
        [
            "1. short update 1.1: merged, counted as stale: by kernel merge the destination end is taken with the source end, although "
            "the destination end's lo 10001 here is after the 9001 that came; last used at 0 ms; b has its own state queued for a already "
            "(short update)"
        ],
    ),
    "a use now": (
        "kernel expiry\n" + LATE,
        [
            "1. short update 1.1: merged: neither end is behind the one here; last used at 7000 ms",
            "by kernel expiry 1.1 lives until 37000 ms, and by the profile until 30000 ms",
        ],
    ),
    "left of a timeout that is not cut": (
        "kernel expiry\n" + LONGER,
        [
            "1. insert 1.1: new: inserted; last used at 540000 ms, which is ahead of b's clock",
            "without the number of its rule, since the sender's rules are not those of b: 1.1",
            "by kernel expiry 1.1 lives until 600000 ms, and by the profile until 60000 ms",
        ],
    ),
    "neither": (
        "kernel all\n" + ANSWERED + ACKED + FLUSH + "step main deliver 3\nstep main deliver 2",
        [
            "1. short update 1.1: stale: the source end's lo 6001 here is after the 5000 that came; "
            "the destination end came as SYN_SENT, and is ESTABLISHED here; b queues its own state for a, as a short update"
        ],
    ),
    "both, of which none is stale": (
        "kernel merge\n" + ANSWERED + "step main deliver 2",
        ["1. short update 1.1: merged: neither end is behind the one here; last used at 0 ms"],
    ),
    "another rule changes nothing here": (
        "kernel window loose reset\n" + CROSSED + "step main deliver 3",
        [
            "1. short update 1.1: merged in part, counted as stale: the source end is taken; "
            "the destination end's lo 10001 here is after the 9001 that came; last used at 0 ms; "
            "b has its own state queued for a already (short update)",
            "a would find b's own 1.1 stale in turn, unless it has heard more since: by this project's profile the two can continue like this without "
            "end; by kernel merge they come to rest, unless their frames keep crossing (docs/REAL.md)",
            TAKES.format("the destination end of 1.1 too, since the source end is not stale (by kernel merge; docs/REAL.md)"),
        ],
    ),
}


class Ways(unittest.TestCase):
    def test_packets_that_pass(self) -> None:
        """What is said of the kernel's rules stands behind by which key the state matches."""
        for name, (script, wanted) in PASSES.items():
            with self.subTest(name):
                lines = reasons(script)
                self.assertIn("a packet of a state is not tested against rules", lines[0])
                self.assertEqual(lines[1 : 1 + len(wanted)], wanted)
                self.assertNotIn("kernel", "".join(lines[1 + len(wanted) :]))

    def test_a_segment_without_data_passes_by_another_rule(self) -> None:
        """So the kernel drops no such segment, however old; by `scale` alone it is dropped."""
        alone = ["by kernel scale it is `drop window` (docs/REAL.md)", "by kernel all it is `pass 1.1`, as here (docs/REAL.md)"]
        self.assertEqual([reason for reason in reasons(AGREED + OLD.replace("512 1000", "512 0")) if "kernel" in reason], alone)

    def test_an_old_segment_that_the_kernel_drops(self) -> None:
        kept = "it keeps the window 65535 of the SYN of the source end as 512, in units of the scale 7"
        drops = f"{kept}, and seq 3000000 begins 934465 below what that allows (by kernel scale; docs/REAL.md)"
        for line in ("", "kernel window loose reset\n"):
            said = [reason for reason in reasons(line + AGREED + OLD) if "kernel" in reason]
            self.assertEqual(said, [f"FreeBSD's kernel, as far as we know its sources, drops this packet: {drops}"])

    def test_what_a_syn_makes_of_scales(self) -> None:
        for script, wanted in ((OFFER.strip(), KEEPS), (OFFER + ANSWER.strip(), KEEPS)):
            self.assertEqual([reason for reason in reasons(script) if "kernel" in reason], [wanted.format(65535, 512, 7)])
        self.assertEqual([it for it in reasons("kernel scale\n" + OFFER.strip()) if "kernel" in it], [KEPT.format(65535, 512, 7)])
        # What passes only by it.
        counts = "passes this packet: the answer to a scale, which offers one too, counts at both scales, although it has a SYN"
        self.assertIn(f"FreeBSD's kernel, as far as we know its sources, {counts} (by kernel scale; docs/REAL.md)", reasons(FAR_ANSWER))

    def test_where_both_rules_keep_the_same(self) -> None:
        for name, (script, wanted) in ALIKE.items():
            for line in ("", "kernel scale\n"):
                with self.subTest(name, line=line):
                    self.assertEqual([it for it in reasons(line + script) if "scale" in it and ("kernel" in it or "profile" in it)], wanted)

    def test_packets_that_are_dropped(self) -> None:
        for name, (script, wanted) in DROPS.items():
            with self.subTest(name):
                lines = reasons(script)
                self.assertEqual(lines[0], wanted[0])
                for line in wanted:
                    self.assertIn(line, lines)

    def test_what_the_other_rules_would_do(self) -> None:
        for name, (script, wanted) in OTHERS.items():
            with self.subTest(name):
                said = [reason for reason in reasons(script) if reason.startswith("FreeBSD's kernel")]
                self.assertEqual(said, [f"FreeBSD's kernel, as far as we know its sources, {it}" for it in wanted])

    def test_updates(self) -> None:
        for name, (script, wanted) in RECORDS.items():
            with self.subTest(name):
                self.assertEqual(reasons(script)[1:], wanted)


if __name__ == "__main__":
    unittest.main()
