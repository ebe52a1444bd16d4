"""The command `capture`: its timeline, what is selected, its forms of files, and its faults."""
from __future__ import annotations

import gzip
import io
import unittest
from contextlib import redirect_stderr
from typing import List

from ..arguments import parser
from . import capture_files as made
from .capture_cases import MILLISECOND, CaptureCase, Given, both
from .capture_files import A, B, NOON, PFSYNC, SECOND, ethernet, group, ip, message, name, pcap, pcapng, peer, short, state, status

WEB = (("198.51.100.7", 50000), ("192.0.2.80", 443))
SIX = (("2001:db8::9", 53), ("2001:db8::1", 1000))
HOUR = 3600 * SECOND

# A connection to a server behind a translation, which ends, and a query of IPv6.
NIGHT = (
    (
        *(0, "a"),
        message(
            group(
                made.INS,
                state(
                    *(0x5F00A1B200000003, 0x8A1B2C3D, WEB, (("198.51.100.7", 50000), ("10.0.0.80", 8080)), 6, 1),
                    *(peer(2, 1000, 1002, 64240, 7), peer(0), 120, 0, 4),
                ),
            )
        ),
        True,
    ),
    (
        *(20.5, "a"),
        message(
            group(
                made.UPD_C,
                short(0x5F00A1B200000003, peer(4, 1001, 66537, 512, 7), peer(4, 9, 65545, 513, 6), 0x8A1B2C3D, 86400, 2),
            )
        ),
        True,
    ),
    (1000, "a", message(group(made.INS, state(7, 0x8A1B2C3D, SIX))), False),
    (2000, "b", message(group(made.UPD_REQ, name(0, 0))), True),
    (2500, "a", message(group(made.BUS, status(1))), True),
    (2600, "a", message(group(made.UPD, state(7, 0x8A1B2C3D, SIX))), True),
    (2700, "a", message(group(made.BUS, status(2))), True),
    (3000, "a", message(group(made.DEL_C, name(0x5F00A1B200000003, 0x8A1B2C3D)), group(made.TDB, bytes(48))), True),
    (3600_000, "b", message(group(made.CLR, made.clear(0xB))), True),
)
WEB_NAME = "5f00a1b200000003/8a1b2c3d"
WEB_FLOW = "tcp 10.0.0.80:8080 (192.0.2.80:443) <- 198.51.100.7:50000"
SIX_NAME, SIX_FLOW = "0000000000000007/8a1b2c3d", "udp [2001:db8::1]:1000 -> [2001:db8::9]:53"
TIMELINE = [
    "12:00:00.000000  frame 1  a -> b  came after 0.200 ms  1 insert",
    f"    insert {WEB_NAME}  {WEB_FLOW}  CLOSED:SYN_SENT  [0 + 0] win 0  [1000 + 2] wscale 7 win 64240  120 s left of tcp.first, rule 4",
    "12:00:00.020500  frame 2  a -> b  came after 0.200 ms  1 short update",
    f"    short update {WEB_NAME}  {WEB_FLOW}  source ESTABLISHED [1001 + 65536] wscale 7 win 512,"
    " destination ESTABLISHED [9 + 65536] wscale 6 win 513  86400 s left of tcp.established",
    "12:00:01.000000  frame 3  a -> b  not in the capture of b  1 insert",
    f"    insert {SIX_NAME}  {SIX_FLOW}  SINGLE:NO_TRAFFIC  60 s left of udp.first, no rule",
    "12:00:02.000000  frame 4  b -> a  came after 0.200 ms  1 update request",
    "    update request for all states",
    "12:00:02.500000  frame 5  a -> b  came after 0.200 ms  1 bulk status",
    "    bulk status start",
    "12:00:02.600000  frame 6  a -> b  came after 0.200 ms  1 update",
    f"    update {SIX_NAME}  {SIX_FLOW}  SINGLE:NO_TRAFFIC  60 s left of udp.first, no rule",
    "12:00:02.700000  frame 7  a -> b  came after 0.200 ms  1 bulk status",
    "    bulk status end",
    "12:00:03.000000  frame 8  a -> b  came after 0.200 ms  1 short delete, 1 of IPsec passed over",
    f"    short delete {WEB_NAME}  {WEB_FLOW}",
    "13:00:00.000000  frame 9  b -> a  came after 0.200 ms  1 clear",
    "    clear of all states made by 0000000b",
]


def timeline(out: List[str]) -> List[str]:
    begin = out.index("frames") + 1
    return out[begin : out.index("", begin) if "" in out[begin:] else None]


class Timeline(CaptureCase):
    def test_frames_and_records(self) -> None:
        said = self.captured(NIGHT)
        self.assertEqual((said.status, said.err), (1, []))
        self.assertEqual(said.out[0], "found: 1 frame not in the other capture, 1 bulk update, 1 clear")
        self.assertEqual(timeline(said.out), TIMELINE)

    def test_the_first_frames(self) -> None:
        given = [(nth, "ab"[nth % 2], message(group(made.DEL_C, name(nth))), True) for nth in range(50)]
        said = timeline(self.captured(given).out)
        self.assertEqual((len(said), said[-1]), (81, "and 10 more frames; --all lists them"))
        self.assertEqual(len(timeline(self.captured(given, "--all").out)), 100)

    def test_clocks_an_hour_apart(self) -> None:
        for ahead, how in ((HOUR, "3,600.000 s ahead"), (-HOUR, "3,600.000 s behind")):
            said = self.run_with(*self.files(both(NIGHT, ahead)))
            self.assertEqual(timeline(said.out), TIMELINE)
            times = "if frames take as long one way as the other; all times are those of a"
            self.assertIn(f"times are in UTC; the clock of b is {how}, {times}", said.out)

    def test_zones_and_days(self) -> None:
        self.set_zone("XYZ-11:30")
        said = self.captured(NIGHT)
        self.assertIn("2026-01-10 00:30:00.000000", timeline(said.out)[-2])
        self.assertIn("2026-01-09 23:30:00.020500", timeline(said.out)[2])
        self.assertTrue(any(it.startswith("times are in XYZ; ") for it in said.out))

    def test_states(self) -> None:
        said = self.captured(NIGHT, "--states").out
        self.assertEqual(
            said[said.index("states") + 1 :],
            [
                f"{WEB_NAME}  {WEB_FLOW}",
                "  12:00:00.000000  frame 1 of a  insert: source and destination SYN_SENT and CLOSED, 120 s left  came after 0.200 ms",
                "  12:00:00.020500  frame 2 of a  short update: source and destination ESTABLISHED and ESTABLISHED, 86400 s left"
                "  came after 0.200 ms",
                "  12:00:03.000000  frame 8 of a  short delete  came after 0.200 ms",
                f"{SIX_NAME}  {SIX_FLOW}",
                "  12:00:01.000000  frame 3 of a  insert: source and destination SINGLE and NO_TRAFFIC, 60 s left  not in the capture of b",
                "  12:00:02.600000  frame 6 of a  update: source and destination SINGLE and NO_TRAFFIC, 60 s left  came after 0.200 ms",
            ],
        )

    def test_many_states(self) -> None:
        given = [(nth, "a", message(group(made.INS, state(nth, wire=(("192.0.2.9", nth), ("10.0.0.1", 1))))), True) for nth in range(1, 30)]
        steps = [(100 + nth, "a", message(group(made.UPD_C, short(1, peer(2), peer(2), left=nth))), True) for nth in range(30)]
        said = self.captured([*given, *steps], "--states").out
        self.assertEqual(said[-1], "and 9 more states; --all lists them")
        self.assertIn("  and 11 more steps; --all lists them", said)
        self.assertEqual(sum("more" in it for it in self.captured([*given, *steps], "--states", "--all").out), 0)


class Selected(CaptureCase):
    def test_flows(self) -> None:
        for flow in ("198.51.100.7", "198.51.100.7:50000", "10.0.0.80:8080", "192.0.2.80:443"):
            said = self.captured(NIGHT, "--flow", flow, "--states").out
            self.assertEqual(timeline(said), [*TIMELINE[:4], *TIMELINE[14:16]], flow)
            self.assertEqual(said[said.index("states") + 1], f"{WEB_NAME}  {WEB_FLOW}")
            # (bulk updates and clears are about all states)
            self.assertEqual(said[0], "found among what is asked for: 1 bulk update, 1 clear")
        for flow in ("2001:db8::9", "[2001:db8::9]:53", "2001:0db8::9[53]"):
            said = self.captured(NIGHT, "--flow", flow).out
            self.assertEqual(timeline(said), [*TIMELINE[4:6], *TIMELINE[10:12]], flow)
            self.assertIn("1 frame not in the other capture", said[0])
        for flow in ("198.51.100.7:50001", "2001:db8::90", "8.8.8.8"):
            none = self.captured(NIGHT, "--flow", flow)
            self.assertEqual((none.status, timeline(none.out)), (1, []))
            self.assertEqual(none.out[0], "none of 9 frames has what is asked for; of all flows: 1 bulk update, 1 clear")

    def test_times(self) -> None:
        said = self.captured(NIGHT, "--from", "12:00:01", "--to", "12:00:02").out
        self.assertEqual(timeline(said), TIMELINE[4:8])
        self.assertEqual(said[0], "found among what is asked for: 1 frame not in the other capture, 1 bulk update")
        said = self.captured(NIGHT, "--from", "12:00:02.500000001", "--to", "2026-01-09T12:00:02.6").out
        self.assertEqual(timeline(said), TIMELINE[10:12])
        self.assertEqual(said[0], "nothing found among what is asked for in 9 frames")
        none = self.captured(NIGHT, "--from", "13:00:01")
        self.assertEqual((none.status, none.out[0]), (0, "none of 9 frames has what is asked for"))
        self.set_zone("XYZ-11:30")
        said = self.captured(NIGHT, "--from", "2026-01-10T00:00").out
        self.assertEqual(len(timeline(said)), 2)
        self.assertEqual(len(timeline(self.captured(NIGHT, "--from", "23:30", "--to", "23:31").out)), 16)

    def test_words_that_are_faulty(self) -> None:
        path = self.file("A.pcap", both(NIGHT)[0])
        for words, why in (
            (["--flow", "here"], "here is not ADDRESS[:PORT], such as 192.0.2.80:443 or [2001:db8::80]:443"),
            (["--flow", "1.2.3.4:70000"], "1.2.3.4:70000 is not ADDRESS[:PORT]"),
            (["--from", "25:00"], "25:00 is not a time: HH:MM[:SS[.f]], or YYYY-MM-DDTHH:MM[:SS[.f]]"),
            (["--to", "2026-02-30T10:00"], "2026-02-30T10:00 is not a time"),
            (["--a", "fw1"], "fw1 is not an address"),
        ):
            said = io.StringIO()
            with self.assertRaises(SystemExit) as ended, redirect_stderr(said):
                parser().parse_args(["--program", "", "capture", path, *words])
            self.assertEqual(ended.exception.code, 2)
            self.assertIn(why, said.getvalue())

    def test_the_address_of_a(self) -> None:
        said = self.run_with(*self.files(both(NIGHT)), "--a", B)
        self.assertEqual(said.out[1], f"a is {B}, b is {A}: as --a says")
        why = "messages are in the capture of the sender first, 0.200 ms before the other, the difference of the clocks taken off"
        self.assertEqual(said.out[2], f"but the first capture seems to be that of {A}: {why}")
        said = self.run_with(self.files(both(NIGHT))[0], "--a", B)
        self.assertEqual(said.out[1], f"a is {B}, b is {A}: as --a says, and one capture alone is taken as that of a")
        said = self.run_with(*self.files(both(NIGHT)), "--a", "192.0.2.77")
        self.assertEqual((said.status, said.out), (2, []))
        self.assertEqual(said.err, [f"lab: no message is from 192.0.2.77: the senders are {A} and {B}"])


class Forms(CaptureCase):
    """One capture in several forms of files: what is said is the same."""

    def seen(self, node: str) -> List[Given]:
        return [it for it in NIGHT if it[1] == node or it[3]]

    def said_of(self, content: bytes, *options: str) -> List[str]:
        return timeline(self.run_with(self.file("A.pcap", content), "--a", A, *options).out)

    def test_links_and_files_say_the_same(self) -> None:
        packets = [(NOON + round(it[0] * MILLISECOND), ip(A if it[1] == "a" else B, it[2])) for it in self.seen("a")]
        framed = [(time, ethernet(its)) for time, its in packets]
        wanted = self.said_of(pcap(framed))
        self.assertEqual(len(wanted), 18)
        for content in (
            pcap(framed, nanoseconds=True),
            pcap(framed, order=">"),
            pcap(packets, 101),
            pcap([(time, bytes(4) + its) for time, its in packets], 0),
            pcap([(time, bytes(14) + b"\x08\x00" + its) for time, its in packets], 113),
            pcap([(time, b"\x08\x00" + bytes(18) + its) for time, its in packets], 276),
            pcap([(time, ethernet(its, bytes.fromhex("81000005"))) for time, its in packets]),
            pcapng(framed),
            gzip.compress(pcap(framed)),
            gzip.compress(pcapng(framed)),
        ):
            self.assertEqual(self.said_of(content), wanted)

    def test_pfsync_itself(self) -> None:
        its = [(NOON + round(it[0] * MILLISECOND), it[2]) for it in NIGHT if it[1] == "a"]
        said = self.run_with(self.file("A.pcap", pcap(its, PFSYNC)))
        self.assertEqual(said.out[1], "a capture of pfsync0 has what its node sent")
        records = [it for it in timeline(said.out) if it.startswith("    ")]
        self.assertEqual(records, [it for nth, it in enumerate(TIMELINE) if nth % 2 and nth not in (7, 17)])


class Faults(CaptureCase):
    def test_files(self) -> None:
        a, b = both(NIGHT)
        whole = self.file("B.pcap", b)
        said = self.run_with(self.file("A.pcap", a[:-1]), whole)
        place = len(a) - len(ethernet(ip(B, NIGHT[8][2]))) - 16
        why = f"A.pcap: the packet at byte {place} goes beyond the end of the file"
        self.assertEqual((said.status, said.err), (2, [f"lab: {why}"]))
        self.assertIn(f"{why}; what comes before that counts", said.out)
        self.assertEqual(len(timeline(said.out)), 18)
        alone = "; if it is, its node sent and heard nothing: give the other capture alone"
        for content, why in (
            (b"", "A.pcap: the file is empty"),
            (b"all udp 192.0.2.1", "A.pcap: the file is neither pcap nor pcapng"),
            (pcap([]), "A.pcap has no message of pfsync: is it a capture of the sync interface?"),
        ):
            for words, more in (((), ""), ((whole,), alone if why.endswith("?") else "")):
                said = self.run_with(self.file("A.pcap", content), *words)
                self.assertEqual((said.status, said.out, said.err), (2, [], [f"lab: {why}{more}"]))
        said = self.run_with(str(self.room / "none.pcap"))
        self.assertEqual((said.status, said.err), (2, ["lab: none.pcap: No such file or directory"]))
        said = self.run_with("/dev/zero")
        self.assertEqual((said.status, said.err), (2, ["lab: /dev/zero: the file is neither pcap nor pcapng"]))
        said = self.run_with(str(self.room))
        self.assertEqual((said.status, said.err), (2, [f"lab: {self.room}: Is a directory"]))
        said = self.run_with(whole, whole, whole)
        self.assertEqual((said.status, said.err), (2, ["lab: at most two captures: one of node a, and one of node b"]))

    def test_a_short_snap_length(self) -> None:
        its = [(NOON, ethernet(ip(A, message(group(made.INS, state(1), state(2))))))]
        said = self.run_with(self.file("A.pcap", pcap(its, kept=400)))
        self.assertIn("  12:00:00.000000  frame 1 of a: insert 2 of 2: captured short: use tcpdump -s 0", said.out)
        self.assertIn("1 insert; insert 2 of 2: captured short: use tcpdump -s 0", said.out[-2])
        self.assertEqual(said.status, 1)

    def test_other_senders(self) -> None:
        a, b = both(NIGHT)
        other = pcap(made.sent("192.0.2.3", (NOON, message(group(made.DEL_C, name(9)))), (NOON, message())), nanoseconds=True)[24:]
        said = self.run_with(*self.files((a + other, b)))
        self.assertIn("not looked at: 2 messages of 192.0.2.3", said.out)


if __name__ == "__main__":
    unittest.main()
