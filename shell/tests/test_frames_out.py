"""`./lab frames`: which messages are in which capture, when, and that tshark reads in them what the program says of its frames."""
from __future__ import annotations

import io
import os
import random
import re
import shutil
import struct
import subprocess
import sys
import tempfile
import unittest
from contextlib import redirect_stderr, redirect_stdout
from glob import glob
from typing import Dict, List, Sequence, Tuple

from ..captures import layout
from ..main import main
from . import TOP, program
from .sharks import (
    BEFORE_MESSAGE, DISSECTOR, HEAD, PACKET_HEAD, Packet, Told, dissected, needs_tcpdump, needs_tshark, packets, script_lines, shark, told,
)

LESSONS = sorted(glob(f"{TOP}/examples/*.pfl"))
ADDRESSES = {"a": "192.168.254.254", "b": "192.168.254.253"}
SETUP = ["rule a block any", "rule a pass out", "rule b block any", "rule b pass out", "open"]
QUERY = "step main packet a out udp 10.0.0.1:1000 192.0.2.9:53 40"
# The bytes of a message with one insertion: header 20, subheader 4, state 242, subheader of EOF 4.
INSERTION = 270
MILLISECOND = 10**6
CLIENT, SERVER = "[2001:0db8:0000:0000:0000:0000:0000:0009]:5353", "[2001:0db8:0000:0000:0000:0000:0000:0001]:22"
# Every kind of record that a node sends, both families, four protocols, translations, and what can become of a frame.
ALL = [
    *("set defer 1", "set batch 1", "rule a pass out quick proto udp nat 198.51.100.1:4000", "rule a pass any", "rule b pass any", "open"),
    "step main packet a out udp 10.0.0.1:1000 192.0.2.9:53 40",
    f"step main packet a in tcp {CLIENT} {SERVER} S 4294967290 0 60000 0 7",
    "step main packet a out icmp 10.0.0.2:77 192.0.2.9:77 40",
    "step main packet a out 47 10.0.0.3:0 192.0.2.9:0 40",
    *("step main flush a", "step main repeat 1", "step main deliver 2", "step main flush b", "step main deliver 1", "step main deliver 3"),
    f"step main packet a out tcp {SERVER} {CLIENT} SA 100 4294967291 1000 0 3",
    *("step main tick a 1500", "step main flush a", "step main cut 4 60", "step main deliver 4", "step main kill a 1.3"),
    *("step main flush a", "step main lose 5", "step main restart b", "step main flush b", "step main tick b 7", "step main deliver 6"),
    *("step main turn a", "step main flush a", "step main deliver 7", "step main clear a", "step main flush a", "step main tick b 1"),
    *("step main repeat 8", "step main cut 9 30", "step main repeat 9"),
    *("step main deliver 8", "step main deliver 9", "step main deliver 10"),
]


class Room(unittest.TestCase):
    """A folder for scripts and captures."""

    def setUp(self) -> None:
        self.room = os.path.realpath(tempfile.mkdtemp())
        self.addCleanup(shutil.rmtree, self.room)

    def path(self, name: str) -> str:
        return os.path.join(self.room, name)

    def script(self, lines: Sequence[str]) -> str:
        with open(self.path("script.pfl"), "w", encoding="utf-8") as it:
            it.write("".join(f"{line}\n" for line in lines))
        return self.path("script.pfl")

    def lab(self, *words: str) -> Tuple[int, str, str]:
        """The status and the outputs of words, without the name of the folder."""
        out, err = io.StringIO(), io.StringIO()
        with redirect_stdout(out), redirect_stderr(err):
            try:
                status = main(("--program", program(), *words), "./lab")
            except SystemExit as end:
                status = int(str(end.code))
        said, faults = (it.getvalue().replace(f"{self.room}/", "") for it in (out, err))
        return status, said, faults

    def frames(self, script: str, *options: str) -> str:
        """What is said of two captures that are written."""
        status, said, faults = self.lab("frames", script, self.path("a.pcap"), self.path("b.pcap"), *options)
        self.assertEqual((status, faults), (0, ""))
        return said.rstrip("\n")

    def packets(self, name: str) -> List[Packet]:
        with open(self.path(name), "rb") as it:
            return packets(it.read())

    def sizes(self, name: str) -> List[int]:
        """The bytes of each message of a capture."""
        return [len(packet.data) - BEFORE_MESSAGE for packet in self.packets(name)]

    def written(self, name: str, content: bytes) -> str:
        with open(self.path(name), "wb") as it:
            it.write(content)
        return self.path(name)


class Which(Room):
    """Which messages are in which capture, and when they were there."""

    def run_of(self, *events: str) -> str:
        return self.frames(self.script([*SETUP, QUERY, *(f"step main {event}" for event in events)]))

    def test_one_that_arrives_is_in_both(self) -> None:
        said = self.run_of("flush a", "deliver 1")
        self.assertEqual(said, "a.pcap has 1 message (1 sent by a, 0 received); b.pcap has 1 message (0 sent by b, 1 received)")
        self.assertEqual((self.sizes("a.pcap"), self.sizes("b.pcap")), ([INSERTION], [INSERTION]))
        sent, came = self.packets("a.pcap")[0], self.packets("b.pcap")[0]
        self.assertEqual(sent.data, came.data)
        # by the second event and by the third, with both clocks at 0
        self.assertEqual((sent.time, came.time), (2, 3))

    def test_one_that_is_lost_or_in_flight_is_at_its_sender_alone(self) -> None:
        for fate in (("lose 1",), ()):
            said = self.run_of("flush a", *fate)
            self.assertEqual(said, "a.pcap has 1 message (1 sent by a, 0 received); b.pcap has 0 messages (0 sent by b, 0 received)")
            self.assertEqual((self.sizes("a.pcap"), self.sizes("b.pcap")), ([INSERTION], []))

    def test_one_that_is_repeated_comes_twice(self) -> None:
        self.run_of("flush a", "repeat 1", "deliver 2", "deliver 1")
        self.assertEqual((self.sizes("a.pcap"), self.sizes("b.pcap")), ([INSERTION], [INSERTION, INSERTION]))
        self.assertEqual([packet.time for packet in self.packets("b.pcap")], [4, 5])

    def test_one_that_is_cut_has_the_same_share(self) -> None:
        # of 148 bytes 74 are a half, and 270 / 2 are 135; 49 are 89.4 of 270; a copy of what was cut is as long
        said = self.run_of("flush a", "cut 1 74", "repeat 1", "deliver 1", "cut 2 49", "deliver 2")
        self.assertEqual((self.sizes("a.pcap"), self.sizes("b.pcap")), ([INSERTION], [135, 89]))
        self.assertIn("b.pcap has 2 messages (0 sent by b, 2 received, 2 of them cut to the share that is left of the frame)", said)
        whole, cut = self.packets("a.pcap")[0].data[BEFORE_MESSAGE:], self.packets("b.pcap")[0].data
        self.assertEqual(cut[BEFORE_MESSAGE:], whole[:135])
        # (the header of IP counts what is there)
        self.assertEqual(int.from_bytes(cut[16:18], "big"), 20 + 135)

    def test_a_cut_beyond_the_end_cuts_nothing(self) -> None:
        self.assertNotIn("cut", self.run_of("flush a", "cut 1 148", "deliver 1"))
        self.assertEqual(self.sizes("b.pcap"), [INSERTION])

    def test_each_capture_has_the_clock_of_its_node(self) -> None:
        self.run_of("tick a 60000", "flush a", "tick b 5", "tick a 1", "deliver 1")
        self.assertEqual([packet.time for packet in self.packets("a.pcap")], [60000 * MILLISECOND + 3])
        self.assertEqual([packet.time for packet in self.packets("b.pcap")], [5 * MILLISECOND + 6])

    def test_what_was_undone_is_left_out(self) -> None:
        lines = [*SETUP, QUERY, "step main flush a", "step main cut 1 74", "step main deliver 1"]
        self.frames(self.script([*lines, "back main 2"]))
        self.assertEqual((self.sizes("a.pcap"), self.sizes("b.pcap")), ([INSERTION], []))
        self.frames(self.script([*lines, "back main 2", "step main deliver 1"]))
        self.assertEqual(self.sizes("b.pcap"), [INSERTION])

    def test_a_branch_by_its_name(self) -> None:
        lines = [*SETUP, QUERY, "step main flush a", "fork main 2 other", "step main lose 1", "step other deliver 1"]
        script = self.script(lines)
        self.frames(script, "--branch", "other")
        self.assertEqual(self.sizes("b.pcap"), [INSERTION])
        self.frames(script)
        self.assertEqual(self.sizes("b.pcap"), [])
        ran = self.lab("frames", script, self.path("a.pcap"), self.path("b.pcap"), "--branch", "third")
        self.assertEqual(ran, (1, "", "lab: there is no branch third; `names` lists them\n"))

    def test_pfsync0_shows_what_its_node_sent(self) -> None:
        script = self.script([*SETUP, QUERY, "step main flush a", "step main deliver 1"])
        self.frames(script)
        message = self.packets("a.pcap")[0].data[BEFORE_MESSAGE:]
        said = self.frames(script, "--pfsync")
        self.assertEqual(said, "a.pcap has 1 message (1 sent by a); b.pcap has 0 messages (0 sent by b)")
        self.assertEqual(([packet.data for packet in self.packets("a.pcap")], self.packets("b.pcap")), ([message], []))
        with open(self.path("a.pcap"), "rb") as it:
            self.assertEqual(it.read(HEAD)[20:], b"\xf6\0\0\0")

    def test_the_creator_of_a_bulk_status_is_the_node_that_serves(self) -> None:
        self.frames(self.script(ALL))
        # frame 7: the states that are left to a turn come before, and the status is the last record before EOF
        whole = next(packet.data for packet in self.packets("b.pcap") if packet.data[-20:-16] == b"\x0a\0\0\1")
        self.assertEqual(whole[-16:-4], struct.pack(">IIB3x", 1, 0, 1))


class Faults(Room):
    """What cannot be written, and why."""

    def fault(self, script: str, *captures: str) -> str:
        """What is said of files of which nothing is made."""
        status, said, faults = self.lab("frames", script, *map(self.path, captures))
        self.assertEqual((status, said), (1, ""))
        return faults

    def test_a_faulty_script_is_reported_as_by_chart(self) -> None:
        script = self.script([*SETUP, "step main packet", "what"])
        said = self.fault(script, "a.pcap", "b.pcap")
        self.assertEqual(said, self.lab("chart", script)[2])
        self.assertRegex(said, r"^lab: script.pfl: line 6: .*\nlab: script.pfl: line 7: .*\n$")
        self.assertEqual(os.listdir(self.room), ["script.pfl"])

    def test_files_are_not_written_over_one_another(self) -> None:
        script = self.script(SETUP)
        said = self.fault(script, "a.pcap", "./script.pfl")
        self.assertEqual(said, "lab: ./script.pfl is the script itself: captures are written to other files\n")
        said = self.fault(script, "a.pcap", "./a.pcap")
        self.assertEqual(said, "lab: a.pcap and ./a.pcap are one file: each node has a capture of its own\n")
        self.assertEqual(os.listdir(self.room), ["script.pfl"])

    def test_files_that_cannot_be_read_or_written(self) -> None:
        self.assertEqual(self.fault(self.path("none.pfl"), "a.pcap", "b.pcap"), "lab: none.pfl: No such file or directory\n")
        self.assertEqual(self.fault(self.script(SETUP), "a.pcap", "none/b.pcap"), "lab: none/b.pcap: No such file or directory\n")
        self.assertEqual(self.lab("frames", self.script(SETUP), self.path("a.pcap"))[0], 2)

    def test_the_command_of_a_checkout(self) -> None:
        environment = {**os.environ, "PFL_LAB": program()}
        command = (sys.executable, f"{TOP}/lab", "frames", self.script([*SETUP, QUERY, "step main flush a"]), "a.pcap", "b.pcap")
        ran = subprocess.run(command, cwd=self.room, env=environment, capture_output=True, text=True, timeout=60)
        said = "a.pcap has 1 message (1 sent by a, 0 received); b.pcap has 0 messages (0 sent by b, 0 received)\n"
        self.assertEqual((ran.returncode, ran.stdout, ran.stderr), (0, said, ""))
        self.assertEqual(self.sizes("a.pcap"), [INSERTION])


# The packets of a capture, each with the place that it has in a run, and what the program says of it.
Wanted = List[Tuple[str, Told]]


class Dissection(Room):
    """What tshark reads in captures."""

    def both(self, lines: Sequence[str], title: str) -> Tuple[bytes, Wanted]:
        """The packets of both captures of a script, and what the program says of them."""
        self.frames(self.script(lines))
        content, wanted = b"", []
        for node, its in told(lines).items():
            with open(self.path(f"{node}.pcap"), "rb") as it:
                content += it.read()[HEAD:]
            wanted += [(f"{title}, {node}, event {it.place}", it) for it in its]
        return content, wanted

    def head(self) -> bytes:
        with open(self.path("a.pcap"), "rb") as it:
            return it.read(HEAD)

    def compared(self, content: bytes, wanted: Wanted) -> None:
        shown = dissected(self.written("all.pcap", self.head() + content))
        self.assertEqual(len(shown), len(wanted))
        for message, (place, frame) in zip(shown, wanted):
            self.assertEqual((message.source, message.checksum), (ADDRESSES[frame.sender], frame.checksum), place)
            if frame.records:
                self.assertEqual((message.records, message.info, message.faults), (frame.records, frame.info, []), place)
            else:
                self.assertEqual(message.faults, ["The message is cut"], place)

    @needs_tshark
    def test_each_message_of_each_lesson_is_as_the_program_says(self) -> None:
        content = b""
        wanted: Wanted = []
        for path in LESSONS:
            more, its = self.both(script_lines(path), os.path.basename(path))
            content, wanted = content + more, wanted + its
        self.assertGreater(len(wanted), 80)
        self.compared(content, wanted)

    @needs_tshark
    def test_each_kind_of_record_is_as_the_program_says(self) -> None:
        content, wanted = self.both(ALL, "all")
        self.compared(content, wanted)
        kinds = {record.split()[0] for _, frame in wanted for record in frame.records}
        self.assertEqual(kinds, {"ins", "iack", "updc", "upd", "delc", "req", "clr", "bus"})

    @needs_tshark
    def test_names_and_the_info_column(self) -> None:
        self.frames(self.script(ALL))
        first, second = dissected(self.path("a.pcap"))[:2]
        # UDP and TCP, ICMP by number, GRE
        self.assertEqual(first.levels, ["SINGLE", "NO_TRAFFIC", "SYN_SENT", "CLOSED", "1", "0", "SINGLE", "NO_TRAFFIC"])
        self.assertEqual((first.info, second.info), ("INS 4", "INS_ACK 3"))
        # the handshake's second packet, in a short update: levels by the class
        update = dissected(self.path("a.pcap"))[2]
        self.assertEqual((update.info, update.levels), ("UPD_C 1", ["ESTABLISHED", "SYN_SENT"]))

    @needs_tshark
    def test_what_the_manual_shows(self) -> None:
        with open(f"{TOP}/docs/FIELD.md", encoding="utf-8") as it:
            blocks = dict(re.findall(r"<!-- frames (\S+) -->\n```text\n(.*?\n)```", it.read(), re.S))
        self.assertEqual(self.frames(f"{TOP}/examples/lost-bulk-frame.pfl") + "\n", blocks["counted"])
        for name in ("a.pcap", "b.pcap"):
            self.assertEqual(shark(self.path(name), "-T", "fields", "-e", "ip.src", "-e", "_ws.col.Info").stdout, blocks[name])

    @needs_tshark
    def test_filters_of_the_manual_find_something(self) -> None:
        self.frames(f"{TOP}/examples/lost-bulk-frame.pfl")
        # the flow of 10.0.0.17 is in the first insertion, and in an update of the bulk update at a alone
        found = {wanted: len(shark(self.path("a.pcap"), "-Y", wanted).stdout.splitlines()) for wanted in (
            'pfsync.name == "0000000000000002/00000001"', "pfsync.addr == 10.0.0.17", "pfsync.port == 22", "pfsync.action == 5",
            'pfsync.src.level == "ESTABLISHED"', "pfsync.cut", "pfsync.captured_short", "pfsync.action.unknown", "pfsync.version.unknown",
        )}
        self.assertEqual([*found.values()], [2, 2, 2, 1, 2, 0, 0, 0, 0])

    @needs_tshark
    def test_files_of_pfsync0_with_the_type_overwritten(self) -> None:
        script = self.script([*SETUP, QUERY, "step main flush a"])
        self.frames(script, "--pfsync")
        overwriting = "printf '\\223' | dd of=a.pcap bs=1 seek=20 conv=notrunc"
        subprocess.run(overwriting, shell=True, cwd=self.room, capture_output=True, check=True, timeout=60)
        option = 'uat:user_dlts:"User 0 (DLT=147)","pfsync","0","","0",""'
        self.assertEqual(shark(self.path("a.pcap"), "-o", option, "-T", "fields", "-e", "_ws.col.Info").stdout, "INS 1\n")

    @needs_tcpdump
    def test_tcpdump_reads_them_as_the_protocol_of_pfsync(self) -> None:
        self.frames(self.script(ALL))
        for name in ("a.pcap", "b.pcap"):
            ran = subprocess.run(("tcpdump", "-nvr", self.path(name)), capture_output=True, text=True, timeout=20, check=True)
            found = re.findall(r"ttl 255, id 0, offset 0, flags \[DF\], proto (?:unknown|pfsync) \(240\), length (\d+)\)", ran.stdout)
            self.assertEqual([int(it) for it in found], [size + 20 for size in self.sizes(name)], ran.stdout)
            self.assertNotIn("bad cksum", ran.stdout)


class Damaged(Room):
    """Messages that no node sent: the dissector finds faults in them, and has none."""

    def messages(self) -> List[bytes]:
        self.frames(self.script(ALL))
        return [packet.data for name in ("a.pcap", "b.pcap") for packet in self.packets(name)]

    def file(self, its: Sequence[Tuple[bytes, int]]) -> str:
        """A file of these packets, each captured up to some bytes."""
        with open(self.path("a.pcap"), "rb") as it:
            head = it.read(HEAD)
        parts = (PACKET_HEAD.pack(1767225600, at, len(data[:snap]), len(data)) + data[:snap] for at, (data, snap) in enumerate(its))
        return self.written("damaged.pcap", head + b"".join(parts))

    def with_message(self, packet: bytes, message: bytes) -> bytes:
        """The packet with another message, and the right length in its header of IP."""
        return packet[:16] + (20 + len(message)).to_bytes(2, "big") + packet[18:BEFORE_MESSAGE] + message

    def damaged(self, rolls: random.Random, packet: bytes) -> Tuple[bytes, int]:
        """A packet with a few other bytes, counts or lengths, cut or lengthened, and perhaps captured in part."""
        message = bytearray(packet[BEFORE_MESSAGE:])
        for _ in range(rolls.choice((0, 1, 2, 30))):
            if message:
                message[rolls.randrange(len(message))] = rolls.choice((0, 1, 5, 12, 28, 127, 255, rolls.randrange(256)))
        if len(message) > 24 and rolls.random() < 0.4:
            at = rolls.choice((2, 3, 20, 22, 23))
            message[at] = rolls.randrange(256)
        if rolls.random() < 0.4:
            del message[rolls.randrange(len(message) + 1) :]
        message += bytes(rolls.randrange(256) for _ in range(rolls.choice((0, 0, 0, 3, 300))))
        whole = self.with_message(packet, bytes(message))
        return whole, rolls.randrange(BEFORE_MESSAGE, len(whole) + 1) if rolls.random() < 0.3 else len(whole)

    @needs_tshark
    def test_no_bytes_are_a_fault_of_the_dissector(self) -> None:
        rolls, its = random.Random(240), self.messages()
        ran = shark(self.file([self.damaged(rolls, rolls.choice(its)) for _ in range(600)]), "-V")
        self.assertGreater(ran.stdout.count("\nPacket Filter State Synchronization"), 500)
        for fault in ("Lua Error", "Lua error", "Dissector bug", "Malformed Packet"):
            self.assertNotIn(fault, ran.stdout + ran.stderr)

    @needs_tshark
    def test_what_is_wrong_is_named(self) -> None:
        packet = next(it for it in self.messages() if len(it) == BEFORE_MESSAGE + 20 + 4 + 3 * 12 + 4)
        message = packet[BEFORE_MESSAGE:]
        other = "version 6 is OpenBSD's: its records have another layout"
        cases: Dict[bytes, Tuple[str, List[str]]] = {
            message: ("INS_ACK 3", []),
            message[:19]: ("no header [cut]", ["The message is cut"]),
            message[:20]: ("no records [cut]", ["The message is cut"]),
            message[:40]: ("INS_ACK 3 [cut]", ["The message is cut"]),
            message[:-4]: ("INS_ACK 3 [cut]", ["The message is cut"]),
            message[:22] + b"\xff\xff" + message[24:]: ("INS_ACK 65535 [cut]", ["The message is cut"]),
            message[:20] + b"\x08" + message[21:]: ("INS_F 3 [unknown action]", ["Unknown action"]),
            message[:20] + b"\x63" + message[21:]: ("action 99 3 [unknown action]", ["Unknown action"]),
            b"\6" + message[1:]: (other, [other]),
            b"\7" + message[1:]: ("version 7 is unknown", ["version 7 is unknown"]),
            message + b"more": ("INS_ACK 3", ["Bytes after the message"]),
            message[:3] + bytes((len(message) - 4,)) + message[4:-4]: ("INS_ACK 3", ["No group EOF"]),
        }
        shown = dissected(self.file([(self.with_message(packet, case), 65535) for case in cases]))
        self.assertEqual([(it.info, it.faults) for it in shown], [*cases.values()])
        shown = dissected(self.file([(packet, BEFORE_MESSAGE + 60)]))
        self.assertEqual((shown[0].info, shown[0].faults), ("INS_ACK 3 [captured short]", ["The packet was captured short"]))


# The parts of messages, as the dissector and the manual have them.
PARTS = (
    *(layout.HEADER, layout.SUBHEADER, layout.STATE, layout.PEER, layout.SHORT_UPDATE),
    *(layout.NAME, layout.CLEAR, layout.BULK_STATUS, layout.TDB),
)


class Layouts(unittest.TestCase):
    """The layout is the same in the dissector, in the manual and in the code."""

    def test_the_dissector(self) -> None:
        with open(DISSECTOR, encoding="utf-8") as it:
            parts = re.findall(r"(?m)^local (\w+) = \{\n((?:  \{ \".*\},.*\n)+)\}", it.read())
        found = {name: re.findall(r"\{ \"(\S+)\", (\d+), (\d+) \}", lines) for name, lines in parts}
        its = dict(zip(("HEADER", "SUBHEADER", "STATE", "PEER", "SHORT_UPDATE", "NAME", "CLEAR", "BULK_STATUS", "TDB"), PARTS))
        self.assertEqual(found, {name: [(f.name, str(f.size), str(f.sure)) for f in part.fields] for name, part in its.items()})

    def test_the_manual(self) -> None:
        with open(f"{TOP}/docs/FIELD-DETAILS.md", encoding="utf-8") as it:
            text = it.read().partition("<!-- layout -->\n")[2]
        rows = []
        for part in PARTS:
            names = ", ".join(f"`{it}`" for it in part.name.split(", "))
            rows.append(f"| {names} | {part.size} | {', '.join(f'`{f.name}` {f.size} ({f.sure})' for f in part.fields)} |")
        self.assertEqual(text.splitlines()[2 : 2 + len(rows)], rows)
        actions = {int(number): (name, record) for number, name, record in re.findall(r"(\d+) ([A-Z_]+) \| `?(\w+)`? \|", text)}
        self.assertEqual({*actions}, {*layout.ACTIONS})
        for number, (name, record) in actions.items():
            self.assertEqual(name, layout.ACTIONS[number].name)
            self.assertIn(record, layout.ACTIONS[number].layout.name.split(", "))


if __name__ == "__main__":
    unittest.main()
