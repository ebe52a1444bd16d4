"""Files given to the wrong command: each is recognised by its contents, and refused in one line that names what reads it."""
from __future__ import annotations

import gzip
import os
import subprocess
import sys
import tempfile
import unittest
from contextlib import redirect_stderr, redirect_stdout
from io import StringIO
from pathlib import Path
from typing import Dict, Optional, Tuple

from ..importing import parser
from ..main import main
from ..scripts.kinds import CAPTURE, DUMP, ENOUGH, PACKED, PF_CONF, SCRIPT, STATEMENTS, Kind, kind_of
from . import TOP, program
from .children import SECONDS
from .dump_cases import ALL

EXAMPLES = Path(TOP, "examples")
PF_CONFS = Path(TOP, "shell/tests/pf_confs")
COUNTERS = "pfsync:\n\t17 packets received (IPv4)\n\t0 packets received (IPv6)\n"
SHOWN = "rule a pass any\nrule b pass any\nopen\nstep main packet a out udp 10.0.0.1:1000 192.0.2.9:53 40\n"
# How each command is given a file, and its status where the file is a wrong one.
OF_SCRIPTS: Dict[Tuple[str, ...], int] = {
    ("shell", "FILE"): 1,
    ("verify", "FILE"): 1,
    ("annotate", "FILE"): 1,
    ("chart", "FILE"): 1,
    ("page", "FILE", "OUT.html"): 1,
    ("sheet", "FILE"): 1,
    ("frames", "FILE", "OUT.a", "OUT.b"): 1,
    ("whatif", "FILE"): 1,
    ("depends", "FILE"): 2,
}
OTHERS: Dict[Tuple[str, ...], int] = {("compare", "FILE", "FILE"): 2, ("capture", "FILE"): 2, ("import", "FILE", "--on", "em0"): 1}


class Recognised(unittest.TestCase):
    """What files look like."""

    def kinds(self, *texts: str) -> Tuple[Optional[Kind], ...]:
        return tuple(kind_of(text.encode()) for text in texts)

    def test_the_files_of_the_examples(self) -> None:
        wanted = {".pfl": SCRIPT, ".pcap": CAPTURE, ".conf": PF_CONF}
        for path in EXAMPLES.iterdir():
            if path.suffix in wanted:
                self.assertEqual(kind_of(path.read_bytes()[:ENOUGH]), wanted[path.suffix], path)

    def test_a_pf_conf_is_nothing_else(self) -> None:
        found = {path.name: kind_of(path.read_bytes()[:ENOUGH]) for path in PF_CONFS.glob("*.conf")}
        self.assertEqual({*found.values()}, {PF_CONF}, found)

    def test_what_begins_a_statement(self) -> None:
        self.assertEqual({*STATEMENTS}, {*parser.STATEMENTS} - {"set"})

    def test_states_and_counters(self) -> None:
        self.assertEqual(self.kinds(*ALL, COUNTERS, f"fw1# pfctl -ss -vv\n{ALL[0]}"), (DUMP,) * (len(ALL) + 2))
        self.assertEqual(kind_of(("\ufeff" + "".join(ALL)).encode("utf-16-le")), DUMP)

    def test_captures_packed_or_not(self) -> None:
        capture = (EXAMPLES / "captured-failover-a.pcap").read_bytes()
        self.assertEqual(kind_of(capture[:30]), CAPTURE)
        self.assertEqual(kind_of(b"\x0a\x0d\x0d\x0a"), CAPTURE)
        self.assertEqual(kind_of(gzip.compress(capture)[:ENOUGH]), CAPTURE)
        self.assertEqual(kind_of(gzip.compress(ALL[0].encode())), PACKED)
        self.assertEqual(kind_of(b"\x1f\x8bdamaged"), PACKED)

    def test_a_file_with_faults_may_be_of_any_kind(self) -> None:
        self.assertEqual(self.kinds("", "# nothing\n", "rul a pass\nopn\n", "set timeout tcp.first 30\n", "a = 1\n", "no file\n", "\x7fELF\n"), (None,) * 7)
        self.assertEqual(self.kinds("rule a pass any\npass out all\nopen\n", f"{ALL[0]}open\n", f"pass out\n{ALL[0]}"), (None,) * 3)

    def test_a_line_that_may_be_cut_says_nothing(self) -> None:
        self.assertEqual(kind_of(("# \n" * ENOUGH)[: ENOUGH - 4].encode() + b"open"), None)


class Refused(unittest.TestCase):
    """What the commands say of such files."""

    def setUp(self) -> None:
        room = tempfile.TemporaryDirectory()
        self.addCleanup(room.cleanup)
        self.room = Path(room.name)
        self.capture = (EXAMPLES / "captured-failover-a.pcap").read_bytes()
        self.conf = (EXAMPLES / "captured-failover.conf").read_bytes()

    def said(self, words: Tuple[str, ...], content: bytes) -> Tuple[int, str]:
        """The status of a command that is given this content, and the lines that name the file."""
        path = self.room / "given"
        path.write_bytes(content)
        out = StringIO()
        named = [str(path) if word == "FILE" else str(self.room / word) if word.startswith("OUT.") else word for word in words]
        with redirect_stdout(out), redirect_stderr(out):
            status = main(["--program", program(), *named])
        self.assertEqual([*self.room.iterdir()], [path])
        self.assertEqual(path.read_bytes(), content)
        return status, "".join(f"{line}\n" for line in out.getvalue().replace(f"{self.room}/", "").splitlines() if "given" in line)

    def expect(self, words: Tuple[str, ...], status: int, content: bytes, kind: Kind) -> None:
        with self.subTest(words=words, kind=kind.called):
            begin = "" if words[0] == "verify" else "lab: "
            self.assertEqual(self.said(words, content), (status, f"{begin}given: {kind}\n"))

    def test_instead_of_a_script(self) -> None:
        for words, status in OF_SCRIPTS.items():
            self.expect(words, status, self.capture, CAPTURE)
            self.expect(words, status, "".join(ALL).encode(), DUMP)
            self.expect(words, status, self.conf, PF_CONF)

    def test_instead_of_a_dump_a_capture_or_a_pf_conf(self) -> None:
        for words, status in OTHERS.items():
            for content, kind in ((self.capture, CAPTURE), ("".join(ALL).encode(), DUMP), (self.conf, PF_CONF), (SHOWN.encode(), SCRIPT)):
                if (words[0], kind) not in (("compare", DUMP), ("capture", CAPTURE), ("import", PF_CONF)):
                    self.expect(words, status, content, kind)

    def test_a_file_with_faults_is_answered_as_ever(self) -> None:
        self.assertEqual(self.said(("chart", "FILE"), b"rul a pass\n")[1][:20], "lab: given: line 1: ")
        self.assertIn("neither pcap nor pcapng", self.said(("capture", "FILE"), b"nothing\n")[1])
        self.assertIn("given:1: not understood: nothing", self.said(("compare", "FILE", "FILE"), b"nothing\n")[1])

    def test_on_standard_input(self) -> None:
        path = self.room / "given"
        for content, kind in ((self.capture, CAPTURE), ("".join(ALL).encode(), DUMP), (self.conf, PF_CONF)):
            path.write_bytes(content)
            for word in ("run", "check", "serve", "shell"):
                with self.subTest(word=word, kind=kind.called), path.open() as given:
                    ran = self.lab(word, given=given.fileno())
                    self.assertEqual((ran.returncode, ran.stdout, ran.stderr), (1, "", f"lab: standard input: {kind}\n"))

    def test_a_script_on_standard_input_is_read_from_where_it_is(self) -> None:
        path = self.room / "given"
        path.write_text(f"pass out\n{SHOWN}")
        with path.open() as given:
            os.lseek(given.fileno(), len("pass out\n"), os.SEEK_SET)
            self.assertEqual(self.lab("run", given=given.fileno()).stdout, "step pass 1.1 dropped 0\n")

    def test_in_a_dialogue(self) -> None:
        path = self.room / "given"
        path.write_bytes(self.capture)
        with (self.room / "lines").open("w+") as given:
            given.write(f"{SHOWN}read {path}\nnames\n")
            given.seek(0)
            ran = self.lab("shell", given=given.fileno())
        self.assertEqual(ran.stdout, f"step pass 1.1 dropped 0\n{path}: {CAPTURE}\nnames main\n")

    def lab(self, *words: str, given: int) -> "subprocess.CompletedProcess[str]":
        return subprocess.run(
            [sys.executable, f"{TOP}/lab", *words], stdin=given, capture_output=True, text=True, timeout=SECONDS, check=False
        )


if __name__ == "__main__":
    unittest.main()
