"""The lesson made of captures: its files, its script, and what docs/FIELD.md and FIELD-DETAILS.md show of it."""
from __future__ import annotations

import io
import os
import re
import shutil
import tempfile
import time
import unittest
from contextlib import redirect_stderr, redirect_stdout
from pathlib import Path
from typing import List, NamedTuple
from unittest import mock

from ..captures.findings import Kind
from ..main import main
from ..scripts.verifying import REPLY
from . import TOP, program
from .captured_night import EXAMPLES, INTERFACE, NAME, files

CAPTURES = [f"{NAME}-{node}.pcap" for node in "ab"]
LOG = f"{NAME}-b-pflog.pcap"


class Said(NamedTuple):
    """The status of a command, and the lines on standard output and on standard error."""

    status: int
    out: List[str]
    err: List[str]


def shown(mark: str, page: str = "FIELD.md") -> List[str]:
    """The block of a page after a comment."""
    text = Path(TOP, "docs", page).read_text(encoding="utf-8")
    found = re.search(rf"<!-- {mark} -->\n```text\n(.*?)```\n", text, re.S)
    assert found, mark
    return found[1].splitlines()


class Captured(unittest.TestCase):
    """The commands of docs/FIELD.md, in a folder with the files of the lesson."""

    def setUp(self) -> None:
        folder = tempfile.TemporaryDirectory()
        self.addCleanup(folder.cleanup)
        for path in EXAMPLES.glob(f"{NAME}*"):
            shutil.copy(path, folder.name)
        self.addCleanup(os.chdir, os.getcwd())
        os.chdir(folder.name)
        self.addCleanup(time.tzset)
        zone = mock.patch.dict(os.environ, {"TZ": "UTC"})
        zone.start()
        self.addCleanup(zone.stop)
        time.tzset()

    def said(self, *words: str) -> Said:
        out, err = io.StringIO(), io.StringIO()
        with redirect_stdout(out), redirect_stderr(err):
            status = main(["--program", program(), *words])
        return Said(status, out.getvalue().splitlines(), err.getvalue().splitlines())

    def script(self) -> List[str]:
        """The lines of the script that is inferred with the rules and with what b logged."""
        self.assertEqual(self.said("import", f"{NAME}.conf", "--on", INTERFACE, "--unopened", "-o", "pair.pfl").status, 0)
        said = self.said("capture", *CAPTURES, "--log-b", LOG, "--rules", "pair.pfl", "--script", "night.pfl")
        self.assertEqual(said.status, 1, said.err)
        return Path("night.pfl").read_text(encoding="utf-8").splitlines()

    def test_the_captures_are_those_of_the_run(self) -> None:
        self.assertEqual({it.name for it in EXAMPLES.glob(f"{NAME}*.pcap")}, {*CAPTURES, LOG})
        for name, content in files().items():
            self.assertEqual((EXAMPLES / name).read_bytes(), content, name)

    def test_the_report_is_that_of_the_pages(self) -> None:
        """The findings are on the page for users, and the frames on the one with the details."""
        said = self.said("capture", *CAPTURES)
        self.assertEqual((said.status, said.err), (1, []))
        self.assertEqual(said.out, [*shown("captured"), "", *shown("captured frames", "FIELD-DETAILS.md")])

    def test_the_script_is_the_lesson_and_its_head_that_of_the_page(self) -> None:
        script = self.script()
        lesson = (EXAMPLES / f"{NAME}.pfl").read_text(encoding="utf-8").splitlines()
        self.assertEqual(script, [it for it in lesson if not it.startswith(REPLY)])
        self.assertEqual(script[: script.index("")], shown("captured head"))

    def test_the_page_has_each_part_of_the_report(self) -> None:
        text = Path(TOP, "docs/FIELD.md").read_text(encoding="utf-8")
        parts = re.findall(r"(?m)^\| ([^|]+?) \|", text.partition("| Part | What it lists |")[2].partition("\n\n")[0])
        self.assertEqual(parts, [*(it.value.many for it in Kind), "packets that pf logged as blocked"])

    def test_either_lost_frame_would_have_let_b_pass_what_it_blocked(self) -> None:
        """Frame 3 brings the state, and frame 6 the answer to b's request: either lets b pass all three packets that it logged. By
        `kernel all` what answers a request has no rule at b, so that the nodes then differ in that."""
        self.script()
        said = self.said("whatif", "night.pfl", "--faults", "undone", "--watch", "pass")
        self.assertEqual(said.status, 0, said.err)
        for group, frame, at_the_end in ((1, 3, "on both nodes, not only on a"), (2, 6, "different on a and b")):
            head = next(it for it in said.out if it.startswith(f"{group} "))
            self.assertRegex(head, rf"^{group} +1 fault: events [0-9]+, [0-9]+, [0-9]+ drop block -> pass; at the end {at_the_end}: ")
            self.assertRegex(said.out[said.out.index(head) + 1], rf"^ +frame {frame} not lost \(event [0-9]+\)$")


if __name__ == "__main__":
    unittest.main()
