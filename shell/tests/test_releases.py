"""The release that comes with the sources: when it is run, when it is refused, and that `./test` sees both."""
from __future__ import annotations

import re
import shutil
import subprocess
import sys
import unittest
from pathlib import Path
from typing import Tuple

from installing.files import START
from proving import releases
from proving.crates import TOP

from . import program
from .trees import QUICK, SmallTree

NO_CHECKER = ""


def said(*words: str) -> str:
    """The first line that a command writes."""
    return subprocess.run(words, check=True, capture_output=True, text=True, timeout=60).stdout.partition("\n")[0]


class Releases(SmallTree):
    """A small repository with a release of its own, and nothing built."""

    def setUp(self) -> None:
        super().setUp()
        self.release()

    def forget(self) -> None:
        """Nothing is built."""
        for it in (self.top / "crates").glob("*/out"):
            shutil.rmtree(it)

    def run_it(self, checker: str, *words: str) -> Tuple[int, str, str]:
        ran = self.start(checker, *words)
        out, said = ran.communicate(timeout=60)
        return ran.returncode, out, said

    def change_source(self) -> None:
        (self.top / "crates/pfl_low/src/lib.rt").write_text("//! nothing.\n")

    def change_byte(self) -> None:
        path = self.top / "release/pfl_lab.xz"
        content = bytearray(path.read_bytes())
        content[len(content) // 2] ^= 1
        path.write_bytes(content)

    def test_the_release_of_the_tree_is_run_at_once(self) -> None:
        self.assertEqual(self.run_it(NO_CHECKER, "lab", "run", "now"), (0, "ran run now\n", ""))
        self.assertEqual(self.run_it(NO_CHECKER, "lab", "serve", "--port", "99999"), (0, "ran serve --port 99999\n", ""))

    def test_what_is_built_is_run_before_the_release(self) -> None:
        self.change_source()
        self.run_it(QUICK.replace("echo ran", "echo built"), "lab", "build")
        self.assertEqual(self.run_it(NO_CHECKER, "lab", "run"), (0, "built run\n", ""))
        self.assertEqual(self.run_it(NO_CHECKER, "lab", "--release", "run"), (0, "ran run\n", ""))

    def test_a_tree_with_one_byte_changed_is_another(self) -> None:
        self.change_source()
        status, out, said = self.run_it(NO_CHECKER, "lab", "run")
        self.assertEqual((status, out), (125, ""))
        self.assertRegex(said, r"^lab: no program is built from this tree, and release 1 does not match it\. \./lab build .* in about \d+ minutes")
        self.assertIn("./lab --release WORD uses that release", said)
        self.assertEqual(self.run_it(NO_CHECKER, "lab", "--release", "run"), (0, "ran run\n", ""))

    def test_a_release_with_one_byte_changed_is_refused(self) -> None:
        self.change_byte()
        for words in (("run",), ("--release", "run")):
            status, out, said = self.run_it(NO_CHECKER, "lab", *words)
            self.assertEqual((status, out), (125, ""))
            self.assertRegex(said, r"^lab: release/pfl_lab\.xz (is not the program that release/RELEASE names|cannot be unpacked)")

    def test_a_damaged_copy_is_unpacked_again(self) -> None:
        self.run_it(NO_CHECKER, "lab", "run")
        copies = list((self.top / "out/release").glob("*/pfl_lab"))
        self.assertEqual(len(copies), 1)
        copies[0].write_text("#!/bin/sh\necho another\n")
        self.assertEqual(self.run_it(NO_CHECKER, "lab", "run"), (0, "ran run\n", ""))

    def test_a_folder_that_cannot_be_made_is_named(self) -> None:
        (self.top / "out").mkdir(exist_ok=True)
        (self.top / "out/release").write_text("")
        status, out, said = self.run_it(NO_CHECKER, "lab", "run")
        self.assertEqual((status, out), (125, ""))
        self.assertRegex(said, r"^lab: the release could not be unpacked: \S+/out/release\S*: ")

    def test_the_test_command_sees_another_tree(self) -> None:
        self.change_source()
        status, _, said = self.run_it(NO_CHECKER, "test")
        self.assertEqual(status, 1)
        self.assertIn("release: the release is not of this tree; renew it: ./lab release; git add", said)

    def test_the_test_command_sees_another_release(self) -> None:
        self.change_byte()
        status, _, said = self.run_it(NO_CHECKER, "test")
        self.assertEqual(status, 1)
        self.assertIn("release: release/pfl_lab.xz ", said)
        self.assertIn("renew it: ./lab release; git add", said)

    def test_a_stamp_of_another_sum_is_seen(self) -> None:
        path = self.top / releases.STAMP
        path.write_text(path.read_text().replace("release 1", "release 2"))
        self.assertEqual(self.run_it(NO_CHECKER, "test")[0], 1)

    def test_a_tree_that_changes_while_it_is_built_is_not_packed(self) -> None:
        self.change_source()
        changing = QUICK + f'if [ "$crate" = pfl_lab ]; then echo "//! More." >> {self.top}/crates/pfl_side/src/lib.rt; fi\n'
        status, _, said = self.run_it(changing, "lab", "release")
        self.assertEqual((status, said.splitlines()[-1][:53]), (125, "lab: the sources changed during the build, and the st"))
        self.assertRegex((self.top / releases.RECORD).read_text(), r"^release 1\n")

    def test_a_changed_tree_has_the_next_number(self) -> None:
        self.assertIn("release 1, sources ", (self.top / releases.STAMP).read_text())
        self.run_it(QUICK, "lab", "release")
        self.assertIn("release 1, sources ", (self.top / releases.STAMP).read_text())
        self.change_source()
        self.run_it(QUICK, "lab", "release")
        self.assertIn("release 2, sources ", (self.top / releases.STAMP).read_text())


class TheRelease(unittest.TestCase):
    """The release of this repository."""

    def test_it_is_the_program_that_was_built(self) -> None:
        """Byte for byte by the kit that the release names: another kit's compiler may make other bytes of the same sources."""
        release = releases.Release.read()
        if release.kit == said("rt", "version"):
            self.assertEqual(releases.fault(program()), "")
        else:
            self.assertEqual(releases.fault(), "")
            self.assertEqual(said(program(), "--version"), f"pfl_lab {release.version()}")

    def test_it_needs_the_glibc_that_is_named(self) -> None:
        """The loader refuses a program where one of the versions in its table is not there."""
        versions = re.findall(rb"GLIBC_(\d+)\.(\d+)\0", releases.Release.read().content())
        self.assertEqual(max((int(one), int(other)) for one, other in versions), releases.GLIBC)

    def test_another_c_library_is_named_before_the_loader_fails(self) -> None:
        self.assertEqual([releases.fault_of_glibc("glibc", it) for it in ("2.34", "2.36", "2.100", "3.0")], [""] * 4)
        for library, version, here in (("glibc", "2.31", "glibc 2.31"), ("glibc", "2.9", "glibc 2.9"), ("", "", "another C library")):
            said = releases.fault_of_glibc(library, version)
            self.assertEqual(said, f"the release needs glibc 2.34 or later, as in Debian 12 and Ubuntu 22.04, and this system has {here}")


class OlderPython(unittest.TestCase):
    """What a Python says that is too old for the rest: one line, and not a traceback."""

    def test_it_is_told_so(self) -> None:
        for name, text in (("lab", Path(TOP, "lab").read_text()), ("pfl_shell", START)):
            older = f"import sys; sys.version_info = (3, 7, 16)\n{text}"
            ran = subprocess.run((sys.executable, "-c", older), capture_output=True, text=True, timeout=20)
            self.assertEqual((ran.returncode, ran.stdout), (125, ""))
            self.assertEqual(ran.stderr, f"{name}: this needs Python 3.8 or later, and this is Python 3.7\n")


if __name__ == "__main__":
    unittest.main()
