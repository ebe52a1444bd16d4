"""`./lab install` and `uninstall`: what is put where, that it needs no checkout, and that nobody else's file is touched."""
from __future__ import annotations

import hashlib
import io
import os
import re
import shutil
import signal
import subprocess
import sys
import tempfile
import unittest
import zipfile
from pathlib import Path
from typing import Callable, Dict, List
from unittest import mock

from installing.archive import archive
from installing.files import files
from installing.install import install, uninstall
from installing.lists import NotInstalled
from installing.lists import NAME as LIST

from . import TOP, program
from .children import take_interrupts

# What stands for the program where what it does is no matter.
STAND_IN = "#!/bin/sh\necho 'stand-in' \"$@\"\n"
FOLDERS = ("proving", "installing", "shell", "page", "examples", "docs/man", "wireshark")
# A start of Python that lets no file grow beyond so many bytes, and then runs a program.
LIMITED = """
import resource, runpy, sys
resource.setrlimit(resource.RLIMIT_FSIZE, ({0}, {0}))
del sys.argv[0]
runpy.run_path(sys.argv[0], run_name="__main__")
"""
SCRIPT = """rule a pass out
open
packet a out udp 10.0.0.1:1000 192.0.2.9:53 40
why
"""


def tree(folder: Path) -> Dict[str, str]:
    """All files below a folder, each with what it has, and all folders."""

    def content(path: Path) -> str:
        if path.is_symlink():
            return f"-> {os.readlink(path)}"
        return hashlib.sha256(path.read_bytes()).hexdigest() if path.is_file() else ""

    return {str(it.relative_to(folder)): content(it) for it in folder.rglob("*")}


class Room(unittest.TestCase):
    """A folder of its own, with a stand-in for the program, and a place to install in whose name has a blank."""

    def setUp(self) -> None:
        self.room = Path(os.path.realpath(tempfile.mkdtemp()))
        self.addCleanup(shutil.rmtree, self.room)
        self.program = self.executable("program", STAND_IN)
        self.prefix = self.room / "a folder/local"

    def executable(self, name: str, text: str) -> str:
        path = self.room / name
        path.write_text(text)
        path.chmod(0o755)
        return str(path)

    def install(self) -> List[str]:
        return install(self.program, str(self.prefix))

    def uninstall(self) -> List[str]:
        return list(uninstall(str(self.prefix)))


class Installing(Room):
    """The installer by itself."""

    def test_everything_is_where_it_is_looked_for(self) -> None:
        self.install()
        found = tree(self.prefix)
        places = ("bin/{}", "share/man/man1/{}.1", "share/bash-completion/completions/{}", "share/zsh/site-functions/_{}")
        for command in ("pfl_lab", "pfl_shell"):
            for place in places:
                self.assertIn(place.format(command), found)
            self.assertTrue(os.access(self.prefix / "bin" / command, os.X_OK))
        scripts = [it.name for it in Path(TOP, "examples").iterdir()]
        self.assertEqual(sorted(scripts), sorted(os.listdir(self.prefix / "share/pfl_lab/examples")))
        self.assertEqual((self.prefix / "bin/pfl_lab").read_text(), STAND_IN)
        self.assertEqual((self.prefix / "share/pfl_lab/wireshark/pfsync.lua").read_bytes(), Path(TOP, "wireshark/pfsync.lua").read_bytes())

    def test_the_report_says_where_wireshark_looks(self) -> None:
        line = "  share/pfl_lab/wireshark   pfsync.lua for Wireshark, which looks for it in ~/.local/lib/wireshark/plugins: copy it there"
        self.assertIn(line, self.install())

    def test_examples_name_commands_that_are_installed(self) -> None:
        self.install()
        for path in (self.prefix / "share/pfl_lab/examples").iterdir():
            for words in (b"./lab", b"](..", b"docs/"):
                self.assertNotIn(words, path.read_bytes(), path.name)

    def test_the_list_has_what_is_there(self) -> None:
        self.install()
        found = {name for name in tree(self.prefix) if (self.prefix / name).is_file()}
        lines = (self.prefix / LIST).read_text().splitlines()
        pairs = (line.split("  ", 1) for line in lines if not line.startswith("#"))
        listed = {name: digest for digest, name in pairs}
        self.assertEqual({*listed, LIST}, found)
        for name, digest in listed.items():
            self.assertEqual(hashlib.sha256((self.prefix / name).read_bytes()).hexdigest(), digest)

    def test_the_line_for_the_path_is_said_where_it_is_wanted(self) -> None:
        folder = self.prefix / "bin"
        line = f"  export PATH='{folder}':\"$PATH\""
        with mock.patch.dict(os.environ, {"PATH": "/usr/bin"}):
            self.assertEqual(self.install()[-1], line)
        with mock.patch.dict(os.environ, {"PATH": f"/usr/bin:{folder}"}):
            self.assertNotIn("PATH", "\n".join(self.install()))

    def test_the_archive_has_the_same_bytes_each_time(self) -> None:
        copy = self.room / "shell"
        shutil.copytree(f"{TOP}/shell", copy)
        for number, it in enumerate(sorted(copy.rglob("*"), reverse=True)):
            os.utime(it, (number * 1e7, number * 1e7))
        page = Path(TOP, "page")
        made = archive(copy, page, "")
        self.assertEqual(made, archive(Path(TOP, "shell"), page, ""))
        with zipfile.ZipFile(io.BytesIO(made)) as its:
            names = its.namelist()
        self.assertEqual(names, sorted(names))
        self.assertNotIn("shell/tests/__init__.py", names)
        self.assertIn("page/main.js", names)

    def test_modes_do_not_depend_on_the_mask(self) -> None:
        before = os.umask(0o077)
        self.addCleanup(os.umask, before)
        self.install()
        modes = {it.stat().st_mode & 0o777 for it in (self.prefix / "share").rglob("*") if it.is_file()}
        self.assertEqual(modes, {0o644})
        self.assertEqual((self.prefix / "share/man").stat().st_mode & 0o777, 0o755)


class Uninstalling(Room):
    """Removing what was installed."""

    def test_nothing_is_left(self) -> None:
        self.install()
        installed = {str(self.prefix / name) for name in tree(self.prefix) if (self.prefix / name).is_file()}
        self.assertEqual({it[len("removed ") :] for it in self.uninstall()}, installed)
        self.assertEqual({*tree(self.room)}, {"program"})

    def test_what_was_there_stays(self) -> None:
        (self.prefix / "share/man").mkdir(parents=True)
        (self.prefix / "bin").mkdir()
        (self.prefix / "bin/other").write_text("other")
        before = tree(self.room)
        self.install()
        self.uninstall()
        self.assertEqual(tree(self.room), before)

    def test_a_changed_file_stays_and_is_named(self) -> None:
        self.install()
        changed = self.prefix / "share/pfl_lab/examples/restart.pfl"
        changed.write_text("open\n")
        self.assertIn(f"left as it is, since it was changed after it was installed: {changed}", self.uninstall())
        self.assertEqual([it for it in self.prefix.rglob("*") if it.is_file()], [changed])

    def test_a_link_in_place_of_a_file_is_a_change(self) -> None:
        self.install()
        path = self.prefix / "bin/pfl_lab"
        path.unlink()
        path.symlink_to(self.program)
        self.uninstall()
        self.assertTrue(path.is_symlink())
        self.assertEqual(Path(self.program).read_text(), STAND_IN)

    def test_where_nothing_is_installed_that_is_said(self) -> None:
        with self.assertRaisesRegex(NotInstalled, "nothing is installed in .*/local: there is no "):
            self.uninstall()

    def test_a_list_of_another_kind_is_no_list(self) -> None:
        self.install()
        before = tree(self.prefix)
        path = self.prefix / LIST
        text = path.read_text()
        for wrong in ("", "other\n", f"{text}{'0' * 64}  ../program\n", f"{text}{'0' * 64}  /etc/passwd\n", f"{text}more\n"):
            path.write_text(wrong)
            with self.assertRaisesRegex(NotInstalled, "ot (a list|one) that ./lab install wrote", msg=wrong[-80:]):
                self.uninstall()
        path.write_text(text)
        self.assertEqual(tree(self.prefix), before)


class Anew(Room):
    """Installing where something is there already."""

    def test_over_an_older_one(self) -> None:
        self.install()
        self.program = self.executable("newer", f"{STAND_IN}# newer\n")
        self.install()
        self.assertIn("# newer", (self.prefix / "bin/pfl_lab").read_text())
        self.uninstall()
        self.assertFalse(self.prefix.parent.exists())

    def test_what_a_later_one_has_no_longer_is_removed(self) -> None:
        self.with_examples("gone.pfl", "kept.pfl")
        kept = self.prefix / "share/pfl_lab/examples/kept.pfl"
        kept.write_text("changed\n")
        self.install()
        found = tree(self.prefix)
        self.assertNotIn("share/pfl_lab/examples/gone.pfl", found)
        self.assertIn(f"left as it is, since it was changed after it was installed: {kept}", self.uninstall())

    def with_examples(self, *names: str) -> None:
        """Installs with further examples, as an earlier version may have had them."""
        example = next(file for file in files(self.program) if file.name.endswith("restart.pfl"))
        more = [example._replace(name=f"share/pfl_lab/examples/{name}") for name in names]
        with mock.patch("installing.install.files", lambda it: [*files(it), *more]):
            self.install()

    def test_a_file_of_somebody_else_is_not_overwritten(self) -> None:
        others: Dict[str, Callable[[Path], object]] = {
            "bin/pfl_shell": lambda it: it.write_text("other"),
            "share/man/man1/pfl_lab.1": lambda it: it.symlink_to("/nowhere"),
            "share/pfl_lab/examples/restart.pfl": lambda it: it.mkdir(),
        }
        for name, make in others.items():
            path = self.prefix / name
            path.parent.mkdir(parents=True, exist_ok=True)
            make(path)
        before = tree(self.room)
        with self.assertRaises(NotInstalled) as refused:
            self.install()
        named = re.findall(rf"  {self.prefix}/(\S+) was not installed by \./lab", str(refused.exception))
        self.assertEqual(named, list(others))
        self.assertEqual(tree(self.room), before)

    def test_a_changed_file_is_not_overwritten(self) -> None:
        self.install()
        (self.prefix / "share/pfl_lab/examples/restart.pfl").write_text("open\n")
        before = tree(self.room)
        with self.assertRaisesRegex(NotInstalled, "restart.pfl was changed since it was installed"):
            self.install()
        self.assertEqual(tree(self.room), before)


class Interrupted(Room):
    """What is there where the installer does not come to its end."""

    def test_before_all_is_written_nothing_has_changed(self) -> None:
        for is_older in (False, True):
            if is_older:
                self.install()
                self.program = self.executable("program", f"{STAND_IN}# newer\n")
            before = tree(self.room)
            for last in (0, 3, len(files(self.program)) + 1):
                with mock.patch("os.fsync", failing(last, KeyboardInterrupt())), self.assertRaises(KeyboardInterrupt):
                    self.install()
                self.assertEqual(tree(self.room), before)

    def test_a_signal_just_when_a_file_is_made_leaves_no_file(self) -> None:
        take_interrupts(self)
        for name in ("tempfile.mkstemp", "os.mkdir"):
            with mock.patch(name, interrupting(name)), self.assertRaises(KeyboardInterrupt):
                self.install()
            self.assertEqual({*tree(self.room)}, {"program"})

    def test_at_each_moment_the_list_names_what_is_there(self) -> None:
        self.install()
        for last in (0, 1, 2, 10, len(files(self.program)) + 1):
            self.program = self.executable("program", f"{STAND_IN}# {last}\n")
            with mock.patch("os.replace", failing(last, SystemExit())), self.assertRaises(SystemExit):
                self.install()
            for name in tree(self.prefix):
                self.assertFalse((self.prefix / name).is_file() and os.path.getsize(self.prefix / name) == 0, name)
        self.install()
        self.uninstall()
        self.assertFalse(self.prefix.parent.exists())

    def test_a_fault_while_files_take_their_places_leaves_none_beside_them(self) -> None:
        self.install()
        fault = PermissionError(1, "Operation not permitted")
        with mock.patch("os.replace", failing(4, fault)), self.assertRaises(PermissionError):
            self.install()
        self.assertEqual([*self.prefix.rglob(".*-*")], [])
        self.install()


def failing(last: int, what: BaseException) -> mock.Mock:
    """A function that does nothing but for the call of this number, from 0 on, which fails; os.replace still replaces."""
    calls = []
    real = os.replace

    def called(*given: str) -> None:
        calls.append(given)
        if len(calls) > last:
            raise what
        if len(given) == 2:
            real(*given)

    return mock.Mock(side_effect=called)


def interrupting(name: str) -> Callable[..., object]:
    """A function that does what it does, and has a signal come at its end."""
    module, _, function = name.rpartition(".")
    real = getattr(sys.modules[module], function)

    def called(*given: object, **named: object) -> object:
        found = real(*given, **named)
        os.kill(os.getpid(), signal.SIGINT)
        return found

    return called


class Command(Room):
    """`./lab install` of a small checkout, whose program is a stand-in."""

    def setUp(self) -> None:
        super().setUp()
        self.checkout = self.room / "checkout"
        for name in FOLDERS:
            shutil.copytree(f"{TOP}/{name}", self.checkout / name, ignore=shutil.ignore_patterns("__pycache__", "tests"))
        shutil.copy(f"{TOP}/lab", self.checkout)
        (self.checkout / "crates.txt").write_text("pfl_lab:\n")
        (self.checkout / "proving/seconds.txt").write_text("# in 0.20 s\npfl_lab 5\n")
        self.built = self.checkout / "crates/pfl_lab/out/pfl_lab"
        self.built.parent.mkdir(parents=True)
        shutil.copy(program(), self.built)

    def lab(self, *words: str, status: int = 0, **env: str) -> str:
        """What the command says, on standard output where all is well."""
        ran = self.run_in(self.room, sys.executable, str(self.checkout / "lab"), *words, **env)
        self.assertEqual((ran.returncode, bool(ran.stderr)), (status, status != 0), ran.stderr)
        return ran.stderr or ran.stdout

    def run_in(self, folder: Path, *words: str, given: str = "", **env: str) -> "subprocess.CompletedProcess[str]":
        """Runs a command where the environment has nothing but the way to Python, and a home folder, in which it keeps no modules."""
        its = {"PATH": f"{os.path.dirname(sys.executable)}:/usr/bin:/bin", "HOME": str(self.room / "home"), "PYTHONDONTWRITEBYTECODE": "1", **env}
        return subprocess.run(words, cwd=folder, env=its, input=given, capture_output=True, text=True, timeout=60)

    def test_the_shell_needs_no_checkout(self) -> None:
        self.lab("install", "here")
        shutil.rmtree(self.checkout)
        place = (self.room / "here").rename(self.room / "elsewhere else")
        examples = place / "share/pfl_lab/examples"
        for command, told in (("pfl_lab", "step pass 1.1"), ("pfl_shell", "rule 0 of a (pass out) passed it")):
            given = SCRIPT.replace("packet", "step main packet") if command == "pfl_lab" else SCRIPT
            ran = self.run_in(examples, str(place / "bin" / command), *["run"] * (command == "pfl_lab"), given=given)
            self.assertIn(told, ran.stdout, ran.stderr)
        names = sorted(it.name for it in examples.glob("*.pfl"))
        ran = self.run_in(examples, str(place / "bin/pfl_shell"), "verify", *names)
        self.assertEqual((ran.stdout, ran.stderr), (f"{len(names)} scripts: all replies as they say\n", ""))
        ran = self.run_in(examples, str(place / "bin/pfl_shell"), "chart", "restart.pfl", "../drawn.svg")
        self.assertEqual((ran.returncode, ran.stdout + ran.stderr), (0, ""))
        self.assertIn("<svg", (examples.parent / "drawn.svg").read_text())
        ran = self.run_in(examples, str(place / "bin/pfl_shell"), "page", "restart.pfl", "../page.html")
        self.assertEqual((ran.returncode, ran.stdout + ran.stderr), (0, ""))
        self.assertIn("<!doctype html>", (examples.parent / "page.html").read_text())
        ran = self.run_in(examples, str(place / "bin/pfl_shell"), "annotate", "restart.pfl")
        self.assertEqual(ran.stdout, "restart.pfl: as it was\n")

    def test_the_shell_takes_the_program_beside_it_or_another(self) -> None:
        self.lab("install", "here")
        (self.room / "link").symlink_to("here/bin/pfl_shell")
        self.assertIn("step pass", self.run_in(self.room, "./link", given=SCRIPT).stdout)
        (self.room / "here/bin/pfl_lab").unlink()
        ran = self.run_in(self.room, "here/bin/pfl_shell", "verify", "x")
        self.assertEqual((ran.returncode, ran.stdout), (125, ""))
        self.assertEqual(ran.stderr, f"pfl_shell: there is no program at {self.room}/here/bin/pfl_lab; PFL_LAB can name another one\n")
        self.assertEqual(self.run_in(self.room, "here/bin/pfl_shell", "--help").returncode, 0)
        self.assertIn("step pass", self.run_in(self.room, "here/bin/pfl_shell", given=SCRIPT, PFL_LAB=str(self.built)).stdout)
        ran = self.run_in(self.room, "here/bin/pfl_shell", PFL_LAB="/nowhere")
        said = "pfl_shell: PFL_LAB names no program that can be run: /nowhere: No such file or directory\n"
        self.assertEqual((ran.returncode, ran.stdout, ran.stderr), (125, "", said))

    def test_the_home_folder_is_where_it_is_installed_without_a_word(self) -> None:
        self.assertIn(f"installed in {self.room}/home/.local:\n", self.lab("install"))
        self.assertIn(f"removed {self.room}/home/.local/bin/pfl_lab\n", self.lab("uninstall"))
        self.assertFalse((self.room / "home").exists())

    def test_where_nobody_reads_what_is_said_it_is_done_all_the_same(self) -> None:
        for word in ("install", "uninstall"):
            read, write = os.pipe()
            os.close(read)
            command = (sys.executable, str(self.checkout / "lab"), word, str(self.prefix))
            self.assertEqual(subprocess.run(command, stdout=write, timeout=60).returncode, 0)
            os.close(write)
            self.assertEqual(self.prefix.exists(), word == "install")

    def test_links_to_folders_are_followed_and_kept(self) -> None:
        (self.room / "real").mkdir()
        (self.room / "here").symlink_to("real")
        (self.room / "tools").mkdir()
        (self.room / "real/bin").symlink_to("../tools")
        before = tree(self.room)
        self.lab("install", "here")
        self.assertTrue((self.room / "tools/pfl_lab").is_file())
        self.lab("uninstall", "here")
        self.assertEqual(tree(self.room), before)

    def test_what_is_no_folder_is_named(self) -> None:
        (self.room / "file").write_text("")
        (self.room / "here").mkdir()
        (self.room / "here/share").symlink_to("nowhere")
        before = tree(self.room)
        self.assertEqual(self.lab("install", "file", status=125), f"lab: {self.room}/file: Not a directory\n")
        self.assertEqual(self.lab("install", "here", status=125), f"lab: {self.room}/here/share: Not a directory\n")
        self.assertRegex(self.lab("install", "/proc/here", status=125), r"^lab: /proc/here: [A-Z][a-z ]+\n$")
        self.assertEqual(tree(self.room), before)

    def test_a_full_disk_leaves_what_was_there(self) -> None:
        self.lab("install", "here")
        before = tree(self.room)
        with open(self.built, "ab") as it:
            it.write(b"\n" * 1000)
        words = LIMITED.format(os.path.getsize(self.built) - 1)
        ran = self.run_in(self.room, sys.executable, "-c", words, str(self.checkout / "lab"), "install", "here")
        self.assertEqual((ran.returncode, ran.stdout), (125, ""))
        self.assertEqual(ran.stderr, f"lab: {self.room}/here/bin/pfl_lab: File too large\n")
        after = {name: its for name, its in tree(self.room).items() if not name.startswith("checkout/")}
        self.assertEqual(after, {name: its for name, its in before.items() if not name.startswith("checkout/")})

    def test_wrong_words_and_no_program(self) -> None:
        for words in (("install", "a", "b"), ("install", "--prefix"), ("uninstall", ""), ("install", "a", "--help")):
            self.assertEqual(self.lab(*words, status=2), f"lab: usage: ./lab {words[0]} [PREFIX]\n")
        self.built.unlink()
        self.assertIn("there is no release", self.lab("install", "here", status=125))
        self.assertFalse((self.room / "here").exists())
        self.assertIn("nothing is installed in", self.lab("uninstall", "here", status=125))


if __name__ == "__main__":
    unittest.main()
