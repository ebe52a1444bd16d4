"""What starts `./lab`: which modules a word needs, and where they are kept once they are compiled."""
from __future__ import annotations

import subprocess
import sys
import unittest
from typing import Dict, Set

from . import TOP, program
from .children import SECONDS
from .trees import SmallTree

# The packages that any word may import.
COMMON = ("console", "language", "link", "model", "scripts", "shows")
# Has the words carried out, and then shows the packages of the shell that were imported.
SHOWING = f"COMMON = {COMMON}" + """
import io, sys
from contextlib import redirect_stderr, redirect_stdout
from shell.main import main
with redirect_stdout(io.StringIO()), redirect_stderr(io.StringIO()):
    status = main(sys.argv[1:])
names = {it.split(".")[1] for it in sys.modules if it.count(".") > 1 and it.startswith("shell.")}
print(status, *sorted(names.difference(COMMON)))
"""


class Needed(unittest.TestCase):
    """The packages of shell/ that a word imports, besides those that any word may."""

    def packages(self, *words: str, given: str = "") -> Set[str]:
        command = (sys.executable, "-c", SHOWING, "--program", program(), *words)
        ran = subprocess.run(command, cwd=TOP, input=given, capture_output=True, text=True, timeout=SECONDS)
        status, *found = ran.stdout.split()
        self.assertIn(status, "012", ran.stderr)
        return {*found}

    def test_a_word_imports_what_it_needs(self) -> None:
        script = "examples/restart.pfl"
        self.assertEqual(self.packages("compare", "nothing", "nothing"), {"dumps"})
        self.assertEqual(self.packages("verify", script), set())
        self.assertLessEqual(self.packages("chart", script), {"charts", "reasons"})
        self.assertEqual(self.packages("capture", "nothing"), {"captures", "inferring"})
        self.assertEqual(self.packages("import", "nothing", "--on", "em0"), {"importing"})

    def test_a_dialogue_imports_what_it_is_asked_for(self) -> None:
        tick = "rule a pass any\nopen\ntick a 1\n"
        self.assertEqual(self.packages("shell", given=f"{tick}view\ndiff\n"), {"dialogue"})
        self.assertIn("reasons", self.packages("shell", given=f"{tick}why 1\n"))
        self.assertIn("charts", self.packages("shell", given=f"{tick}chart\n"))


class Kept(SmallTree):
    """Compiled modules are kept, and not in the tree."""

    surroundings: Dict[str, str] = {}

    def environment(self, checker: str) -> Dict[str, str]:
        its = {it: text for it, text in super().environment(checker).items() if not it.startswith("PYTHON")}
        return {**its, **self.surroundings}

    def kept(self, **surroundings: str) -> Set[str]:
        """What the words leave of modules, beside the tree's own: their names in the user's cache folder."""
        self.surroundings = surroundings
        ran = self.start("", "lab", "verify", "nothing")
        _, said = ran.communicate(timeout=SECONDS)
        self.assertEqual(ran.returncode, 125, said)
        self.assertEqual([*self.top.rglob("__pycache__")], [])
        return {it.name.partition(".")[0] for it in self.top.glob(f"cache/pfl_lab/python{self.top}/*/*.pyc")}

    def test_in_the_cache_folder_of_the_user(self) -> None:
        self.assertLessEqual({"releases", "crates", "main"}, self.kept())

    def test_a_module_that_changed_is_compiled_again(self) -> None:
        self.kept()
        path = self.top / "shell/console/outputs.py"
        path.write_text(f"{path.read_text()}print('anew')\n")
        ran = self.start("", "lab", "--help")
        self.assertTrue(ran.communicate(timeout=SECONDS)[0].startswith("anew\n"))

    def test_nowhere_where_python_is_to_keep_none(self) -> None:
        self.assertEqual(self.kept(PYTHONDONTWRITEBYTECODE="1"), set())

    def test_a_folder_that_cannot_be_written_does_not_matter(self) -> None:
        (self.top / "cache").write_text("")
        self.assertEqual(self.kept(), set())

    def test_where_the_user_has_python_keep_all(self) -> None:
        other = self.top / "other"
        self.assertEqual(self.kept(PYTHONPYCACHEPREFIX=str(other)), set())
        self.assertTrue(any(other.rglob("releases*.pyc")))


if __name__ == "__main__":
    unittest.main()
