"""Files of pf.conf that a generator wrote: those that fwbuilder 5.3.7 is tested with, in its source, which is fetched if apt can, and all
in a folder that PF_CONFS names."""
from __future__ import annotations

import os
import re
import shutil
import tarfile
import tempfile
import unittest
from collections import Counter
from glob import glob
from typing import Dict, Iterator

from ..language.lines import has_word
from ..link.programs import check_setup
from . import TOP, program
from .imports import Imported, imported
from .originals import NotHad, Original

FOLDER = os.environ.get("PF_CONFS", "")
FWBUILDER = Original("fwbuilder", "5.3.7", "aba1ed8f690e9e4659c0e981120ea68da7ee327d6cf81260d51329351addf91e")
# How many files it has, how many rules these have, and how many of them are at least exact.
FILES, RULES, EXACT = 92, 477, 279
VERDICTS = ("exact", "approximated", "out")
_SUM = re.compile(r": [0-9]+ (rule|translation|other line)s?(?: of \S+)?: ([0-9]+) exact, ([0-9]+) approximated, ([0-9]+) out")

# Of each kind of statements, how many there are of each verdict.
Sums = Dict[str, "Counter[str]"]


def taken(path: str) -> Imported:
    """A file for the interface that most of its rules name, with an address of each family."""
    with open(path, encoding="utf-8", errors="replace") as it:
        names = Counter(re.findall(r"\bon\s+\(?([a-z]+[0-9]+)\b", it.read()))
    on = names.most_common(1)[0][0] if names else "em0"
    return imported(path, "--on", on, "--address", "192.0.2.1/24", "--address", "2001:db8::1/64")


def unpack(path: str, folder: str) -> Iterator[str]:
    """The files of pf.conf in a source of fwbuilder, in a folder."""
    with tarfile.open(path) as archive:
        for member in archive:
            content = archive.extractfile(member) if re.search(r"/test/pf/[^/]+\.conf\.orig$", member.name) else None
            if content is not None:
                to = os.path.join(folder, os.path.basename(member.name))
                with open(to, "wb") as it:
                    shutil.copyfileobj(content, it)
                yield to


class Generated(unittest.TestCase):
    """What becomes of all these files."""

    def sums(self, *paths: str) -> Sums:
        """The sums of some files, each of which is read, and is taken by the program unless it has too many rules."""
        sums: Sums = {}
        for path in paths:
            its = taken(path)
            self.assertIn(its.status, (0, 1), path)
            for kind, *numbers in _SUM.findall("\n".join(its.said)):
                sums.setdefault(kind, Counter()).update(dict(zip(VERDICTS, map(int, numbers))))
            if its.status == 0:
                self.assertIsNone(check_setup(program(), [it for it in its.setup[:-1] if has_word(it)]), path)
        return sums

    # (if no folder is named, nothing is missing)
    if FOLDER:

        def test_those_of_a_folder(self) -> None:
            paths = sorted(glob(f"{FOLDER}/*.conf*"))
            self.assertTrue(paths, f"there is no *.conf in {FOLDER}")
            print(f"\n{len(paths)} files:", *(f"{kind}s: {dict(its)}" for kind, its in self.sums(*paths).items()), sep="\n  ")

    def test_those_of_fwbuilder(self) -> None:
        try:
            path = FWBUILDER.path()
        except NotHad as why:
            self.skipTest(f"the source of fwbuilder {FWBUILDER.version} cannot be had: {why}")
        with tempfile.TemporaryDirectory() as folder:
            paths = [*unpack(path, folder)]
            sums = self.sums(*paths)
        rules = sums["rule"]
        self.assertEqual((len(paths), sum(rules.values())), (FILES, RULES))
        self.assertGreaterEqual(rules["exact"], EXACT)
        # The numbers are those of the page.
        with open(f"{TOP}/docs/FIELD-DETAILS.md", encoding="utf-8") as it:
            page = it.read()
        for kind in ("rule", "translation"):
            said = ", ".join(f"{sums[kind][verdict]} {verdict}" for verdict in VERDICTS)
            self.assertTrue(said in page, f"docs/FIELD-DETAILS.md does not say {said}")


if __name__ == "__main__":
    unittest.main()
