"""The wrong bodies of crates: each edit fits the sources, so that `./wrong-bodies` and the gate can try it, and callers see what it edits."""
from __future__ import annotations

import functools
import re
import runpy
import unittest
from pathlib import Path
from typing import Dict, Iterator, List, Tuple

from . import TOP

FUNCTION = re.compile(r" *(?P<pub>pub )?(?:pub\(\w+\) )?(?:const )?(?:unsafe )?fn (?P<name>\w+)")
BLOCK = re.compile(r"(?:unsafe )?impl\b|(?:pub )?trait ")
ANGLES = re.compile(r"<[^<>]*>")


def read(path: Path) -> str:
    return path.read_text(encoding="utf-8")


class Seen:
    """What callers outside a crate see: what its `lib.rt` declares and passes on, by name."""

    def __init__(self, folder: Path) -> None:
        passed_on = re.findall(r"^pub use [^;]*|^pub (?:fn|struct|enum|trait) \w+", read(folder / "src/lib.rt"), re.MULTILINE)
        self.names = set(re.findall(r"\w+", " ".join(passed_on)))
        self.text = "\n".join(read(it) for it in folder.glob("src/**/*.rt"))

    def has_block(self, head: str) -> bool:
        """Whether callers see the trait of this head, or the type of this `impl`; of another crate's type, whether they see the trait, or
        what is given to it."""
        plain = head
        while ANGLES.search(plain):
            plain = ANGLES.sub("", plain)
        name = re.findall(r"\w+", plain)[-1]
        if re.search(rf"(?:struct|enum|trait) {name}\b", self.text):
            return name in self.names
        return bool(self.names & set(re.findall(r"\w+", head)))

    def has_line(self, lines: List[str], at: int) -> bool:
        """Whether callers see the function that a line is in. What is in no function, as a constant, is of those that use it."""
        start = next((i for i in range(at, -1, -1) if FUNCTION.match(lines[i]) or lines[i].startswith("}")), 0)
        function = FUNCTION.match(lines[start])
        if not function:
            return True
        if not lines[start].startswith(" "):
            return bool(function["pub"]) and function["name"] in self.names
        top = next(i for i in range(start, -1, -1) if BLOCK.match(lines[i]))
        head = re.split(r"\bwhere\b|{", " ".join(lines[top:start]))[0]
        is_of_trait = " for " in head or "trait " in head
        return (is_of_trait or bool(function["pub"])) and self.has_block(head)


seen_of = functools.lru_cache(maxsize=None)(Seen)


def changed(folder: Path, texts: Dict[str, str]) -> Iterator[Tuple[List[str], int]]:
    """The lines that an edit changes, each as the lines of its file and its place among them."""
    for path, text in texts.items():
        lines = read(folder / path).split("\n")
        yield from ((lines, at) for at, line in enumerate(text.split("\n")) if line != lines[at])


class Fit(unittest.TestCase):
    """What `./wrong-bodies` makes of an edit, before any check."""

    def test_each_one_fits_the_sources_and_a_public_function(self) -> None:
        tool = runpy.run_path(f"{TOP}/wrong-bodies")
        for crate in tool["crates_listed"]():
            folder = Path(TOP, "crates", crate)
            for body in tool["bodies_of"](crate):
                with self.subTest(body=tool["name_of"](body), crate=crate):
                    try:
                        texts = tool["edited"](body, str(folder))
                    except tool["Unfit"] as fault:
                        self.fail(fault)
                    seen = seen_of(folder)
                    self.assertTrue(any(seen.has_line(*it) for it in changed(folder, texts)), "no caller sees what it edits")


OUTPUT = """
fn pfl_low::sums::plus: proved
note: src/sums.rt:3:5: it is not proved that what the function ensures holds when it returns (`returns`)
fn pfl_low::sums::Sum::least: no proof: expected answers in ./proofs/sums/Sum/least/Answers.antt; `search` did not prove `returns`
fn pfl_low::sums::Sum::most: no proof: it calls `pfl_low::sums::Sum::least`, which is not proved
note: `returns` of proofs/sums/Sum/least/Answers.antt must prove: 1 ≡ 2
logic=not-proved
"""


class Together(unittest.TestCase):
    """Which bodies one check tries, and what it says of each."""

    def setUp(self) -> None:
        self.tool = runpy.run_path(f"{TOP}/wrong-bodies")

    def test_a_function_has_the_checkers_name(self) -> None:
        lines = ["impl<A: Allocator> Table<A> {", "    pub fn least(&self) -> u32 {", "        0", "    }", "}"]
        lines += ["impl Display for Table<Global> {", "    fn fmt(&self) -> u32 {", "        0", "    }", "}"]
        lines += ["pub fn plus(a: u32) -> u32 {", "    a", "}", "const MOST: u32 = 1;"]
        of = self.tool["function_at"]
        self.assertEqual([of("src/a/b.rt", lines, at) for at in (2, 7, 11)], ["a::b::Table::least", "a::b::TableDisplay::fmt", "a::b::plus"])
        self.assertEqual(of("src/lib.rt", lines, 11), "plus")
        self.assertIsNone(of("src/lib.rt", ["const MOST: u32 = 1;"], 0))

    def test_a_check_has_one_body_of_a_function(self) -> None:
        """All bodies of a crate are tried, each function's in different checks, and what is left over alone."""
        for crate in ("pfl_base", "pfl_desk"):
            bodies = self.tool["bodies_of"](crate)
            checks, alone = self.tool["together"](bodies, f"{TOP}/crates/{crate}")
            tried = [body for it in checks for body in it.functions]
            self.assertEqual(sorted((*tried, *alone)), sorted(bodies))
            for check in checks:
                self.assertEqual(len(set(check.functions.values())), len(check.functions))
                self.assertTrue(2 <= len(check.functions) <= self.tool["MOST_TOGETHER"])

    def test_only_what_a_function_says_itself_refuses_its_body(self) -> None:
        of = self.tool["refused"]
        lines = OUTPUT.split("\n")
        self.assertEqual(of(lines, "pfl_low", "sums::Sum::least"), "pfl_low::sums::Sum::least: `returns` must prove: 1 ≡ 2")
        self.assertIsNone(of(lines, "pfl_low", "sums::Sum::most"))
        self.assertIsNone(of(lines, "pfl_low", "sums::plus"))


if __name__ == "__main__":
    unittest.main()
