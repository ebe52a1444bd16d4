"""Whole files of pf.conf, what is reported of them, and the command around them."""
from __future__ import annotations

import os
import tempfile
import unittest
from typing import Dict, List, Tuple

from ..console.colours import PLAIN
from ..language.lines import has_word
from ..link.laboratory import Laboratory
from ..link.programs import check_setup
from ..main import setup_from
from ..scripts.stories import story_of
from ..shows.views import view
from . import laboratory, program, reasons
from .imports import CONFS, Imported, imported, taken_in

OF_FILE: Dict[str, Tuple[str, ...]] = {
    "pair": ("--on", "em0"),
    "handbook": ("--on", "xl0", "--address", "203.0.113.2/24", "--address", "xl1=192.168.0.1/24"),
    "man": ("--on", "kue0", "--address", "198.51.100.7/24", "--address", "ne3=192.168.168.1/24", "--group", "egress=kue0"),
}
FAULTS = f"{CONFS}/bad.conf"


def file(name: str) -> Imported:
    return imported(f"{CONFS}/{name}.conf", *OF_FILE[name])


class Files(unittest.TestCase):
    """The files of pf_confs: the examples of pf.conf(5), a gateway after the handbook, and a routed pair."""

    def sums(self, name: str) -> List[str]:
        return [it.partition(f"{name}.conf: ")[2] for it in file(name).said if " exact, " in it]

    def test_the_sums(self) -> None:
        self.assertEqual(
            self.sums("pair"),
            [
                "11 rules of em0: 11 exact, 0 approximated, 0 out; 3 for other interfaces; 17 rule lines a node",
                "3 other lines: 3 exact, 0 approximated, 0 out",
            ],
        )
        self.assertEqual(
            self.sums("handbook"),
            [
                # 17 of them for what is translated: of lines 25, 28, 32, 33, 34 and 21.
                "16 rules of xl0: 10 exact, 6 approximated, 0 out; 79 rule lines a node",
                "1 translation of xl0: 0 exact, 1 approximated, 0 out; 1 for other interfaces",
                "7 other lines: 2 exact, 3 approximated, 2 out",
            ],
        )
        self.assertEqual(
            self.sums("man"),
            [
                "37 rules of kue0: 16 exact, 18 approximated, 3 out; 4 for other interfaces; 119 rule lines a node",
                # (pf draws the ports of three of them at random)
                "8 translations of kue0: 3 exact, 5 approximated, 0 out",
                "20 other lines: 13 exact, 4 approximated, 3 out",
            ],
        )

    def test_what_is_out_of_the_manuals_examples(self) -> None:
        out = [it.split(": ")[0] for it in file("man").said if ": out: " in it]
        # `no state`, `sloppy`, a misplaced `probability`, and anchors.
        self.assertEqual(out, [f"man.conf:{it}" for it in (55, 56, 65, 68, 69, 70)])

    def test_numbers_of_pf(self) -> None:
        # @2 is that of pfsync's interface, and @4 carp's on em1; line 14 is one rule for UDP and one for ICMP.
        numbers = [comment.split()[1:3] for comment in file("pair").comments if " @" in comment]
        wanted = ((9, 0), (10, 1), (12, 3), (13, 5), (14, 6), (14, 7))
        self.assertEqual(numbers[:6], [[f"pair.conf:{line}", f"@{it}"] for line, it in wanted])
        self.assertEqual(numbers[-1], ["pair.conf:20", "@18"])

    def test_both_nodes_have_the_same_rules_below_the_same_comment(self) -> None:
        for name in OF_FILE:
            its = file(name)
            self.assertEqual(its.rules("a"), its.rules("b"))
            for above, line in zip(its.setup, its.setup[1:]):
                self.assertTrue(not line.startswith("rule ") or above.startswith(("# ", "rule ")), line)

    def test_the_program_takes_them(self) -> None:
        knows_new = check_setup(program(), ["set timeout tcp.first 1", "rule a pass in proto tcp tport 1:2"]) is None
        for name in OF_FILE:
            lines = [it for it in file(name).setup[:-1] if has_word(it)]
            old = [line for line in lines if not line.startswith("set timeout ") and not _is_new(line)]
            self.assertIsNone(check_setup(program(), lines if knows_new else old), name)

    def test_each_bad_line_has_its_text(self) -> None:
        with open(FAULTS, encoding="utf-8") as it:
            lines = it.read().splitlines()
        wanted = [f"bad.conf:{at + 2}: out: {line[3:]}" for at, line in enumerate(lines) if line.startswith("#: ")]
        its = imported(FAULTS, "--on", "em0")
        self.assertEqual(its.said[:-3], wanted)
        self.assertEqual((its.status, its.rules()), (0, []))


def _is_new(line: str) -> bool:
    """Whether a rule has a range of ports, or translates: a program before these would refuse it."""
    words = line.split()
    return any(word in ("nat", "rdr") or (word in ("fport", "tport") and ":" in value) for word, value in zip(words, words[1:]))


class Command(unittest.TestCase):
    """The words of the command line."""

    def test_the_node_and_the_end(self) -> None:
        its = taken_in("block all", "--node", "b", "--unopened")
        self.assertEqual(its.setup[-2:], ["# pf.conf:1 @0 block all", "rule b block any"])
        self.assertEqual((its.rules("a"), its.rules("b")), ([], ["block any"]))
        self.assertEqual(taken_in("block all").setup[-1], "open")

    def test_out_of_a_strict_import_nothing_is_written(self) -> None:
        its = taken_in("block in probability 5%\npass in", "--strict")
        self.assertEqual((its.status, its.setup), (4, []))
        self.assertEqual(its.said[-1].split(": ", 1)[1], "nothing is written, since statements are left out (--strict)")
        self.assertEqual(taken_in("block in on em1 probability 5%\nblock return in", "--strict").status, 0)

    def test_an_interface_that_no_statement_names(self) -> None:
        its = taken_in("pass on em0\nantispoof for em1\nset skip on lo0\nblock all", "--on", "em7")
        self.assertEqual(its.said[1], "pf.conf: no rule names em7; they name em0, em1")
        self.assertEqual(its.rules(), ["block any"])
        self.assertEqual(len(taken_in("block all", "--on", "em7").said), 1)

    def test_the_default_deny_of_fwbuilder_is_taken_in(self) -> None:
        # pfctl keeps no state by a block rule, which may say so.
        its = taken_in("pass in quick proto tcp to port 22\nblock log quick all no state label \"RULE 9\"")
        self.assertEqual(its.rules(), ["pass in quick proto tcp tport 22", "block any quick"])
        self.assertEqual(its.said[0], "pf.conf: 2 rules of em0: 2 exact, 0 approximated, 0 out; 2 rule lines a node")

    def test_a_missing_rule_has_a_comment_in_its_place(self) -> None:
        its = taken_in("pass in\nblock in quick probability 5%\npass out")
        self.assertEqual(
            its.setup[-9:],
            [
                "# pf.conf:1 @0 pass in",
                "rule a pass in",
                "rule b pass in",
                "# pf.conf:2 out: `probability 5%`: nothing is left to chance here; the rules may be laxer without it",
                "# pf.conf:2 out: block in quick probability 5%",
                "# pf.conf:3 @2 pass out",
                "rule a pass out",
                "rule b pass out",
                "open",
            ],
        )

    def test_a_list_that_is_out_in_part_has_the_other_part(self) -> None:
        its = taken_in("pass in proto { tcp blub }")
        self.assertEqual(its.rules(), ["pass in proto tcp"])
        self.assertIn(": out: the protocol `blub`", its.said[0])

    def test_more_rules_than_a_node_may_have(self) -> None:
        ports = " ".join(str(it) for it in range(1, 257))
        self.assertEqual(len(taken_in(f"pass in proto tcp to port {{ {ports} }}").rules()), 256)
        its = taken_in(f"pass out\npass in proto tcp to port {{ {ports} }}\npass in")
        why = "pf.conf:2: with its rules a node has more than 256, so nothing is written: leave statements out, give fewer nets, or"
        why += " ask with --about for an address"
        self.assertEqual((its.status, its.setup, its.said), (1, [], [why]))

    def test_very_many_rules_are_no_trouble(self) -> None:
        nets = " ".join(f"10.{it // 256}.{it % 256}.1" for it in range(5000))
        text = f"table <t> {{ {nets} }}\npass in from ! <t> to ! <t>"
        self.assertEqual(taken_in(text).status, 1)
        hundred = " ".join(str(it) for it in range(1, 400))
        its = taken_in(f"pass in proto tcp from any port {{ {hundred} }} to any port {{ {hundred} }}")
        self.assertIn("its lists expand to more than 100000 rules", its.said[0])

    def test_rc_conf(self) -> None:
        rc = '# pfsync\npfsync_syncdev="em2"\nifconfig_pfsync0="up maxupd 5"\nifconfig_pfsync0="syncdev em2 maxupd 64 defer" # now\n'
        with tempfile.TemporaryDirectory() as folder:
            path = os.path.join(folder, "rc.conf")
            with open(path, "w", encoding="utf-8") as it:
                it.write(rc)
            its = taken_in("block all", "--rc", path)
            self.assertEqual(its.settings[:2], ["set maxupd 64", "set defer 1"])
            self.assertEqual(its.comments[0], '# rc.conf:4 ifconfig_pfsync0="syncdev em2 maxupd 64 defer"')
            with open(path, "w", encoding="utf-8") as it:
                it.write("pfsync_ifconfig='maxupd 0 -defer'\n")
            its = taken_in("block all", "--rc", path)
            self.assertEqual(its.settings[0], "set defer 0")
            self.assertEqual(its.said[-1], f"{path}:1: out: `maxupd` is 1 to 255 here")
            self.assertEqual(taken_in("block all", "--rc", path, "--strict").status, 4)

    def test_files_that_cannot_be_read_or_written(self) -> None:
        for path, why in ((CONFS, "Is a directory"), (f"{CONFS}/none.conf", "No such file or directory")):
            its = imported(path, "--on", "em0")
            self.assertEqual((its.status, its.setup), (1, []))
            self.assertTrue(its.said[0].endswith(why), its.said)
        its = taken_in("block all", "-o", "/none/x")
        self.assertEqual((its.status, its.said[-1]), (1, "lab: /none/x: No such file or directory"))
        self.assertEqual(taken_in("").setup[-1], "open")

    def test_bytes_that_are_no_text(self) -> None:
        with tempfile.TemporaryDirectory() as folder:
            path = os.path.join(folder, "pf.conf")
            for seed in range(20):
                with open(path, "wb") as it:
                    it.write(bytes((seed * 37 + at * at * 11 + at // 7) % 256 for at in range(3000)))
                self.assertEqual(imported(path, "--on", "em0", "-o", os.path.join(folder, "x.pfl")).status, 0)

    def test_a_setup_goes_into_a_file(self) -> None:
        with tempfile.TemporaryDirectory() as folder:
            path = os.path.join(folder, "pair.pfl")
            its = taken_in("block all", "-o", path)
            self.assertEqual(its.setup, [])
            with open(path, encoding="utf-8") as it:
                self.assertEqual(it.read().splitlines(), taken_in("block all").setup)


def reasons_of(*lines: str) -> List[str]:
    """The reason of the last of some lines."""
    return reasons("\n".join(lines))


class Origins(unittest.TestCase):
    """Where a rule is from, as the shell says it."""

    def test_why_says_where_a_rule_is_from(self) -> None:
        setup = taken_in("set skip on lo0\nblock all\npass out proto udp to port { 53 123 }").setup
        said = reasons_of(*setup, "step main packet a out udp 10.0.0.1:1000 192.0.2.9:123 40")
        told = "pass out proto udp tport 123; pf.conf:3 @2"
        self.assertEqual(said, [f"no state matched; rule 2 of a ({told}) passed it, and made state 1.1"])
        said = reasons_of(*setup, "step main packet b in udp 192.0.2.9:123 10.0.0.1:1000 40")
        self.assertEqual(said, ["rule 0 of b (block any; pf.conf:2 @0) decided: it is the last rule that matches"])

    def test_why_says_of_which_translation_a_rule_is(self) -> None:
        # (a block rule, which every program of the laboratory takes)
        setup = taken_in("nat on em0 inet from 10.0.0.0/24 to any -> (em0)\nblock all").setup
        told = "block out quick from 10.0.0.0/24; pf.conf:2 @0, nat pf.conf:1"
        said = reasons_of(*setup, "step main packet a out udp 10.0.0.1:1000 192.0.2.9:123 40")
        self.assertEqual(said, [f"rule 0 of a ({told}) decided: it is the first `quick` rule that matches"])

    def test_the_story_of_a_script_has_none_of_these_comments(self) -> None:
        text = "set skip on lo0\nnat on em0 inet from 10.0.0.0/24 to any -> (em0)\nnat on em0 from any to any -> em9\nblock return all"
        setup = taken_in(f"{text}\nblock in from <t>\npass in no state\npass out from 10.0.0.0/24").setup
        self.assertIn("# pf.conf:4 @0, nat pf.conf:2: block return all", setup)
        lab = Laboratory(program())
        self.addCleanup(lab.close)
        story = story_of(lab, [*setup, "# A query leaves.", "step main packet a out udp 10.0.0.1:1 192.0.2.9:1 0"])
        kernel = "By `kernel all` FreeBSD's rules hold where the laboratory has them, as far as we know them, and else its profile."
        self.assertEqual(story.intro, [f"The rules of em0, taken in from a pf.conf by `./lab import`. {kernel}"])
        self.assertEqual(story.branches["main"].notes, {1: ["A query leaves."]})

    def test_a_view_says_where_a_rule_is_from(self) -> None:
        lab = laboratory("\n".join([*taken_in("pass out").setup, "step main packet a out udp 10.0.0.1:1 192.0.2.9:1 0"]))
        said = view(lab.show("main"), lab.setup, PLAIN)
        self.assertIn("rule 0: pass out; pf.conf:1 @0", "\n".join(said))

    def test_a_setup_of_a_file_has_them(self) -> None:
        with tempfile.TemporaryDirectory() as folder:
            path = os.path.join(folder, "pair.pfl")
            taken_in("block all\npass out", "-o", path)
            rules = setup_from(program(), path).rules["b"]
        self.assertEqual([rule.described for rule in rules], ["block any; pf.conf:1 @0", "pass out; pf.conf:2 @1"])

    def test_other_comments_say_nothing_of_a_rule(self) -> None:
        packet = "step main packet a in udp 192.0.2.9:123 10.0.0.1:1000 40"
        plain = "rule 0 of a (block any) decided: it is the last rule that matches"
        of_import = "# pf.conf:2 @0 block all"
        after = ([of_import, it] for it in ("# no more", "#", "set states 9"))
        for above in (["# The first rule"], *after, ["# pf.conf:2 @0 is it"]):
            self.assertEqual(reasons_of(*above, "rule a block any", "open", packet), [plain])
        self.assertEqual(reasons_of("# pf.conf:2 @0 matches nothing: block all", "rule a block any", "open", packet), [plain])


if __name__ == "__main__":
    unittest.main()
