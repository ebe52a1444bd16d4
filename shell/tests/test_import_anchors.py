"""Rules of anchors that are in the file, or in a file that is loaded, worked out by hand from pf.conf(5): they are asked where the anchor
stands, for the packets that it is for."""
from __future__ import annotations

import random
import unittest
from typing import List, NamedTuple, Optional, Sequence, Tuple, Union

from ..language.comments import is_of_import, origin
from .imports import Imported, taken_in
from .test_import_meaning import Ends
from .test_import_translated_meaning import BLOCK_ALL, HOSTS, Filters, Flow, Line, of_laboratory, random_ends, random_filter, random_flow

SEED, ROUNDS, FLOWS = 20261130, 240, 30
NOT_THERE = "the rules of this anchor are not in the file: pfctl can load them while pf runs"


class Braces(unittest.TestCase):
    """Anchors with rules in braces."""

    def exact(self, text: str, *rules: str) -> Imported:
        its = taken_in(text)
        self.assertEqual(its.rules(), list(rules), its.said)
        self.assertEqual([it for it in its.said if "approximated: " in it or ": out: " in it], [], text)
        return its

    def test_the_rules_are_for_the_packets_of_the_anchor(self) -> None:
        inner = ["pass proto tcp from 10.0.0.0/8 to any port 22", "block from 10.0.0.1", "pass in inet6"]
        its = self.exact(
            "\n".join(["block all", 'anchor "ssh" in inet proto { tcp udp } {', *inner, "}", "pass out"]),
            "block any",
            "pass in proto tcp from 10.0.0.0/8 tport 22",
            "block in proto tcp from 10.0.0.1/32",
            "block in proto udp from 10.0.0.1/32",
            "pass out",
        )
        # The anchor is two rules of pf, one for each protocol, and its rules have numbers of their own.
        numbers = ["1 @0", "3 @1.0", "4 @1.1", "5 @1.2", "3 @2.0", "4 @2.1", "5 @2.2", "7 @3"]
        wanted = [f"{number} matches nothing:" if number in ("5 @1.2", "3 @2.0", "5 @2.2") else number for number in numbers]
        texts = ["block all", inner[0], inner[1], inner[2], inner[0], inner[1], inner[2], "pass out"]
        self.assertEqual(its.comments, [f"# pf.conf:{it} {text}" for it, text in zip(wanted, texts)])
        self.assertEqual([origin(comment) for comment in its.comments][1:4], ["pf.conf:3 @1.0", "pf.conf:4 @1.1", ""])
        self.assertTrue(all(is_of_import(comment) for comment in its.comments))
        self.assertEqual(its.said[0], "pf.conf: 5 rules of em0: 5 exact, 0 approximated, 0 out; 5 rule lines a node")
        self.assertEqual(its.said[1], "pf.conf: 1 other line: 1 exact, 0 approximated, 0 out")

    def test_without_a_name_and_in_one_another(self) -> None:
        text = "anchor {\n pass in\n anchor out {\n  pass proto udp\n  pass in\n }\n block proto tcp\n}"
        its = self.exact(text, "pass in", "pass out proto udp", "block any proto tcp")
        numbers = [comment.split()[1:3] for comment in its.comments]
        self.assertEqual(numbers, [[f"pf.conf:{line}", f"@{it}"] for line, it in ((2, "0.0"), (4, "0.1.0"), (5, "0.1.1"), (7, "0.2"))])

    def test_a_quick_rule_in_an_anchor_ends_everything(self) -> None:
        self.exact("anchor {\n pass quick proto udp\n block\n}\npass out", "pass any quick proto udp", "block any", "pass out")

    def test_a_quick_anchor_ends_everything_for_what_matches_in_it(self) -> None:
        # Of its rules that are not quick the last one that matches decides.
        text = "anchor quick from 10.0.0.0/8 {\n pass proto tcp\n block quick from 10.0.0.1\n block proto tcp to port 25\n}\nblock all"
        rules = ("from 10.0.0.1/32", "proto tcp from 10.0.0.0/8 tport 25")
        self.exact(text, *(f"block any quick {rule}" for rule in rules), "pass any quick proto tcp from 10.0.0.0/8", "block any")

    def test_line_ends_in_lists_and_comments(self) -> None:
        text = "anchor {\n # one\n pass in proto { tcp,\n  udp } # two\n\n block in \\\n  quick\n}"
        its = self.exact(text, "pass in proto tcp", "pass in proto udp", "block in quick")
        self.assertEqual(its.comments[-1], "# pf.conf:6 @0.2 block in \\ quick")

    def test_of_other_interfaces(self) -> None:
        its = self.exact("anchor on em1 {\n pass in\n anchor {\n  pass out\n }\n}\nblock in\nanchor {\n pass on em1\n}", "block in")
        self.assertEqual(its.said[1], "pf.conf: 1 rule of em0: 1 exact, 0 approximated, 0 out; 3 for other interfaces; 1 rule line a node")

    def test_tags_that_rules_of_anchors_give(self) -> None:
        its = taken_in("anchor {\n pass in on em1 tag X\n}\npass out tagged X")
        self.assertIn("pf.conf:4: out: `tagged X`: packets of the laboratory have no tags", its.said[0])
        # Of an anchor whose rules are in the file, none can give another tag.
        why = "no rule of this file gives a packet the tag `X`"
        self.assertEqual(taken_in("anchor {\n pass in\n}\npass out tagged X").said[0], f"pf.conf:4: approximated: {why}")

    def test_what_is_out(self) -> None:
        its = taken_in("anchor {\n antispoof for em0\n pass in proto blub\n pass out\n}")
        self.assertEqual(its.rules(), ["pass out"])
        self.assertEqual(
            its.said[:2],
            [
                "pf.conf:2: out: pfctl takes only rules and anchors in the braces of an anchor, found `antispoof`; the rules may be laxer"
                " without it",
                "pf.conf:3: out: the protocol `blub` is neither a number nor a name known here; the rules may be stricter without it",
            ],
        )
        its = taken_in("anchor probability 5% {\n pass in\n}\npass out")
        self.assertEqual(its.rules(), ["pass out"])
        without = "without the rules of this anchor the others may be stricter or laxer"
        self.assertEqual(its.said[0], f"pf.conf:1: out: `probability 5%`: nothing is left to chance here; {without}")
        self.assertEqual(its.said[1], "pf.conf:2: out: the anchor that it is in is left out")

    def test_very_many_in_one_another(self) -> None:
        its = taken_in("anchor {\n" * 200 + "pass in\n" + "}\n" * 200)
        self.assertIn("anchors are nested more than 32 deep", "".join(its.said))


class Loaded(unittest.TestCase):
    """`load anchor NAME from FILE`."""

    def test_the_rules_of_a_file(self) -> None:
        conf = 'i = em1\nanchor "web" in\nload anchor web from "web.conf"\nblock out'
        web = "table <t> { 10.0.0.1 }\np = 80\npass proto tcp from <t> to any port $p\npass on $i\nset debug loud\n"
        its = taken_in(f"table <t> {{ 10.0.0.2 }}\n{conf}\npass out from <t>", web_conf=web)
        # A table of the anchor comes before one of the main file, and no macro of the main file is known.
        rules = ["pass in proto tcp from 10.0.0.1/32 tport 80", "block out", "pass out from 10.0.0.2/32"]
        self.assertEqual(its.rules(), rules)
        self.assertEqual(its.comments[0], "# web.conf:3 @0.0 pass proto tcp from <t> to any port $p")
        said = ["web.conf:4: out: there is no macro `$i` above it; the rules may be stricter without it"]
        said += ["web.conf:5: out: settings in the file of an anchor are not taken in"]
        self.assertEqual(its.said[:2], said)
        self.assertEqual(its.comments[-1], "# web.conf:5 out: set debug loud")

    def test_an_anchor_that_stands_twice(self) -> None:
        conf = 'anchor a from 10.0.0.1\nblock in\nanchor a to 10.0.0.2\nload anchor a from "a.conf"'
        its = taken_in(conf, a_conf="pass in modulate state\n")
        self.assertEqual(its.rules(), ["pass in from 10.0.0.1/32", "block in", "pass in to 10.0.0.2/32"])
        lost = "approximated: `modulate state` as `keep state`: sequence numbers stay as they are"
        self.assertEqual([comment for comment in its.comments if "modulate" in comment and "@" not in comment], [f"# a.conf:1 {lost}"])
        sums = "pf.conf: 2 rules of em0: 1 exact, 1 approximated, 0 out; 3 rule lines a node"
        self.assertEqual(its.said[:2], [f"a.conf:1: {lost}", sums])

    def test_translations_of_a_file(self) -> None:
        conf = 'nat-anchor n from 10.0.0.0/24\nrdr-anchor n\nanchor n\nload anchor n from "n.conf"\nblock all'
        n = "nat pass on em0 proto esp from any to any -> 192.0.2.1\nrdr pass on em0 proto esp to 192.0.2.1 -> 10.0.0.4"
        its = taken_in(conf, n_conf=f"{n}\npass out proto 47\n")
        rules = ["pass out quick proto 50 from 10.0.0.0/24 nat 192.0.2.1:0", "pass in quick proto 50 to 192.0.2.1/32 rdr 10.0.0.4:0"]
        self.assertEqual(its.rules(), [*rules, "pass out proto 47", "block any"])
        self.assertEqual(its.comments[0], "# n.conf:1 nat pass on em0 proto esp from any to any -> 192.0.2.1")
        self.assertEqual(its.said[1], "pf.conf: 2 translations of em0: 2 exact, 0 approximated, 0 out")

    def test_what_is_not_there(self) -> None:
        its = taken_in('anchor "f2b/*"\nanchor web\nload anchor web from "none.conf"\nnat-anchor x\npass in')
        self.assertEqual(its.rules(), ["pass in"])
        self.assertEqual(its.said[0], f"pf.conf:1: out: {NOT_THERE}")
        self.assertEqual(its.said[1], "pf.conf:2: out: none.conf: No such file or directory")
        without = "without the rules of this anchor the others may be stricter or laxer"
        self.assertEqual(its.said[2], f"pf.conf:3: out: none.conf: No such file or directory: {without}")
        self.assertEqual(its.said[3], f"pf.conf:4: out: {NOT_THERE}")

    def test_what_pf_never_comes_to(self) -> None:
        its = taken_in('load anchor web from "web.conf"\npass in', web_conf="block in\n")
        self.assertEqual(its.rules(), ["pass in"])
        why = "pf never reaches these statements: no anchor of the file has this name"
        self.assertEqual(its.said[0], f"pf.conf:1: approximated: {why}")
        self.assertEqual(its.said[1], "pf.conf: 1 rule of em0: 1 exact, 0 approximated, 0 out; 1 rule line a node")

    def test_an_anchor_asks_for_statements_of_its_kind(self) -> None:
        n = "nat pass on em0 proto esp from any to any -> 192.0.2.1\nnat frob\nrdr pass on em0 proto esp -> 10.0.0.4\npass out proto 47\n"
        its = taken_in('nat-anchor n\nload anchor n from "n.conf"', n_conf=n)
        self.assertEqual(its.rules(), ["pass out quick proto 50 nat 192.0.2.1:0"])
        self.assertEqual(its.said[1], "pf.conf: 0 rules of em0: 0 exact, 0 approximated, 0 out; 1 rule line a node")
        self.assertEqual(its.said[2], "pf.conf: 2 translations of em0: 1 exact, 0 approximated, 1 out")
        its = taken_in('anchor n\nload anchor n from "n.conf"', n_conf=n)
        self.assertEqual(its.said[:1], ["pf.conf: 1 rule of em0: 1 exact, 0 approximated, 0 out; 1 rule line a node"])
        its = taken_in('anchor n on em1\nload anchor n from "n.conf"\npass on em0', n_conf=n)
        self.assertEqual(its.said[-1], "pf.conf: 0 other lines: 0 exact, 0 approximated, 0 out; 2 for other interfaces")

    def test_a_file_of_an_anchor_loads_no_other(self) -> None:
        its = taken_in('anchor a\nload anchor a from "a.conf"', a_conf='load anchor b from "a.conf"\n')
        why = "`load anchor` is not followed from the file of an anchor, nor into more than 256 files"
        self.assertEqual(its.said[0], f"a.conf:1: out: {why}")


# ---- against a second reading


class Anchor(NamedTuple):
    """A random anchor; its rules are rules and anchors."""

    ends: Ends
    direction: str
    is_quick: bool
    rules: "Sequence[Union[Filters, Anchor]]"

    @property
    def text(self) -> str:
        words = " ".join(it for it in ("anchor", self.direction, "quick" * self.is_quick, *self.ends.words) if it)
        return "\n".join([f"{words} {{", *(rule.text for rule in self.rules), "}"])


ANY = Ends("", "", "any", "", "any", "")
# What decides, and whether pf looks no further.
Found = Tuple[Optional[Filters], bool]


def decided(flow: Flow, rules: Sequence[Union[Filters, Anchor]]) -> Found:
    """The last rule that matches, or the first `quick` one; an anchor that is `quick` ends it where a rule in it has matched."""
    last: Optional[Filters] = None
    for rule in rules:
        if isinstance(rule, Anchor):
            is_for = rule.direction in ("", flow.packet.direction) and rule.ends.matches(flow.packet)
            found, ends = decided(flow, rule.rules) if is_for else (None, False)
            last = found or last
            if ends or (rule.is_quick and found):
                return last, True
        elif rule.matches(flow.packet, flow.has_syn):
            last = rule
            if rule.is_quick:
                return last, True
    return last, False


def random_rules(chance: random.Random, family: int, depth: int) -> List[Union[Filters, Anchor]]:
    found: List[Union[Filters, Anchor]] = []
    for _ in range(chance.randrange(1, 4)):
        if depth and chance.random() < 0.5:
            ends, direction = random_ends(chance, HOSTS[family]), chance.choice(("", "", "in", "out"))
            found.append(Anchor(ends, direction, chance.random() < 0.5, random_rules(chance, family, depth - 1)))
        else:
            # (rules for many packets, of which several match one)
            found.append(chance.choice((random_filter(chance, family), Filters(chance.choice(("pass", "block")), "", False, False, ANY))))
    return found


class Meaning(unittest.TestCase):
    """What random anchors decide, against a second reading of pf.conf(5)."""

    def test_random_anchors_decide_alike(self) -> None:
        chance = random.Random(SEED)
        found: List[bool] = []
        for at in range(ROUNDS):
            family = (4, 4, 6)[at % 3]
            rules = [*[BLOCK_ALL] * (at % 2), *random_rules(chance, family, 2)]
            text = "\n".join(rule.text for rule in rules)
            its = taken_in(text)
            if its.status or any(": out: " in it for it in its.said):
                continue
            lines = [Line.of(rule) for rule in its.rules()]
            for flow in (random_flow(chance, family) for _ in range(FLOWS)):
                last, _ = decided(flow, rules)
                wanted = (True, False) if last is None else (last.action == "pass", last.action == "pass")
                self.assertEqual(of_laboratory(flow, lines)[:2], wanted, (text, flow))
                found.append(wanted[0])
        self.assertGreater(min(found.count(True), found.count(False)), 500)


if __name__ == "__main__":
    unittest.main()
