"""The line `kernel` of a setup: its words, what a setup makes of its lines, and what is said of them. No program is asked."""
from __future__ import annotations

import re
import unittest
from typing import List, Optional, Tuple

from ..language.helps import about
from ..language.lines import check_line, wanted_form
from ..language.readers import LineFault
from ..language.setups import CLEAR, EXPIRY, ICMP, LOOSE, MERGE, RESET, REVIVE, RULE, SCALE, SWITCHES, WINDOW, Switch
from ..model.kernels import PROFILE, Kernel
from ..model.setups import Setup
from ..reasons.faulty import explain_fault
from . import TOP


def kernel_of(*lines: str) -> Kernel:
    return Setup.of(lines).kernel


def fault_of(line: str) -> Optional[Tuple[str, Optional[int]]]:
    """The first fault of a line of a setup, and the place of its word."""
    try:
        check_line(line, True)
    except LineFault as fault:
        return fault.name, fault.place
    return None


class Lines(unittest.TestCase):
    def test_one_word_at_least_and_each_known(self) -> None:
        for line in ("kernel window", "kernel all", "kernel scale expiry", "kernel reset merge loose window", "kernel loose loose", "kernel all window all", "kernel icmp rule revive clear"):
            self.assertIsNone(fault_of(line), line)
        for line, fault in (
            ("kernel", ("Missing", 1)),
            ("kernel Window", ("Unknown", 1)),
            ("kernel loose windows merge", ("Unknown", 2)),
            ("kernel none", ("Unknown", 1)),
            ("kernel 1", ("Unknown", 1)),
            ("kernel merge #", ("Unknown", 2)),
            *((f"kernel {it}", ("Unknown", 1)) for it in ("takeover", "max", "rules", "Clear", "revived", "icmp6")),
        ):
            self.assertEqual(fault_of(line), fault, line)

    def test_it_belongs_to_the_setup(self) -> None:
        with self.assertRaises(LineFault) as found:
            check_line("kernel window", False)
        self.assertEqual(found.exception.name, "Unknown")
        self.assertIn("it belongs to the setup, before `open`", found.exception.why)

    def test_a_fault_is_shown_at_its_word(self) -> None:
        self.assertEqual(
            explain_fault("kernel loose windw", "line 3 Unknown"),
            ["`windw` is no rule of the kernel (did you mean `window`?)", "  kernel loose windw", "               ^^^^^", "expected: kernel WORD.."],
        )
        self.assertEqual(
            explain_fault("kernel", "line 4 Missing")[:3],
            ["the rule of the kernel is missing: window, loose, merge, rule, expiry, reset, scale, clear, revive, icmp or all", "  kernel", "         ^"],
        )
        self.assertEqual(wanted_form(["kernel"]), ["kernel WORD.."])


class Setups(unittest.TestCase):
    def test_lines_add_up_in_any_order(self) -> None:
        every = (WINDOW, LOOSE, MERGE, RULE, EXPIRY, RESET, SCALE, CLEAR, REVIVE, ICMP)
        cases: List[Tuple[List[str], Tuple[Switch, ...]]] = [
            ([], ()),
            (["kernel merge"], (MERGE,)),
            (["kernel reset window window"], (WINDOW, RESET)),
            (["kernel reset", "rule a pass out", "kernel loose", "kernel reset"], (LOOSE, RESET)),
            (["kernel all"], every),
            (["kernel merge all merge"], every),
            (["kernel scale", "kernel expiry"], (EXPIRY, SCALE)),
            (["kernel icmp clear", "kernel revive rule"], (RULE, CLEAR, REVIVE, ICMP)),
            (["kernel icmp scale reset rule loose", "kernel expiry revive clear merge window"], every),
        ]
        for lines, wanted in cases:
            self.assertEqual(kernel_of(*lines).switches, wanted, lines)
        self.assertEqual(tuple(SWITCHES.values()), every)

    def test_the_line_is_kept_as_it_is(self) -> None:
        setup = Setup.of(["kernel reset  window", "rule a pass out"])
        self.assertEqual(setup.lines, ["kernel reset  window", "rule a pass out"])
        self.assertEqual([it.text for it in setup.rules["a"]], ["pass out"])

    def test_a_rule_below_it_is_not_from_where_a_comment_above_it_says(self) -> None:
        setup = Setup.of(["# pf.conf:21 @7 pass in", "rule a pass in", "# pf.conf:22 @8 pass out", "kernel all", "rule a pass out"])
        self.assertEqual([it.origin for it in setup.rules["a"]], ["pf.conf:21 @7", ""])


class Words(unittest.TestCase):
    def test_they_stand_in_the_order_of_their_table(self) -> None:
        for words, line, short, by in (
            (["loose", "window"], "kernel window loose", "kernel window loose", "by kernel window, loose"),
            (["merge"], "kernel merge", "kernel merge", "by kernel merge"),
            (["all"], "kernel window loose merge rule expiry reset scale clear revive icmp", "kernel all", "by kernel all"),
            ([*reversed(SWITCHES)], "kernel window loose merge rule expiry reset scale clear revive icmp", "kernel all", "by kernel all"),
            (
                ["reset", "merge", "loose", "window"],
                *("kernel window loose merge reset", "kernel window loose merge reset", "by kernel window, loose, merge, reset"),
            ),
        ):
            kernel = PROFILE.with_words(words)
            self.assertEqual((kernel.line, kernel.short, kernel.by, kernel.is_profile), (line, short, by, False))
        self.assertEqual((PROFILE.by, PROFILE.is_profile), ("by the profile", True))

    def test_one_can_be_taken_away(self) -> None:
        for words, switch, wanted in (("all", EXPIRY, "window loose merge rule reset scale clear revive icmp"), ("scale", SCALE, ""), ("loose", SCALE, "loose")):
            self.assertEqual(PROFILE.with_words(words.split()).without(switch), PROFILE.with_words(wanted.split()))

    def test_what_to_know_of_resets(self) -> None:
        known = "so it did before FreeBSD 13.2-RELEASE-p7, as far as we know its sources"
        any_number = [f"by kernel window without reset a reset passes with any number: {known}"]
        comparing = ["no kernel that we know has the rule reset without window: it is for comparing"]
        nothing: List[str] = []
        for words, warnings in (
            *(("window", any_number), ("window loose merge", any_number)),
            *(("reset", comparing), ("loose reset", comparing)),
            *((it, nothing) for it in ("", "loose", "merge", "window reset", "all")),
        ):
            self.assertEqual(PROFILE.with_words(words.split()).warnings, warnings, words)

    def test_help_has_each_word_with_how_sure_we_are(self) -> None:
        text = " ".join(it.strip() for it in about("kernel"))
        self.assertTrue(text.startswith("kernel WORD.. "))
        for it in SWITCHES.values():
            self.assertIn(f" {it.word}: {it.what} ({it.sure}) ", text)
        self.assertIn(" all: all of these ", text)
        self.assertIn("as far as we know its sources, which could not be looked up here", text)
        self.assertIn("docs/KERNEL.md", text)

    def test_the_page_has_them_in_the_same_words(self) -> None:
        with open(f"{TOP}/docs/KERNEL.md", encoding="utf-8") as page:
            rows = re.findall(r"(?m)^\| \[`(\w+)`\]\(#\w+\) \| (.+?) \| .+? \| (.+?) \|$", page.read())
        # (within brackets a part has none of its own)
        ours = [(switch.word, switch.what, switch.sure) for switch in SWITCHES.values()]
        self.assertEqual(*([(word, what, re.sub("[();`]| (?=%)", "", sure)) for word, what, sure in its] for its in (rows, ours)))


if __name__ == "__main__":
    unittest.main()
