"""Faulty lines: the word at fault, and that the shell finds the fault that the program finds."""
from __future__ import annotations

import random
import unittest
from typing import List, Optional

from ..language import helps
from ..language.commands import SETUP as SETUP_WORDS, STEP, TYPED, WHY
from ..language.events import EVENTS
from ..language.lines import check_line, wanted_form
from ..language.readers import LineFault
from ..language.searches import SEARCH
from ..language.setups import LIMITS
from ..link.programs import check_setup, run_lines
from ..reasons.faulty import explain_fault
from . import program

PACKET = "step main packet a in udp 1.2.3.4:1 2.3.4.5:2 3"
TCP = "step main packet a in tcp 1.2.3.4:1 2.3.4.5:2 S 1 2 3 4"
V6 = "[0000:0000:0000:0000:0000:0000:0000:0001]:1"

# Of each faulty line: the reply, the word at fault or nothing where one is missing, and a part of what is wrong.
COMMANDS = [
    ("show " + "x" * 600, "bad 1 Long", None, "the line has 605 characters"),
    ("show \x1b[A", "bad 2 NotAscii", None, "character 6"),
    ("shwo main", "bad 3 Unknown", "shwo", "did you mean `show`?"),
    ("rule a pass out", "bad 3 Unknown", "rule", "it belongs to the setup"),
    ("step main flsh a", "bad 3 Unknown", "flsh", "did you mean `flush`?"),
    ("step main packet a", "bad 4 Missing", "", "expected `in` or `out`, found nothing"),
    ("show " + "x" * 33, "bad 5 Number", "x" * 33, "has 33 characters, and a name has at most 16"),
    ("fork main 3", "bad 4 Missing", "", "NEW is missing"),
    ("why main", "bad 4 Missing", "", "K is missing"),
    ("why main flsh", "bad 5 Number", "flsh", "is not a number of decimal digits"),
    ("why main flush", "bad 4 Missing", "", "expected `a` or `b`, found nothing"),
    ("why main 3 4", "bad 6 Extra", "4", "the line was complete before `4`"),
    (PACKET.replace("step", "why").replace("2 3", "2 65500"), "bad 7 Packet", "65500", "above 65495"),
    ("frame main", "bad 4 Missing", "", "TICKET is missing"),
    ("frame main 4294967296", "bad 5 Number", "4294967296", "is above 4294967295"),
    ("past main", "bad 4 Missing", "", "K is missing"),
    ("past main 4294967296", "bad 5 Number", "4294967296", "is above 4294967295"),
    ("past main 3 2", "bad 6 Extra", "2", "the line was complete before `2`"),
    (PACKET.replace("udp", "UDP"), "bad 5 Number", "UDP", "expected `tcp`, `udp`, `icmp` or a number from 0 to 255, found `UDP` (did you mean `udp`?)"),
    (PACKET.replace("udp", "256"), "bad 5 Number", "256", "or a number from 0 to 255, found `256`"),
    (PACKET.replace("1.2.3.4:1", "[::1]:1"), "bad 5 Number", "[::1]:1", "no `::`"),
    (PACKET.replace("1.2.3.4:1", "::1"), "bad 5 Number", "::1", "is written in brackets"),
    (PACKET.replace("1.2.3.4:1", "1.2.3.4"), "bad 5 Number", "1.2.3.4", "has no port"),
    (PACKET.replace("1.2.3.4:1", "1.2.3.400:1"), "bad 5 Number", "1.2.3.400:1", "has 400 in its address"),
    (PACKET.replace("2.3.4.5:2", "2.3.4.5:65536"), "bad 5 Number", "2.3.4.5:65536", "has port 65536, above 65535"),
    (TCP.replace("S 1", "AS 1"), "bad 5 Number", "AS", "write `SA`"),
    (TCP.replace("S 1", "SE 1"), "bad 5 Number", "SE", "has `E`, which is not a flag"),
    (TCP.replace("S 1", "S 4294967296"), "bad 5 Number", "4294967296", "is above 4294967295"),
    ("step main flush c", "bad 5 Number", "c", "expected `a` or `b`, found `c`"),
    ("step main kill a 5", "bad 5 Number", "5", "two numbers with one dot"),
    ("step main tick a -1", "bad 5 Number", "-1", "is not a number of decimal digits"),
    ("show main now", "bad 6 Extra", "now", "the line was complete before `now`"),
    (PACKET.replace("2 3", "2 65500"), "bad 7 Packet", "65500", "above 65495"),
    (TCP.replace("S 1", "A 1") + " 5", "bad 7 Packet", "5", "only a packet with SYN has a SCALE"),
    (TCP + " 15", "bad 7 Packet", "15", "above 14"),
    (PACKET.replace("1.2.3.4:1", V6), "bad 7 Packet", "2.3.4.5:2", "one end is IPv4 and the other IPv6"),
    (PACKET.replace("udp", "icmp"), "bad 7 Packet", "2.3.4.5:2", "the same identifier"),
    (PACKET.replace("udp", "47"), "bad 7 Packet", "1.2.3.4:1", "has no ports"),
    ("search main 65 9 apart", "bad 5 Number", "65", "is above 64"),
    ("search main 8 4294967296 apart", "bad 5 Number", "4294967296", "is above 4294967295"),
    ("search main 8 9 apert", "bad 3 Unknown", "apert", "did you mean `apart`?"),
    ("search main 8 9 landed settled apart", "bad 3 Unknown", "settled", "is no goal: expected `apart`, `differ`, "),
    ("search main 8 9 landed", "bad 4 Missing", "", "the goal is missing: apart, differ, passed, unpassed, dropped, admitted or split"),
    ("search main 8 9 split flush a", "bad 3 Unknown", "flush", "`flush` is no event of a node by itself, such as `packet`"),
    ("search main 8 9 quiet split flush c x", "bad 5 Number", "c", "expected `a` or `b`, found `c`"),
    ("search main 8 9 split kill a 1.1 x", "bad 6 Extra", "x", "the goal was complete before `x`"),
    ("search main 8 9 apart b; 1 flush", "bad 6 Extra", "b", "the goal was complete before `b`"),
    ("search main 8 9 apart;", "bad 4 Missing", "", "N is missing"),
    ("search main 8 9 apart; ; 1 x", "bad 4 Missing", ";", "N is missing"),
    ("search main 8 9 apart; 1 any flush a", "bad 3 Unknown", "flush", "is no event of any frame"),
    ("search main 8 9 apart;1 any cut;2 flush a", "bad 4 Missing", ";", "LEN is missing"),
    ("search main 8 9 apart; 1 any cut 5 2", "bad 6 Extra", "2", "the choice was complete before `2`"),
    ("search main 8 9 apart; then a", "bad 5 Number", "then", "is not a number of decimal digits"),
    ("search main 8 9 differ" + "; 1 flush a" * 16 + "; then;", "bad 6 Extra", ";", "a search has at most 16 choices"),
    ("search main 8 9 differ" + "; then" * 16 + "; x", "bad 6 Extra", ";", "a search has at most 16 phases"),
    ("search main 8 9 apart" + "; 1 flush a" * 16 + ";", "bad 6 Extra", ";", "a search has at most 16 choices"),
    (PACKET.replace("step main", "search main 8 9 passed").replace("2 3", "2 65500 x"), "bad 7 Packet", "65500", "above 65495"),
    (PACKET.replace("2 3", "2 65500 x"), "bad 6 Extra", "x", "the line was complete before `x`"),
    ("search;", "bad 3 Unknown", "search;", "did you mean `search`?"),
]
SETUPS = [
    ("set quee 3", "line 3 Unknown", "quee", "did you mean `queue`?"),
    ("step main flush a", "line 3 Unknown", "step", "those come after `open`"),
    ("set states", "line 4 Missing", "", "N is missing"),
    ("set defer 2", "line 5 Number", "2", "is above 1"),
    ("set astat 3", "line 3 Unknown", "astat", "did you mean `astart`?"),
    ("set aend 4294967296", "line 5 Number", "4294967296", "is above 4294967295"),
    ("rule a pass in from 10.0.0.1", "line 5 Number", "10.0.0.1", "has no length after a slash"),
    ("rule a pass in from 10.0.0.0/33", "line 5 Number", "10.0.0.0/33", "has the length 33, above 32"),
    ("rule a pass in to 10.0.0.0/8 from 10.0.0.0/8", "line 6 Extra", "from", "out of order"),
    ("set timeout", "line 4 Missing", "", "expected `tcp.first`, `tcp.opening`, "),
    ("set timeout udp.x 3", "line 5 Number", "udp.x", "or `other.multiple`, found `udp.x`"),
    ("set timeout udp.first", "line 4 Missing", "", "SECONDS is missing"),
    ("set timeout udp.first 4294967296", "line 5 Number", "4294967296", "is above 4294967295"),
    ("set timeout udp.first 3 4", "line 6 Extra", "4", "the line was complete before `4`"),
    ("set timeot udp.first 3", "line 3 Unknown", "timeot", "did you mean `timeout`?"),
    ("rule a pass in port 80", "line 3 Unknown", "port", "`fport PORTS` after `from`"),
    ("rule a pass out tport 9:3", "line 5 Number", "9:3", "has 9 before 3: the lower port comes first"),
    ("rule a pass out tport 9:", "line 5 Number", "9:", "does not have the form N or LO:HI"),
    ("rule a pass out fport :9", "line 5 Number", ":9", "does not have the form N or LO:HI"),
    ("rule a pass out fport 1:2:3", "line 5 Number", "1:2:3", "does not have the form N or LO:HI"),
    ("rule a pass out tport 70000", "line 5 Number", "70000", "has port 70000, above 65535"),
    ("rule a pass out tport 1:65536", "line 5 Number", "1:65536", "has port 65536, above 65535"),
    ("rule a pass out nat 1.2.3.4", "line 5 Number", "1.2.3.4", "has no port: ADDRESS:PORTS"),
    ("rule a pass out nat 1.2.3.4:5:x", "line 5 Number", "1.2.3.4:5:x", "does not have the form N or LO:HI"),
    ("rule a pass out nat 1.2.3.4:1:2:3", "line 5 Number", "1.2.3.4:1:2:3", "has more than two ports"),
    ("rule a pass in rdr 1.2.3.400:5", "line 5 Number", "1.2.3.400:5", "has 400 in its address"),
    ("rule a pass in rdr 1:2:3:4:5:6:7:8", "line 5 Number", "1:2:3:4:5:6:7:8", "is written in brackets: [ADDRESS]:PORTS"),
    ("rule a pass in rdr [::1]:5:6", "line 5 Number", "[::1]:5:6", "no `::`"),
    (f"rule a pass in rdr {V6[:-2]}", "line 5 Number", V6[:-2], "has no `]:PORTS` after its address"),
    (f"rule a pass in rdr {V6}:0", "line 5 Number", f"{V6}:0", "has 1 before 0"),
    ("rule a pass in rdr 1.2.3.4:5 nat 1.2.3.4:5", "line 6 Extra", "nat", "out of order"),
    ("rule a pass in qick", "line 3 Unknown", "qick", "did you mean `quick`?"),
    ("rule a pass in timeout tcp.last 5", "line 5 Number", "tcp.last", "or `other.multiple`, found `tcp.last` (did you mean `tcp.first`?)"),
    ("rule a pas out", "line 5 Number", "pas", "expected `pass` or `block`, found `pas` (did you mean `pass`?)"),
    ("rule a match out", "line 5 Number", "match", "expected `pass` or `block`, found `match`: a rule here passes or blocks"),
    ("rule a pass", "line 4 Missing", "", "expected `in`, `out` or `any`, found nothing"),
    ("rule a pass out flags S/SA", "line 5 Number", "S/SA", "expected `any`, found `S/SA`: leave it out for `flags S/SA`"),
    ("rule a pass out from any", "line 5 Number", "any", "`any` is no NET: leave out `from any` and `to any`"),
    ("rule a pass out to !10.0.0.0/8", "line 5 Number", "!10.0.0.0/8", "there is no `!`; write a rule for all, and after it one for the net"),
    ("rule a pass out to <lan>", "line 5 Number", "<lan>", "there are no tables"),
    ("rule a pass out proto { tcp udp }", "line 5 Number", "{", "found `{`: there are no lists; write a rule for each member"),
    ("rule a pass out tport {80,443}", "line 5 Number", "{80,443}", "`{80,443}` is no PORTS: there are no lists"),
    ("rule a pass out { 80 }", "line 3 Unknown", "{", "`{` is not an option of a rule: there are no lists"),
    (f"rule a pass out {'x' * 100}", "line 3 Unknown", f"{'x' * 40}..", f"`{'x' * 40}..` is not an option of a rule"),
    ("rule a pass in timeout udp.first 5 timeout tcp.first 5", "line 6 Extra", "timeout", "in the order of their classes"),
]
POOL = (
    "a b c in out tcp UDP 6 47 256 1.2.3.4:5 1.2.3.4 ::1 S AS - 0 15 65496 65536 4294967296 1.1 1. main step flush packet x "
    "search ; ; apart passed split quiet then any deliver cut"
).split()


def found(line: str, of_setup: bool = False) -> Optional[str]:
    """The fault that the shell finds."""
    try:
        check_line(line, of_setup)
    except LineFault as fault:
        return fault.name
    return None


def marked(lines: List[str]) -> Optional[str]:
    """The word over the mark; nothing where no line is marked."""
    for line, mark in zip(lines, lines[1:]):
        if set(mark.strip()) == {"^"}:
            return line[mark.index("^") : mark.index("^") + mark.count("^")]
    return None


class FaultReasons(unittest.TestCase):
    def test_commands(self) -> None:
        replies = run_lines(program(), ["open", *(line for line, *_ in COMMANDS)]).replies
        for (line, reply, word, part), came in zip(COMMANDS, replies):
            with self.subTest(line[:60]):
                self.assertEqual(came, [reply])
                self.check(line, reply, word, part)

    def test_what_was_wanted(self) -> None:
        for line, wanted in (
            ("why main 3 4", ["why BRANCH K", "why BRANCH EVENT"]),
            ("why main lose x", ["why BRANCH lose TICKET"]),
            ("frame main", ["frame BRANCH TICKET"]),
        ):
            self.assertEqual(explain_fault(line, "bad 6 Extra")[-len(wanted) :], [f"expected: {it}" for it in wanted])

    def test_the_help_shows_the_forms_that_are_shown_once(self) -> None:
        for word in (*SETUP_WORDS, *TYPED, *EVENTS):
            self.assertTrue(helps.shows(word, wanted_form([STEP.word, "main", word] if word in EVENTS else [word])), word)
        self.assertFalse(any(helps.shows(word, wanted_form([word])) for word in (SEARCH, WHY.word, "frame", "log")))

    def test_each_thing_is_said_once(self) -> None:
        setups = [
            ("set states x", "`x` is not a number of decimal digits"),
            ("set defer 2", "`2` is above 1"),
            ("rule a pass in tport 80-90", "`80-90` does not have the form N or LO:HI, in decimal digits"),
            ("rule a pass in from 10.0.0.1", "`10.0.0.1` has no length after a slash: a single IPv4 address is ADDRESS/32"),
            ("rule a pass out nat ::1", "`::1` looks like IPv6, which is written in brackets: [ADDRESS]:PORTS"),
            ("rule a pass out nat x", "`x` does not have the form ADDRESS:PORTS or for IPv6 [ADDRESS]:PORTS, where PORTS is a port or LO:HI"),
        ]
        ends = [
            ("::1", "`::1` looks like IPv6, which is written in brackets: [ADDRESS]:PORT"),
            ("10.0.0.1", "`10.0.0.1` has no port: ADDRESS:PORT (0 for a protocol without ports)"),
            ("10.0.0", "`10.0.0` does not have the form ADDRESS:PORT or for IPv6 [ADDRESS]:PORT"),
            ("host:80", "`host:80` has no address of four numbers joined by dots"),
        ]
        for line, why in (*setups, *((PACKET.replace("2.3.4.5:2", end), why) for end, why in ends)):
            self.assertEqual(explain_fault(line, f"{'bad' if line.startswith('step') else 'line'} 5 Number")[0], why)

    def test_setups(self) -> None:
        for line, reply, word, part in SETUPS:
            with self.subTest(line):
                fault = check_setup(program(), [line])
                self.assertEqual(fault and fault.fault, reply)
                self.check(line, reply, word, part)

    def check(self, line: str, reply: str, word: Optional[str], part: str) -> None:
        lines = explain_fault(line, reply)
        self.assertIn(part, lines[0])
        self.assertEqual(marked(lines), word)

    def test_faults_of_what_a_line_says(self) -> None:
        cases = [
            ("set mtu 100", "world 1 TooSmall", "a limit is below its range: `mtu` is from 148 to 9000, and not 100"),
            ("set batch 300", "world 2 TooLarge", "a limit is above its range: `batch` is from 1 to 256, and not 300"),
            ("set astart 131073", "world 2 TooLarge", "a limit is above its range: `astart` is from 0 to 131072, and not 131073"),
            ("set aend 131073", "world 2 TooLarge", "a limit is above its range: `aend` is from 0 to 131072, and not 131073"),
            ("rule b pass in nat 1.2.3.4:5", "rule 2 NatNotOut", "a rule with `nat` has to be for the way `out`"),
            ("rule b pass any rdr 1.2.3.4:5", "rule 5 RdrNotIn", "a rule with `rdr` has to be for the way `in`"),
            ("rule a pass out max 0", "rule 3 ZeroMax", "a rule has to allow at least one state, but says `max 0`"),
        ]
        for line, reply, why in cases:
            with self.subTest(line):
                fault = check_setup(program(), [line])
                self.assertEqual(fault and fault.fault, reply)
                self.assertEqual(explain_fault(line, reply), [why])

    def test_each_limit_has_the_range_of_the_program(self) -> None:
        for name, limit in LIMITS.items():
            outside = ((limit.least - 1, "world 1 TooSmall"), (limit.most + 1, "world 2 TooLarge"))
            for number, wanted in (*outside, (limit.least, None), (limit.most, None)):
                with self.subTest(name, number=number):
                    line = f"set {name} {number}"
                    fault = check_setup(program(), [line])
                    # (a number below 0, or above 1 for `defer`, is a fault of the line itself)
                    is_number = number >= 0 and (name != "defer" or number <= 1)
                    self.assertEqual(fault and fault.fault, wanted if is_number else "line 5 Number")

    def test_a_fault_that_the_shell_does_not_find_is_not_explained(self) -> None:
        lines = explain_fault("step main flush a", "bad 5 Number")
        self.assertEqual(lines[0], "a word has the wrong form; the shell cannot say which word")

    def test_the_shell_finds_what_the_program_finds(self) -> None:
        """Lines with a word or two exchanged, left out or added, against the program's check."""
        chance = random.Random(1)
        steps = ["step main tick a 5", "step main kill a 1.1", "step main cut 1 5"]
        searches = [
            "search main 8 9 settled apart; 3 any deliver; 2 any cut 9; 1 flush a",
            f"{TCP.replace('step main', 'search main 8 9 landed passed')} ; 1 lose 2",
            f"search main 8 9 apart; 2 {PACKET[10:]}; 3 kill a 1.1",
            f"search main 8 9 quiet split {PACKET[10:]}; then; 1 flush b; then; then; 1 lose 2",
            "search main 8 9 differ" + "; then" * 14 + "; 2 flush a" * 16,
        ]
        whys = [TCP.replace("step", "why"), "why main lose 1", "why main 3", "frame main 1"]
        good = [PACKET, TCP, *steps, *searches, *searches, *whys, "fork main 1 x", "back main 1", "names"]
        lines = []
        for _ in range(3000):
            words = chance.choice(good).split()
            for _ in range(chance.randrange(3)):
                place = chance.randrange(len(words) + 1)
                words[place : place + chance.randrange(2)] = [chance.choice(POOL)] * chance.randrange(2)
            lines.append(" ".join(words) or "names")
        told = {}
        for reply in run_lines(program(), ["open", *lines], "check").replies:
            words = reply[0].split()
            if words[0] == "line":
                told[int(words[1]) - 2] = words[-1]
        self.assertGreater(len(told), 1000)
        for place, line in enumerate(lines):
            self.assertEqual(found(line), told.get(place), line)


if __name__ == "__main__":
    unittest.main()
