"""`compare --out`: a script after which the nodes have the states of two dumps. What is expected is worked out by hand, or read off the
dumps and the pair apart from what is tested."""
from __future__ import annotations

import io
import os
import subprocess
import sys
from contextlib import redirect_stderr, redirect_stdout
from typing import List, Tuple

from ..arguments import needs_program
from ..console.colours import PLAIN
from ..dialogue.shell import Shell
from ..language.lines import lines_of
from ..link.laboratory import Laboratory
from ..link.programs import run_lines
from ..main import main
from ..model.pair import Pair, read_shown
from ..scripts.texts import read, title_of
from . import TOP, program
from .dump_cases import ECHO, NAT, QUERY, SIX, TUNNEL, WEB, DumpCase, Said
from .dump_scripts import printed_in, printed_of, random_dumps

SCRIPT = "PAIR.pfl"


def field_dumps() -> Tuple[str, str]:
    """The dumps of docs/FIELD-DETAILS.md."""
    page = read(f"{TOP}/docs/FIELD-DETAILS.md")
    a, b = (page.split(f"<!-- dump {node} -->\n```text\n")[1].partition("```")[0] for node in "ab")
    return a, b


def there_of(node: str, there: int, size: int, same: int) -> str:
    """The line on how many states of a node's dump are there."""
    states, are = f"{size} state{'s' * (size != 1)}", "is" if there == 1 else "are"
    return f"{node}: {there} of {states} of {node} {are} there, {same} of them as in the dump in all that is compared"


class OpeningCase(DumpCase):
    """A folder with two dumps and the script that is made of them."""

    def opened(self, a: str, b: str, *options: str) -> Said:
        """What the command says of two dumps, with a script."""
        return self.opened_with(self.file("a", a), self.file("b", b), "--out", str(self.room / SCRIPT), *options)

    def opened_with(self, *words: str) -> Said:
        out, err = io.StringIO(), io.StringIO()
        with redirect_stdout(out), redirect_stderr(err):
            status = main(["--program", program(), "compare", *words])
        said, faults = (it.getvalue().replace(f"{self.room}/", "").splitlines() for it in (out, err))
        return Said(status, said, [fault.replace(f"lab: {SCRIPT}: ", "") for fault in faults])

    def there(self, said: Said, a: int, b: int) -> None:
        """All states of both dumps are there, as far as they are compared."""
        first = next(at for at, it in enumerate(said.err) if it.startswith("a: "))
        self.assertEqual(said.err[first : first + 2], [there_of(node, count, count, count) for node, count in (("a", a), ("b", b))])

    @property
    def script(self) -> List[str]:
        return lines_of(read(str(self.room / SCRIPT)))

    def pair(self) -> Pair:
        """The pair after the script, each line of which is good and accepted."""
        checked = run_lines(program(), self.script, "check")
        self.assertEqual((checked.faults, [reply[0].split()[0] for reply in checked.replies]), ([], ["good"]))
        ran = run_lines(program(), [*self.script, "show main"])
        self.assertEqual([reply[0] for reply in ran.replies if not reply[0].startswith(("step ", "branch "))], [])
        pair = read_shown(ran.replies[-1])
        self.assertEqual((pair.a.pending, pair.b.pending, pair.frames), (0, 0, {}))
        return pair

    def asked(self, *lines: str) -> List[str]:
        """What the shell answers to lines after the script."""
        lab, out = Laboratory(program()), io.StringIO()
        shell = Shell(lab, out, PLAIN)
        shell.take(self.script, echo=False)
        before = len(out.getvalue())
        shell.take(lines, echo=False)
        lab.close()
        return out.getvalue()[before:].splitlines()


class OfThePage(OpeningCase):
    """The dumps of docs/FIELD-DETAILS.md."""

    def setUp(self) -> None:
        super().setUp()
        self.said = self.opened(*field_dumps())

    def test_the_report_and_the_status_are_those_of_the_comparison(self) -> None:
        alone = self.run_with(str(self.room / "a"), str(self.room / "b"))
        self.assertEqual((self.said.status, self.said.out), (1, alone.out))
        self.assertEqual(alone.err, [])

    def test_all_states_are_there(self) -> None:
        self.there(self.said, 4, 3)
        self.assertEqual(len(self.said.err), 2)
        pair = self.pair()
        for node, text in zip((pair.a, pair.b), field_dumps()):
            self.assertEqual(printed_of(node), printed_in(text))
            # The flow under two names: each has refused the other's state.
            self.assertEqual(node.counters["bad"], 1)

    def test_diff_says_what_compare_says(self) -> None:
        """21:40:02 are 78002 s. The closed connection has 44 s of 90 left, and at b 86300 s of 86400."""
        ssh, flow = "tcp 192.0.2.22:22 <- 198.51.100.7:50022", "udp 203.0.113.1:51820 <- 198.51.100.40:51820"
        closed = (
            "source level FIN_WAIT_2 | ESTABLISHED, destination level FIN_WAIT_2 | ESTABLISHED, destination lo 3058113415 | 3058113002,"
            " destination hi 3058178950 | 3058178537, class tcp.closed | tcp.established, last used 46 s | 100 s ago,"
            " expires in 44 s | 86300 s"
        )
        moved = (
            "source lo 90000 | 91448, source hi 155664 | 157112, destination lo 70000 | 70512, destination hi 135535 | 136047"
        )
        wanted = [
            "a and b differ in 5 states: 2 only on a, 1 only on b, 2 differ; 1 flow has two names",
            f"only on a: 1.1  {ssh}  ESTABLISHED:ESTABLISHED  expires in 78002 s",
            f"only on a: 1.3  {flow}  MULTIPLE:MULTIPLE  expires in 57 s; b has this flow as 2.1",
            f"only on b: 2.1  {flow}  SINGLE:MULTIPLE  expires in 39 s; a has this flow as 1.3",
            f"differ: 1.2  tcp 192.0.2.80:443 <- 198.51.100.17:51512  {closed}",
            f"differ: 1.4  tcp 192.0.2.80:443 <- 198.51.100.18:40112  {moved}",
        ]
        self.assertEqual(self.asked("diff"), wanted)

    def test_the_pages_show_what_comes(self) -> None:
        pages = read(f"{TOP}/docs/FIELD.md") + read(f"{TOP}/docs/FIELD-DETAILS.md")
        blocks = (pages.partition(f"<!-- {it} -->\n```text\n")[2].partition("```")[0] for it in ("pair said", "pair diff"))
        said, diff = (block.splitlines() for block in blocks)
        self.assertEqual([it.replace("fw1.txt", "a").replace("fw2.txt", "b") for it in said], self.said.err)
        self.assertEqual(diff, self.asked("diff"))

    def test_the_script_says_what_it_is(self) -> None:
        script = self.script
        head = [it.replace(f"{self.room}/", "") for it in script]
        self.assertEqual(title_of(head), "The states of a at node a, and of b at node b, as far as packets make them")
        self.assertIn(f"# {there_of('a', 4, 4, 4)}", head)
        # More seconds are left than the laboratory's 30.
        self.assertIn("set timeout udp.single 39", script)
        self.assertIn("# 1.2: 5f00a1b200000002/0a0a0a0a of a and b, tcp 192.0.2.80:443 <- 198.51.100.17:51512", script)


class States(OpeningCase):
    def test_states_of_each_form(self) -> None:
        dump = NAT + QUERY + ECHO.replace("em0", "all") + TUNNEL + WEB
        said = self.opened(dump, dump)
        self.there(said, 5, 5)
        pair = self.pair()
        wanted = printed_in(dump.replace("gre 10.0.0.1 -> 192.0.2.9", "47 10.0.0.1:0 -> 192.0.2.9:0").replace("0:0\n", "1:0\n"))
        # (the shell puts the identifier of an echo that is the other end's, too, in no bracket)
        self.assertEqual(printed_of(pair.a), wanted)
        self.assertEqual(printed_of(pair.b), wanted)
        self.assertEqual(self.asked("diff"), ["a and b agree in 5 states"])

    def test_ipv6_with_a_redirection(self) -> None:
        six = SIX.replace("PROXY:DST", "ESTABLISHED:ESTABLISHED").replace("(+99)", "")
        self.there(self.opened(six, ""), 1, 0)
        (state,) = self.pair().a.states.values()
        public, server = (f"[2001:0db8:0000:0000:0000:0000:0000:{it}]" for it in ("0001", "0080"))
        self.assertEqual((state.direction, state.wire.near, state.stack.near), ("in", f"{public}:8443", f"{server}:443"))
        # The server is the near end: its numbers come first.
        self.assertEqual((state.destination.lo, state.destination.hi, state.source.lo, state.source.hi), (1, 3, 3, 7))

    def test_an_end_that_was_never_heard(self) -> None:
        syn = WEB.replace("ESTABLISHED:ESTABLISHED", "CLOSED:SYN_SENT").replace("[3058113415 + 65535] wscale 6", "[0 + 1]")
        syn = syn.replace("[1224512417 + 65664]", "[1224512417 + 2]").replace("23:59:57", "00:01:57")
        self.there(self.opened(syn, syn), 1, 1)
        (state,) = self.pair().b.states.values()
        self.assertEqual((state.source.level, state.source.lo, state.source.scale, state.destination.level), (2, 1224512417, 7, 0))

    def test_a_node_that_is_ahead_in_one_end_and_behind_in_the_other(self) -> None:
        other = WEB.replace("3058113415", "3058113500").replace("1224512417", "1224512400")
        self.there(self.opened(WEB, other), 1, 1)
        pair = self.pair()
        self.assertEqual([printed_of(pair.a), printed_of(pair.b)], [printed_in(WEB), printed_in(other)])

    def test_seconds_that_are_further_apart_than_the_tolerance(self) -> None:
        """At a a packet came 9 s before the dump, and at b the last one 4002 s before it."""
        later, earlier = (WEB.replace("23:59:57", it) for it in ("23:59:51", "22:53:18"))
        for a, b in ((later, earlier), (earlier, later)):
            self.there(self.opened(a, b), 1, 1)
            pair = self.pair()
            left = [86400 - (node.clock - state.last) // 1000 for node in (pair.a, pair.b) for state in node.states.values()]
            self.assertEqual(sorted(left), [86400 - 4002, 86400 - 9])

    def test_no_sync(self) -> None:
        quiet = WEB.replace("rule 3", "rule 3, no-sync")
        self.there(self.opened(quiet, ""), 1, 0)
        (state,) = self.pair().a.states.values()
        self.assertEqual(state.flags, "n")
        self.assertNotIn("step main flush a", self.script)

    def test_each_node_translates_to_another_port(self) -> None:
        other = NAT.replace("61000", "61001").replace("8a1b2c3d", "0b0b0b0b")
        self.there(self.opened(NAT, other), 1, 1)
        pair = self.pair()
        ends = [state.wire.near for node in (pair.a, pair.b) for state in node.states.values()]
        self.assertEqual(ends, ["203.0.113.1:61000", "203.0.113.1:61001"])
        self.assertEqual(self.asked("diff")[0], "a and b differ in 2 states: 1 only on a, 1 only on b, 0 differ; 1 flow has two names")

    def test_one_name_with_two_sets_of_addresses(self) -> None:
        said = self.opened(NAT, NAT.replace("61000", "61001"))
        self.there(said, 1, 1)
        split = "1 state has one name and two sets of addresses; here each is two states, whose frames are lost"
        self.assertEqual(said.err[2:], [split])

    def test_a_creator_has_a_node(self) -> None:
        """Of the creator 0b0b0b0b a state stands at b alone, so another one, which both have, is made there."""
        shared = WEB.replace("8a1b2c3d", "0b0b0b0b")
        self.there(self.opened(shared, shared + QUERY.replace("8a1b2c3d", "0b0b0b0b")), 1, 2)
        pair = self.pair()
        self.assertEqual(([str(state) for state in pair.a.states], [str(it) for it in sorted(pair.b.states)]), (["2.2"], ["2.1", "2.2"]))

    def test_dumps_without_names_and_numbers(self) -> None:
        heads = "".join(f"{it.splitlines()[0]}\n" for it in (WEB, NAT))
        self.there(self.opened(heads, heads), 2, 2)
        self.assertEqual([it[:2] for it in printed_of(self.pair().b)], [it[:2] for it in printed_in(WEB + NAT)])

    def test_many_flows_under_two_names(self) -> None:
        dump = QUERY.replace("10.0.0.1:1000", "10.0.0.1:{}").replace("00:00:28", "00:00:{}").replace("a1b200000005", "a1b20000{:04x}")
        a = "".join(dump.format(1000 + it, 28, it) for it in range(90))
        b = "".join(dump.format(1000 + it, 25, it).replace("8a1b2c3d", "0b0b0b0b") for it in range(90))
        self.there(self.opened(a, b), 90, 90)
        pair = self.pair()
        self.assertEqual([node.counters["bad"] for node in (pair.a, pair.b)], [90, 90])

    def test_random_dumps(self) -> None:
        for seed in range(3):
            dumps = random_dumps(seed, 150)
            said = self.opened(dumps["a"], dumps["b"], "--all")
            pair = self.pair()
            for node in (pair.a, pair.b):
                self.assertEqual(printed_of(node), printed_in(dumps[node.id]), seed)
            self.there(said, len(pair.a.states), len(pair.b.states))


class Missed(OpeningCase):
    """What cannot be had is said, with its reason."""

    def test_what_is_left_out(self) -> None:
        named = WEB.replace("192.0.2.80:443", "www.example.org:443").replace("00000003 ", "0000000a ")
        cut = "".join(ECHO.splitlines(keepends=True)[:1])
        said = self.opened(WEB + named + SIX + cut, "")
        wanted = [
            there_of("a", 1, 4, 1),
            "a: 1 state left out: an end is a name, or not an address and a port",
            "a: 1 state left out: pf itself shakes hands with an end (synproxy)",
            "a: 1 state left out: the name is missing, as where a file breaks off",
            there_of("b", 0, 0, 0),
        ]
        self.assertEqual(said.err, wanted)

    def test_two_states_with_the_same_keys(self) -> None:
        """A node of the laboratory is one interface."""
        other = QUERY.replace("all udp", "em1 udp").replace("00000005 ", "00000009 ")
        said = self.opened(QUERY + other, "")
        self.assertEqual(said.err[0], there_of("a", 1, 2, 1))
        why = "a: 1 state is not there, since another state of the node has the same keys: 5f00a1b200000009/8a1b2c3d"
        self.assertEqual(said.err[1], why)
        self.pair()

    def test_seconds_that_no_timeout_leaves(self) -> None:
        """By the given rules a query has 30 seconds, and 45 of them were left."""
        rules = self.file("rules.pfl", "set timeout udp.first 30\nrule a pass any\nrule b pass any\n")
        said = self.opened(QUERY.replace("00:00:28", "00:00:45"), "", "--rules", rules)
        self.assertEqual(said.err[0], there_of("a", 1, 1, 0))
        why = "a: 1 state differs in seconds left, since udp.first times out after 30 s: 5f00a1b200000005/8a1b2c3d"
        self.assertEqual(said.err[1], why)

    def test_levels_that_packets_do_not_lead_to(self) -> None:
        said = self.opened(WEB.replace("ESTABLISHED:ESTABLISHED", "ESTABLISHED:TIME_WAIT"), "")
        self.assertEqual(said.err[0], there_of("a", 1, 1, 0))
        self.assertTrue(said.err[1].startswith("a: 1 state differs in levels, since packets do not lead there: "), said.err)

    def test_a_rule_at_one_node_alone(self) -> None:
        said = self.opened(WEB, WEB.replace(", rule 3", ""))
        self.there(said, 1, 1)
        rule = "1 state has a rule at one node alone in the dumps"
        self.assertEqual(said.err[2:], [f"{rule}; here each comes by an insertion, and keeps its rule at both nodes if their rules are the same"])

    def test_numbers_to_which_something_is_added(self) -> None:
        said = self.opened(WEB.replace("65535]", "65535](+77)"), "")
        numbers = "1 state has numbers to which pf adds something (`modulate state`)"
        self.assertEqual(said.err[2:], [f"{numbers}; here nothing is added"])

    def test_more_translations_than_rules(self) -> None:
        dump = NAT.replace("61000", "{}").replace("10.0.0.17:51512", "10.0.0.17:{}").replace("a1b200000004", "a1b20000{:04x}")
        said = self.opened("".join(dump.format(50001 + it, 1025 + it, it) for it in range(258)), "")
        self.assertEqual(said.err[0], there_of("a", 258, 258, 255))
        why = "a: 3 states differ in keys, since there is no room for one more rule among the 256 of a node: "
        self.assertTrue(said.err[1].startswith(why), said.err)
        self.pair()

    def test_more_states_than_a_node_has_room_for(self) -> None:
        head = QUERY.splitlines()[0]
        dump = "".join(f"{head.replace('10.0.0.1:', f'10.{it >> 16}.{it >> 8 & 255}.{it & 255}:')}\n" for it in range(65537))
        said = self.opened(dump, QUERY)
        full = "a has 65537 states, and a node of the laboratory has room for 65536"
        self.assertEqual((said.status, said.err[-1]), (2, f"lab: {full}: --flow ADDRESS[:PORT] takes those of one address"))
        self.assertFalse((self.room / SCRIPT).exists())
        said = self.opened(dump, QUERY, "--flow", "10.0.1.2")
        only = "of both dumps only the states that have 10.0.1.2 at an end; all numbers count only these"
        self.assertEqual(said.err[-3:], [only, there_of("a", 1, 1, 1), there_of("b", 0, 0, 0)])


class Options(OpeningCase):
    def test_flow(self) -> None:
        dump = WEB + NAT + QUERY + SIX.replace("PROXY:DST", "ESTABLISHED:ESTABLISHED")
        counts = {"192.0.2.80": 2, "192.0.2.80:443": 2, "10.0.0.17": 1, "[2001:db8::1]:8443": 1, "2001:db8::80": 1}
        for about, count in counts.items():
            with self.subTest(about):
                said = self.opened(dump, dump, "--flow", about)
                self.there(said, count, count)
                self.assertEqual(len(self.pair().a.states), count)
                self.assertEqual(said.out[1], "a: 4 states in a; b: 4 states in b")
        said = self.opened(dump, dump, "--flow", "192.0.2.80:80")
        none = "lab: there is no state to make: no state of the dumps has 192.0.2.80:80 at an end, or each is left out"
        self.assertEqual((said.status, said.err), (2, [none]))

    def test_rules(self) -> None:
        """By these rules the server's connections are passed, and the client's are translated to other ports; queries are blocked."""
        rules = ("block any", "pass in proto tcp tport 443", "pass out proto tcp nat 203.0.113.1:50001:65535")
        lines = ["set timeout tcp.established 90000", "# where it is from", *(f"rule {node} {rule}" for node in "ab" for rule in rules)]
        setup = self.file("rules.pfl", "".join(f"{it}\n" for it in (*lines, "open", "step main tick a 7")))
        said = self.opened(WEB + NAT + QUERY, WEB, "--rules", setup)
        wanted = [
            there_of("a", 2, 3, 1),
            "a: 1 state differs in keys, since these rules make other keys: 5f00a1b200000004/8a1b2c3d",
            "a: 1 state is not there, since the first packet is dropped (block): 5f00a1b200000005/8a1b2c3d",
            there_of("b", 1, 1, 1),
        ]
        self.assertEqual(said.err, wanted)
        pair = self.pair()
        self.assertEqual({it.wire.near for it in pair.a.states.values()}, {"192.0.2.80:443", "203.0.113.1:50001"})
        self.assertIn("# where it is from", self.script)
        (state,) = pair.b.states.values()
        # 23:59:57 of 25 hours are left.
        self.assertEqual((90000 - (pair.b.clock - state.last) // 1000, state.rule), (86397, 1))

    def test_rules_that_hold_packets(self) -> None:
        rules = self.file("rules.pfl", "set defer 1\nkernel all\nrule a pass any\nrule b pass any\n")
        self.there(self.opened(WEB + QUERY, WEB, "--rules", rules), 2, 1)
        self.assertEqual(self.pair().a.held, [])
        self.assertIn("kernel all", self.script)

    def test_faults(self) -> None:
        rules = self.file("rules.pfl", "rule a pass sideways\n")
        said = self.opened(WEB, WEB, "--rules", rules)
        self.assertEqual((said.status, said.err[-1]), (2, "lab: rules.pfl:1: bad 5 Number; --rules takes a setup, such as `import --unopened` writes"))
        for path in ("a", "b"):
            said = self.opened_with(self.file("a", WEB), self.file("b", WEB), "--out", str(self.room / path))
            self.assertEqual(said.status, 2)
            self.assertIn("is one of the files that are read", said.err[-1])
            self.assertEqual((self.room / path).read_text(), WEB)
        said = self.opened_with(str(self.room / "a"), str(self.room / "b"), "--out", str(self.room / "none" / SCRIPT))
        self.assertEqual((said.status, said.err[-1]), (2, f"lab: none/{SCRIPT}: No such file or directory"))
        self.assertEqual(self.opened("", "").status, 2)

    def test_faulty_words(self) -> None:
        out = f"--out {SCRIPT}"
        faulty = ("--flow 192.0.2.80", "--rules x.pfl", f"{out} --flow 192.0.2", f"{out} --flow 1.2.3.4:70000", f"--ou {SCRIPT}", "--out")
        for words in faulty:
            with self.subTest(words), self.assertRaises(SystemExit) as ended, redirect_stderr(io.StringIO()):
                main(["--program", program(), "compare", "a", "b", *words.split()])
            self.assertEqual(ended.exception.code, 2)

    def test_which_words_need_the_program(self) -> None:
        for words in ("compare a b --out x", "compare --out=x a b", "shell", "whatif x --out y"):
            self.assertTrue(needs_program(words.split()), words)
        for words in ("compare a b", "compare -- --out x", "compare a b --out x --help", "import x --on em0 -o y"):
            self.assertFalse(needs_program(words.split()), words)

    def test_a_comparison_without_a_script_runs_no_program(self) -> None:
        environment = {**os.environ, "PFL_LAB": "/nowhere/pfl_lab"}
        words = [sys.executable, f"{TOP}/lab", "compare", self.file("a", WEB), self.file("b", WEB)]
        for more, status in (((), 0), (("--out", str(self.room / SCRIPT)), 125)):
            self.assertEqual(subprocess.run([*words, *more], env=environment, capture_output=True, timeout=60).returncode, status)
