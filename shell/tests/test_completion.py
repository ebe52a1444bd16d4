"""What the completing key offers."""
from __future__ import annotations

import io
import os
import tempfile
import unittest

from ..console.colours import PLAIN
from ..dialogue.completion import candidates
from ..dialogue.loop import Loop
from ..model.branches import Mark
from . import laboratory

SCRIPT = """
rule a pass out
open
step main packet a out udp 10.0.0.1:1000 192.0.2.9:53 40
step main flush a
fork main 2 other
"""


class Offered(unittest.TestCase):
    def setUp(self) -> None:
        self.lab = laboratory(SCRIPT)
        self.addCleanup(self.lab.close)

    def offers(self, line: str, *wanted: str) -> None:
        before, _, begun = line.rpartition(" ")
        self.assertEqual(candidates(self.lab, before.split(), begun), list(wanted), line)

    def test_words_branches_events_nodes_and_tickets(self) -> None:
        self.offers("exc", "excise")
        self.offers("past ", "main", "other")
        self.offers("back ", "main", "other", "to")
        self.offers("back main ", "to")
        for line in ("back 1 ", "forward 1 ", "fork 1 ", "past 1 ", "excise 1 "):
            self.offers(line)
        self.offers("step o", "other")
        self.offers("step main rel", "release")
        self.offers("packet a ", "in", "out")
        self.offers("step main deliver ", "1", "all")
        self.offers("lose ", "1")
        self.offers("kill a ", "1.1")
        self.offers("step other kill b ")
        self.offers("rule a pass out timeout udp.f", "udp.first")
        self.offers("diff main ", "main", "other")
        self.offers("set a", "astart", "aend")
        self.offers("set t", "timeout")
        self.offers("set timeout tcp.c", "tcp.closing", "tcp.closed")
        self.offers("set timeout tcp.closed ")
        self.offers("ker", "kernel")
        self.offers("kernel ", "window", "loose", "merge", "rule", "expiry", "reset", "scale", "clear", "revive", "icmp", "all")
        self.offers("kernel loose m", "merge")
        self.offers("kernel loose all ", "window", "merge", "rule", "expiry", "reset", "scale", "clear", "revive", "icmp")
        self.offers("rule a pass in rd", "rdr")
        self.offers("rule a pass in rdr ")
        self.offers("why main rel", "release")
        self.offers("why lo", "lose")
        self.offers("why other kill b ")
        self.offers("why lose ", "1")
        self.offers("frame ", "main", "other")
        self.offers("frame main ", "1")
        self.offers("chart ot", "other")
        self.offers("chart main flo", "flow")
        self.offers("chart fr", "from")
        self.offers("chart main from 1 fr")
        self.offers("chart to ")
        self.offers("chart flow ", "1.1")
        self.offers("notes o", "on", "off")
        self.offers("notes on ")

    def test_ends_of_packets_the_newest_first(self) -> None:
        client, server = "10.0.0.1:1000", "192.0.2.9:53"
        self.offers("packet a out udp ", client, server)
        self.offers("packet a out udp 1", client, server)
        self.offers(f"step main packet b in udp {server} ", client)
        self.offers("why packet a in tcp 192", server)
        self.offers("search drops packet b in udp 19", server)
        self.offers(f"packet a out udp {client} {server} ")
        self.lab.ask("step main packet b in tcp 192.0.2.9:53 10.0.0.7:022 S 1 0 9 0")
        self.offers("packet a out udp ", server, "10.0.0.7:22", client)
        # A packet that was not taken has none.
        self.lab.ask("step none packet b in udp 1.2.3.4:5 1.2.3.4:6 7")
        self.lab.ask("step main packet b in udp 1.2.3.4:5")
        self.offers("packet a out udp 1.")

    def test_ends_of_states_that_are_translated(self) -> None:
        lab = self.lab = laboratory("rule a pass out nat 203.0.113.1:5000\nopen\nstep main packet a out udp 10.0.0.1:1000 192.0.2.9:53 40")
        self.addCleanup(lab.close)
        self.offers("packet a in udp 192.0.2.9:53 ", "10.0.0.1:1000", "203.0.113.1:5000")

    def test_some_dozens_of_ends(self) -> None:
        for number in range(40):
            self.lab.ask(f"step other packet a out udp 10.0.0.1:{number} 192.0.2.9:{number} 40")
        found = candidates(self.lab, "packet a out udp".split(), "")
        self.assertEqual((len(found), found[:2], found[-1]), (48, ["10.0.0.1:39", "192.0.2.9:39"], "192.0.2.9:16"))

    def test_places_nodes_and_states(self) -> None:
        self.offers("back ", "main", "other", "to")
        self.offers("back main ", "to")
        self.lab.marks["sent"] = Mark("main", ())
        self.offers("back to ", "sent")
        self.offers("back main to s", "sent")
        self.offers("fork ", "main", "other", "here")
        self.offers("fork here ")
        self.offers("fork main 1 ")
        self.offers("view ", "main", "other", "a", "b", "1.1")
        self.offers("view main 1", "1.1")
        self.offers("view main a ")
        self.offers("mark ")


class Paths(unittest.TestCase):
    """In a folder that has a folder `out`, as `./lab build` makes one, and a script."""

    def setUp(self) -> None:
        lab = laboratory(SCRIPT)
        self.addCleanup(lab.close)
        self.loop = Loop(lab, io.StringIO(), PLAIN, False)
        folder = tempfile.TemporaryDirectory()
        self.addCleanup(folder.cleanup)
        self.addCleanup(os.chdir, os.getcwd())
        os.chdir(folder.name)
        os.mkdir("out")
        for path in ("one.pfl", "out/two.pfl"):
            with open(path, "w", encoding="utf-8"):
                pass

    def completed(self, line: str, *wanted: str) -> None:
        before, space, begun = line.rpartition(" ")
        found = self.loop.completedefault(begun, line, len(before) + len(space), len(line))
        self.assertEqual(sorted(found), list(wanted), line)

    def test_a_word_ends_with_a_space_though_a_folder_has_its_name(self) -> None:
        self.completed("packet a o", "out ")
        self.completed("rule a pass o", "out ")
        self.completed("step ot", "other ")
        self.loop.lab.ask("fork main 0 out")
        self.completed("step o", "other ", "out ")
        self.completed("chart o", "one.pfl ", "other ", "out ", "out/")

    def test_paths_come_after_words_that_take_one(self) -> None:
        self.completed("read o", "one.pfl ", "out/")
        self.completed("save out/", "out/two.pfl ")
        self.completed("read one.pfl o")
        self.completed("verify one.pfl o", "one.pfl ", "out/")
        self.completed("annotate one.pfl out/two.pfl ", "one.pfl ", "out/")
        self.completed("whatif --out out/", "out/two.pfl ")
        self.completed("tick o")


if __name__ == "__main__":
    unittest.main()
