"""A seminar at terminals: two at the server, and those who come late, leave and return by its page."""
from __future__ import annotations

import contextlib
import os
import signal
import subprocess
import sys
import unittest
from typing import List

from ..pages.server import free_port
from . import TOP, program
from .followers import QUERY, STEP
from .servers import proved_server
from .terminals import Terminal

MORE = {"PFL_LAB": program(), "PFL_LAB_HISTORY": "", "NO_COLOR": "1", "PYTHONDONTWRITEBYTECODE": "1"}
# Whoever runs the tests may have these signals ignored, as a shell does for what it starts in the background.
PAGE = """
import signal, sys
for it in (signal.SIGINT, signal.SIGHUP):
    signal.signal(it, signal.default_int_handler)
sys.path.insert(0, sys.argv[1])
from shell.main import main
sys.exit(main(sys.argv[2:]))
"""


class Seminar(unittest.TestCase):
    def setUp(self) -> None:
        self.ends = contextlib.ExitStack()
        self.addCleanup(self.ends.close)
        self.server = self.ends.enter_context(proved_server(3))

    def page(self) -> List[str]:
        """Begins the page, which is served as soon as all sessions are connected; returns what it prints."""
        port = str(free_port())
        words = ["--program", program(), "page", "--serve", port, "--port", str(self.server.port)]
        self.served = subprocess.Popen([sys.executable, "-c", PAGE, TOP, *words], stdout=subprocess.PIPE, stderr=subprocess.PIPE, text=True)
        self.ends.callback(self.served.communicate)
        self.ends.callback(self.served.kill)
        assert self.served.stdout
        lines = [self.served.stdout.readline() for _ in range(4)]
        self.assertEqual(lines[2], f"from another machine: `ssh -L {port}:127.0.0.1:{port} HOST` there, and then the same addresses\n")
        self.assertEqual(lines[3], "connected; the server answers once all its sessions are\n")
        return [line.split()[0] for line in lines[:2]]

    def shell(self, *words: str) -> Terminal:
        terminal = Terminal([sys.executable, f"{TOP}/lab", "shell", *words], MORE, columns=132, rows=40)
        self.ends.callback(terminal.close)
        return terminal

    def note(self, terminal: Terminal, text: str) -> None:
        """Waits for a note above the prompt."""
        terminal.wait(lambda rows: rows[-2:-1] == [text])

    def test_who_comes_late_leaves_and_returns(self) -> None:
        step, watch = self.page()
        direct = ("--port", str(self.server.port), "--page", step, "--name")
        ann, bob = self.shell(*direct, "Ann"), self.shell(*direct, "Bob")
        for it in (ann, bob):
            it.wait_for("main 0/0>")
        ann.type(f"{QUERY}\r")
        self.note(bob, f"[Ann] {STEP} -> pass 1.1")
        late, watching = self.shell("--page", "-", "--name", "Dora"), self.shell("--page", watch)
        late.wait(lambda rows: rows[-1] == "address of the page:")
        late.type(f"{step}\r")
        late.wait_for("main 1/1>")
        self.assertEqual(late.screen.text[-2], "lab: connected to the page: 1 command so far")
        watching.wait_for("main 1/1>")
        late.type("fl")
        late.wait_for("main 1/1> fl")
        bob.type("tick b 5\r")
        # (what is typed stays)
        late.wait(lambda rows: rows[-2:] == ["[Bob] step main tick b 5 -> clock 5", "main 1/1> fl"])
        late.type("ush a\r")
        late.wait_for("main 3/3>")
        for it in (ann, bob, watching):
            self.note(it, "[Dora] step main flush a -> sent 1 148")
        watching.type("lose 1\r")
        watching.wait(lambda rows: rows[-2:] == ["the page answers: this address is for watching, not for stepping", "main 3/3>"])
        late.type("\x04")
        self.assertEqual(late.process.wait(10), 0)
        ann.type("\x04")
        self.assertEqual(ann.process.wait(10), 0)
        self._return(bob, step)

    def _return(self, bob: Terminal, step: str) -> None:
        """Ann's seat at the server is gone, and she returns by the page; then the page ends."""
        words = [sys.executable, f"{TOP}/lab", "shell", "--port", str(self.server.port)]
        refused = subprocess.run(words, env={**os.environ, **MORE}, input="", capture_output=True, text=True, timeout=30)
        self.assertEqual(refused.returncode, 1)
        self.assertRegex(refused.stderr, "^lab: nobody listens at [0-9]+, or all seats of its server are taken: a page of the seminar")
        ann = self.shell("--page", step, "--name", "Ann")
        ann.wait_for("main 3/3>")
        ann.type("why 1\r")
        ann.wait(lambda rows: any("rule 0 of a (pass any)" in row for row in rows) and rows[-1] == "main 3/3>")
        ann.type("back main 1\r")
        ann.wait_for("main 2/3>")
        self.note(bob, "[Ann] back main 1 -> at 2")
        self.served.send_signal(signal.SIGINT)
        self.note(ann, "the page is no longer served: its bridge was stopped")
        self.assertEqual(self.served.wait(10), 130)
        # (the server and its sessions go on)
        bob.type("forward main 1\r")
        bob.wait_for("main 3/3>")


if __name__ == "__main__":
    unittest.main()
