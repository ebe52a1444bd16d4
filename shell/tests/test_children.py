"""What the tests ask of their children, where those who run the tests have signals ignored, as nohup does."""
from __future__ import annotations

import signal
import subprocess
import unittest

from .children import bounded, take_interrupts, take_signals

SLEEP = ("sleep", "300")


class Children(unittest.TestCase):
    def ignore(self, sign: signal.Signals) -> None:
        self.addCleanup(signal.signal, sign, signal.signal(sign, signal.SIG_IGN))

    def test_signals_end_a_child_that_would_ignore_them(self) -> None:
        for sign in (signal.SIGHUP, signal.SIGINT, signal.SIGTERM):
            self.ignore(sign)
            with subprocess.Popen(SLEEP, preexec_fn=take_signals) as child:
                child.send_signal(sign)
                self.assertEqual(child.wait(20), -sign)

    def test_an_interrupt_is_raised_where_it_was_ignored(self) -> None:
        self.ignore(signal.SIGINT)
        take_interrupts(self)
        with self.assertRaises(KeyboardInterrupt):
            signal.raise_signal(signal.SIGINT)

    def test_output_that_does_not_come_ends(self) -> None:
        with subprocess.Popen(SLEEP, stdout=subprocess.PIPE) as child:
            assert child.stdout
            with bounded(child, 0.1):
                self.assertEqual(child.stdout.readline(), b"")


if __name__ == "__main__":
    unittest.main()
