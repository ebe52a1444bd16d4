"""Scripts beside their replies: what verify reports, and what annotate writes and reports."""
from __future__ import annotations

import os
import stat
import tempfile
import unittest
from glob import glob
from typing import List

from ..scripts import annotating, texts, verifying
from . import TOP, program

RIGHT = """# A story.
rule a pass out
open

step main packet a out udp 10.0.0.1:1000 192.0.2.9:53 40
#> step pass 1.1 dropped 0
names
#> names main
"""


class Verify(unittest.TestCase):
    def told(self, text: str) -> str:
        return "\n".join(str(it) for it in verifying.verify(program(), text))

    def test_a_right_script_says_nothing(self) -> None:
        self.assertEqual(self.told(RIGHT), "")

    def test_a_wrong_reply_is_told_with_its_line(self) -> None:
        text = RIGHT.replace("pass 1.1", "pass 1.2")
        self.assertEqual(self.told(text), "6: reply\n  expected: step pass 1.2 dropped 0\n  got:      step pass 1.1 dropped 0")

    def test_a_reply_that_is_not_expected_is_told_at_its_command(self) -> None:
        text = RIGHT.replace("#> names main\n", "")
        self.assertEqual(self.told(text), "7: reply\n  expected: nothing\n  got:      names main")

    def test_a_reply_that_does_not_come_is_told(self) -> None:
        text = RIGHT.replace("#> names main\n", "#> names main\n#> names other\n")
        self.assertEqual(self.told(text), "9: reply\n  expected: names other\n  got:      nothing")

    def test_a_reply_above_the_first_command_belongs_to_no_line(self) -> None:
        self.assertEqual(
            self.told(RIGHT.replace("# A story.\n", "#> names\n")), "1: reply to no line\n  expected: names\n  got:      nothing"
        )

    def test_each_command_is_compared_by_itself(self) -> None:
        text = RIGHT.replace("1.1", "1.7").replace("names main", "names all")
        self.assertEqual([it.line for it in verifying.verify(program(), text)], [6, 8])

    def test_faults_and_the_status_are_compared(self) -> None:
        self.assertEqual(self.told("rule a pss\nopen\n#! pfl_lab: setup line 1: line 5\n#= 1\n"), "")
        said = self.told("rule a pss\nopen\n")
        self.assertIn("2: fault\n  expected: nothing\n  got:      pfl_lab: setup line 1: line 5", said)
        self.assertIn("2: status\n  expected: 0\n  got:      1", said)

    def test_line_ends_of_other_systems_count_as_the_program_counts_them(self) -> None:
        self.assertEqual(self.told(RIGHT.replace("\n", "\r\n")), "")

    def test_a_misspelt_mark_is_told(self) -> None:
        said = self.told(RIGHT + "#>names other\n #> names other\n")
        self.assertEqual([line.split(":")[0] for line in said.splitlines()[::3]], ["9", "10"])

    def test_a_script_that_is_not_there_hides_no_other(self) -> None:
        found = verifying.verified(program(), [f"{TOP}/examples/one-packet.pfl", "nowhere.pfl"])
        self.assertEqual(found.lines, ["nowhere.pfl: No such file or directory", "2 scripts: 1 could not be read"])

    def test_lines_of_check_are_compared(self) -> None:
        text = "open\nback main\n#> bad 4 Missing\n#? line 2 bad 4 Missing\n#? good 0\n#= 1\n"
        self.assertEqual(self.told(text), "")
        self.assertEqual(self.told(text.replace("good 0", "good 1")), "5: check\n  expected: good 1\n  got:      good 0")

    def test_the_examples_reply_as_they_say(self) -> None:
        paths = sorted(glob(f"{TOP}/examples/*.pfl"))
        found = verifying.verified(program(), paths)
        self.assertEqual(found.lines, [f"{len(paths)} scripts: all replies as they say"])


    def test_the_time_is_told_to_who_waits(self) -> None:
        found = verifying.Verified(["one", "1 script: 1 differs"], 1, 1.264)
        self.assertEqual(found.shown(True), ["one", "1 script: 1 differs, in 1.26 s"])
        self.assertEqual(found.shown(False), found.lines)
        self.assertGreater(verifying.verified(program(), [f"{TOP}/examples/one-packet.pfl"]).seconds, 0)


class Annotate(unittest.TestCase):
    def said(self, *paths: str) -> List[str]:
        """What a dry run says."""
        return [line for it in annotating.annotate(program(), paths, is_dry=True) for line in it.lines]

    def test_it_writes_what_comes_and_keeps_the_rest(self) -> None:
        bare = "".join(line for line in RIGHT.splitlines(keepends=True) if not line.startswith("#>"))
        self.assertEqual(annotating.annotated(program(), bare).text, RIGHT)
        self.assertEqual(annotating.annotated(program(), RIGHT.replace("1.1", "1.2")).text, RIGHT)

    def test_it_writes_faults_and_the_status(self) -> None:
        text = "open\nback main\n"
        self.assertEqual(annotating.annotated(program(), text).text, "open\nback main\n#> bad 4 Missing\n#= 1\n")
        self.assertEqual(annotating.annotated(program(), "rule a\n").text, "rule a\n#! pfl_lab: setup line 1: line 4\n#= 1\n")

    def test_a_run_that_fails_costs_no_replies(self) -> None:
        with self.assertRaisesRegex(annotating.NotWritten, "^line 2: `rul` is no line of a setup .*: the replies that the script has are kept$"):
            annotating.annotated(program(), RIGHT.replace("rule a", "rul a"))
        with self.assertRaises(annotating.NotWritten):
            annotating.annotated("/bin/true", RIGHT)

    def test_a_dry_run_shows_what_would_change_and_writes_nothing(self) -> None:
        with tempfile.TemporaryDirectory() as folder:
            path, right = f"{folder}/case.pfl", f"{folder}/right.pfl"
            text = "open\nnames\n#> names other"
            texts.write(path, text)
            texts.write(right, RIGHT)
            lines = ["@@ -1,3 +1,3 @@", " open", " names", "-#> names other", "\\ No newline at end of file", "+#> names main"]
            said = self.said(path, right)
            self.assertEqual(said, [f"--- {path}", f"+++ {path}", *lines, f"{path}: replies would be written", f"{right}: as it was"])
            self.assertEqual((texts.read(path), sorted(os.listdir(folder))), (text, ["case.pfl", "right.pfl"]))
            texts.write(path, "open\nnames")
            said = self.said(path)
            self.assertEqual(said[-4:-1], ["\\ No newline at end of file", "+names", "+#> names main"])
            texts.write(path, "rule a\nopen\nnames\n")
            with self.assertRaisesRegex(annotating.NotWritten, "case.pfl: line 1: expected `pass` or `block`, found nothing: nothing is written"):
                self.said(path)

    def test_the_file_keeps_its_mode_and_nothing_else_is_left(self) -> None:
        with tempfile.TemporaryDirectory() as folder:
            path = f"{folder}/case.pfl"
            with open(path, "w", encoding="utf-8") as it:
                it.write("open\nnames\n")
            os.chmod(path, 0o640)
            said = [line for _ in range(2) for it in annotating.annotate(program(), [path]) for line in it.lines]
            self.assertEqual(said, [f"{path}: replies written", f"{path}: as it was"])
            self.assertEqual(texts.read(path), "open\nnames\n#> names main\n")
            self.assertEqual((stat.S_IMODE(os.stat(path).st_mode), os.listdir(folder)), (0o640, ["case.pfl"]))


class Slips(unittest.TestCase):
    """Lines that are faulty or refused, and were not before."""

    def slips(self, text: str) -> List[str]:
        return [str(slip) for slip in annotating.annotated(program(), text).slips()]

    def test_a_right_script_has_none(self) -> None:
        self.assertEqual(self.slips(RIGHT), [])

    def test_a_faulty_line_and_a_refused_one_are_reported_with_the_reason(self) -> None:
        text = "# A story.\nopen\n\nstep main flsh a\nnames\nstep main flush a\nback main 3\nstep main deliver 2\n"
        self.assertEqual(
            self.slips(text),
            [
                "line 4: `flsh` is no event (did you mean `flush`?)",
                "line 6: node a has nothing to send: no state is queued, and no request, bulk status or clear is listed",
                "line 7: 3 events cannot be undone: main has 0 events before the cursor",
                "line 8: no frame in flight has the ticket 2; in flight: none",
            ],
        )

    def test_a_line_that_was_so_before_is_not_reported(self) -> None:
        text = "open\nstep main flush a\n#> refused 8 Event 2 NothingPending\nstp\n#> bad 3 Unknown\n#= 1\n"
        self.assertEqual(self.slips(text), [])
        # (what was refused is faulty now, and another line is refused)
        slips = self.slips(text.replace("main flush", "main flsh").replace("#= 1\n", "back main 1\n#> at 0\n#= 1\n"))
        self.assertEqual([slip.split(":")[0] for slip in slips], ["line 2", "line 6"])
        self.assertEqual(self.slips(annotating.annotated(program(), "open\nstp\n").text), [])

    def test_a_fault_of_the_setup_is_reported_once(self) -> None:
        text = "rule a pass any\nrule b pss any\nopen\n"
        self.assertEqual(self.slips(text), ["line 2: expected `pass` or `block`, found `pss` (did you mean `pass`?)"])
        self.assertEqual(self.slips(annotating.annotated(program(), text).text), [])

    def test_lines_that_end_with_a_carriage_return(self) -> None:
        self.assertEqual(self.slips("open\r\nback main 1\r\n"), ["line 2: 1 event cannot be undone: main has 0 events before the cursor"])

    def test_what_is_said_below_them(self) -> None:
        self.assertEqual(annotating.about_slips(1), "1 line is faulty or refused, and had no such reply before")
        self.assertEqual(annotating.about_slips(2), "2 lines are faulty or refused, and had no such reply before")


if __name__ == "__main__":
    unittest.main()
