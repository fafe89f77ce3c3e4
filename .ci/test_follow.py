#!/usr/bin/env python3
"""What .ci/follow.py shows of lines as rt prints them, and what it keeps."""
import pathlib
import re
import subprocess
import sys
import tempfile
import unittest

FOLLOW = pathlib.Path(__file__).resolve().parent / "follow.py"


def follow(text):
    """What is shown, with the totals left out, and what is in the log behind a line that was there."""
    with tempfile.TemporaryDirectory() as folder:
        log = pathlib.Path(folder) / "log"
        log.write_text("before\n")
        ended = subprocess.run([sys.executable, FOLLOW, log], input=text, capture_output=True, text=True, check=True)
        shown = ended.stdout.replace(str(log), "LOG")
        return re.sub(r"( \d+) of \d+:", r"\1:", shown).splitlines(), log.read_text()


class Follow(unittest.TestCase):
    def test_all_well(self):
        text = (
            "== batch\na note\nlogic=proved functions=3\nrt: batch proved\n"
            "rt: wire is kept: an earlier run on this machine proved the same files over the same libraries\n"
            "rt: batch: trying its must-fail edits (2)\n"
            "rt: must-fail batch/one.edit: refused, as it must be: ./proofs/A.antt:1:2: error: `a`: expected 1, but this is 2\n"
            "rt: must-fail batch/two.edit: refused, as it must be: note: proofs/A.antt:1:2: it is not proved that it fits\n"
            "rt: must-fail wire/three.edit: refused, as it must be: proofs/A.antt:1:2: error: `a`\n"
            "rt: must-fail wire/four.edit: refused, as it must be\n"
            "rt: run_tape ran as nobody, and wrote what its file 'stdout' has (0 s)\n"
            "rt: ok; handles allowed: none; must-fail edits: 4 refused; every proof was done in this run\n7 passed, 0 failed\n"
        )
        shown, log = follow(text)
        self.assertEqual(log, "before\n" + text)
        self.assertEqual(
            shown,
            [
                "crate 1: batch proved",
                "crate 2: wire is kept: an earlier run on this machine proved the same files over the same libraries",
                "batch: trying its must-fail edits (2)",
                "edit 1: batch/one refused",
                "edit 2: batch/two refused",
                "edit 3: wire/three refused",
                "edit 4: wire/four refused",
                "run_tape ran as nobody, and wrote what its file 'stdout' has (0 s)",
                "ok; handles allowed: none; must-fail edits: 4 refused; every proof was done in this run",
                "first refused at one place, batch/proofs/A.antt:1:2: one, two",
            ],
        )

    def test_what_failed(self):
        text = (
            "a note on batch\nrt: batch NOT PROVED\nrt: wire NOT PROVED: its library batch failed\n"
            "rt: must-fail hops/one.edit: NOT REFUSED: the crate is still proved with this edit\n"
            "rt: must-fail hops/two.edit: BAD EDIT: it did not reach the prover (exit 2); the first lines of what the compiler said:\n"
            "what it said\n"
            "rt: must-fail hops/three.edit: BAD EDIT: it has no 'old:' and 'new:' pair\n"
            "a differs from b\nrt: run_tape: what the program wrote is not what its file 'stdout' has\n"
            "rt: run_tape proved, and its run FAILED (0 s)\nrt: FAILED: batch wire\n0 passed, 6 failed\n"
        )
        shown, log = follow(text)
        self.assertEqual(log, "before\n" + text)
        bad_edit = "BAD EDIT: it did not reach the prover (exit 2); the first lines of what the compiler said:"
        self.assertEqual(
            shown,
            [
                "crate 1: batch NOT PROVED",
                "crate 2: wire NOT PROVED: its library batch failed",
                "edit 1: hops/one NOT REFUSED: the crate is still proved with this edit",
                f"edit 2: hops/two {bad_edit}",
                "edit 3: hops/three BAD EDIT: it has no 'old:' and 'new:' pair",
                "run_tape: what the program wrote is not what its file 'stdout' has",
                "run_tape proved, and its run FAILED (0 s)",
                "FAILED: batch wire",
                "-- batch NOT PROVED (line 3 of LOG)",
                "a note on batch",
                f"-- must-fail hops/two.edit: {bad_edit} (line 6 of LOG)",
                "what it said",
                "-- run_tape: what the program wrote is not what its file 'stdout' has (line 10 of LOG)",
                "a differs from b",
            ],
        )

    def test_the_end_of_long_notes(self):
        shown, _ = follow("".join(f"note {number}\n" for number in range(100)) + "rt: batch NOT PROVED\n")
        self.assertEqual(shown[2:], [f"note {number}" for number in range(60, 100)])

    def test_each_line_as_it_comes(self):
        with tempfile.TemporaryDirectory() as folder:
            words = [sys.executable, FOLLOW, pathlib.Path(folder) / "log"]
            with subprocess.Popen(words, stdin=subprocess.PIPE, stdout=subprocess.PIPE, text=True) as follower:
                follower.stdin.write("rt: batch proved\n")
                follower.stdin.flush()
                # It would wait here for ever if the line were held back.
                self.assertIn("batch proved", follower.stdout.readline())
                follower.stdin.close()


if __name__ == "__main__":
    unittest.main()
