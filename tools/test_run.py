#!/usr/bin/env python3
"""Tests of tools/run: every tape of tools/tapes against its stored listing, tapes from a pipe and as text, what is said of a tape that was not
read to its end, of a file that is none, and of a program or a checkout that fails; and of every tool, its help and its wrong uses.

They want the tape program built (tools/run builds it); the gate runs them after it has proved everything."""

import os
import signal
import subprocess
import tempfile
import unittest
from pathlib import Path

from tool_tests import CopyTest, ToolTest, call

HERE = Path(__file__).resolve().parent
TAPES = sorted(HERE.glob("tapes/*.tape"))
LISTING = HERE / "tapes" / "listing.tape"
LISTED = LISTING.with_suffix(".out").read_bytes()


def run(path):
    done = subprocess.run([HERE / "run", path], capture_output=True, text=True)
    return done.returncode, done.stdout, done.stderr


def run_with(*arguments, **options):
    """A call of tools/run, and what it prints as bytes."""
    return call(HERE / "run", *arguments, **options)


class StoredListings(unittest.TestCase):
    def test_there_are_tapes(self):
        self.assertGreaterEqual(len(TAPES), 6)

    def test_every_tape_and_its_text(self):
        for tape in TAPES:
            expected = tape.with_suffix(".out").read_text(encoding="ascii")
            for form in (tape, tape.with_suffix(".txt")):
                with self.subTest(form.name):
                    self.assertEqual(run(form), (0, expected, ""))

    def test_every_stored_listing_has_a_tape(self):
        self.assertEqual(sorted(HERE.glob("tapes/*.out")), [tape.with_suffix(".out") for tape in TAPES])


class Forms(ToolTest):
    """A tape comes from a file or a pipe, as text or not."""

    def test_standard_input(self):
        for form in (LISTING, LISTING.with_suffix(".txt")):
            self.assertEqual(run_with("-", input=form.read_bytes()), (0, LISTED, ""))

    def test_text_from_standard_input_is_known_by_its_content(self):
        text = b"\xef\xbb\xbf" + LISTING.with_suffix(".txt").read_bytes().replace(b"\n", b"\r\n")
        self.assertEqual(run_with("-", input=text), (0, LISTED, ""))

    def test_text_in_a_file_is_known_by_its_name(self):
        with tempfile.TemporaryDirectory() as folder:
            text = Path(folder, "plan")
            text.write_bytes(b"#\nstart")  # as bytes: move 10, then the unknown command 73
            self.assertEqual(run_with("--whole", text)[:2], (3, b"1 23 8\n2 73 22\nend 0 2\n"))
            self.assertEqual(run_with("--text", text), (0, b"1 12 6\nend 0 1\n", ""))
            tape = Path(folder, "plan.txt")
            tape.write_bytes(LISTING.read_bytes())
            self.assertEqual(run_with("--binary", tape), (0, LISTED, ""))

    def test_a_form_that_is_given_rules(self):
        self.assertEqual(run_with("-", input=b"#\nstart"), (0, b"1 12 6\nend 0 1\n", ""))
        self.assertEqual(run_with("--whole", "--binary", "-", input=b"#\nstart")[:2], (3, b"1 23 8\n2 73 22\nend 0 2\n"))
        self.assertEqual(run_with("--text", "-", input=b"#\x01\nstart"), (0, b"1 12 6\nend 0 1\n", ""))
        self.assertEqual(run_with("-", input=b""), (0, b"end 0 0\n", ""))

    def test_with_meaning(self):
        status, out, err = run_with("--with-meaning", LISTING)
        self.assertEqual((status, err), (0, ""))
        self.assertIn(b"\nreceive 0                   # channel 0 asks for a record: refused 10, the channel is not resting\n", out)
        self.assertEqual(run_with("-", input=out), (0, LISTED, ""))
        self.told(run_with("--whole", "--with-meaning", "-", input=b"\x12\x7f"), 3, "refused 22",
                  b"start                       # the plan is closed, the ring runs: refused 6, there is no node or no channel\n"
                  b"bytes 7f                    # begins no whole command: refused 22, the command byte is unknown\n"
                  b"# 0 accepted, 2 refused\n")

    def test_from_another_folder(self):
        self.assertEqual(run_with(LISTING.name, cwd=LISTING.parent), (0, LISTED, ""))


class NotReadToItsEnd(ToolTest):
    def test_only_where_it_is_asked(self):
        self.assertEqual(run_with("-", input=b"\x12\x7f\x12"), (0, b"1 12 6\n2 7f 22\nend 0 2\n", ""))
        self.assertEqual(run_with("-", input=60_001 * b"\x12"), (0, b"too long\n", ""))

    def test_too_long(self):
        longest = 60_000 * b"\x12"
        self.assertEqual(run_with("-", input=longest)[0], 0)
        self.told(run_with("--whole", "-", input=longest + b"\x12"), 3, "too long: a tape has at most 60000 bytes", b"too long\n")

    def test_input_without_end(self):
        with open("/dev/zero", "rb") as zeros:
            self.told(run_with("--whole", "-", stdin=zeros), 3, "too long: a tape has at most 60000 bytes", b"too long\n")
        self.told(run_with("-", input=(1 << 24) * b"\n"), 2, "a text of 16777216 bytes or more is too long")

    def test_unknown_and_cut(self):
        self.told(run_with("--whole", "-", input=b"\x12\x7f\x12"), 3, "-: command 2, 7f: refused 22, the command byte is unknown; "
                  "2 of 3 bytes, from byte 1 on, were not read", b"1 12 6\n2 7f 22\nend 0 2\n")
        self.told(run_with("--whole", "-", input=b"\x12\x23"), 3, "-: command 2, 23: refused 23, the command is cut off; "
                  "1 of 2 bytes, from byte 1 on, were not read", b"1 12 6\n2 23 23\nend 0 2\n")

    def test_text_that_is_not_known_as_text(self):
        text = b"start # \x01\n"
        self.told(run_with("--whole", "-", input=text), 3, "were not read (is it text? --text says so)", b"1 73 22\nend 0 1\n")
        self.assertEqual(run_with("--text", "-", input=text), (0, b"1 12 6\nend 0 1\n", ""))

    def test_tape_that_is_said_to_be_text(self):
        self.told(run_with("--text", LISTING), 2, "(this has control bytes: is it a tape, and not text?)")


class NoTape(ToolTest):
    def refused(self, path, says):
        status, out, err = run(path)
        self.assertNotEqual(status, 0)
        self.assertEqual(out, "")
        self.assertEqual(len(err.splitlines()), 1, err)
        self.assertIn(says, err)

    def test_missing_file(self):
        self.refused(HERE / "no such tape", "there is no such file")

    def test_folder(self):
        self.refused(HERE, "is a folder")

    def test_text_with_an_error(self):
        with tempfile.NamedTemporaryFile("w", suffix=".txt") as text:
            text.write("add node 1\nadd nod 2\n")
            text.flush()
            self.refused(text.name, "line 2: expected")
            self.assertEqual(run(text.name)[0], 2)

    def test_no_argument(self):
        done = subprocess.run([HERE / "run"], capture_output=True, text=True)
        self.assertEqual((done.returncode, done.stdout), (2, ""))
        self.assertIn("usage", done.stderr)

    def test_folder_as_standard_input(self):
        folder = os.open(HERE, os.O_RDONLY)
        self.addCleanup(os.close, folder)
        self.told(run_with("-", stdin=folder), 1, "standard input: is a folder")

    def test_closed_streams(self):
        for closed, says in (("<&-", "-: Bad file descriptor"), (">&-", "standard output: Bad file descriptor")):
            self.told(call("bash", "-c", f"{HERE / 'run'} - {closed}", stdin=subprocess.DEVNULL), 1, says)

    def test_output_that_is_full(self):
        self.told(call("bash", "-c", f"{HERE / 'run'} {LISTING} > /dev/full"), 1, "standard output: No space left on device")

    def test_output_that_nobody_reads(self):
        """As any program in a pipe, it is ended by the signal, without a word."""
        reader, writer = os.pipe()
        os.close(reader)
        self.addCleanup(os.close, writer)
        done = subprocess.run([HERE / "run", LISTING], stdout=writer, stderr=subprocess.PIPE, check=False)
        self.assertEqual((done.returncode, done.stderr), (-signal.SIGPIPE, b""))


class OtherCheckout(CopyTest):
    """What is said where rt, the tape program or the checkout fails."""

    FILES, BUILT = ("tools/run", "tools/run_tape.py", "tools/tape.py", "tools/common.sh"), "crates/run_tape/out"

    def setUp(self):
        super().setUp()
        self.rt("exit 0")
        self.program = self.checkout / self.BUILT / "run_tape"
        self.script(self.program, "echo end 0 0")

    def run_empty(self, **options):
        return self.call("tools/run", "-", input=b"", **options)

    def test_it_runs(self):
        self.assertEqual(self.run_empty(), (0, b"end 0 0\n", ""))

    def test_it_is_built_first(self):
        self.program.unlink()
        proved = "echo 'crate calls: modules loaded=1 checked=0'; echo 'logic=proved functions=2'"
        self.rt(f"{proved}; printf '#!/bin/sh\\necho end 0 0\\n' > out/run_tape; chmod +x out/run_tape")
        self.assertEqual(self.run_empty(), (0, b"end 0 0\n", "tools/run: proving and building the tape program first; that takes minutes\n"
                                                             "calls proved\n"))

    def test_program_that_fails(self):
        for body, says in (("echo end 0 0; echo standard input: bad >&2", "the tape program: standard input: bad"),
                           ("echo 1 12 0", "the tape program: its listing has no end"),
                           ("true", "the tape program: its listing has no end"),
                           ("echo end 0 0; exit 1", "the tape program: its status is 1")):
            self.script(self.program, body)
            self.told(self.run_empty(), 1, says)

    def test_program_that_is_not_there(self):
        self.program.unlink()
        status, out, err = self.run_empty()
        self.assertEqual((status, out, len(err.splitlines())), (1, b"", 2), err)
        self.assertIn("the tape program: No such file", err)

    def test_build_that_fails(self):
        self.rt("echo 'crate calls: modules loaded=1 checked=0'; echo logic=proved functions=2; echo no proof; exit 1")
        status, out, err = self.run_empty()
        self.assertEqual((status, out), (1, b""))
        self.assertEqual(err.splitlines()[0], "calls proved")
        self.assertIn("no proof\n", err)
        self.assertEqual(err.splitlines()[-1], "the tape program was not built")

    def test_no_toolchain(self):
        path = self.only("bash", "python3", "dirname", "realpath", "env")
        self.told(self.run_empty(path=path), 1, "rt is not on the PATH")
        os.remove(Path(path, "python3"))
        self.told(self.run_empty(path=path), 1, "python3 is not on the PATH")

    def test_checkout_that_may_not_be_written(self):
        options = self.unwritable("bash", "python3")
        self.told(self.run_empty(**options), 1, "out: may not be written, and the tape program is built there")


class Usage(ToolTest):
    """Every tool has help, and says of a wrong use what is wrong, in one line."""

    ALL = ("tools/run", "tools/tape.py", "tools/library", "tools/stack.py", "examples/run", "bench/run", ".ci/run")

    def test_help(self):
        for tool in self.ALL:
            for option in ("--help", "-h"):
                status, out, err = call(HERE.parent / tool, option)
                self.assertEqual((status, err), (0, ""), tool)
                self.assertIn(b"xit status", out, tool)
        self.assertIn(b"at most 60,000 bytes", run_with("--help")[1])

    def test_wrong_uses(self):
        for tool, *arguments, says in (
                ("tools/run", "TAPE"), ("tools/run", "a", "b", "b"), ("tools/run", "--wrong", "a", "--wrong"),
                ("tools/run", "--text", "--binary", "a", "--binary"), ("tools/library", "a", "takes no argument"),
                ("examples/run", "a", "takes no argument"), ("bench/run", "1", "2", "one number"),
                ("bench/run", "many", "many: is no number"), ("bench/run", "0", "0: is no number")):
            self.told(call(HERE.parent / tool, *arguments), 2, says)


if __name__ == "__main__":
    unittest.main()
