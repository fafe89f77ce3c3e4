#!/usr/bin/env python3
"""Tests of tape.py, against the tapes that document 01 prints."""

import random
import re
import struct
import subprocess
import sys
import tempfile
import unittest
from pathlib import Path

HERE = Path(__file__).resolve().parent
sys.path.insert(0, str(HERE))
from tape import (REFUSALS, TextError, decoded, is_text, tape_to_text,  # noqa: E402
                  tape_with_meaning, text_to_tape, unread)

# As printed in document 01, with the thirty 00 written out.
LISTING_TAPE = bytes.fromhex(
    "10 01 10 02 11 01 00 12 20 00 20 00 22 00 23 00"
    "21 00 07 00 00 00 03 64 02 02 41 31" + 30 * "00" + "22 01 23 01 23 01")
LISTING_TEXT = """\
add node 1
add node 2
add channel 1 0
start
receive 0
receive 0
enter 0
move 0
send 0 batch 7 vessel 3 temperature 612 name "A1"
enter 1
move 1
move 1
"""
LISTING_OUT = """\
1 10 0
2 10 0
3 11 0
4 12 0
5 20 0
6 20 10
7 22 0
8 23 0
9 21 0
10 22 0
11 23 0 delivered 0 7 3 6120 2 A1
12 23 19
end 10 2
"""
# The table of document 01 and 02's commands 24 and 25, on their own: command byte and width.
WIDTHS = {0x10: 2, 0x11: 3, 0x12: 1, 0x20: 2, 0x21: 42, 0x22: 2, 0x23: 2, 0x24: 2, 0x25: 42}
# The commands that send: the name in the text, and how many hundredths their unit is.
SENDS = {0x21: ("send", 10), 0x25: ("send hundredths", 1)}
SEND = "send 0 batch 7 vessel 3 temperature 612 "
COMMANDS = ("add node, add channel, start, receive, send, enter, move, withdraw, "
            "send hundredths or bytes")
TAPES = ("listing", "turn", "edges", "withdraw", "blanks", "hundredths")
# Of tapes/withdraw, for each of its withdrawals: the refusal, or 0.
WITHDRAW_ANSWERS = ["8", "9", "27", "28", "0", "0", "27", "27"]
# Of tapes/blanks, for each of its sends: name length, cells up to the fill, and the answer.
BLANKS_ANSWERS = [
    (0, b"", "0"), (3, b"A B", "0"), (1, b" ", "30"), (2, b"A ", "30"), (2, b" A", "30"),
    (32, 31 * b"A" + b" ", "30"), (33, 31 * b"A" + b" ", "13"), (2, b" \x7f", "14"),
    (1, b"A ", "14"), (32, 32 * b"A", "0"), (2, b"A ", "30"), (2, b"AB", "15")]
# Of tapes/hundredths, for each of its sends: command byte, temperature, and the answer.
HUNDREDTHS_ANSWERS = [
    (0x21, 1201, "8"), (0x25, 12001, "8"), (0x21, 1200, "0"), (0x21, -400, "0"),
    (0x21, 1201, "12"), (0x21, -401, "12"), (0x21, 3277, "12"), (0x21, 6554, "12"),
    (0x21, 32767, "12"), (0x21, -32768, "12"), (0x25, 12001, "12"), (0x25, -4001, "12"),
    (0x25, 12000, "0"), (0x25, -4000, "0"), (0x25, 1201, "0"), (0x25, -401, "0"),
    (0x21, 612, "0"), (0x25, 612, "0"), (0x21, 1201, "11"), (0x25, 12001, "11"),
    (0x21, 1201, "12"), (0x25, 12001, "12"), (0x21, 1201, "9"), (0x25, 6125, "15")]
# And the temperatures that it delivers.
HUNDREDTHS_DELIVERED = ["12000", "-4000", "12000", "-4000", "1201", "-401", "6120", "612"]
QUOTED = "a quoted name of at most 32 characters 20 to 7e"


def send(name, length=None, channel=0, batch=7, vessel=3, temperature=612, byte=0x21):
    """A send command, packed apart from the tool."""
    length = len(name) if length is None else length
    return (bytes([byte, channel]) + batch.to_bytes(4, "little") + bytes([vessel])
            + (temperature % 0x10000).to_bytes(2, "little")
            + bytes([length]) + name + bytes(32 - len(name)))


def random_name(rng):
    """A name of normal form or, about as often, one with a single flaw."""
    length = rng.randint(0, 32)
    name = bytearray(rng.choices(range(0x20, 0x7F), k=length) + [0] * (32 - length))
    flaw = rng.randrange(4)
    if flaw == 0:
        length = rng.randint(0, 255)
    elif flaw == 1:
        name[rng.randrange(32)] = rng.choice([0x00, 0x1F, 0x7F, 0xFF, 0x41])
    return name, length


def random_command(rng):
    byte = rng.choice(list(WIDTHS))
    if byte not in SENDS:
        return bytes([byte]) + rng.randbytes(WIDTHS[byte] - 1)
    name, length = random_name(rng)
    return send(bytes(name), length, rng.randrange(256), rng.getrandbits(32),
                rng.randrange(256), rng.randint(-0x8000, 0x7FFF), byte)


def random_tape(rng):
    return b"".join(random_command(rng) for _ in range(rng.randrange(12)))


class RoundTrips(unittest.TestCase):
    def check(self, tape):
        text = tape_to_text(tape)
        self.assertEqual(text_to_tape(text), tape, text)
        self.assertEqual(tape_to_text(text_to_tape(text)), text)
        return text

    def check_pair(self, tape, text):
        self.assertEqual(tape_to_text(tape), text)
        self.assertEqual(text_to_tape(text), tape)

    def test_empty(self):
        self.check_pair(b"", "")

    def test_listing(self):
        self.check_pair(LISTING_TAPE, LISTING_TEXT)

    def test_plain_commands(self):
        for value in (0, 1, 15, 16, 63, 64, 65, 127, 128, 255):
            for byte, name in ((0x10, "add node"), (0x20, "receive"),
                               (0x22, "enter"), (0x23, "move"), (0x24, "withdraw")):
                self.check_pair(bytes([byte, value]), f"{name} {value}\n")
            self.check_pair(bytes([0x11, value, 9]), f"add channel {value} 9\n")
            self.check_pair(bytes([0x11, 9, value]), f"add channel 9 {value}\n")
        self.check_pair(b"\x12", "start\n")

    def test_send_numbers(self):
        for byte, (command, _) in SENDS.items():
            plain = f'{SEND}name "A1"\n'.replace("send 0", f"{command} 0")
            for word, old, values in (
                    ("batch", 7, (0, 1, 255, 256, 0x01020304, 0xFFFFFFFF)),
                    ("vessel", 3, (0, 1, 128, 255)),
                    ("temperature", 612, (0, -1, 255, 256, 1200, 1201, -400, -401, 12000,
                                          12001, -4000, -4001, 32767, -32768))):
                for value in values:
                    text = plain.replace(f"{word} {old}", f"{word} {value}")
                    self.check_pair(send(b"A1", byte=byte, **{word: value}), text)
            self.check_pair(send(b"A1", channel=255, byte=byte),
                            plain.replace(f"{command} 0", f"{command} 255"))

    def test_plain_names(self):
        for name, shown in (
                (b"", ""), (b" ", " "), (b"~", "~"), (b"# 1", "# 1"),
                (b'"', r"\""), (b"\\", r"\\"), (b'\\"', r"\\\""), (b'a"#', r"a\"#"),
                (b"x" * 32, "x" * 32), (b'"' * 32, r"\"" * 32)):
            self.check_pair(send(name), f'{SEND}name "{shown}"\n')
            self.check_pair(send(name, byte=0x25), f'{SEND}name "{shown}"\n'.replace(
                "send", "send hundredths", 1))
        for byte in range(0x20, 0x7F):
            self.assertIn('name "', self.check(send(bytes([byte]) * 32)))

    def test_explicit_names(self):
        for name, length in (
                (b"A1", 33), (b"A1", 255), (b"A1", 1), (b"A1", 3), (b"A1", 0),
                (b"x" * 32, 33), (b"x" * 32, 31), (b"x" * 31, 32), (b"", 1),
                (b"\x1f", 1), (b"\x7f", 1), (b"\xff", 1), (b"\0A", 2),
                (bytes(31) + b"\1", 0), (b"A" + bytes(30) + b"A", 1)):
            cells = name.hex().ljust(64, "0")
            self.check_pair(send(name, length),
                            f"{SEND}length {length} cells {cells}\n")

    def test_cut_and_unknown_ends(self):
        for byte, width in WIDTHS.items():
            for left in range(1, width):
                cut = bytes([byte]) + bytes(left - 1)
                self.check_pair(cut, f"bytes {cut.hex(' ')}\n")
                self.check_pair(b"\x12" + cut, f"start\nbytes {cut.hex(' ')}\n")
        for byte in set(range(256)) - set(WIDTHS):
            self.check_pair(bytes([0x12, byte, 0x12]), f"start\nbytes {byte:02x} 12\n")

    def test_random_bytes(self):
        rng = random.Random(1978)
        for _ in range(5000):
            self.check(rng.randbytes(rng.randrange(120)))
            # Mostly command bytes, so that many commands are met.
            self.check(bytes(rng.choices([*WIDTHS, 0, 1, 0x41], k=rng.randrange(120))))

    def test_random_tapes(self):
        rng = random.Random(2024)
        plain = explicit = 0
        for _ in range(5000):
            tape = random_tape(rng)
            text = self.check(tape)
            self.assertNotIn("bytes", [line[:5] for line in text.split("\n")])
            plain, explicit = plain + text.count(' name "'), explicit + text.count(" cells ")
            self.check(tape[:rng.randint(0, len(tape))])
            self.check(tape + rng.randbytes(rng.randrange(4)))
        self.assertGreater(min(plain, explicit), 1000)  # both forms were met


class FreeText(unittest.TestCase):
    """Text that is good though not in normal form."""

    def test_comments_and_blanks(self):
        text = ("# start\n\n \t\nstart # move 0\r\n  move\t 0#x\n#\n"
                f'{SEND}name "#\\"#" # "\n# \u00e9')
        self.assertEqual(text_to_tape(text), b"\x12\x23\0" + send(b'#"#'))

    def test_only_a_newline_ends_a_line(self):
        for character in "\r\v\f\x1c\x85\u2028":
            self.assertEqual(text_to_tape(f"# 1{character}2\nstart\n"), b"\x12")

    def test_other_spellings(self):
        for text, tape in (("start", b"\x12"), ("move 007\n", b"\x23\7"),
                           ("bytes FF 0a\n\n# end\n", b"\xff\n"),
                           ("bytes 12\n", b"\x12"),
                           (f"{SEND}length 2 cells 4A31{60 * '0'}\n", send(b"J1"))):
            self.assertEqual(text_to_tape(text), tape)

    def test_send_with_its_unit(self):
        text = f'{SEND}name "A1"'
        self.assertEqual(text_to_tape(text.replace("send", "send tenths")), text_to_tape(text))

    def test_repeat(self):
        for text, tape in (
                ("repeat 3\nmove 1\nend", 3 * b"\x23\1"),
                ("start\nrepeat 2 # twice\n\nmove 1\nenter 2\nend\nstart", b"\x12\x23\1\x22\2\x23\1\x22\2\x12"),
                ("repeat 2\nstart\nrepeat 3\nmove 0\nend\nend", 2 * (b"\x12" + 3 * b"\x23\0")),
                ("repeat 0\nmove 1\nend", b""), ("repeat 9\nend", b""),
                ("repeat 60000\nrepeat 8\nmove 0\nend\nend", 480_000 * b"\x23\0"),
                ("repeat 2\nstart\nend\nbytes 7f", b"\x12\x12\x7f")):
            self.assertEqual(text_to_tape(text), tape, text)

    def test_repeat_that_does_not_fit_its_end(self):
        for text, message in (
                ("start\nrepeat 2\nmove 1\n", "line 2: this repeat has no end"),
                ("repeat 2\nrepeat 3\nend\n", "line 1: this repeat has no end"),
                ("start\nend\n", "line 2: this end has no repeat"),
                ("repeat 60000\nrepeat 9\nmove 0\nend\nend",
                 "line 5: the repeat of line 1 is over 1000000 bytes")):
            with self.assertRaises(TextError, msg=text) as caught:
                text_to_tape(text)
            self.assertEqual(str(caught.exception), message)

    def test_byte_order_marks(self):
        self.assertEqual(text_to_tape(decoded(b"\xef\xbb\xbfstart\r\n")), b"\x12")
        for name in ("utf-16-le", "utf-16-be"):
            with self.assertRaisesRegex(TextError, "UTF-16: save it as UTF-8"):
                decoded("\ufeffstart\n".encode(name))

    def test_what_is_text(self):
        for data in (b"start", b"# \xc3\xa9\tx\r\n", b"\xef\xbb\xbfstart", "\ufeffstart".encode("utf-16-le"),
                     "\ufeffstart".encode("utf-16-be"), b"no command"):
            self.assertTrue(is_text(data), data)
        for data in (b"", b"\x12", LISTING_TAPE, b"start\x00", b"\x7f", b"\x20\x0b"):
            self.assertFalse(is_text(data), data)


class Meaning(unittest.TestCase):
    """`read --with-meaning` and `--listing`."""

    def comments(self, text):
        return [line.split("# ", 1)[1] for line in text.splitlines()]

    def test_every_command_says_its_operands(self):
        tape = (b"\x10\x05\x11\x06\x07\x12\x20\x08\x22\x09\x23\x0a\x24\x0b"
                + send(b"A1", channel=12) + send(b'"', channel=13, temperature=-5, byte=0x25) + b"\x7f")
        self.assertEqual(self.comments(tape_with_meaning(tape)), [
            "a node, its slots 5", "a channel from node 6 to node 7", "the plan is closed, the ring runs",
            "channel 8 asks for a record", "the first of node 9's line into its buffer",
            "the first of node 10's buffer to the next node", "channel 11 takes its request back",
            'a record for channel 12: batch 7, vessel 3, 61.2 degrees, name "A1"',
            r'a record for channel 13: batch 7, vessel 3, -0.05 degrees, name "\""', "begins no whole command"])

    def test_answers_in_words(self):
        said = self.comments(tape_with_meaning(LISTING_TAPE, LISTING_OUT))
        self.assertEqual(said[5], "channel 0 asks for a record: refused 10, the channel is not resting")
        self.assertEqual(said[7], "the first of node 0's buffer to the next node: accepted")
        self.assertEqual(said[10], "the first of node 1's buffer to the next node: accepted, delivered on "
                         'channel 0: batch 7, vessel 3, 61.20 degrees, name "A1"')
        self.assertEqual(said[12], "10 accepted, 2 refused")
        self.assertIn("begins no whole command: refused 22, the command byte is unknown",
                      tape_with_meaning(b"\x12\x7f", "1 12 6\n2 7f 22\nend 0 2\n"))
        self.assertIn("too long: none of it was run", tape_with_meaning(b"\x12", "too long\n"))

    def test_it_is_text_of_the_same_tape(self):
        rng = random.Random(1)
        for _ in range(500):
            tape = random_tape(rng) + rng.randbytes(rng.randrange(3))
            self.assertEqual(text_to_tape(tape_with_meaning(tape)), tape)

    def test_a_listing_of_another_tape(self):
        for listing, message in (
                ("", "this is no listing"), ("1 12 0\n", "this is no listing"),
                ("end 0 0\n", "expected 1 12, found 'end 0 0'"),
                ("1 10 0\nend 1 0\n", "expected 1 12, found '1 10 0'"),
                ("2 12 0\nend 1 0\n", "expected 1 12, found '2 12 0'"),
                ("1 12 0\n2 12 1\nend 1 1\n", "expected its end, found '2 12 1'")):
            with self.assertRaisesRegex(TextError, message):
                tape_with_meaning(b"\x12", listing)

    def test_every_refusal_of_a_command_has_words(self):
        page = (HERE.parent / "docs" / "REFUSALS.md").read_text(encoding="utf-8").split("## Order")[1]
        commands = ("add node", "add channel", "start", "receive", "send", "enter", "move", "withdraw",
                    "read a command")
        rows = [line.split("|") for line in page.splitlines()
                if line.startswith(tuple(f"| {command}" for command in commands))]
        self.assertEqual(len(rows), len(commands))
        orders = [re.sub(r"\(.*\)", "", row[2]) for row in rows]
        told = {int(number) for order in orders for number in re.findall(r"\b\d+\b", order)}
        # A tape is run on a fresh ring, and read from a place within it.
        self.assertEqual(set(REFUSALS), told - {24, 25})

    def test_where_reading_stops(self):
        for tape, place in ((b"", None), (LISTING_TAPE, None), (b"\x12\x7f\x12", 1), (b"\x12\x23", 1)):
            self.assertEqual(unread(tape), place)


class Errors(unittest.TestCase):
    def test_messages(self):
        cells = 64 * "0"
        for line, what, found in (
                ("stop", f"one of {COMMANDS}", "'stop'"),
                ("Start", f"one of {COMMANDS}", "'Start'"),
                ("add", f"one of {COMMANDS}", "'add'"),
                ("add vessel 1", f"one of {COMMANDS}", "'add vessel 1'"),
                ("add node", "slots from 0 to 255", None),
                ("add node 256", "slots from 0 to 255", "'256'"),
                ("add node -1", "slots from 0 to 255", "'-1'"),
                ("add node 0x1", "slots from 0 to 255", "'0x1'"),
                ("add node " + 5000 * "9", "slots from 0 to 255", f"'{5000 * '9'}'"),
                ("add node \u0661", "slots from 0 to 255", "'\u0661'"),
                ("add channel x 0", "sender from 0 to 255", "'x'"),
                ("add channel 0", "receiver from 0 to 255", None),
                ("start 1", "the end of the line", "'1'"),
                ("receive # 1", "channel from 0 to 255", None),
                ("send", "channel from 0 to 255", None),
                ("send 0 7", "batch", "'7'"),
                ("send hundredths", "channel from 0 to 255", None),
                ("send hundredths 256", "channel from 0 to 255", "'256'"),
                ("send hundredths 0 7", "batch", "'7'"),
                ("send hundredth 0", "channel from 0 to 255", "'hundredth'"),
                ("send 0 hundredths", "batch", "'hundredths'"),
                ("hundredths 0", f"one of {COMMANDS}", "'hundredths 0'"),
                (SEND.replace("send", "send hundredths").replace("612", "32768"),
                 "temperature from -32768 to 32767", "'32768'"),
                ("send 0 batch 4294967296", "batch number from 0 to 4294967295",
                 "'4294967296'"),
                ("send 0 batch 7 vessel 256", "vessel from 0 to 255", "'256'"),
                (SEND.replace("612", "32768"),
                 "temperature from -32768 to 32767", "'32768'"),
                (SEND.replace("612", "-32769"),
                 "temperature from -32768 to 32767", "'-32769'"),
                (SEND.replace("612", "61.2"),
                 "temperature from -32768 to 32767", "'61.2'"),
                ("send tenths", "channel from 0 to 255", None),
                ("send 0 batch 7.5", "batch number from 0 to 4294967295", "'7.5'"),
                ("repeat", "times from 0 to 65535", None),
                ("repeat 65536", "times from 0 to 65535", "'65536'"),
                ("repeat 2 3", "the end of the line", "'3'"),
                ("repeat 2\nbytes 7f\nend", "nothing after the bytes line", "'end'"),
                ("repeat 2\nend 2", "the end of the line", "'2'"),
                (SEND, "name or length", None),
                (SEND + '"A1"', "name or length", "'\"A1\"'"),
                (SEND + "name", QUOTED, None),
                (SEND + "name A1", QUOTED, "'A1'"),
                (SEND + 'name "A1 # no end', QUOTED, "'\"A1 # no end'"),
                (SEND + 'name "A1\\"', QUOTED, repr('"A1\\"')),
                (SEND + 'name "\\n"', QUOTED, repr('"\\n"')),
                (SEND + 'name "\t"', QUOTED, repr('"\t"')),
                (SEND + 'name "\u00e9"', QUOTED, repr('"\u00e9"')),
                (SEND + f'name "{33 * "x"}"', QUOTED, f"'\"{33 * 'x'}\"'"),
                (SEND + 'name "A1" 2', "the end of the line", "'2'"),
                (SEND + "length 256", "name length from 0 to 255", "'256'"),
                (SEND + "length 2 4131", "cells", "'4131'"),
                (SEND + "length 2 cells", "64 hexadecimal digits", None),
                (SEND + f"length 2 cells {cells}0", "64 hexadecimal digits",
                 f"'{cells}0'"),
                (SEND + f"length 2 cells {cells[2:]}", "64 hexadecimal digits",
                 f"'{cells[2:]}'"),
                (SEND + f"length 2 cells {cells[1:]}g", "64 hexadecimal digits",
                 f"'{cells[1:]}g'"),
                (SEND + f"length 2 cells {cells} 0", "the end of the line", "'0'"),
                ("enter", "node from 0 to 255", None),
                ("move 0 0", "the end of the line", "'0'"),
                ("withdraw", "channel from 0 to 255", None),
                ("withdraw 256", "channel from 0 to 255", "'256'"),
                ("withdraw 0 0", "the end of the line", "'0'"),
                ("bytes", "two hexadecimal digits", None),
                ("bytes 7", "two hexadecimal digits", "'7'"),
                ("bytes 7f 0g", "two hexadecimal digits", "'0g'"),
                ("bytes 7f000000", "two hexadecimal digits", "'7f000000'"),
                ("bytes 7f\nstart", "nothing after the bytes line", "'start'"),
                ("bytes 7f\nbytes 00", "nothing after the bytes line", "'bytes'")):
            place = 3 + line.count("\n")
            found = found or "the end of the line"
            with self.assertRaises(TextError, msg=line) as caught:
                text_to_tape(f"# first\nstart\n{line}\n")
            self.assertEqual(str(caught.exception),
                             f"line {place}: expected {what}, found {found}")


class Program(unittest.TestCase):
    def run_tool(self, *arguments, given=b""):
        return subprocess.run([sys.executable, str(HERE / "tape.py"), *map(str, arguments)],
                              input=given, capture_output=True, check=False)

    def check_run(self, run, status, out):
        self.assertEqual((run.returncode, run.stdout), (status, out), run.stderr)

    def test_streams(self):
        text = LISTING_TEXT.encode()
        self.check_run(self.run_tool("write", "-", "-", given=text), 0, LISTING_TAPE)
        self.check_run(self.run_tool("read", "-", given=LISTING_TAPE), 0, text)
        self.check_run(self.run_tool("read", "-", "-", given=LISTING_TAPE), 0, text)
        self.check_run(self.run_tool("write", "-", "-", given=b"# \xff\nstart"), 0, b"\x12")

    def test_files(self):
        with tempfile.TemporaryDirectory() as folder:
            text, tape = Path(folder, "a.txt"), Path(folder, "a.tape")
            text.write_text(LISTING_TEXT)
            self.check_run(self.run_tool("write", text, tape), 0, b"")
            self.assertEqual(tape.read_bytes(), LISTING_TAPE)
            text.unlink()
            self.check_run(self.run_tool("read", tape, text), 0, b"")
            self.assertEqual(text.read_bytes(), LISTING_TEXT.encode())

    def test_an_error_writes_nothing(self):
        with tempfile.TemporaryDirectory() as folder:
            new, old = Path(folder, "new"), Path(folder, "old")
            old.write_bytes(b"kept")
            for target in (new, old, "-"):
                run = self.run_tool("write", "-", target, given=b"start\nmove\n")
                self.check_run(run, 2, b"")
                self.assertEqual(run.stderr.decode().strip(), "-: line 2: expected "
                                 "node from 0 to 255, found the end of the line")
            self.assertFalse(new.exists())
            self.assertEqual(old.read_bytes(), b"kept")

    def test_usage_and_files_that_fail(self):
        self.assertEqual(self.run_tool("--help").returncode, 0)
        self.assertIn(b"add channel 1 0", self.run_tool("--help").stdout)
        self.check_run(self.run_tool("turn", "-"), 2, b"")
        self.check_run(self.run_tool("write", "-"), 2, b"")
        self.check_run(self.run_tool("read", HERE / "no such tape"), 1, b"")

    def test_what_is_wrong_is_told_in_one_line(self):
        text = HERE / "tapes" / "listing.txt"
        for arguments, status, says in (
                ((), 2, "required"), (("turn", "-"), 2, "invalid choice"), (("write", "-"), 2, "TAPE"),
                (("read", "--wrong", "-"), 2, "--wrong"), (("read", HERE), 1, f"{HERE}: Is a directory"),
                (("write", text, HERE), 1, f"{HERE}: Is a directory"),
                (("read", HERE / "none"), 1, f"{HERE / 'none'}: No such file"),
                (("write", text.with_suffix(".tape"), "-"), 2, "is it a tape, and not text?"),
                (("read", "--listing", HERE / "none", "-"), 1, "none: No such file"),
                (("read", "--listing", text, "-"), 2, "this is no listing")):
            run = self.run_tool(*arguments)
            self.check_run(run, status, b"")
            self.assertEqual(len(run.stderr.decode().splitlines()), 1, run.stderr)
            self.assertIn(says, run.stderr.decode())

    def test_read_with_meaning(self):
        tape, listing = HERE / "tapes" / "turn.tape", HERE / "tapes" / "turn.out"
        run = self.run_tool("read", "--listing", listing, tape)
        self.assertIn(b"move 0                      # the first of node 0's buffer to the next node: "
                      b"refused 21, the next node's own line goes first\n", run.stdout)
        run = self.run_tool("read", "--with-meaning", tape)
        self.assertIn(b"start                       # the plan is closed, the ring runs\n", run.stdout)
        self.check_run(self.run_tool("write", "-", "-", given=b"\xef\xbb\xbfstart\r\n"), 0, b"\x12")

    def test_tape_that_looks_like_text(self):
        """It is read, and that it may be text is said."""
        for options, says in (((), b"-: this looks like text, and is read as a tape"), (("--binary",), b"")):
            run = self.run_tool("read", *options, "-", given=b"#A")
            self.check_run(run, 0, b"move 65\n")
            self.assertEqual(run.stderr[:len(says)], says)
            self.assertEqual(len(run.stderr.splitlines()), len(says) > 0)


class Tapes(unittest.TestCase):
    """The folder tapes/: text, tape and expected output belong together."""

    def load(self, name, end):
        return (HERE / "tapes" / f"{name}.{end}").read_bytes()

    def test_listing(self):
        self.assertEqual(self.load("listing", "tape"), LISTING_TAPE)
        self.assertEqual(self.load("listing", "out").decode(), LISTING_OUT)

    def test_every_tape_is_named(self):
        for end in ("txt", "tape", "out"):
            files = (HERE / "tapes").glob(f"*.{end}")
            self.assertEqual(sorted(file.stem for file in files), sorted(TAPES))

    def test_withdraw(self):
        lines = self.load("withdraw", "out").decode("ascii").splitlines()
        fields = [line.split() for line in lines]
        self.assertEqual([f[2] for f in fields if f[1] == "24"], WITHDRAW_ANSWERS)
        # The withdrawal that empties node 1's line frees the move before it.
        freed = [f[1:] for f in fields[17:20]]
        self.assertEqual(freed, [["23", "21"], ["24", "0"], ["23", "0"]])

    def test_blanks(self):
        commands = self.commands(self.load("blanks", "tape"))
        lines = self.load("blanks", "out").decode("ascii").splitlines()
        rows = [(command[9], command[10:].rstrip(b"\0"), line.split()[2])
                for command, line in zip(commands, lines) if command[0] == 0x21]
        self.assertEqual(rows, BLANKS_ANSWERS)

    def test_hundredths(self):
        commands = self.commands(self.load("hundredths", "tape"))
        lines = self.load("hundredths", "out").decode("ascii").splitlines()
        rows = [(command[0], *struct.unpack("<h", command[7:9]), line.split()[2])
                for command, line in zip(commands, lines) if command[0] in SENDS]
        self.assertEqual(rows, HUNDREDTHS_ANSWERS)
        delivered = [line.split()[7] for line in lines if " delivered " in line]
        self.assertEqual(delivered, HUNDREDTHS_DELIVERED)

    def test_texts_give_the_tapes(self):
        for name in TAPES:
            text = self.load(name, "txt").decode("ascii")
            self.assertEqual(text_to_tape(text), self.load(name, "tape"), name)

    def test_outputs_fit_the_tapes(self):
        for name in TAPES:
            commands = self.commands(self.load(name, "tape"))
            *lines, last = self.load(name, "out").decode("ascii").splitlines()
            heads = [re.match(r"(\d+) (..) (\d+)", line).groups() for line in lines]
            self.assertEqual([head[:2] for head in heads],
                             [(str(i), f"{c[0]:02x}") for i, c in enumerate(commands, 1)])
            accepted = sum(head[2] == "0" for head in heads)
            self.assertEqual(last, f"end {accepted} {len(heads) - accepted}")
            # A delivered record is one that an accepted send offered.
            sent = [self.shown(command) for command, head in zip(commands, heads)
                    if command[0] in SENDS and head[2] == "0"]
            for line in lines:
                if " delivered " in line:
                    self.assertIn(line.split(" delivered ")[1], sent)

    def commands(self, tape):
        place, found = 0, []
        while place < len(tape):
            found.append(tape[place:place + WIDTHS[tape[place]]])
            place += len(found[-1])
        return found

    def shown(self, command):
        """The record of a send as a delivery shows it, in hundredths."""
        channel, batch, vessel, temperature, length, name = struct.unpack("<BIBhB32s", command[1:])
        temperature *= SENDS[command[0]][1]
        name = name.rstrip(b"\0").decode("ascii")
        numbers = (channel, batch, vessel, temperature, length)
        return " ".join([*map(str, numbers), *([name] if name else [])])


if __name__ == "__main__":
    unittest.main()
