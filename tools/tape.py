#!/usr/bin/env python3
"""Turns a command tape of the vessel ring into text, and text into a tape.

The text has one command a line, with the names of documents 01 and 02:

  add node 2
  add channel 1 0                    (sender, receiver)
  start
  receive 0
  send 0 batch 7 vessel 3 temperature 612 name "A1"
  send 0 batch 7 vessel 3 temperature 612 length 33 cells 4131...
  send hundredths 0 batch 7 vessel 3 temperature 6125 name "A1"
  enter 0
  move 0
  withdraw 0
  repeat 3                           (the lines up to its end, three times)
  end
  bytes 7f 00

Numbers are decimal. The temperature of `send` or `send tenths`, command 21, is
in tenths of a degree, that of `send hundredths`, command 25, in hundredths. In
a quoted name \\" and \\\\ stand for quote and backslash. A name not of normal
form (at most 32 bytes 20 to 7e, then zero fill) is shown as length byte and 32
cells. The last line may be `bytes`: all from the first byte that begins no
command, being unknown or the start of a command that the tape's end cuts.
Blank lines and comments from # to the line's end are allowed. The tape program
runs at most 60,000 bytes (tools/run).
"""

import argparse
import re
import struct
import sys
from typing import NamedTuple

NAME_CELLS = 32
RANGES = {"B": (0, 0xFF), "H": (0, 0xFFFF), "I": (0, 0xFFFF_FFFF),
          "h": (-0x8000, 0x7FFF)}
# What the tape program runs, and where a repeat stops that would fill the memory.
LONGEST_TAPE, LONGEST_REPEAT = 60_000, 1_000_000

# A quote that is never closed is one word up to the line's end, so that a #
# in it is not taken for a comment and the message shows the name itself.
WORD = re.compile(r'"(?:[^"\\]|\\.)*"?|#.*|[^\s"#]+', re.ASCII)
# The digits are bounded because Python refuses to read very long numbers.
NUMBER = re.compile(r"-?[0-9]{1,10}")
QUOTED = re.compile(r'"((?:[ !#-\[\]-~]|\\["\\]){0,%d})"' % NAME_CELLS)
HEX_CELLS = re.compile(r"[0-9a-fA-F]{%d}" % (2 * NAME_CELLS))
HEX_BYTE = re.compile(r"[0-9a-fA-F]{2}")
# No byte of a text but in a comment; a tape that starts a ring has one, 12.
CONTROL = re.compile(rb"[^\t\n\r -~\x80-\xff]")
UTF_16 = (b"\xff\xfe", b"\xfe\xff")
END = re.compile(r"end ([0-9]+) ([0-9]+)")
LISTED = re.compile(r"([0-9]+) ([0-9a-f]{2}) ([0-9]+)(?: delivered (.*))?")
DELIVERED = re.compile(r"([0-9]+) ([0-9]+) ([0-9]+) (-?[0-9]+) ([0-9]{1,2})(?: (.*))?")

# What a command of a tape can be refused with, in a few words (docs/REFUSALS.md).
REFUSALS = {
    1: "the ring has already started",
    2: "sixteen nodes stand already",
    3: "the slots are not 1 to 64",
    4: "sixty-four channels stand already",
    5: "sender or receiver is not a node added so far",
    6: "there is no node or no channel",
    7: "all slots together are not more than the channels",
    8: "the ring has not started",
    9: "there is no such channel",
    10: "the channel is not resting",
    11: "the batch number is 0",
    12: "the temperature is not -40 to 120 degrees",
    13: "the name length is over 32",
    14: "a byte of the name or of its fill is wrong",
    15: "a record is already offered",
    16: "there is no such node",
    17: "the line is empty",
    18: "no slot is free",
    19: "the buffer is empty",
    20: "the next node has no free slot",
    21: "the next node's own line goes first",
    22: "the command byte is unknown",
    23: "the command is cut off",
    27: "the channel is not asking",
    28: "the request is in a buffer already",
    30: "the name begins or ends with a blank",
}


class TextError(Exception):
    """Something in the text that cannot be turned into a tape."""


def expected(what, words):
    """The error for `words`, which should have begun with `what`."""
    found = repr(words[0]) if words else "the end of the line"
    return TextError(f"expected {what}, found {found}")


def take(words, pattern, what):
    """Removes the first word, which has to match the whole pattern."""
    if words and (match := pattern.fullmatch(words[0])):
        words.pop(0)
        return match
    raise expected(what, words)


def take_label(words, *labels):
    """Removes and returns the first word, which has to be one of the labels."""
    if words and words[0] in labels:
        return words.pop(0)
    raise expected(" or ".join(labels), words)


class Number(NamedTuple):
    """A number on the tape: its name, struct format and the word before it."""

    name: str
    format: str
    label: str = ""

    def show(self, value):
        return f"{self.label} {value}" if self.label else str(value)

    def take(self, words):
        if self.label:
            take_label(words, self.label)
        low, high = RANGES[self.format]
        if words and NUMBER.fullmatch(words[0]) and low <= int(words[0]) <= high:
            return int(words.pop(0))
        raise expected(f"{self.name} from {low} to {high}", words)

    def say(self, value):
        return str(value)


class Temperature(Number):
    """A temperature in units of which so many decimals make a degree."""

    def __new__(cls, decimals):
        self = super().__new__(cls, "temperature", "h", "temperature")
        self.decimals = decimals
        return self

    def say(self, value):
        digits = str(abs(value)).rjust(self.decimals + 1, "0")
        sign = "-" if value < 0 else ""
        return f"{sign}{digits[:-self.decimals]}.{digits[-self.decimals:]} degrees"


class Name:
    """The length byte and the name cells, which the text shows as one."""

    length = Number("name length", "B")
    format = f"{1 + NAME_CELLS}s"

    def show(self, field):
        length, cells = field[0], field[1:]
        used, fill = cells[:length], cells[length:]
        printable = all(0x20 <= byte <= 0x7E for byte in used)
        if length > NAME_CELLS or not printable or any(fill):
            return f"length {length} cells {cells.hex()}"
        return 'name "%s"' % re.sub(r'(["\\])', r"\\\1", used.decode("ascii"))

    def take(self, words):
        if take_label(words, "name", "length") == "length":
            length = self.length.take(words)
            take_label(words, "cells")
            cells = take(words, HEX_CELLS, f"{2 * NAME_CELLS} hexadecimal digits")
            return bytes([length]) + bytes.fromhex(cells[0])
        what = f"a quoted name of at most {NAME_CELLS} characters 20 to 7e"
        quoted = take(words, QUOTED, what)[1]
        name = re.sub(r"\\(.)", r"\1", quoted).encode("ascii")
        return bytes([len(name)]) + name.ljust(NAME_CELLS, b"\0")

    say = show


class Command:
    """A command byte, its names in the text, what it says and its operands in
    tape order. The first name is that of the normal form."""

    def __init__(self, byte, names, meaning, *operands):
        self.byte, self.operands = byte, operands
        self.name, *self.other_names = names.split(" / ")
        self.meaning = meaning
        # "<": low byte first and no gaps between the operands.
        self.layout = struct.Struct(
            "<B" + "".join(operand.format for operand in operands))

    def operands_at(self, tape, place):
        return zip(self.operands, self.layout.unpack_from(tape, place)[1:])

    def show(self, tape, place):
        shown = [o.show(value) for o, value in self.operands_at(tape, place)]
        return " ".join([self.name, *shown])

    def say(self, tape, place):
        said = [o.say(value) for o, value in self.operands_at(tape, place)]
        return self.meaning.format(*said)

    def take(self, words):
        values = [operand.take(words) for operand in self.operands]
        return self.layout.pack(self.byte, *values)


CHANNEL, NODE = Number("channel", "B"), Number("node", "B")
TENTHS, HUNDREDTHS = Temperature(1), Temperature(2)
SENDING = (CHANNEL, Number("batch number", "I", "batch"), Number("vessel", "B", "vessel"))
OFFERS = "a record for channel {0}: batch {1}, vessel {2}, {3}, {4}"
COMMANDS = [
    Command(0x10, "add node", "a node, its slots {0}", Number("slots", "B")),
    Command(0x11, "add channel", "a channel from node {0} to node {1}",
            Number("sender", "B"), Number("receiver", "B")),
    Command(0x12, "start", "the plan is closed, the ring runs"),
    Command(0x20, "receive", "channel {0} asks for a record", CHANNEL),
    Command(0x21, "send / send tenths", OFFERS, *SENDING, TENTHS, Name()),
    Command(0x22, "enter", "the first of node {0}'s line into its buffer", NODE),
    Command(0x23, "move", "the first of node {0}'s buffer to the next node", NODE),
    Command(0x24, "withdraw", "channel {0} takes its request back", CHANNEL),
    Command(0x25, "send hundredths", OFFERS, *SENDING, HUNDREDTHS, Name()),
]
BY_BYTE = {command.byte: command for command in COMMANDS}
BY_NAME = {tuple(name.split()): command for command in COMMANDS
           for name in (command.name, *command.other_names)}


def commands_of(tape):
    """The commands of any string of bytes, each with its place. The last is
    None where the bytes from its place on begin no whole command."""
    place = 0
    while place < len(tape):
        command = BY_BYTE.get(tape[place])
        if command is None or len(tape) - place < command.layout.size:
            yield None, place
            return
        yield command, place
        place += command.layout.size


def unread(tape):
    """Where the first byte stands that begins no whole command, or None."""
    places = (place for command, place in commands_of(tape) if command is None)
    return next(places, None)


def shown_at(tape, command, place):
    """The line of a command, or that of the bytes which begin none."""
    return command.show(tape, place) if command else "bytes " + tape[place:].hex(" ")


def tape_to_text(tape):
    """The text, in normal form, of any string of bytes."""
    lines = [shown_at(tape, command, place) for command, place in commands_of(tape)]
    return "".join(line + "\n" for line in lines)


def tape_with_meaning(tape, listing=None):
    """The text with a comment beside each command: what it says and, with the
    tape's listing, what was answered. It is text of the same tape."""
    answers = Answers(listing) if listing is not None else None
    lines = []
    for number, (command, place) in enumerate(commands_of(tape), 1):
        said = command.say(tape, place) if command else "begins no whole command"
        if answers:
            said += answers.to(number, tape[place])
        lines.append(f"{shown_at(tape, command, place):<27} # {said}")
    if answers:
        lines.append(f"# {answers.end()}")
    return "".join(line + "\n" for line in lines)


class Answers:
    """The answers of a listing in words, one after the other."""

    def __init__(self, listing):
        *lines, self.last = listing.splitlines() or [""]
        if self.last != "too long" and not END.fullmatch(self.last):
            raise TextError("this is no listing: its last line is neither end nor too long")
        self.lines = iter(lines)

    def to(self, number, byte):
        """The next answer, which has to be to this command."""
        if self.last == "too long":
            return ""
        line = next(self.lines, self.last)
        match = LISTED.fullmatch(line)
        if not match or (int(match[1]), int(match[2], 16)) != (number, byte):
            wanted = f"{number} {byte:02x}"
            raise TextError(f"the listing is of another tape: expected {wanted}, found {line!r}")
        refusal = int(match[3])
        if refusal:
            return f": refused {refusal}, {REFUSALS.get(refusal, 'see docs/REFUSALS.md')}"
        return ": accepted" + (delivered(match[4]) if match[4] else "")

    def end(self):
        """The last line, which has to be the next."""
        if (line := next(self.lines, None)) is not None:
            raise TextError(f"the listing is of another tape: expected its end, found {line!r}")
        if match := END.fullmatch(self.last):
            return f"{match[1]} accepted, {match[2]} refused"
        return f"too long: none of it was run, a tape has at most {LONGEST_TAPE} bytes"


def delivered(fields):
    """A delivery of a listing in words."""
    match = DELIVERED.fullmatch(fields)
    if not match:
        raise TextError(f"the listing has a delivery that is none: {fields!r}")
    channel, batch, vessel, temperature, length, name = match.groups()
    cells = (name or "").encode("ascii", "replace").ljust(NAME_CELLS, b"\0")
    degrees, name = HUNDREDTHS.say(int(temperature)), Name().say(bytes([int(length)]) + cells)
    return f", delivered on channel {channel}: batch {batch}, vessel {vessel}, {degrees}, {name}"


def take_command(words):
    """Removes a command's name, of two words or one, and returns the command."""
    for length in (2, 1):  # `send hundredths` begins with `send`
        command = BY_NAME.get(tuple(words[:length]))
        if command:
            del words[:length]
            return command
    names = ", ".join(command.name for command in COMMANDS)
    raise expected(f"one of {names} or bytes", [" ".join(words)])


def take_bytes(words):
    """The bytes of a `bytes` line, at least one."""
    digits = []
    while words or not digits:
        digits.append(take(words, HEX_BYTE, "two hexadecimal digits")[0])
    return bytes.fromhex("".join(digits))


class Repeat:
    """A repeat that is still open: its line, how often, and its bytes."""

    times = Number("times", "H")

    def __init__(self, line, words):
        self.line, self.count, self.tape = line, self.times.take(words), bytearray()

    def close(self):
        if len(self.tape) * self.count > LONGEST_REPEAT:
            raise TextError(f"the repeat of line {self.line} is over {LONGEST_REPEAT} bytes")
        return self.tape * self.count


class Writer:
    """The tape of the lines so far, and the repeats that are open."""

    def __init__(self):
        self.tape, self.open, self.ended = bytearray(), [], False

    def put(self, piece):
        (self.open[-1].tape if self.open else self.tape).extend(piece)

    def line(self, number, words):
        if self.ended:
            raise expected("nothing after the bytes line", words)
        self.ended = words[0] == "bytes"
        if words[0] in self.framing:
            self.framing[words.pop(0)](self, number, words)
        else:
            self.put(take_command(words).take(words))
        if words:
            raise expected("the end of the line", words)

    def take_rest(self, number, words):
        self.put(take_bytes(words))

    def take_repeat(self, number, words):
        self.open.append(Repeat(number, words))

    def take_end(self, number, words):
        if not self.open:
            raise TextError("this end has no repeat")
        self.put(self.open.pop().close())

    # The lines that are no commands.
    framing = {"repeat": take_repeat, "end": take_end, "bytes": take_rest}

    def close(self):
        if self.open:
            raise TextError(f"line {self.open[-1].line}: this repeat has no end")
        return bytes(self.tape)


def text_to_tape(text):
    """The tape of a text; a TextError tells the line and what was expected."""
    writer = Writer()
    for number, line in enumerate(text.split("\n"), 1):
        words = [word for word in WORD.findall(line) if word[0] != "#"]
        if not words:
            continue
        try:
            writer.line(number, words)
        except TextError as error:
            raise TextError(f"line {number}: {error}") from None
    return writer.close()


def is_text(data):
    """Whether bytes are text and no tape: they have no control byte."""
    return data.startswith(UTF_16) or bool(data) and not CONTROL.search(data)


def decoded(data):
    """The characters of a text file, without a byte order mark."""
    if data.startswith(UTF_16):
        raise TextError("this text is UTF-16: save it as UTF-8")
    # Comments may hold any bytes, so decoding must not fail.
    return data.decode("utf-8-sig", "surrogateescape")


def text_file_to_tape(data):
    """The tape of a text file; an error says too if the file looks like a tape."""
    try:
        return text_to_tape(decoded(data))
    except TextError as error:
        hint = "" if is_text(data) else " (this has control bytes: is it a tape, and not text?)"
        raise TextError(f"{error}{hint}") from None


def open_file(path, mode, standard):
    """Opens a path; "-" is the given standard stream, which is left open."""
    return open(standard if path == "-" else path, mode, closefd=path != "-")


class FileError(Exception):
    """A file that cannot be read or written."""


def read_file(path):
    try:
        with open_file(path, "rb", 0) as file:
            return file.read()
    except OSError as error:
        raise FileError(f"{path}: {error.strerror}") from None


def write_file(path, data):
    try:
        with open_file(path, "wb", 1) as file:
            file.write(data)
    except OSError as error:
        raise FileError(f"{path}: {error.strerror}") from None


class Parser(argparse.ArgumentParser):
    """Wrong usage is told in one line."""

    def __init__(self, **options):
        super().__init__(formatter_class=argparse.RawDescriptionHelpFormatter, **options)

    def error(self, message):
        self.exit(2, f"{self.prog}: {message} ({self.prog} --help has the usage)\n")


def parse_arguments(arguments):
    parser = Parser(
        description=__doc__,
        epilog="Exit status: 0 done, 1 a file fails, 2 the text or usage is wrong.")
    actions = parser.add_subparsers(dest="action", required=True)
    write = actions.add_parser("write", help="text to tape")
    write.add_argument("source", metavar="TEXT", help="- is standard input")
    write.add_argument("target", metavar="TAPE", help="- is standard output")
    read = actions.add_parser("read", help="tape to text")
    read.add_argument("source", metavar="TAPE", help="- is standard input")
    read.add_argument("target", metavar="TEXT", nargs="?", default="-",
                      help="- or nothing is standard output")
    read.add_argument("--with-meaning", action="store_true",
                      help="beside each command, as a comment, what it says")
    read.add_argument("--listing", metavar="LISTING",
                      help="and what was answered, in words: the output of tools/run")
    read.add_argument("--binary", action="store_true",
                      help="the file is a tape: if it looks like text, that is not said")
    return parser.parse_args(arguments)


def read_text(options):
    """What `read` writes."""
    tape = read_file(options.source)
    if is_text(tape) and not options.binary:
        print(f"{options.source}: this looks like text, and is read as a tape: "
              "`write` makes a tape of a text", file=sys.stderr)
    if options.listing:
        listing = read_file(options.listing).decode("ascii", "replace")
        return tape_with_meaning(tape, listing)
    return tape_with_meaning(tape) if options.with_meaning else tape_to_text(tape)


def main(arguments=None):
    options = parse_arguments(arguments)
    try:
        # All is turned before the target is opened: an error writes nothing.
        if options.action == "read":
            data = read_text(options).encode("ascii", "replace")
        else:
            data = text_file_to_tape(read_file(options.source))
        write_file(options.target, data)
    except TextError as error:
        print(f"{options.source}: {error}", file=sys.stderr)
        return 2
    except FileError as error:
        print(error, file=sys.stderr)
        return 1
    return 0


if __name__ == "__main__":
    sys.exit(main())
