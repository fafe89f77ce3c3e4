"""Runs a command tape of the vessel ring and prints its listing.

TAPE is a file, or - for standard input. It may be text (tools/tape.py --help
has the words): a file that ends in .txt is, and what comes from standard input
is where it has no control byte but tabs and line ends, which no tape that
starts a ring is without. A tape has at most 60,000 bytes.

The tape program is proved and built first where that is not done yet, which
takes minutes the first time.
"""
# Started by tools/run.

import errno
import os
import re
import shutil
import signal
import subprocess
import sys
from pathlib import Path

sys.dont_write_bytecode = True  # the checkout may be another user's
from tape import (LONGEST_TAPE, REFUSALS, Parser, TextError, is_text, tape_with_meaning,  # noqa: E402
                  text_file_to_tape, unread)

ROOT = Path(__file__).resolve().parent.parent
FAILED, WRONG, NOT_READ = 1, 2, 3
STATUSES = """Exit status: 0 the tape was run, whatever its commands were answered; 1 a file,
the build or the tape program fails; 2 the text or usage is wrong; 3, where
--whole asks for it, the tape was not read to its end: it is too long, or has a
command that is unknown or cut off (refusals 22 and 23). What is wrong is told
on standard error."""
# An input without end is read so far: as text it is refused, as a tape it is too long.
LONGEST_INPUT = 1 << 24
PROGRAM = ROOT / "crates/run_tape/out/run_tape"
CRATE = re.compile(r"crate ([a-z_]+): ")
WHOLE = re.compile(rb"(?:[0-9]+ [0-9a-f]{2} [0-9]+.*\n)*end [0-9]+ [0-9]+\n|too long\n")
WORDS = {errno.ENOENT: "there is no such file", errno.EISDIR: "is a folder, not a tape",
         errno.EACCES: "may not be read"}


class Stop(Exception):
    """What ends the run: a line for standard error, and the exit status."""


def read_input(path):
    """The bytes of a file or of standard input."""
    try:
        with open(0 if path == "-" else path, "rb", closefd=path != "-") as file:
            return file.read(LONGEST_INPUT)
    except OSError as error:
        raise Stop(f"{path}: {WORDS.get(error.errno, error.strerror)}", FAILED) from None


def tape_in(options, data):
    """The tape that was given, as text or as it is."""
    is_known = options.tape.endswith(".txt") or options.tape == "-" and is_text(data)
    form = options.form or ("text" if is_known else "binary")
    if form == "binary":
        return data
    if len(data) == LONGEST_INPUT:
        raise Stop(f"{options.tape}: a text of {LONGEST_INPUT} bytes or more is too long", WRONG)
    try:
        return text_file_to_tape(data)
    except TextError as error:
        raise Stop(f"{options.tape}: {error}", WRONG) from None


def check_checkout():
    """Whether the tape program can be built here."""
    if not shutil.which("rt"):
        raise Stop("the Rattle toolchain's command rt is not on the PATH (README.md says what has to be there)", FAILED)
    folder = PROGRAM.parent if PROGRAM.parent.exists() else PROGRAM.parent.parent
    if not os.access(folder, os.W_OK):
        raise Stop(f"{folder}: may not be written, and the tape program is built there", FAILED)


def build():
    """Proves and builds the tape program, which rt then runs on no tape. The first time this proves some twenty crates: each is told as it is
    done."""
    if not PROGRAM.exists():
        print("tools/run: proving and building the tape program first; that takes minutes", file=sys.stderr, flush=True)
    log, crate = [], "a crate"
    with subprocess.Popen(["rt", "run"], cwd=ROOT / "crates/run_tape", stdin=subprocess.DEVNULL, stdout=subprocess.PIPE,
                          stderr=subprocess.STDOUT, encoding="utf-8", errors="replace") as rt:
        for line in rt.stdout:
            log.append(line)
            if match := CRATE.match(line):
                crate = match[1]
            elif line.startswith("logic=proved "):
                print(f"{crate} proved", file=sys.stderr, flush=True)
    if rt.returncode != 0:
        raise Stop("".join(log) + "the tape program was not built", FAILED)


def listing_of(tape):
    """What the tape program prints. That it failed is seen by its status, and besides by what it prints."""
    read = tape[:LONGEST_TAPE + 1]  # it reads no further
    try:
        done = subprocess.run([PROGRAM], input=read, capture_output=True, check=False)
    except OSError as error:
        raise Stop(f"the tape program: {error.strerror}", FAILED) from None
    if done.returncode != 0 or done.stderr or not WHOLE.fullmatch(done.stdout):
        says = f"its status is {done.returncode}" if done.returncode else "its listing has no end"
        raise Stop(f"the tape program: {done.stderr.decode('utf-8', 'replace').strip() or says}", FAILED)
    return done.stdout


def write_output(data):
    """Writes all of it, and sees that it arrived."""
    try:
        while data:
            data = data[os.write(1, data):]
        os.close(1)
    except OSError as error:
        raise Stop(f"standard output: {error.strerror}", FAILED) from None


def check_whole(path, tape, listing):
    """That the tape was read to its end."""
    if listing == b"too long\n":
        raise Stop(f"{path}: too long: a tape has at most {LONGEST_TAPE} bytes", NOT_READ)
    place = unread(tape)
    if place is None:
        return
    number, byte, refusal = listing.splitlines()[-2].decode().split()
    left = f"{len(tape) - place} of {len(tape)} bytes, from byte {place} on, were not read"
    hint = " (is it text? --text says so)" if tape[place:place + 1].isalpha() else ""
    raise Stop(f"{path}: command {number}, {byte}: refused {refusal}, {REFUSALS[int(refusal)]}; {left}{hint}", NOT_READ)


def run(options):
    tape = tape_in(options, read_input(options.tape))
    check_checkout()
    build()
    listing = listing_of(tape)
    write_output(tape_with_meaning(tape, listing.decode("ascii")).encode("ascii") if options.with_meaning else listing)
    if options.whole:
        check_whole(options.tape, tape, listing)


def parse_arguments():
    parser = Parser(prog="tools/run", description=__doc__, epilog=STATUSES)
    parser.add_argument("tape", metavar="TAPE", help="- is standard input")
    form = parser.add_mutually_exclusive_group()
    form.add_argument("--text", dest="form", action="store_const", const="text", help="the tape is text")
    form.add_argument("--binary", dest="form", action="store_const", const="binary", help="the tape is not text")
    parser.add_argument("--with-meaning", action="store_true",
                        help="in place of the listing print the tape as text, with what each command says and what was answered")
    parser.add_argument("--whole", action="store_true", help="say so, and end with 3, where the tape was not read to its end")
    return parser.parse_args()


def main():
    signal.signal(signal.SIGPIPE, signal.SIG_DFL)  # as any other program: tools/run TAPE | head
    options = parse_arguments()
    try:
        run(options)
    except Stop as stop:
        message, status = stop.args
        print(f"tools/run: {message}", file=sys.stderr)
        return status
    except KeyboardInterrupt:
        return 130
    return 0


if __name__ == "__main__":
    sys.exit(main())
