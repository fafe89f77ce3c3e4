#!/usr/bin/env python3
"""rt ci 2>&1 | .ci/follow.py LOG: says of each crate and each must-fail edit, as it ends, how it ended and which of how many it is.

All that comes in goes to LOG. After it come the notes on whatever failed, and the edits of one crate that were first refused at the same
place: two such edits may show one fact. rt's last line, its count, is left to the caller."""
import collections
import pathlib
import re
import sys

ROOT = pathlib.Path(__file__).resolve().parent.parent
TAIL = 40  # lines of notes that are shown of what failed

COUNT = re.compile(r"\d+ passed, \d+ failed$")
CRATE = re.compile(r"rt: (\w+) ((?:proved|NOT PROVED|is kept)\b(?!, and its run).*)$")
EDIT = re.compile(r"rt: must-fail (\w+)/(\S+?)(?:\.edit)?: (.*)$")
REFUSED = re.compile(r"refused, as it must be(?:: (?:note: )?(?:\./)?(\S+?:\d+:\d+): .*)?$")


def listed_crates():
    lines = (line.split("#")[0] for line in (ROOT / "crates.txt").read_text().splitlines())
    return [line.split(":")[0].split()[0] for line in lines if line.strip()]


class Follower:
    def __init__(self, log):
        self.log = log
        self.lines = pathlib.Path(log.name).read_bytes().count(b"\n")
        crates = listed_crates()
        self.crates = len(crates)
        self.edits = sum(len(list((ROOT / "crates" / crate / "must-fail").glob("*.edit"))) for crate in crates)
        self.crates_ended = self.edits_ended = 0
        self.notes = collections.deque(maxlen=TAIL)  # since rt's last line
        self.failures = []  # what rt said, and the notes on it
        self.notes_follow = None  # the failure whose notes come after rt's line
        self.places = collections.defaultdict(list)

    def take(self, raw):
        self.log.write(raw)
        self.log.flush()
        self.lines += 1
        line = raw.decode("utf-8", "replace").rstrip("\n")
        if line.startswith("rt: "):
            self.notes_follow = None
            self.told(line)
            self.notes.clear()
        elif COUNT.match(line):
            pass
        elif self.notes_follow is not None:
            self.notes_follow.append(line)
        else:
            self.notes.append(line)

    def told(self, line):
        edit, crate = EDIT.match(line), CRATE.match(line)
        if edit:
            self.edits_ended += 1
            name, label, end = edit.groups()
            refused = REFUSED.match(end)
            if refused and refused[1]:
                self.places[name, refused[1]].append(label)
            how = "refused" if refused else end
            say(f"edit {self.edits_ended} of {self.edits}: {name}/{label} {how}")
            if not refused:
                notes = self.failed(line)
                self.notes_follow = notes if end.endswith(":") else None
        elif crate:
            self.crates_ended += 1
            say(f"crate {self.crates_ended} of {self.crates}: {crate[1]} {crate[2]}")
            if crate[2].startswith("NOT"):
                self.failed(line)
        else:
            # A program's run, a file in no crate, what failed in all, a fault of rt.
            say(line[len("rt: "):])
            if self.notes:
                self.failed(line)

    def failed(self, line):
        """Keeps what was noted before rt's line; what comes after it may be put behind."""
        self.failures.append((line, self.lines, list(self.notes)))
        return self.failures[-1][2]

    def end(self):
        for line, at, notes in self.failures:
            if notes:
                say(f"-- {line[len('rt: '):]} (line {at} of {self.log.name})")
                say("\n".join(notes[:TAIL]))
        for (crate, place), labels in self.places.items():
            if len(labels) > 1:
                say(f"first refused at one place, {crate}/{place}: {', '.join(labels)}")


def say(text):
    print(text, flush=True)


def main():
    if len(sys.argv) != 2:
        sys.exit(__doc__.split(":")[0])
    with open(sys.argv[1], "ab") as log:
        follower = Follower(log)
        for raw in sys.stdin.buffer:
            follower.take(raw)
        follower.end()


if __name__ == "__main__":
    main()
