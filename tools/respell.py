#!/usr/bin/env python3
"""respell.py [ROOT]: brings the definitions and lemmas of this repository to today's spelling, after the toolchain's own script has run.

Every name in camel case from a small letter that a file of specs/ or proofs/ defines is written in snake case: sameNode is same_node. Types,
facts and modules keep their capitals, and a dash still joins the names in a lemma's name. A name is respelled wherever it stands: in specs/,
proofs/ and the clauses of src/, in the text of must-fail edits, and where a page or a comment has it between backticks. Functions of src/
keep their names. Names that would fall together are spelled apart by the tables below; if others would, they are listed, and nothing is
written.
"""
import collections
import pathlib
import re
import sys

ROOT = pathlib.Path(sys.argv[1] if len(sys.argv) > 1 else ".").resolve()
TOKEN = re.compile(r"[^\s(){};,.\"«»`]+")
HEAD = re.compile(r"^\s*(?:(?:abbrev|unfoldable|pub)\s+)*((?:[^\s(){};,.\"«»]+\s+)+):\s")
NAMED = re.compile(r"^\s*(?:pub\s+)?(?:ruleset|data|record)\s+(?:pub\s+)?([^\s(){}]+)")
CAMEL = re.compile(r"^[a-z][\w'-]*$")
HUMP = re.compile(r"(?<=[a-z0-9'])([A-Z])")

# would fall together with a field of src/, or with a function of src/ that proofs name
BY_HAND = {"nodeCount": "count_of_nodes", "channelCount": "count_of_channels", "oneMore": "next_count"}
# Lemmas and fields that the toolchain's script wrote in snake case, and that definitions in camel case would fall together with: they get
# their dash back.
DASHED = """entry_in from_end gives_back in_buffer in_place laid_out last_line no_record not_done one_each one_way take_back taken_in told_in
too_long turns_down""".split()
# Definitions with the name of the function of src/ whose result they say. A clause cannot name a function, so the two never meet.
AS_FUNCTION = """action_of add_channel add_node after_start all_right batch_no before_start blank_at_end cells_good cells_in_use command_of
count_good delivery_in fields_in figures_in figures_of hex_digit hops_in hops_left hops_of in_count in_tenths is_moving is_refusal leave_line
mark_after mark_left mark_row name_cells_good next_node no_figures none_twice note_good numbers_in on_the_way record_at record_in record_of
record_with records_in refusal_in rounds_in row_after row_with same_batch send_code slot_count tasks_in to_close to_note to_tell turn_ring
turn_table turned_cell turned_record turned_row waiting_in waiting_set batch_in batch_or_none begin_with found_in ring_in""".split()


def snake(name):
    return HUMP.sub(lambda hump: "_" + hump.group(1), name).lower()


def antt_files():
    return sorted(path for part in ("specs", "proofs") for path in ROOT.glob(f"crates/*/{part}/**/*.antt"))


def code_of(line):
    """a line of antt without its comment"""
    return re.split(r"(?:^|\s)--(?:\s|$)", line, maxsplit=1)[0]


def defined():
    names = set()
    for path in antt_files():
        for line in map(code_of, path.read_text().splitlines()):
            if line.lstrip().startswith(("use ", "pub use ", "let ", "mod ", "pub mod ")):
                continue
            named, head = NAMED.match(line), HEAD.match(line)
            if named:
                names.add(named.group(1))
            elif head:
                names.update(head.group(1).split())
    return {name for name in names if CAMEL.match(name) and HUMP.search(name)}


def spellings():
    mapping = {name: BY_HAND.get(name, snake(name)) for name in defined()}
    standing = collections.Counter()
    for path in antt_files():
        for line in path.read_text().splitlines():
            standing.update(TOKEN.findall(code_of(line)))
    for path in ROOT.glob("crates/*/src/**/*.rt"):
        standing.update(TOKEN.findall(path.read_text()))
    for name in DASHED + AS_FUNCTION:
        standing.pop(name, None)
    back = collections.defaultdict(set)
    for old, new in mapping.items():
        back[new].add(old)
    clashes = [(new, olds) for new, olds in sorted(back.items()) if len(olds) > 1 or new in standing]
    for new, olds in clashes:
        print(f"falls together: {new} <- {', '.join(sorted(olds))}; stands {standing[new]} times")
    if clashes:
        sys.exit(1)
    return mapping


def main():
    mapping = spellings()
    dashed = mapping | {name: name.replace("_", "-") for name in DASHED}

    def respell(text, names=mapping):
        return TOKEN.sub(lambda token: names.get(token.group(0), token.group(0)), text)

    def ticked(text):
        return re.sub(r"`[^`\n]+`", lambda tick: respell(tick.group(0)), text)

    def antt(line):
        code = code_of(line)
        return respell(code, dashed) + ticked(line[len(code) :])

    def rattle(line):
        return ticked(line) if line.lstrip().startswith("//") else respell(line)

    kinds = [(path, antt) for path in antt_files()]
    kinds += [(path, rattle) for pattern in ("src/**/*.rt", "must-fail/*.edit") for path in ROOT.glob(f"crates/*/{pattern}")]
    kinds += [(path, ticked) for pattern in ("*.md", "docs/**/*.md") for path in ROOT.glob(pattern)]
    changed = 0
    for path, how in kinds:
        text = path.read_text()
        new = "\n".join(map(how, text.split("\n")))
        if new != text:
            path.write_text(new)
            changed += 1
    print(f"{len(mapping)} names, {changed} files")


main()
