#!/usr/bin/env python3
"""How much stack each call of the library takes: tools/stack.py [LIBRARY]

The bound is worked out from the compiled code, by `objdump -d`: every frame is static, no function is called by pointer, and of one
that calls itself the source would have to say how often (`NESTED`). A function's depth is followed over its pushes and its changes of %rsp; at a call come the
return address and what the callee takes. So the bound holds for every value, on whichever path. Counted is what lies below the caller's
frame, the return address first; the answer's struct and a record handed over by value are the caller's own. memcpy, memmove and memset
count with their return address alone: what they take besides is the C library's.

Exit status: 0 no call takes more than the header says (VESSEL_STACK and VESSEL_STACK_TURNING); 1 one does, or the code is not understood, or
there is no library; 2 wrong usage.
"""
import pathlib
import re
import subprocess
import sys

ROOT = pathlib.Path(__file__).resolve().parent.parent
LIBRARY = ROOT / "crates/vessel_ring/out/libvessel_ring.a"
HEADER = ROOT / "include/vessel_ring.h"
# what the header says of the call that it names; of any other it says VESSEL_STACK
LIMITS = {"vessel_ring_to_hundredths": "VESSEL_STACK_TURNING"}
OUTSIDE = {"memcpy", "memmove", "memset"}
NESTED = {}  # the functions that call themselves, and how often at most by the source: none
WORD = 8

FUNCTION = re.compile(r"^[0-9a-f]+ <(.+)>:$")
INSTRUCTION = re.compile(r"^ *([0-9a-f]+):\t(\S+) *(.*?) *(?:#.*)?$")
RELOCATION = re.compile(r"^\t+[0-9a-f]+: R_X86_64_(?:PLT32|PC32)\t(?:\.text\.)?(.+?)(?:[-+]0x[0-9a-f]+)?$")
TARGET = re.compile(r"^([0-9a-f]+) <")
WHOLE = re.compile(r"^[0-9a-f]+ <([^+]+)>$")  # the beginning of a function in the same file
WIDE = re.compile(r"^(call|ret|jmp|push|pop|leave)q$")  # as an older objdump has them
BELOW = re.compile(r"-0x([0-9a-f]+)\(%rsp")
CONSTANT = re.compile(r"^\$(-?)0x([0-9a-f]+),%rsp$")
PLACE = re.compile(r"^(-?)0x([0-9a-f]+)\(%rsp\),%rsp$")


class NotUnderstood(Exception):
    pass


def functions(listing):
    """The instructions of each function: [address, operation, operands, the function that it leads to or None]."""
    found, code = {}, []
    for line in listing.splitlines():
        if match := FUNCTION.match(line):
            code = found.setdefault(match[1], [])
        elif match := INSTRUCTION.match(line):
            operation = WIDE.sub(r"\1", match[2])
            itself = WHOLE.match(match[3]) if operation == "call" else None
            code.append([int(match[1], 16), operation, match[3], itself and itself[1]])
        elif (match := RELOCATION.match(line)) and code and (code[-1][1] == "call" or code[-1][1].startswith("j")):
            code[-1][3] = match[1]
    return found


def signed(match):
    number = int(match[2], 16)
    return -number if match[1] else number


def deepened(operation, operands):
    """By how much an instruction takes %rsp down."""
    if operation == "push":
        return WORD
    if operation == "pop":
        return -WORD
    if operation != "leave" and (not operands.endswith(",%rsp") or operation in ("cmp", "test")):
        return 0
    if operation in ("sub", "add") and (match := CONSTANT.match(operands)):
        return signed(match) if operation == "sub" else -signed(match)
    if operation == "lea" and (match := PLACE.match(operands)):
        return -signed(match)
    raise NotUnderstood(f"{operation} {operands}")


def below(operands):
    """How far below %rsp an operand lies."""
    match = BELOW.search(operands)
    return int(match[1], 16) if match else 0


def after(place, instruction, places):
    """The places in a function that may come after an instruction; None for a jump through a table."""
    _, operation, operands, callee = instruction
    if operation in ("ret", "ud2") or (operation == "jmp" and callee is not None):
        return []
    if operation == "jmp" and operands.startswith("*"):
        return None
    if not operation.startswith("j"):
        return [place + 1]
    target = [] if callee is not None else [places[int(TARGET.match(operands)[1], 16)]]
    return target if operation == "jmp" else target + [place + 1]


def is_padding(instruction):
    return "nop" in instruction[1] + instruction[2] or instruction[1:3] == ["xchg", "%ax,%ax"]


def not_reached(code, found):
    """The first place that no step led to, padding apart."""
    return [place for place in range(len(code)) if place not in found and not is_padding(code[place])][:1]


def depths(code):
    """The depth before each instruction of a function, by its place. What no step and no other jump leads to is reached by the jump through
    a table, and has its depth."""
    places = {instruction[0]: place for place, instruction in enumerate(code)}
    found, to_do, at_table = {}, [(0, 0)], None
    while to_do:
        place, depth = to_do.pop()
        if found.setdefault(place, depth) != depth:
            raise NotUnderstood(f"two depths at {code[place][0]:x}")
        if code[place][1] == "ret" and depth != 0:
            raise NotUnderstood(f"a return with {depth} bytes left")
        following = after(place, code[place], places)
        if following is None:
            at_table, following = depth, []
        depth += deepened(code[place][1], code[place][2])
        to_do += [(other, depth) for other in following if found.get(other) != depth]
        if not to_do and at_table is not None:
            to_do = [(other, at_table) for other in not_reached(code, found)]
    if not_reached(code, found):
        raise NotUnderstood("code that nothing leads to")
    return found


def walked(code):
    """The deepest place that a function touches itself, and its calls: (depth, callee)."""
    deepest, calls = 0, []
    for place, depth in depths(code).items():
        _, operation, operands, callee = code[place]
        deepest = max(deepest, depth + max(below(operands), deepened(operation, operands)))
        if callee is not None:
            calls.append((depth + (WORD if operation == "call" else 0), callee))
        elif operation == "call":
            raise NotUnderstood(f"call {operands}")
    return deepest, calls


def bound(name, code, under_way=()):
    """What a call of a function takes below its return address."""
    if name in OUTSIDE:
        return 0
    if name in under_way or name not in code:
        raise NotUnderstood(f"a call of {name}")
    try:
        deepest, calls = walked(code[name])
    except NotUnderstood as what:
        raise NotUnderstood(f"{name}: {what}") from None
    within = [depth for depth, callee in calls if callee == name]
    if within and name not in NESTED:
        raise NotUnderstood(f"{name} calls itself")
    last = max([deepest] + [depth + bound(callee, code, (*under_way, name)) for depth, callee in calls if callee != name])
    return (NESTED[name] - 1) * max(within) + last if within else last


def exported(listing):
    """The calls of a library, and what each takes with its return address."""
    code = functions(listing)
    return {name: WORD + bound(name, code) for name in sorted(code) if name.startswith("vessel_")}


def exceeded(takes, header):
    """The calls that take more than the header says."""
    says = {name: int(number) for name, number in re.findall(r"#define (VESSEL_STACK\w*) (\d+)", header)}
    limits = {name: LIMITS.get(name, "VESSEL_STACK") for name in takes}
    return [f"{name} takes {takes[name]}: more than {limits[name]}" for name in takes if takes[name] > says[limits[name]]]


def disassembled(library):
    """What objdump prints of a library; one line and an end where there is none that it reads."""
    if not pathlib.Path(library).is_file():
        sys.exit(f"tools/stack.py: {library}: there is no such library (tools/library builds it)")
    command = ["objdump", "-dr", "--no-show-raw-insn", library]
    try:
        read = subprocess.run(command, stdout=subprocess.PIPE, stderr=subprocess.DEVNULL, universal_newlines=True)
    except FileNotFoundError:
        sys.exit("tools/stack.py: objdump is not on the PATH")
    if read.returncode:
        sys.exit(f"tools/stack.py: {library}: objdump does not read it")
    return read.stdout


def main(arguments):
    if arguments[:1] in (["-h"], ["--help"]):
        print(__doc__.strip())
        return
    if len(arguments) > 1:
        print("tools/stack.py: takes one library at most (tools/stack.py --help has the usage)", file=sys.stderr)
        sys.exit(2)
    library = arguments[0] if arguments else str(LIBRARY)
    takes = exported(disassembled(library))
    for name in takes:
        print(name, takes[name])
    if not takes:
        sys.exit(f"tools/stack.py: {library}: has no call of the vessel ring")
    wrong = exceeded(takes, HEADER.read_text())
    sys.exit("\n".join(wrong) if wrong else 0)


if __name__ == "__main__":
    try:
        main(sys.argv[1:])
    except NotUnderstood as what:
        sys.exit(f"tools/stack.py: not understood: {what}")
