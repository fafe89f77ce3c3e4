#!/usr/bin/env python3
"""Tests of tools/stack.py, on functions written as objdump prints them."""
import pathlib
import subprocess
import sys
import unittest
import unittest.mock

import stack

TOOL = pathlib.Path(stack.__file__)


def listing(**functions):
    """Each function's lines, one byte wide: an instruction, and behind ` -> ` where its relocation leads."""
    text = []
    for name, lines in functions.items():
        text.append(f"0000000000000000 <{name}>:")
        for address, line in enumerate(lines):
            operation, _, callee = line.partition(" -> ")
            text.append(f" {address:x}:\t{operation}")
            text += [f"\t\t\t{address:x}: R_X86_64_PLT32\t{callee}-0x4"] if callee else []
    return "\n".join(text)


LEAF = ["mov    %rdi,-0x18(%rsp)", "ret"]
FRAME = ["push   %rbx", "sub    $0x20,%rsp", "call   5 <f+0x5> -> leaf", "add    $0x20,%rsp", "pop    %rbx", "ret"]


class Bounds(unittest.TestCase):
    def takes(self, lines, **others):
        return stack.exported(listing(vessel_f=lines, **others))["vessel_f"]

    def test_a_leaf_counts_what_it_touches_below(self):
        self.assertEqual(self.takes(LEAF), 8 + 0x18)

    def test_a_call_adds_the_return_address_and_the_callee(self):
        self.assertEqual(self.takes(FRAME, leaf=LEAF), 8 + 8 + 0x20 + 8 + 0x18)

    def test_the_section_of_a_callee_names_it(self):
        self.assertEqual(self.takes([FRAME[0], "call   5 <f> -> .text.leaf", "pop    %rbx", "ret"], leaf=LEAF), 8 + 8 + 8 + 0x18)

    def test_the_names_of_an_older_objdump(self):
        self.assertEqual(self.takes(["pushq  $0x1", "callq  5 <f> -> leaf", "popq   %rbx", "retq"], leaf=LEAF), 8 + 8 + 8 + 0x18)

    def test_the_deeper_of_two_calls_counts(self):
        lines = ["call   1 <f> -> leaf", "sub    $0x100,%rsp", "call   3 <f> -> memcpy", "add    $0x100,%rsp", "ret"]
        self.assertEqual(self.takes(lines, leaf=LEAF), 8 + 0x100 + 8)

    def test_a_tail_call_has_no_return_address_of_its_own(self):
        self.assertEqual(self.takes(["jmp    5 <f+0x5> -> leaf"], leaf=LEAF), 8 + 0x18)

    def test_a_loop_entered_in_its_middle(self):
        lines = ["push   %rbx", "jmp    3 <f+0x3>", "inc    %rax", "call   4 <f> -> leaf", "jne    2 <f+0x2>", "pop    %rbx", "ret"]
        self.assertEqual(self.takes(lines, leaf=LEAF), 8 + 8 + 8 + 0x18)

    def test_behind_a_table_of_jumps_the_depth_is_that_of_the_jump(self):
        lines = ["push   %rbx", "jmp    *%rax", "call   3 <f> -> leaf", "pop    %rbx", "ret", "xchg   %ax,%ax"]
        self.assertEqual(self.takes(lines, leaf=LEAF), 8 + 8 + 8 + 0x18)

    def test_a_function_that_calls_itself_so_often(self):
        lines = ["push   %rbx", "call   0 <text::push_decimal>", "pop    %rbx", "ret"]
        with unittest.mock.patch.dict(stack.NESTED, {"text::push_decimal": 10}):
            self.assertEqual(self.takes(["jmp    1 <f> -> text::push_decimal"], **{"text::push_decimal": lines}), 8 + 9 * 16 + 8)


class Refused(unittest.TestCase):
    def refuses(self, *lines, **others):
        with self.assertRaises(stack.NotUnderstood):
            stack.exported(listing(vessel_f=list(lines), **others))

    def test_a_frame_that_is_not_static(self):
        self.refuses("sub    %rax,%rsp", "ret")
        self.refuses("push   %rbp", "leave", "ret")

    def test_a_frame_that_is_not_given_back(self):
        self.refuses("push   %rbx", "ret")

    def test_a_call_by_pointer(self):
        self.refuses("call   *%rax", "ret")

    def test_a_function_that_is_not_there(self):
        self.refuses("call   1 <f> -> printf", "ret")

    def test_functions_that_call_one_another(self):
        self.refuses("call   1 <f> -> leaf", "ret", leaf=["call   1 <leaf> -> vessel_f", "ret"])
        self.refuses("call   0 <vessel_f>", "ret")

    def test_two_depths_at_one_place(self):
        self.refuses("je     2 <f+0x2>", "push   %rbx", "ret")

    def test_code_that_nothing_leads_to(self):
        self.refuses("ret", "inc    %rax")


class Limits(unittest.TestCase):
    HEADER = "#define VESSEL_STACK 200 /* .. */\n#define VESSEL_STACK_TURNING 300\n"

    def test_each_call_is_held_to_what_the_header_says_of_it(self):
        fits = {"vessel_ring_enter": 200, "vessel_ring_list": 200, "vessel_ring_to_hundredths": 300}
        self.assertEqual(stack.exceeded(fits, self.HEADER), [])
        for name in fits:
            self.assertEqual(len(stack.exceeded({**fits, name: fits[name] + 1}, self.HEADER)), 1)


class Uses(unittest.TestCase):
    """Each wrong use is told in one line, with a status."""

    def told(self, *arguments):
        run = subprocess.run([sys.executable, str(TOOL), *arguments], stdout=subprocess.PIPE, stderr=subprocess.PIPE, encoding="utf-8")
        return run.returncode, run.stdout, run.stderr.splitlines()

    def test_a_library_that_is_not_there(self):
        status, out, err = self.told("no such library")
        self.assertEqual((status, out, len(err)), (1, "", 1))
        self.assertIn("there is no such library", err[0])

    def test_a_file_that_is_no_library(self):
        status, out, err = self.told(str(TOOL))
        self.assertEqual((status, out, len(err)), (1, "", 1))

    def test_two_libraries(self):
        status, out, err = self.told("a", "b")
        self.assertEqual((status, out, len(err)), (2, "", 1))

    def test_help(self):
        status, out, err = self.told("--help")
        self.assertEqual((status, err), (0, []))
        self.assertIn("tools/stack.py [LIBRARY]", out)


if __name__ == "__main__":
    unittest.main()
