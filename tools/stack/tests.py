"""Small pieces of code whose stack is known, as the disassembler lists them, and tables that are wrong in one thing."""
import unittest

from call_tree import Stacks
from frames import Frame
from listing import NotRead, functions, pointed_at
from table import FLOOR, Row, faults, most_active, rows


def listed(**bodies):
    """A listing: an instruction a line, each 16 bytes after the one before; ` @ ` parts it from what the linker puts there."""
    out = ""
    for name, body in bodies.items():
        out += f"0000000000000000 <{name}>:\n"
        for k, line in enumerate(body.strip().splitlines()):
            text, _, symbol = line.strip().partition(" @ ")
            out += f"  {16 * k:x}:\t{text}\n" + (f"\t\t\t{16 * k + 1:x}: R_X86_64_PLT32\t{symbol}-0x4\n" if symbol else "")
    return functions(out)


def frame(body):
    return Frame("f", listed(f=body)["f"])


def bytes_of(most=(), **bodies):
    return Stacks(listed(**bodies), dict(most)).way("f")[0]


class Frames(unittest.TestCase):
    def test_the_return_address(self):
        self.assertEqual(frame("ret").deepest, 8)

    def test_what_is_pushed_and_taken(self):
        self.assertEqual(frame("push %rbx\n sub $0x20,%rsp\n add $0x20,%rsp\n pop %rbx\n ret").deepest, 8 + 8 + 32)
        self.assertEqual(frame("lea -0x18(%rsp),%rsp\n lea 0x18(%rsp),%rsp\n ret").deepest, 8 + 24)
        self.assertEqual(frame("add $0xffffffffffffff80,%rsp\n sub $0xffffffffffffff80,%rsp\n ret").deepest, 8 + 128)

    def test_names_with_a_width(self):
        self.assertEqual(frame("pushq 0x8(%rsp)\n callq 0 <f> @ .text.g\n popq %rax\n popcnt %rax,%rax\n retq").deepest, 8 + 8)

    def test_below_the_stack_pointer(self):
        self.assertEqual(frame("mov %eax,-0x14(%rsp)\n ret").deepest, 8 + 20)
        self.assertEqual(frame("mov %eax,-0x14(%rsp,%rcx,4)\n ret").deepest, 8 + 128)
        self.assertEqual(frame("mov %eax,0x14(%rsp)\n ret").deepest, 8)

    def test_both_sides_of_a_branch(self):
        self.assertEqual(frame("je 40\n push %rax\n pop %rax\n ret\n sub $0x40,%rsp\n add $0x40,%rsp\n ret").deepest, 8 + 64)

    def test_a_frame_of_many_pages(self):
        loop = "mov %rsp,%r11\n sub $0x3000,%r11\n sub $0x1000,%rsp\n movq $0x0,(%rsp)\n cmp %r11,%rsp\n jne 20 <f+0x20>\n"
        for step in "0x1000", "0xc00":
            self.assertEqual(frame(loop.replace("0x1000", step) + "add $0x3000,%rsp\n ret").deepest, 8 + 0x3000)
        with self.assertRaises(NotRead):
            frame(loop.replace("0x1000", "0xb00") + "add $0x3000,%rsp\n ret")

    def test_a_jump_by_a_table(self):
        self.assertEqual(frame("push %rax\n jmp *%rdx\n pop %rax\n ret\n sub $0x8,%rsp\n add $0x10,%rsp\n ret").deepest, 8 + 16)

    def test_what_is_refused(self):
        for body in [
            "and $0xffffffffffffffe0,%rsp\n ret",  # the depth depends on where the stack is
            "sub %rax,%rsp\n ret",
            "mov %rax,%rsp\n ret",
            "push %rbp\n mov %rsp,%rbp\n pop %rbp\n ret",
            "leave\n ret",
            "pushw %ax\n ret",
            "lret",
            "push %rax\n ret",  # it would return to %rax
            "ret $0x8",
            "push %rax\n jmp 0 <f> @ .text.g",
            "je 20 <f+0x20>\n push %rax\n nop\n ret",  # two depths at one place
            "push %rax\n jmp 0 <f>",  # deeper in each turn
            "call *%rax\n ret",
            "call 30 <g>\n ret",
            "jmp 90 <g>",
            "ret\n push %rax\n pop %rax\n ret",  # nothing is seen to come there
            "nop",
        ]:
            with self.subTest(body), self.assertRaises(NotRead):
                frame(body)


class Trees(unittest.TestCase):
    def test_the_deepest_way(self):
        f = "push %rax\n call 0 <f> @ .text.g\n call 0 <f> @ .text.h\n pop %rax\n ret"
        self.assertEqual(bytes_of(f=f, g="ret", h="sub $0x30,%rsp\n add $0x30,%rsp\n ret"), 16 + 8 + 48)

    def test_the_last_call_takes_the_place_of_its_caller(self):
        self.assertEqual(bytes_of(f="push %rax\n pop %rax\n jmp 0 <f> @ .text.g", g="sub $0x30,%rsp\n add $0x30,%rsp\n ret"), 8 + 48)

    def test_the_c_library_counts_by_its_return_address(self):
        f = "push %rax\n call 0 <f> @ memset\n pop %rax\n ret"
        self.assertEqual(bytes_of(f=f), 16 + 8)
        self.assertEqual(Stacks(listed(f=f), {}).outside("f"), {"memset"})

    def test_a_function_that_calls_itself(self):
        f = "push %rax\n je 30 <f+0x30>\n call 0 <f>\n mov %eax,-0x8(%rsp)\n pop %rax\n ret"
        self.assertEqual(bytes_of({"f": 10}, f=f), 10 * 16 + 8)
        with self.assertRaises(NotRead):
            bytes_of(f=f)

    def test_what_is_refused(self):
        with self.assertRaises(NotRead):
            bytes_of(f="call 0 <f> @ .text.g\n ret", g="call 0 <g> @ .text.f\n ret")
        with self.assertRaises(NotRead):
            bytes_of(f="call 0 <f> @ malloc\n ret")

    def test_an_address_that_is_taken(self):
        both = listed(f="lea 0x0(%rip),%rdi @ .text.g\n ret", g="ret")
        self.assertEqual(pointed_at(both, ""), {"g"})
        both = listed(f="call 0 <f> @ .text.g\n ret", g="ret")
        self.assertEqual(pointed_at(both, ""), set())
        entry = "0000000000000000 R_X86_64_64     .text.g+0x0000000000000010\n"
        self.assertEqual(pointed_at(both, "RELOCATION RECORDS FOR [.data.x]:\n" + entry), {"g"})
        self.assertEqual(pointed_at(both, "RELOCATION RECORDS FOR [.rodata.g]:\n" + entry), set())


class Tables(unittest.TestCase):
    def setUp(self):
        self.table = {name: Row(100, True, 0, 100) for name in FLOOR}
        self.table["nuf_judge"] = Row(8544, False, 8200, 344)
        self.measured = {name: row.bytes for name, row in self.table.items()}
        self.outside = {name: set() for name in self.table}

    def wrong(self):
        return len(list(faults(self.table, self.measured, self.outside)))

    def test_all_as_it_is(self):
        self.assertEqual(self.wrong(), 0)

    def test_one_byte_more(self):
        self.measured["nuf_judge"] += 1
        self.assertEqual(self.wrong(), 1)

    def test_a_row_too_many_or_too_few(self):
        del self.measured["nuf_judge"]
        self.assertEqual(self.wrong(), 1)
        self.measured["nuf_judge"], self.measured["nuf_new"] = 8544, 8
        self.assertEqual(self.wrong(), 1)

    def test_what_does_not_fit(self):
        self.table["nuf_judge"] = Row(8544, True, 8200, 344)
        self.assertEqual(self.wrong(), 1)

    def test_a_floor_needs_nothing_outside(self):
        self.outside["nuf_drop"] = {"memset"}
        self.assertEqual(self.wrong(), 1)
        self.table["nuf_drop"] = Row(100, False, 0, 100)
        self.assertEqual(self.wrong(), 1)

    def test_a_sum_that_is_none(self):
        self.table["nuf_judge"] = Row(8544, False, 8200, 343)
        self.assertEqual(self.wrong(), 1)

    def test_what_is_read(self):
        self.assertEqual(rows("| `nuf_judge` | 8,544 | no | 8,200 | 344 | two arrays |"), {"nuf_judge": Row(8544, False, 8200, 344)})
        self.assertEqual(most_active("| `text::put_decimal` | 10 | digits |"), {"text::put_decimal": 10})
