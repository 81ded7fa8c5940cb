"""Tests of stack_bound.py on small pieces of machine code, as objdump writes it."""
import contextlib
import io
import unittest

import stack_bound

HEADER = """/* uint8_t joyce_no(void); */
uint64_t joyce_a(void);
uint32_t joyce_b(uint8_t a, uint8_t b, uint8_t c, uint8_t d,
                 uint8_t e, uint8_t f, uint8_t g, uint8_t h);
static inline int joyce_c(uint64_t reply) { return (int)reply; }
"""


def code(name, *instructions):
    """A function whose instructions are one byte each. `@4` is its instruction 4; a name behind `>` is what the linker puts in."""
    lines = ["%016x <%s>:" % (0, name)]
    for at, text in enumerate(instructions):
        text, _, named = text.partition(" > ")
        word, _, operands = text.partition(" ")
        if operands.startswith("@"):
            operands = "%s <%s+0x%s>" % (operands[1:], name, operands[1:])
        lines.append("%4x:\t%-6s %s" % (at, word, operands))
        if named:
            lines.append("\t\t\t%x: R_X86_64_PLT32\t%s-0x4" % (at, named))
    return "\n".join(lines) + "\n"


LEAF = ("push %rbx", "sub $0x20,%rsp", "mov %rax,-0x10(%rsp)", "add $0x20,%rsp", "pop %rbx", "ret")


class StackBound(unittest.TestCase):
    def bound(self, *functions):
        return stack_bound.Library("".join(functions)).bound("f")

    def refused(self, what, *functions):
        with self.assertRaises(stack_bound.Fault) as caught:
            self.bound(*functions)
        self.assertIn(what, str(caught.exception))

    def test_frame(self):
        self.assertEqual(self.bound(code("f", "ret")), 8)
        self.assertEqual(self.bound(code("f", "push %rbx", "pop %rbx", "ret")), 16)
        self.assertEqual(self.bound(code("f", *LEAF)), 8 + 8 + 32 + 16)
        self.assertEqual(self.bound(code("f", "pushq %rbx", "popcnt %rax,%rcx", "mov %rsp,%rax", "cmp %rax,%rsp", "popq %rbx", "retq")), 16)

    def test_red_zone(self):
        self.assertEqual(self.bound(code("f", "mov %al,-0x80(%rsp,%rcx,1)", "ret")), 8 + 128)
        self.assertEqual(self.bound(code("f", "mov 0x18(%rsp),%rax", "ret")), 8)

    def test_calls(self):
        self.assertEqual(self.bound(code("f", "push %rax", "call 5 > .text.g", "pop %rax", "ret"), code("g", *LEAF)), 16 + 64)
        self.assertEqual(self.bound(code("f", "push %rax", "call 5 > memset", "pop %rax", "ret")), 16 + 8)
        # A last jump leaves its own return address to the other.
        self.assertEqual(self.bound(code("f", "jmp 5 > .text.g"), code("g", *LEAF)), 64)

    def test_the_deepest_way(self):
        deep = ("test %al,%al", "je @4", "push %rax", "jmp @6", "sub $0x100,%rsp", "jmp @8", "pop %rax", "ret", "add $0x100,%rsp", "ret")
        self.assertEqual(self.bound(code("f", *deep)), 8 + 256)

    def test_table_of_jumps(self):
        for jump in ("jmp *%rax", "notrack jmp *%rax"):
            ways = ("push %rbx", jump, "call 9 > .text.g", "jmp @5", "nop", "pop %rbx", "ret")
            self.assertEqual(self.bound(code("f", *ways), code("g", *LEAF)), 16 + 64)

    def test_not_followed(self):
        self.refused("sub %rax,%rsp", code("f", "sub %rax,%rsp", "ret"))
        self.refused("and $0xffffffffffffffe0,%rsp", code("f", "and $0xffffffffffffffe0,%rsp", "ret"))
        self.refused("returns at depth 16", code("f", "push %rax", "ret"))
        self.refused("returns at", code("f", "ret $0x8"))
        for moving in ("leave", "mov %rbp,%rsp", "lea 0x8(%rsp),%rsp", "xchg %rsp,%rax", "pushfq", "enter $0x10,$0x0"):
            self.refused(moving, code("f", moving, "ret"))
        self.refused("two depths", code("f", "push %rax", "jmp @0"))
        self.refused("calls itself", code("f", "push %rax", "call 0 > .text.f", "pop %rax", "ret"))
        self.refused("call *%rax", code("f", "push %rax", "call *%rax", "pop %rax", "ret"))
        self.refused("no jump reaches", code("f", "ret", "mov %eax,%eax", "ret"))
        self.refused("jmp", code("f", "jmp 9 <g>"))

    def run_on(self, measured, *functions, limit=1024):
        out = io.StringIO()
        with contextlib.redirect_stdout(out), contextlib.redirect_stderr(out):
            status = stack_bound.main(HEADER, measured, limit, "".join(functions))
        return status, out.getvalue()

    def test_beside_what_was_measured(self):
        both = (code("joyce_a", *LEAF), code("joyce_b", "ret"))
        status, out = self.run_on("bytes\njoyce_a   60\n  read    3\njoyce_b   24\n", *both)
        self.assertEqual((status, out.split("\n")[1:4]), (0, ["joyce_a   60      64", "  read    3", "joyce_b   24      24"]), out)
        for measured, limit, what in (
            ("joyce_a   65\njoyce_b   24\n", 1024, "joyce_a: 65 bytes measured, 64 read off"),
            ("joyce_a   64\n", 1024, "joyce_b is not measured"),
            ("joyce_a   64\njoyce_b   24\njoyce_c   8\n", 1024, "joyce_c is not in the header"),
            ("joyce_a   64\njoyce_b   24\n", 63, "joyce_a: 64 bytes, over 63"),
        ):
            status, out = self.run_on(measured, *both, limit=limit)
            self.assertEqual(status, 1, out)
            self.assertIn(what, out)
        status, out = self.run_on("joyce_a   64\njoyce_b   24\n", both[0])
        self.assertEqual(status, 1)
        self.assertIn("there is no function joyce_b", out)


if __name__ == "__main__":
    unittest.main()
