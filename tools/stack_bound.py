"""The most stack that a call of each function of the header can use, whatever it is given, read off the machine code.

    objdump -dr --no-show-raw-insn libjoyce.a | python3 stack_bound.py HEADER MEASURED LIMIT

MEASURED is what `joyce stack` wrote. It is printed again with a second number for each function: the stacked arguments, the return
address and all below it, red zone included, along the deepest way through the code. Every jump and call is followed, so that the stack
pointer is known at every instruction; a function of another library counts with its return address alone, and is named. A fault, exit
status 1, is what cannot be followed, a number measured that is over the one read off, and one read off that is over LIMIT."""
import re
import sys

HEAD = re.compile(r"^[0-9a-f]+ <(.*)>:$")
CODE = re.compile(r"^ *([0-9a-f]+):\t(\S+) *(.*)$")
NAMED = re.compile(r"^\s+[0-9a-f]+: (R_X86_64_\w+)\s+(.*)-0x4$")
TARGET = re.compile(r"^([0-9a-f]+) <")
BELOW = re.compile(r"-0x([0-9a-f]+)\(%rsp[,)]")
ADDRESS_BYTES = 8


class Fault(Exception):
    """The code does something with the stack that this does not follow."""


class Instruction:
    """Its word, its operands, and the function that its operand names, if it names one."""

    def __init__(self, word, operands):
        if word in ("notrack", "bnd"):
            word, _, operands = operands.partition(" ")
        # Some versions of objdump say the width of what has no other.
        self.word = {"%sq" % plain: plain for plain in ("push", "pop", "call", "ret", "jmp", "leave")}.get(word, word)
        self.operands = operands.strip()
        self.names = None


def functions(text):
    """The functions by name: address to instruction, in order."""
    found, code, last = {}, None, None
    for line in text.split("\n"):
        head, row, named = HEAD.match(line), CODE.match(line), NAMED.match(line)
        if head:
            code = found.setdefault(head.group(1), {})
        elif row and code is not None:
            last = Instruction(row.group(2), row.group(3).split("#")[0].strip())
            code[int(row.group(1), 16)] = last
        elif named and last is not None and named.group(1) == "R_X86_64_PLT32":
            last.names = named.group(2).replace(".text.", "", 1) if named.group(2).startswith(".text.") else named.group(2)
    return found


def moved(name, at, instruction):
    """By how many bytes an instruction moves the stack pointer down."""
    word, operands = instruction.word, instruction.operands
    if word in ("push", "pop"):
        return ADDRESS_BYTES if word == "push" else -ADDRESS_BYTES
    number = re.match(r"^\$0x([0-9a-f]+),%rsp$", operands)
    if word in ("sub", "add") and number:
        return int(number.group(1), 16) * (1 if word == "sub" else -1)
    writes = operands.endswith(",%rsp") and word not in ("cmp", "test")
    if writes or word in ("leave", "enter") or word.startswith(("pushf", "popf")) or (word == "xchg" and "%rsp" in operands):
        raise Fault("%s+0x%x: %s %s" % (name, at, word, operands))
    return 0


def follow(name, code):
    """The depth before each instruction, by going along every jump from the first. A jump by a table may go to whatever stands
    behind a jump or a return and is not reached otherwise."""
    order = sorted(code)
    after = dict(zip(order, order[1:]))
    depth, rest, tables = {}, [(order[0], ADDRESS_BYTES)], set()
    while rest:
        at, deep = rest.pop()
        if at in depth:
            if depth[at] != deep:
                raise Fault("%s+0x%x: two depths, %d and %d" % (name, at, depth[at], deep))
        else:
            depth[at] = deep
            rest += successors(name, code, after, at, deep, tables)
        if not rest and tables:
            rest += [(a, d) for d in tables for b, a in after.items() if a not in depth and b in depth and ends(code[b])][:1]
    if any(at not in depth and not code[at].word.startswith(("nop", "int3", "data16", "cs", "xchg")) for at in order):
        raise Fault("%s: code that no jump reaches" % name)
    return depth


def ends(instruction):
    return instruction.word in ("ret", "jmp", "ud2")


def successors(name, code, after, at, deep, tables):
    """Where the code goes on from an instruction, and how deep the stack is there."""
    instruction = code[at]
    if instruction.word == "ret":
        if deep != ADDRESS_BYTES or instruction.operands:
            raise Fault("%s+0x%x: returns at depth %d" % (name, at, deep))
        return []
    if instruction.word == "ud2":
        return []
    next_ = deep + moved(name, at, instruction)
    if not instruction.word.startswith("j"):
        return [(after[at], next_)]
    target = TARGET.match(instruction.operands)
    found = [] if instruction.word == "jmp" else [(after[at], next_)]
    if instruction.operands.startswith("*"):
        tables.add(deep)
        if len(tables) > 1:
            raise Fault("%s: tables of jumps at two depths" % name)
    elif instruction.names is None:
        if not target or int(target.group(1), 16) not in code:
            raise Fault("%s+0x%x: %s %s" % (name, at, instruction.word, instruction.operands))
        found.append((int(target.group(1), 16), next_))
    elif instruction.word != "jmp" or deep != ADDRESS_BYTES:
        raise Fault("%s+0x%x: jumps to %s" % (name, at, instruction.names))
    return found


class Library:
    """The bounds of a library's functions, each worked out once, and the functions of other libraries that they call."""

    def __init__(self, text):
        self.functions = functions(text)
        self.bounds = {}
        self.others = set()
        self.open = []

    def bound(self, name):
        if name in self.bounds:
            return self.bounds[name]
        if name not in self.functions:
            self.others.add(name)
            return ADDRESS_BYTES
        if name in self.open:
            raise Fault("%s calls itself" % name)
        self.open.append(name)
        code, most = self.functions[name], 0
        for at, deep in follow(name, code).items():
            most = max(most, deep + moved(name, at, code[at]), deep + self.below(code[at]), self.called(name, at, code[at], deep))
        self.open.pop()
        self.bounds[name] = most
        return most

    @staticmethod
    def below(instruction):
        """How far below the stack pointer an instruction reaches (the red zone)."""
        return max([int(number, 16) for number in BELOW.findall(instruction.operands)] or [0])

    def called(self, name, at, instruction, deep):
        """How deep a call or a last jump to another function goes."""
        if instruction.word == "call" and instruction.names is None:
            raise Fault("%s+0x%x: call %s" % (name, at, instruction.operands))
        if instruction.names is None:
            return 0
        return deep - (0 if instruction.word == "call" else ADDRESS_BYTES) + self.bound(instruction.names)


def prototypes(header):
    """The functions of the header and how many parameters each has."""
    text = re.sub(r"/\*.*?\*/", " ", header, flags=re.S)
    found = re.findall(r"^u?int\d+_t (joyce_\w+)\(([^()]*)\);", text, re.M)
    return {name: 0 if list_.strip() == "void" else list_.count(",") + 1 for name, list_ in found}


def measured(text):
    """What was measured, by function."""
    return {name: int(used) for name, used in re.findall(r"^(joyce_\w+) +(\d+)", text, re.M)}


def table(text, bounds):
    """What was measured, with the second number behind each function's own."""
    lines = []
    for line in text.split("\n"):
        name = line.split(" ")[0]
        lines.append("%s%8d" % (line, bounds[name]) if name in bounds else line)
    return "\n".join(lines)


def faults(used, bounds, limit):
    for name in sorted(set(used) ^ set(bounds)):
        yield "%s is %s" % (name, "not in the header" if name in used else "not measured")
    for name in set(used) & set(bounds):
        if used[name] > bounds[name]:
            yield "%s: %d bytes measured, %d read off" % (name, used[name], bounds[name])
    for name, bound in bounds.items():
        if bound > limit:
            yield "%s: %d bytes, over %d" % (name, bound, limit)


def main(header, text, limit, code):
    library = Library(code)
    bounds = {}
    try:
        for name, parameters in prototypes(header).items():
            if name not in library.functions:
                raise Fault("there is no function %s" % name)
            # The first six arguments are passed in registers.
            bounds[name] = ADDRESS_BYTES * max(0, parameters - 6) + library.bound(name)
    except Fault as fault:
        print("stack_bound: not followed: %s" % fault, file=sys.stderr)
        return 1
    print(table(text.rstrip("\n"), bounds))
    print("second number: the most along any way through the code; with the return address alone: %s" % (", ".join(sorted(library.others)) or "nothing"))
    found = list(faults(measured(text), bounds, limit))
    for fault in found:
        print("stack_bound: %s" % fault, file=sys.stderr)
    return 1 if found else 0


if __name__ == "__main__":
    with open(sys.argv[1], encoding="utf-8") as header, open(sys.argv[2], encoding="utf-8") as text:
        sys.exit(main(header.read(), text.read(), int(sys.argv[3]), sys.stdin.read()))
