"""The rules of document 01 as changed by document 02, written from the papers: nothing here calls the library or looks at
its code.

Where our words differ from the paper's: a dirty line is a noted one, a port is a channel, forwarded is passed on, Board is
the record, Reference the slate; table, top and control are F5, F6 and F7."""
from collections import namedtuple
from dataclasses import dataclass, replace

BLOCK = 16384
STANDARD = 8 * BLOCK
LINE_BYTES = 90
BOOT_MAX = 1024


# ---------------------------------------------------------------- the record
def allowed(internal, total):
    return internal in (8, 16, 32) and internal <= total <= 128


def shown_count(rate):
    return {50: 256, 60: 200}.get(rate, 0)


def frame_scans(rate):
    return 312 if rate == 50 else 260


@dataclass(frozen=True)
class Board:
    """Flags are 0 or 1; the route is 0 none, 1 NMI, 2 INT; dirty is a set of lines."""
    internal: int = 0
    total: int = 0
    rate: int = 0
    maps: tuple = (0, 0, 0, 0)
    lock: int = 0
    table: int = 0
    top: int = 0
    control: int = 0
    counter: int = 0
    beam: int = 0
    boot_mode: int = 0
    boot_at: int = 0
    route: int = 0
    disc_line: int = 0
    terminal_count: int = 0
    motor: int = 0
    external: int = 0
    driven: int = 0
    bleeper: int = 0
    dirty: frozenset = frozenset()


def power_on(internal, total, rate, maps, lock, table, top):
    """The record and the refusal."""
    if not allowed(internal, total) or rate not in (50, 60):
        return Board(), 6
    return Board(internal=internal, total=total, rate=rate, maps=tuple(maps), lock=lock, table=table, top=top, boot_mode=1,
                 terminal_count=1, driven=1, dirty=frozenset(range(shown_count(rate)))), 0


def is_good(b):
    flags = (b.boot_mode, b.disc_line, b.terminal_count, b.motor, b.external, b.driven, b.bleeper)
    return (allowed(b.internal, b.total) and b.rate in (50, 60) and b.counter <= 15 and b.beam < frame_scans(b.rate)
            and b.boot_at <= BOOT_MAX and b.route in (0, 1, 2) and all(flag in (0, 1) for flag in flags)
            and all(line < shown_count(b.rate) for line in b.dirty) and not (b.route == 1 and b.disc_line == 1))


# ---------------------------------------------------------------- memory
LOCK_BIT = {3: 0x80, 0: 0x40, 2: 0x20, 1: 0x10}


def access_indexes(internal, total, maps, lock, address):
    """The indexes of the RAM that a read and a write of an address reach."""
    bank, place = divmod(address, BLOCK)
    m = maps[bank]
    if m & 0x80:
        e = m % 128
        read = write = e if e < total else e % internal
    else:
        write = m % 8
        read = write if lock & LOCK_BIT[bank] else m // 16 % 8
    return read * BLOCK + place, write * BLOCK + place


def keyboard_index(offset):
    return 3 * BLOCK + 0x3FF0 + offset


# ---------------------------------------------------------------- scan lines
def table_index(table):
    return table // 32 * BLOCK + 512 * (table % 32)


def entry_index(table, top, line):
    return table_index(table) + 2 * ((top + line) % 256)


def pointer_word(ram, table, top, line):
    """Past the end of the RAM every byte is 0."""
    at = entry_index(table, top, line)
    return int.from_bytes(ram[at:at + 2], "little")


def read_pointer(word):
    """The block and the start."""
    block, v = divmod(word, 8192)
    return block, 16 * (v // 8) + v % 8


def make_pointer(block, start):
    assert block < 8 and start < BLOCK and start // 8 % 2 == 0
    return block * 8192 + start // 16 * 8 + start % 8


def start_index(word):
    block, start = read_pointer(word)
    return block * BLOCK + start


def pixel_indexes(word):
    """Document 02, [2]: a line runs on into the next block, and from block 7 into block 0."""
    return [(start_index(word) + 8 * i) % STANDARD for i in range(LINE_BYTES)]


def drawn_line(ram, table, top, control, line):
    bytes_ = (ram[at] if control & 0x40 else 0 for at in pixel_indexes(pointer_word(ram, table, top, line)))
    return bytes(byte ^ (0xFF if control & 0x80 else 0) for byte in bytes_)


def touched_lines(ram, table, top, count, at):
    """The first `count` lines that another byte at an index changes: in the pointer word, or in one of the 90 bytes that
    the pointer before names."""
    first = table_index(table)
    entries = bytes(ram[first:first + 512]).ljust(512, b"\0")
    lines = set()
    for line in range(count):
        entry = 2 * ((top + line) % 256)
        word = entries[entry] + 256 * entries[entry + 1]
        in_word = at - first in (entry, entry + 1)
        if in_word or at < STANDARD and (at - start_index(word)) % STANDARD in range(0, 8 * LINE_BYTES, 8):
            lines.add(line)
    return lines


def video_differs(table, top, control, other_table, other_top, other_control):
    """Whether each line changes, whatever the RAM holds."""
    return table != other_table or top != other_top or (control ^ other_control) & 0xC0 != 0


# ---------------------------------------------------------------- ports
def forwarded_out(port):
    return port == 0x01 or 0x80 <= port <= 0xEF or port in (0xFC, 0xFD)


def forwarded_in(port):
    return port == 0x00 or forwarded_out(port)


def decoded_out(port):
    return forwarded_out(port) or 0xF0 <= port <= 0xF8 or port in (0xFA, 0xFB)


def decoded_in(port):
    return forwarded_in(port) or port in (0xF4, 0xF8)


# What each command of F8 sets; 13 to 15 set nothing.
COMMANDS = {
    0: dict(boot_mode=0),
    1: dict(boot_mode=1, boot_at=0, route=0, terminal_count=1, driven=1, motor=0, bleeper=0, counter=0, control=0),
    2: dict(route=1), 3: dict(route=2), 4: dict(route=0), 5: dict(terminal_count=1), 6: dict(terminal_count=0),
    7: dict(driven=1), 8: dict(driven=0), 9: dict(motor=1), 10: dict(motor=0), 11: dict(bleeper=1), 12: dict(bleeper=0),
}
REGISTERS = {0xF4: "lock", 0xF5: "table", 0xF6: "top", 0xF7: "control"}


def status(b):
    """F8 as read, and F4."""
    return (64 if b.beam < 26 else 0) + (32 if b.disc_line else 0) + (16 if b.rate == 50 else 0) + b.counter


# ---------------------------------------------------------------- what happens to the record, by value
def scan(b):
    beam = (b.beam + 1) % frame_scans(b.rate)
    return replace(b, beam=beam, counter=min(15, b.counter + 1) if beam % 52 == 2 else b.counter)


def out(b, port, value):
    """A port that is no register and not F8 leaves the record."""
    c = b
    if 0xF0 <= port <= 0xF3:
        c = replace(b, maps=tuple(value if bank == port - 0xF0 else m for bank, m in enumerate(b.maps)))
    elif port in REGISTERS:
        c = replace(b, **{REGISTERS[port]: value})
    elif port == 0xF8:
        c = replace(b, **COMMANDS.get(value % 16, {}))
    if video_differs(b.table, b.top, b.control, c.table, c.top, c.control):
        c = replace(c, dirty=c.dirty | frozenset(range(shown_count(c.rate))))
    return c


def store(b, ram, at, value):
    """What a store does to the record; the RAM is not written here. Past its end nothing is stored."""
    if at >= len(ram) or ram[at] == value:
        return b
    return replace(b, dirty=b.dirty | touched_lines(ram, b.table, b.top, shown_count(b.rate), at))


def key(b, ram, offset, value):
    return store(b, ram, keyboard_index(offset), value)


# ---------------------------------------------------------------- steps
Answer = namedtuple("Answer", "board byte int nmi forwarded refusal")


def int_line(b):
    return int(b.counter != 0 or b.external == 1 or (b.disc_line == 1 and b.route == 2))


def nmi_line(b):
    return int(b.route == 1 and b.disc_line == 1)


def step_refusal(b, ram, boot, kind, args):
    if not is_good(b):
        return 1
    if len(ram) != b.total * BLOCK or len(boot) > BOOT_MAX:
        return 2
    if kind == "key" and args[0] > 15:
        return 3
    if kind == "fetch" and b.boot_mode and b.boot_at >= len(boot):
        return 4
    if kind == "in" and not decoded_in(args[0]) or kind == "out" and not decoded_out(args[0]):
        return 5
    return 0


def step(b, ram, boot, kind, *args):
    """A step's answer; the RAM is changed in place."""
    refusal = step_refusal(b, ram, boot, kind, args)
    if refusal:
        known = refusal != 1
        return Answer(b, 0, int_line(b) if known else 0, nmi_line(b) if known else 0, 0, refusal)
    c, byte, forwarded, stored = b, 0, 0, None
    if kind == "fetch" and b.boot_mode:
        byte = boot[b.boot_at]
        c = replace(b, boot_at=b.boot_at + 1)
    elif kind in ("fetch", "read"):
        byte = ram[access_indexes(b.internal, b.total, b.maps, b.lock, args[0])[0]]
    elif kind == "write":
        stored = access_indexes(b.internal, b.total, b.maps, b.lock, args[0])[1], args[1]
    elif kind == "key":
        stored = keyboard_index(args[0]), args[1]
    elif kind == "in":
        forwarded = int(forwarded_in(args[0]))
        byte = 0 if forwarded else status(b)
        c = replace(b, counter=0) if args[0] == 0xF4 else b
    elif kind == "out":
        forwarded = int(forwarded_out(args[0]))
        c = out(b, *args)
    elif kind == "scan":
        c = scan(b)
    elif kind == "disc":
        c = replace(b, disc_line=args[0])
    elif kind == "external":
        c = replace(b, external=args[0])
    if stored:
        c = store(b, ram, *stored)
        ram[stored[0]] = stored[1]
    nmi = nmi_line(c)
    return Answer(replace(c, route=0) if nmi else c, byte, int_line(c), nmi, forwarded, 0)


# ---------------------------------------------------------------- lists of calls
class Reference:
    """Fed the power-on values, the starting RAM, and each call's kind and plain arguments; nothing from the record and
    nothing that a call returned. Lent buffers have the right lengths, and whoever feeds it knows of refusal 4."""

    def __init__(self, internal, total, rate, maps, lock, table, top, ram):
        self.internal, self.total, self.shown = internal, total, shown_count(rate)
        self.maps, self.lock, self.table, self.top, self.control = list(maps), lock, table, top, 0
        self.ram = bytearray(ram)
        self.dirty = set(range(self.shown))

    def refusal(self, kind, args):
        if kind == "key" and args[0] > 15:
            return 3
        if kind == "in" and not decoded_in(args[0]) or kind == "out" and not decoded_out(args[0]):
            return 5
        return 0

    def step(self, kind, args):
        """An accepted step."""
        if kind == "write":
            self.store(access_indexes(self.internal, self.total, self.maps, self.lock, args[0])[1], args[1])
        elif kind == "key":
            self.store(keyboard_index(args[0]), args[1])
        elif kind == "out":
            self.out(*args)

    def store(self, at, value):
        if self.ram[at] != value:
            self.dirty |= touched_lines(self.ram, self.table, self.top, self.shown, at)
            self.ram[at] = value

    def out(self, port, value):
        before = self.table, self.top, self.control
        if 0xF0 <= port <= 0xF3:
            self.maps[port - 0xF0] = value
        elif port in REGISTERS:
            setattr(self, REGISTERS[port], value)
        elif port == 0xF8 and value % 16 == 1:
            self.control = 0
        if video_differs(*before, self.table, self.top, self.control):
            self.dirty = set(range(self.shown))

    def refresh(self):
        """The number of lines that it redraws."""
        count = len(self.dirty)
        self.dirty = set()
        return count

    def draw(self, picture):
        for line in range(self.shown):
            drawn = drawn_line(self.ram, self.table, self.top, self.control, line)
            picture[line * LINE_BYTES:(line + 1) * LINE_BYTES] = drawn
