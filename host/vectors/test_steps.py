#!/usr/bin/env python3
"""Writes stdin (the list that test_steps reads) and stdout (what it must print, by the rules of documents 01 and 02). The boot
stream is the first bytes of the list itself: it is known only once the list is made, so the scenes are played more than
once. Usage: test_steps.py DIRECTORY"""
import sys
from dataclasses import replace

from common import dirty_text, record_text, three_bytes
from rules import power_on, step

# ---------------------------------------------------------------- groups, and what they print
groups = bytearray()
stream = bytes(2048)
KIND = {"fetch": 1, "read": 2, "write": 3, "in": 4, "out": 5, "scan": 6, "key": 7, "disc": 8, "external": 9}
FIELD = dict(internal=1, total=2, rate=3, counter=4, beam=5, boot_mode=6, boot_at=7, route=8, disc_line=9, terminal_count=10,
             motor=11, external=12, driven=13, bleeper=14, control=15, dirty=16)
NONE = frozenset()
ram = bytearray(294913)
lent = [0, 0]
board = None
text = []


def put(op, a=0, b=0, c=0):
    groups.extend((op, a, b, c))


def say(t):
    text.append(t)


def write_text(t):
    """Three bytes to a group, filled up with empty lines before it."""
    while len(t) % 3:
        t = "\n" + t
    say(t)
    d = t.encode()
    for i in range(0, len(d), 3):
        put(0, *d[i:i + 3])


def title(t):
    write_text("== " + t + "\n")


def dirty_lines():
    put(15)
    say(dirty_text(board))


def record():
    put(14)
    say(record_text(board) + dirty_text(board))


def line(kind, at, value, answer):
    b = answer.board
    say("%d %04x %02x: %02x int %d nmi %d host %d refusal %d counter %d beam %d boot %d at %d route %d dirty %d\n" % (
        kind, at, value, answer.byte, answer.int, answer.nmi, answer.forwarded, answer.refusal, b.counter, b.beam, b.boot_mode,
        b.boot_at, b.route, len(b.dirty)))


def lend(size, length):
    """The lengths of RAM and boot stream."""
    if size != lent[0]:
        put(11, *three_bytes(size))
    if length != lent[1]:
        put(12, *three_bytes(length))
    lent[:] = [size, length]


def call(name, args):
    global board
    size, length = lent
    part = ram[:size]
    answer = step(board, part, stream[:length], name, *args)
    ram[:size] = part
    board = answer.board
    return answer


def one(name, *args):
    """A step with its line."""
    at, value = 0, 0
    if name in ("disc", "external"):
        value = args[0]
    elif args:
        at = args[0]
        value = args[1] if len(args) > 1 else 0
    put(KIND[name], at % 256, at // 256, value)
    line(KIND[name], at, value, call(name, args))


def many(name, count):
    put(17, count % 256, count // 256, KIND[name])
    for _ in range(count):
        answer = call(name, (0,) if name == "fetch" else ())
        if answer.board.beam % 52 == 2:
            line(KIND[name], 0, 0, answer)


def set_field(name, value):
    """Of dirty lines, those from 192 to 207."""
    global board
    board = replace(board, **{name: value})
    number = sum(1 << (line - 192) for line in value) if name == "dirty" else value
    put(13, FIELD[name], *three_bytes(number)[:2])


def power(i, t, rate):
    global board
    put(10, i, t, rate)
    board, refusal = power_on(i, t, rate, [0x80, 0x81, 0x82, 0x83], 0, 0x20, 0)
    say("power-on refusal %d\n" % refusal)


def start(i, t, rate, /, size=None, length=0, **kw):
    """A RAM of zeros, power-on, fields set."""
    power(i, t, rate)
    lend(294913, length)
    if any(ram):
        put(19)
        ram[:] = bytes(294913)
    lend(size if size is not None else t * 16384, length)
    for k, v in kw.items():
        set_field(k, v)


def ready(rate, i=8, t=8, /, **kw):
    start(i, t, rate, boot_mode=0, dirty=NONE, **kw)


def busy(rate, /, **kw):
    start(8, 8, rate, **{**dict(dirty=NONE, counter=3, external=1, disc_line=1, route=2), **kw})


def run(steps):
    """Steps by their names and hex arguments, and what is to be shown between them."""
    for part in steps.replace("\n", ";").split(";"):
        if not part.strip():
            continue
        name, *args = part.split()
        if name == "RECORD":
            record()
        elif name == "DIRTY":
            dirty_lines()
            set_field("dirty", NONE)
        elif name == "CLEAN":
            set_field("dirty", NONE)
        elif name == "FETCHES":
            many("fetch", int(args[0]))
        elif name == "SCANS":
            many("scan", int(args[0]))
        else:
            one(name, *[int(arg, 16) for arg in args])


def peek(at):
    put(16, *three_bytes(at))
    say("   %02x" % (ram[at] if at < lent[0] else 0))
    write_text("  \n")


def every_port(name, value):
    global board
    put(18, KIND[name], value)
    before = board
    for port in range(256):
        board = before
        answer = call(name, (port, value) if name == "out" else (port,))
        say(" %d%d" % (answer.refusal, answer.forwarded))
    board = before
    write_text("  \n")


def play():
    global board
    groups.clear()
    text.clear()
    ram[:] = bytes(294913)
    lent[:] = [0, 0]
    board, refusal = power_on(0, 0, 0, [0] * 4, 0, 0, 0)
    say("power-on refusal %d\n" % refusal)
    for t in ("steps: 1 fetch, 2 read, 3 write, 4 in, 5 out,", "6 scan, 7 keyboard word, 8 disc line, 9 external line"):
        title(t)
    scenes()


def scenes():
    def powered(*x):
        write_text("%-5s%-4s%-6s" % x)
        power(*x)
        record()

    title("power-on allowed")
    for x in [(8, 8, 50), (8, 8, 60), (8, 128, 50), (16, 16, 60), (16, 17, 50), (32, 32, 50), (32, 128, 60)]:
        powered(*x)
    title("power-on, sizes not allowed")
    for x in [(0, 0, 50), (0, 8, 50), (7, 8, 50), (9, 9, 50), (24, 24, 60), (33, 64, 50), (64, 64, 50), (255, 255, 50), (8, 7, 50),
              (16, 15, 60), (32, 31, 50), (8, 129, 50), (32, 255, 50)]:
        powered(*x)
    title("power-on, rates not allowed")
    for x in [(8, 8, 0), (8, 8, 49), (8, 8, 51), (8, 8, 59), (8, 8, 61), (8, 8, 255), (9, 8, 55)]:
        powered(*x)

    def bad(rate, /, **kw):
        busy(rate, size=131072, **kw)
        one("in", 0xF8)
        record()

    title("bad records: sizes, rate, clock")
    for i, t in [(0, 8), (7, 8), (24, 24), (8, 7), (8, 129)]:
        bad(50, internal=i, total=t)
    for r in (0, 49, 61):
        bad(50, rate=r)
    bad(50, counter=16)
    bad(60, counter=255)
    bad(50, beam=312)
    bad(60, beam=260)
    bad(50, beam=65535)
    title("bad records: boot, disc, flags, dirty lines")
    bad(50, boot_mode=2)
    bad(50, boot_mode=255)
    bad(50, boot_at=1025)
    bad(50, boot_mode=0, boot_at=65535)
    bad(50, route=3, disc_line=0)
    bad(50, route=1, disc_line=1)
    bad(50, route=0, disc_line=2)
    bad(50, terminal_count=2, motor=0)
    bad(50, terminal_count=0, motor=2)
    bad(50, external=2, driven=1, bleeper=1)
    bad(50, external=1, driven=2, bleeper=1)
    bad(50, external=1, driven=1, bleeper=255)
    bad(60, dirty=frozenset([200]))
    bad(60, dirty=frozenset([207]))
    title("good records at the ends of the ranges")
    bad(50, counter=15, beam=311)
    bad(60, counter=15, beam=259)
    bad(60, counter=0)
    bad(50, boot_at=1024)
    bad(50, boot_mode=0, boot_at=1024)
    bad(50, route=1, disc_line=0)
    bad(50, route=0, disc_line=1)
    bad(50, terminal_count=0, motor=0)
    bad(50, terminal_count=1, motor=1)
    bad(50, external=0, driven=0, bleeper=0)
    bad(50, external=1, driven=1, bleeper=1)
    bad(60, dirty=frozenset([199]))
    bad(50, dirty=frozenset([207]))
    start(8, 8, 60)
    one("in", 0xF8)
    record()
    title("a record of zeros")
    start(0, 0, 0, size=131072)
    one("in", 0xF8)
    record()

    def every_kind(name, size, length, rate=50, **kw):
        title(name)
        busy(rate, size=size, length=length, **kw)
        run("fetch 4000; read 4000; write 4000 5a; in f9; out f9 00; scan; key 10 5a; key ff 5a; key 0f 5a; disc 0; external 0")
        peek(16384)
        peek(65535)

    every_kind("all at fault", 131071, 1025, counter=16)
    every_kind("bad record", 131072, 1, counter=16)
    every_kind("RAM one short, no boot stream", 131071, 0)
    every_kind("RAM one long", 131073, 1, rate=60)
    every_kind("no RAM", 0, 1)
    every_kind("boot stream one long", 131072, 1025)
    every_kind("no boot stream", 131072, 0)
    every_kind("a boot stream of 1,024", 131072, 1024, rate=60)

    title("a boot stream of three bytes")
    start(8, 8, 50, length=3)
    run("RECORD; write 1234 99; fetch 1234; fetch ffff; read 1234; fetch 0000; fetch 1234; fetch 0000; read 1234")
    title("then two bytes, none, and four")
    lend(131072, 2)
    run("fetch 0000")
    lend(131072, 0)
    run("fetch 0000")
    lend(131072, 4)
    run("""fetch 0000; out f8 00; fetch 1234; fetch 1235; write 1235 98; fetch 1235; out f8 01;
        fetch 1234; fetch 1234; RECORD""")
    title("a boot stream of 1,024 bytes")
    start(8, 8, 60, length=1024)
    run("FETCHES 1022; fetch 0000; fetch 0000; fetch 0000; RECORD")

    title("a split map")
    ready(50)
    run("""out f1 25; write 4005 5a; read 4005; fetch 4005; out f4 10; read 4005; fetch 4005; out f4 ef; read 4005
        out f1 85; read 4005; out f1 82; write 4005 c3; out f1 25; read 4005; out f1 6d; read 4005; out f4 10; read 4005""")
    title("the lock bit of each bank")
    four = "read 0010; read 4020; read 8030; read c040;"
    ready(60)
    run("""out f0 61; write 0010 b0; out f1 61; write 4020 b1; out f2 61; write 8030 b2; out f3 61; write c040 b3
        out f4 40; %s out f4 10; %s out f4 20; %s out f4 80; %s out f4 0f; read 0010; read c040""" % ((four,) * 4))
    title("the ends of the banks")
    ready(50)
    run("""write 0000 30; write 3fff 31; write 4000 32; write 7fff 33; write 8000 34; write bfff 35
        write c000 36; write ffff 37; out f3 80; read c000; read ffff; out f2 10; read 8000; read bfff; out f1 a2; read 4000; read 7fff
        out f0 83; read 0000; read 3fff; out f3 87; read ffff; write ffff 38; out f0 77; read 3fff""")
    title("expansion, 16 of 18")
    ready(60, 16, 18)
    run("""out f4 f0; out f0 90; write 0000 a0; out f0 91; write 3fff a1; out f0 92; write 0001 a2
        out f0 ff; write 0002 af; out f3 90; read c000; read ffff; out f3 91; read c000; read ffff; out f3 82; read c001
        out f3 8f; read c002; out f3 87; read c002; out f4 00; out f3 20; read c001""")

    title("F8 and F4 as read")
    for rate, beam, line_, counter in [(50, 0, 0, 3), (50, 25, 0, 0), (50, 26, 0, 15), (50, 311, 1, 9), (60, 0, 1, 15), (60, 25, 1, 1),
                                       (60, 26, 0, 8), (60, 259, 0, 0)]:
        ready(rate, beam=beam, disc_line=line_, counter=counter)
        run("in f8; in f4; in f4")
    title("F0 to F7, FA and FB out")
    ready(50)
    run("""out f0 91; out f1 62; out f2 53; out f3 f4; out f4 a5; RECORD; out f5 36; out f6 c7; out f7 d8; RECORD
        out fa ff; out fb 00; RECORD""")

    def off():
        start(8, 8, 50, dirty=NONE, boot_mode=1, boot_at=5, route=2, terminal_count=0, driven=0, counter=4, beam=100, control=0xC1)

    def on():
        start(8, 8, 60, dirty=NONE, boot_mode=0, boot_at=1024, disc_line=1, motor=1, bleeper=1, external=1, beam=200, control=0x3F)

    title("F8 out")
    for n in range(16):
        off()
        run("out f8 %02x; RECORD" % n)
        on()
        run("out f8 %02x; RECORD" % (0xA0 + n))
    title("ports in, forwarded and refused")
    off()
    run("; ".join("in %02x" % p for p in (0, 1, 2, 0x7F, 0x80, 0xEF, 0xF0, 0xF3, 0xF5, 0xF7, 0xF9, 0xFA, 0xFB, 0xFC, 0xFD, 0xFE, 0xFF)) + "; RECORD")
    title("ports out, forwarded and refused")
    on()
    run("; ".join("out %02x 01" % p for p in (0, 1, 2, 0x7F, 0x80, 0xEF, 0xF9, 0xFC, 0xFD, 0xFE, 0xFF)) + "; RECORD")
    title("all ports in")
    ready(50)
    every_port("in", 0)
    title("all ports out")
    every_port("out", 0xA5)

    title("INT from the counter, the external line and the disc line")
    ready(50)
    run("""SCANS 2; read 0000; in f9; in f4; read 0000; external 1; external 1; RECORD; external 0; disc 1; RECORD
        out f8 03; in f9; disc 0; disc 1; out f8 04; disc 0; RECORD""")
    title("disc to NMI, then its line on")
    ready(50)
    run("out f8 02; disc 0; in f9; disc 1; read 0000; disc 1; disc 0; disc 1; RECORD")
    title("the line on, then disc to NMI")
    ready(60)
    run("disc 1; out f8 02; read 0000; out f8 02; out f8 03; out f8 02; RECORD")
    title("INT and NMI together")
    ready(50)
    run("external 1; out f8 02; key 10 00; out 00 00; disc 1; external 0; RECORD")
    title("disc to NMI, then elsewhere")
    ready(50)
    run("""out f8 02; out f8 04; disc 1; disc 0; out f8 02; out f8 03; disc 1; disc 0; out f8 02; out f8 01; disc 1
        RECORD""")

    title("scans at 50 Hz")
    ready(50)
    run("SCANS 311; scan; SCANS 623; scan; in f8; in f4; SCANS 311; out f8 01; scan; RECORD")
    title("scans at 60 Hz")
    ready(60)
    run("SCANS 259; scan; in f4; SCANS 1039; scan; in f4; RECORD")

    for rate in (50, 60):
        title("lines dirty by registers, %d Hz" % rate)
        ready(rate)
        run("""out f5 20; out f5 21; DIRTY; out f5 21; out f5 20; CLEAN; out f6 00; out f6 01; DIRTY; out f6 01
            out f6 00; CLEAN
            out f7 00; out f7 01; out f7 02; out f7 04; out f7 08; out f7 10; out f7 20; out f7 3f
            out f7 7f; CLEAN; out f7 40; out f7 c0; CLEAN; out f7 ff; out f7 bf; CLEAN; out f7 80; out f7 40; CLEAN; out f7 40
            out f8 01; DIRTY; out f8 01; out f7 3f; out f8 01; out f7 80; CLEAN; out f8 f1; CLEAN
            out f0 87; out f1 87; out f2 87; out f3 87; out f4 ff; out f8 08; out fa ff; out fc ff""")
    title("dirty lines are kept and added to")
    ready(60)
    set_field("dirty", frozenset([194, 199]))
    run("out f5 20; out f6 00; DIRTY")
    set_field("dirty", frozenset([194, 199]))
    run("out f6 02; DIRTY")

    POINTERS = "out f0 81; write 0014 00; write 0015 a0; DIRTY; write 0029 40; DIRTY; write 002b 40; DIRTY;"
    title("stores through a split map")
    ready(50)
    run(POINTERS + """out f1 25; write 4000 01; DIRTY; write 4000 01; DIRTY; out f4 10; write 4000 02; DIRTY
        out f1 52; write 4000 01; DIRTY; out f4 00; write 4000 02; DIRTY""")
    title("stores on pixels")
    ready(60)
    run(POINTERS + """out f1 82; write 4001 01; write 4007 01; write 4008 01; DIRTY; write 42c7 01; write 42c8 01
        DIRTY; write 42c9 01; write 42d0 01; write 7ff8 01; write 4008 02; write 42c8 02; DIRTY""")
    title("pixels that run on into the next block, row 13 of CP/M")
    ready(50)
    run("""out f0 81; write 003c e0; DIRTY; write 003d 3e; DIRTY; write 3ff8 01; DIRTY; write 0000 07; DIRTY
        out f1 82; write 4000 07; DIRTY; write 4001 07; DIRTY; write 4088 07; DIRTY; write 4090 07; DIRTY""")
    title("pixels that run on into the next block, over the table")
    ready(50)
    run("""out f5 40; out f0 82; write 003c e0; write 003d 3e; CLEAN; write 0000 07; DIRTY; write 0001 07; DIRTY
        write 0088 07; DIRTY; write 0090 07; DIRTY""")
    title("pixels that run on from block 7 into block 0, and not into block 8")
    ready(60, 8, 9)
    run("""out f0 81; write 003c fb; write 003d ff; CLEAN; out f0 80; out f1 87; write 7ff3 01; DIRTY; write 7ffb 01; DIRTY
        write 7feb 01; DIRTY; write 0003 07; DIRTY; write 02bb 07; DIRTY; write 02c3 07; DIRTY; write 4003 07; DIRTY
        out f1 88; write 4003 07; DIRTY""")
    for rate in (50, 60):
        title("the table drawn by its own lines")
        ready(rate)
        run("""out f5 00; CLEAN; write 0008 01; DIRTY; write 0008 00; DIRTY; write 0009 20; DIRTY
            write 0010 01; DIRTY; write 0010 00; DIRTY; write 0009 00; DIRTY; write 0009 00; DIRTY""")
    for rate in (50, 60):
        title("the table from another top line")
        ready(rate)
        run("""out f0 81; out f6 fa; CLEAN; write 01f5 a0; DIRTY; write 01f3 a0; DIRTY; write 0183 a0; DIRTY
            write 0185 a0; DIRTY; out f1 85; write 4000 99; DIRTY""")
    title("stores through expansion maps")
    ready(50, 16, 18)
    run("""out f0 90; write 0000 01; DIRTY; out f0 88; write 0000 01; DIRTY; out f0 a0; write 0000 01; DIRTY
        out f0 80; write 0000 01; DIRTY""")

    title("keyboard words and writes")
    ready(50)
    run("""key 00 55; key 07 57; key 0f 5f; key 10 66; read fff0; read fff7; read ffff; write fff0 66; read fff0
        key 00 77; read fff0; out f3 87; read fff0""")
    for rate in (50, 60):
        title("keyboard words on pixels")
        ready(rate)
        run("""out f0 81; write 0000 98; write 0001 7e; write 0006 ff; write 0007 7f; CLEAN
            key 00 01; DIRTY; key 00 01; DIRTY; key 01 01; DIRTY; key 07 01; DIRTY; key 08 01; DIRTY; key 0e 01; DIRTY; key 0f 01; DIRTY
            key 0f 00; DIRTY""")
    for rate in (50, 60):
        title("keyboard words in the table")
        ready(rate)
        run("""out f5 7f; CLEAN; key 00 01; DIRTY; key 01 02; DIRTY; key 01 02; DIRTY; key 0f 80; DIRTY
            out f6 64; CLEAN; key 00 02; DIRTY; key 0f 81; DIRTY; out f6 fa; CLEAN; key 0f 82; DIRTY; key 03 82; DIRTY; read fff3""")
    title("keyboard words on pixels and in the table")
    ready(50)
    run("""out f5 7f; CLEAN; write fe00 98; DIRTY; write fe01 7e; DIRTY; key 00 01; DIRTY; key 08 01; DIRTY
        key 09 01; DIRTY""")

    for rate in (50, 60):
        title("a reset, %d Hz" % rate)
        start(8, 8, rate, length=1)
        run("""fetch 0000; out f0 a1; out f1 32; out f4 90; out f5 41; out f6 42; out f7 c3
            out f8 03; out f8 06; out f8 08; out f8 09; out f8 0b; out f8 00; scan; scan; disc 1; external 1; write 8001 81; RECORD
            out f8 01; RECORD; read 8001; fetch 0000""")

    title("steps by their kind")
    start(8, 8, 50, length=2)
    for part in ("fetch 0000", "write 4000 5a", "read 4000", "scan", "scan", "in f4", "out f8 02", "key 02 99", "key 10 99", "disc 1",
                 "external 1", "in ff", "fetch 0000", "fetch 0000"):
        put(19)
        ram[:131072] = bytes(131072)
        run(part)
        peek(16384)
        peek(65522)
    record()


play()
while True:
    stream = bytes(groups[:2048])
    before = bytes(groups)
    play()
    if bytes(groups) == before:
        break
open(sys.argv[1] + "/stdin", "wb").write(bytes(groups))
open(sys.argv[1] + "/stdout", "wb").write("".join(text).encode())
