#!/usr/bin/env python3
"""Writes stdin (the list that test_chain reads) and stdout (what it must print, by the rules of documents 01 and 02). The program
chains what happens to a record, by value: no step, no refusal. Usage: test_chain.py DIRECTORY

A group is five bytes, op a b c v; an index of the RAM is a + 256 b + 65536 c.
0: power-on at rate v, and the RAM filled with its pattern. 1: a scan. 2: value v to port a. 3: v stored at the index.
4: v stored from the keyboard at offset a. 5: the record and its dirty lines are printed. 6: byte v is printed.
7: in one expression a scan, v to F6, and v stored at the index. 8: no line is dirty any more."""
import sys
from dataclasses import replace

import rules
from common import dirty_text, lcg, pattern, record_text, three_bytes
from rules import BLOCK, entry_index, keyboard_index, make_pointer

SIZE = 8 * BLOCK
TABLE = 0x5B
# The standard screen: rows of 720 bytes, eight lines each, from block 1, 1930h, on into block 2.
FIRST_ROW = BLOCK + 0x1930
FULL = pattern(SIZE, 167)

groups = bytearray()
text = []
ram = bytearray(SIZE)
board = None


def put(op, a=0, b=0, c=0, v=0):
    groups.extend((op, a, b, c, v))


def power_on(rate):
    global board
    put(0, v=rate)
    board, refusal = rules.power_on(8, 8, rate, [0x80, 0x81, 0x82, 0x83], 0, TABLE, 0)
    assert refusal == 0
    ram[:] = FULL


def scan(times=1):
    global board
    for _ in range(times):
        put(1)
        board = rules.scan(board)


def out(port, value):
    global board
    put(2, port, v=value)
    board = rules.out(board, port, value)


def write(at, value):
    if at < SIZE:
        ram[at] = value


def store(at, value):
    global board
    put(3, *three_bytes(at), value)
    board = rules.store(board, ram, at, value)
    write(at, value)


def key(offset, value):
    global board
    put(4, offset, v=value)
    board = rules.key(board, ram, offset, value)
    write(keyboard_index(offset), value)


def chain(at, value):
    global board
    put(7, *three_bytes(at), value)
    board = rules.store(rules.out(rules.scan(board), 0xF6, value), ram, at, value)
    write(at, value)


def clean():
    global board
    put(8)
    board = replace(board, dirty=frozenset())


def say(line):
    text.append(line)
    for byte in line.encode():
        put(6, v=byte)


def show(what):
    """The record as it is now, under a title; then no line is dirty."""
    say(what + "\n")
    put(5)
    text.append(record_text(board) + dirty_text(board))
    clean()


def alter(at):
    """Another byte than the one that stands there."""
    store(at, ram[at] ^ 0x81)


# ---------------------------------------------------------------- scenes
def point(entry, block, start):
    """A pointer of the table, its low byte first."""
    low, high = make_pointer(block, start).to_bytes(2, "little")
    at = entry_index(board.table, 0, entry)
    store(at, low)
    store(at + 1, high)


def standard_table(entries):
    for entry in entries:
        point(entry, *divmod(FIRST_ROW + entry // 8 * 720 + entry % 8, BLOCK))


def cell(row, column, letter):
    """The eight bytes of a letter, one in each line of the row."""
    for line in range(8):
        store(FIRST_ROW + row * 720 + column * 8 + line, (letter * 29 + line * 7) % 256)


def write_text(row, columns):
    for column in columns:
        cell(row, column, row + column)


def screen(rate):
    power_on(rate)
    show("power-on")
    standard_table(range(12))
    show("12 pointers of the table, and the lines drawn from their bytes")
    standard_table(range(12, 256))
    clean()
    write_text(3, range(8))
    show("text in row 3")
    write_text(3, range(8))
    show("the same text again")
    for row in (0, 24, 25, 31):
        write_text(row, (0, 89))
    show("text at both ends of rows 0, 24, 25 and 31")
    alter(FIRST_ROW - 1)
    alter(FIRST_ROW - 8)
    show("the bytes before the first row")


def pointers():
    for at in (20, 41, 398, 400, 511):
        alter(entry_index(TABLE, 0, 0) + at)
    show("a byte of the pointers of lines 10, 20, 199, 200 and 255")
    standard_table((10, 20, 199, 200, 255))
    show("the pointers as they were")
    standard_table((10, 20, 199, 200, 255))
    show("the same pointers again")


def keyboard():
    point(60, 3, 0x3FF0)
    point(61, 3, 0x3D37)
    point(62, 3, 0x3FE5)
    point(63, 4, 0)
    show("lines 60 to 62 over keyboard bytes")
    for offset in range(16):
        key(offset, 0x40 + offset)
    show("every keyboard byte")
    for offset in (0, 15, 13):
        key(offset, 0x40 + offset)
    show("equal keyboard bytes")
    key(0, 1)
    key(1, 1)
    show("bytes 0 and 1, of which line 60 shows the first")
    key(15, 1)
    show("byte 15, the last of line 61")
    key(16, 1)
    show("offset 16, the first byte of block 4")


def ends():
    point(70, 7, 0x3FF7)
    clean()
    alter(SIZE - 1)
    show("the last byte of the RAM")
    for at in (SIZE, SIZE + 1, 0x30000, 0xFFFFFF):
        store(at, 1)
    show("stores past the end")
    store(7, 0xA5)
    show("a line from block 7 goes on in block 0")
    alter(7 * BLOCK + 7)
    show("the start of its own block, which no line shows")
    point(71, 1, 0x3FF0)
    clean()
    alter(2 * BLOCK)
    show("a line from block 1 goes on in block 2")
    alter(2 * BLOCK + 8 * 87)
    show("its last byte")
    alter(2 * BLOCK + 8 * 88)
    show("the byte behind it")


def rolls():
    out(0xF6, 8)
    show("F6 moves")
    out(0xF6, 8)
    cell(1, 0, 77)
    show("F6 as it was, and text in row 1, now lines 0 to 7")
    cell(0, 1, 78)
    show("text in row 0, now lines 248 to 255")
    out(0xF6, 255)
    clean()
    alter(entry_index(TABLE, 0, 0))
    show("F6 = 255, the pointer of entry 0 is line 1's")


def table_moves():
    out(0xF5, 0x7F)
    show("F5 moves")
    out(0xF5, 0x7F)
    alter(entry_index(TABLE, 0, 100))
    alter(entry_index(0x7F, 0, 100))
    show("the pointer of entry 100 in the old table and in the new one")
    key(14, 9)
    show("a keyboard byte in the table")


def video():
    for value in (1, 2, 4, 8, 0x10, 0x20, 0x3F, 0):
        out(0xF7, value)
    show("F7 without D7 and D6")
    for value in (0x40, 0xC0, 0xFF, 0xBF):
        out(0xF7, value)
        show("F7 = %02X" % value)


def other_ports():
    for number, port in enumerate((0xF0, 0xF1, 0xF2, 0xF3, 0xF4)):
        out(port, 0x91 + 0x13 * number)
    show("maps and lock")
    for port in (0x00, 0x01, 0x7F, 0x80, 0xEF, 0xF9, 0xFA, 0xFB, 0xFC, 0xFD, 0xFE, 0xFF):
        out(port, 0x5A)
    show("ports that leave the record")


def commands(rate, high):
    """`high` is added to each number."""
    power_on(rate)
    clean()
    # Each list sets what the one before cleared.
    for numbers in ((0, 2, 6, 8, 9, 11), (3, 5, 7, 10, 12), (4,), (13, 14, 15)):
        for number in numbers:
            out(0xF8, high + number)
        show("commands %s" % " ".join(map(str, numbers)))
    out(0xF7, 0xC1)
    for number in (3, 6, 8, 9, 11):
        out(0xF8, high + number)
    scan(60)
    show("before a reset")
    out(0xF8, high + 1)
    show("a reset")
    out(0xF7, 0x3F)
    out(0xF8, high + 1)
    show("a reset with D7 and D6 off before it")


def frames(rate):
    power_on(rate)
    clean()
    scan(2)
    show("the first tick")
    scan(rules.frame_scans(rate) - 3)
    show("the last scan of a frame")
    scan()
    show("the next frame")
    scan(2 * rules.frame_scans(rate))
    show("three frames")
    scan(2)
    show("a tick that finds 15")


def chains():
    power_on(50)
    standard_table(range(0, 256, 3))
    clean()
    chain(FIRST_ROW, 0)
    show("a scan, F6 as it was, a byte of line 0")
    chain(FIRST_ROW + 3 * 720, 24)
    show("a scan and a tick, F6 to 24, a byte of row 3")
    chain(FIRST_ROW + 3 * 720 + 3, 24)
    show("the same F6, a byte of line 27, now line 3")
    chain(FIRST_ROW + 3 * 720 + 3, 24)
    show("the same again")
    chain(entry_index(TABLE, 0, 21), 24)
    show("the same F6, the pointer of entry 21")
    chain(SIZE, 24)
    show("the same F6, past the end")


def mixture(rate, seed, count):
    """Stores on the screen and in the table for the most part."""
    power_on(rate)
    standard_table(range(0, 256, 5))
    clean()
    for i in range(count):
        a = lcg(seed)
        b = lcg(a)
        seed = lcg(b)
        x, y, value = a >> 16, b >> 16, (seed >> 16) % 256
        kind = x % 32
        if kind < 14:
            store(FIRST_ROW + y % 23040, value)
        elif kind < 19:
            store(entry_index(board.table, 0, 0) + y % 512, value)
        elif kind < 23:
            key(y % 18, value)
        elif kind < 28:
            scan()
        elif kind == 28:
            store(4 * y + value % 4 + 65536 * (x // 32 % 2), value)
        elif kind == 29:
            out(0xF0 + y % 5, value)
        elif kind == 30:
            out(0xF8, value)
        else:
            # Where F6 moves all lines are dirty, and hide the next.
            chain(FIRST_ROW + y % 23040, board.top if y % 4 else value)
            if y % 4 == 0:
                clean()
        if i % 60 == 59:
            show("after %d" % (i + 1))


def main():
    say("== 50 Hz\n")
    screen(50)
    for scene in (pointers, keyboard, ends, rolls, table_moves, video, other_ports):
        scene()
    say("== 60 Hz\n")
    screen(60)
    for scene in (pointers, rolls):
        scene()
    say("== commands\n")
    commands(50, 0)
    say("== commands by their value mod 16\n")
    commands(60, 0xD0)
    for rate in (50, 60):
        say("== frames, %d Hz\n" % rate)
        frames(rate)
    say("== chains\n")
    chains()
    for rate in (50, 60):
        say("== mixture, %d Hz\n" % rate)
        mixture(rate, 1985 + rate, 240)
    open(sys.argv[1] + "/stdin", "wb").write(bytes(groups))
    open(sys.argv[1] + "/stdout", "w").write("".join(text))


main()
