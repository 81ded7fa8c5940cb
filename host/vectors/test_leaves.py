#!/usr/bin/env python3
"""Prints what test_leaves must print, by the rules of documents 01 and 02."""
import sys

from common import words
from rules import (access_indexes, entry_index, frame_scans, keyboard_index, pointer_word, shown_count, touched_lines)

out = []
say = out.append
SOME = {0, 63, 64, 127, 200, 255}


def shown(rate):
    return set(range(shown_count(rate)))


def say_set(name, lines):
    say("%s %s count %d" % (name, words(lines), len(lines)))


def say_next(lines, n):
    later = [line for line in lines if line >= n]
    say("line %d has: %d next: %s" % (n, n in lines, min(later) if n <= 255 and later else "none"))


say("== sets of lines")
say_set("empty", set())
say_set("shown at 50", shown(50))
say_set("shown at 60", shown(60))
say_set("shown at 55", shown(55))
say_set("some", SOME)
say_set("some or shown at 60", SOME | shown(60))
say_set("some and shown at 60", SOME & shown(60))
say_set("some with shown at 50", SOME | shown(50))
say_set("some with shown at 60", SOME | shown(60))
say_set("some with shown at 55", SOME | shown(55))
say("shown lines %d %d %d scans %d %d" % (*map(shown_count, (50, 60, 55)), *map(frame_scans, (50, 60))))

say("== the next line of a set")
for n in (0, 1, 63, 64, 65, 128, 199, 201, 255, 256, 65535):
    say_next(SOME, n)
say_next(shown(60), 199)
say_next(shown(60), 200)
say_next(set(), 0)

say("== indexes")
for internal, total, address in ((8, 8, 0x0005), (8, 8, 0x7FFF), (32, 40, 0x8001), (8, 41, 0x8001), (8, 8, 0xFFFF)):
    indexes = access_indexes(internal, total, [0x25, 0x25, 0xA8, 0x87], 0x40, address)
    say("address %04x: read %06x write %06x" % (address, *indexes))
say("keyboard bytes %06x %06x" % (keyboard_index(0), keyboard_index(15)))
say("entry of line 1, F6 = 255: %06x F6 = 254: %06x line 255, F6 = 0: %06x" % (
    entry_index(0x99, 255, 1), entry_index(0x99, 254, 1), entry_index(0xFF, 0, 255)))

ram = bytearray(1024)
ram[0:4] = bytes([1, 2, 3, 4])
ram[1022:] = bytes([0x97, 0x98])
say("== bytes and pointer words")
say("first %02x last %02x past the end 00" % (ram[0], ram[1023]))
say("line 0 %04x line 1 %04x from top line 255 %04x past the end %04x" % (
    pointer_word(ram, 0, 0, 0), pointer_word(ram, 0, 0, 1), pointer_word(ram, 0, 255, 1), pointer_word(ram, 2, 0, 0)))


def say_touched(label, top, at):
    say_set(label, touched_lines(ram, 0, top, 256, at))


say_touched("000000", 0, 0)
say_touched("000001", 0, 1)
say_touched("000002, from top line 2", 2, 2)
say_touched("000008", 0, 8)
say_touched("000401", 0, 0x401)
say_touched("0006c9", 0, 0x6C9)
say_touched("004000", 0, 0x4000)
say_touched("020000", 0, 0x20000)

say("== a line widened")
line = [i * 37 % 256 for i in range(90)]
say("refusal 0 " + "".join("%04x" % int("".join(bit * 2 for bit in "{:08b}".format(byte)), 2) for byte in line))
say("refusal 2 " + "77" * 179)
say("refusal 2 " + "77" * 180)
say("refusal 2 " + "77" * 180)
sys.stdout.write("\n".join(out) + "\n")
