#!/usr/bin/env python3
"""Writes stdin (the list that test_cpm reads) and stdout (what it must print, by the rules): the screen of standard CP/M,
where source document 000 has it, all its rows written with text by data writes. Row 13 starts at block 1, 3DC0h, and runs on
into block 2 from column 72 on. The letters are those of the tool. Usage: test_cpm.py DIRECTORY"""
import re
import sys
from pathlib import Path

from lists import CallList
from rules import BLOCK, make_pointer

# "screen": block 1, 1930h, to block 2, 332Fh; "roller RAM", the pointer table: block 2, 3600h. The maps have each of the
# first four blocks at its own address.
SCREEN = 1 * BLOCK + 0x1930
SCREEN_END = 2 * BLOCK + 0x332F
TABLE = 2 * BLOCK + 0x3600
ROWS, COLUMNS, ROW_BYTES = 32, 90, 720
LAST_COLUMNS = "(COLUMNS 72 TO 89)"
assert SCREEN + ROWS * ROW_BYTES - 1 == SCREEN_END and 72 + len(LAST_COLUMNS) == COLUMNS


def glyphs():
    """Each letter's eight bytes, from the drawings in the tool's source."""
    source = (Path(__file__).parent.parent / "src/tool/font.rs").read_text()
    found = {" ": bytes(8)}
    for letters, drawing in re.findall(r'letters: "(.*?)",\s*rows: \[(.*?)\]', source, re.S):
        rows = re.findall(r'"([.#]{64})"', drawing)
        for k, letter in enumerate(letters):
            found[letter] = bytes(int(row[8 * k:8 * k + 8].replace("#", "1").replace(".", "0"), 2) for row in rows)
    return found


def row_text(row):
    """Every column is written; the last 18 say which they are."""
    at = SCREEN + ROW_BYTES * row
    letters = "ABCDEFGHIJKLMNOPQRSTUVWXYZ0123456789"
    left = "ROW %02d: BLOCK %d, %04XH " % (row, at // BLOCK, at % BLOCK) + letters[row:] + 2 * letters
    return left[:72] + LAST_COLUMNS


def write_cells(run, font, row, column, text):
    for k, letter in enumerate(text):
        for line in range(8):
            run.step("write", SCREEN + ROW_BYTES * row + 8 * (column + k) + line, font[letter][line])


def main():
    font = glyphs()
    run = CallList()
    run.power_on(50)
    run.say("== the table is laid, and each row written with text\n")
    run.step("out", 0xF8, 0)
    run.step("out", 0xF7, 0x40)
    for line in range(256):
        low, high = make_pointer(*divmod(SCREEN + line // 8 * ROW_BYTES + line % 8, BLOCK)).to_bytes(2, "little")
        run.step("write", TABLE + 2 * line, low)
        run.step("write", TABLE + 2 * line + 1, high)
    run.end("table")
    for row in range(ROWS):
        write_cells(run, font, row, 0, row_text(row))
        run.end("row %d" % row)
    run.say("== columns 72 to 89 of row 13 alone, bytes of block 2\n")
    write_cells(run, font, 13, 72, "OUT OF BLOCK 1 + 2")
    run.end("row 13, other text")
    write_cells(run, font, 13, 72, LAST_COLUMNS)
    run.end("row 13, as it was")
    run.say("== rows 12 to 14 of the picture\n")
    for line in range(8 * 12, 8 * 15):
        run.print_line(line)
    run.write(sys.argv[1])


main()
