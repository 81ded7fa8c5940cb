#!/usr/bin/env python3
"""Writes stdin (the list that test_long_run reads) and stdout (what it must print, by the rules of documents 01 and 02).
Usage: test_long_run.py DIRECTORY"""
import sys

from common import lcg
from lists import CallList
from rules import make_pointer


# ------------------------------------------------------------------ the list of steps
def half(n, at):
    """A byte of the pointer to an index of the RAM: the low one for an even n, the high one for an odd one."""
    return make_pointer(*divmod(at, 16384)).to_bytes(2, "little")[n % 2]


W, K, O, I, F, R, S, D, X = "write key out in fetch read scan disc external".split()


def letter(n, v):
    cell = n // 8 * 37 % 2880
    return (W, 0x5930 + cell * 8 + n % 8, v % 256)


def s_table(i, x, y, z):
    line = i // 2
    return (W, 0xB600 + i, half(i, 0x5930 + line // 8 * 720 + line % 8))


def s_text(i, x, y, z):
    return (O, 0xF7, 0x40) if i == 0 else letter(i, i * 29 + i // 8 * 3 + 1)


def s_rolls(i, x, y, z):
    if i % 8 == 7:
        return letter(i, z)
    if i < 300:
        return (O, 0xF6, (i // 2 + 200) % 256)
    if i < 600:
        return (O, 0xF6, (-(i // 2)) % 256)
    return (O, 0xF6, z % 256)


def s_split(i, x, y, z):
    return {0: (O, 0xF1, 0x12), 10: (O, 0xF4, 0x10), 16: (O, 0xF1, 0x21), 26: (O, 0xF4, 0)}.get(
        i % 32, (W, 0x4000 + y % 16384, z % 256))


def s_rewritten(i, x, y, z):
    return (W, 0xB600 + y % 512, z % 256)


def s_keytable(i, x, y, z):
    if i == 0:
        return (O, 0xF5, 127)
    return [(W, 0xFFF0 + y % 16, z % 256), (K, y % 16, z % 256), (W, 0xFE00 + y % 512, z % 256)][i % 3]


def s_keypixels(i, x, y, z):
    if i < 512:
        return (W, 0xB600 + i, half(i, 0xFF00 + i // 2 % 8))
    if i == 512:
        return (O, 0xF5, 0x5B)
    return (K, y % 16, z % 256) if i % 2 else (W, 0xFF00 + y % 256, z % 256)


def s_overlap(i, x, y, z):
    if i == 0:
        return (O, 0xF5, 0x2A)
    if i <= 512:
        n = i % 512
        line = n // 2
        return (W, 0x5400 + n, half(n, 0x5400 + line % 20 * 16 + line % 8))
    return (W, 0x5300 + y % 1536, z % 256)


def s_ends(i, x, y, z):
    """Lines that start near the end of each block, and stores on both sides of the ends."""
    if i == 0:
        return (O, 0xF5, 0x5B)
    if i <= 512:
        n = i % 512
        line = n // 2
        return (W, 0xB600 + n, half(n, line % 8 * 16384 + 0x3D40 + line // 8 * 16 + line % 8))
    if i % 24 == 0:
        return (O, 0xF3, 0x84 + y % 4)
    return (W, x % 4 * 16384 + (0x3D40 + y % 0x590) % 16384, z % 256)


def s_shared(i, x, y, z):
    if i == 0:
        return (O, 0xF5, 0x5B)
    if i <= 512:
        return (W, 0xB600 + i % 512, half(i, 0x5930))
    if i % 5 == 0:
        return (W, 0x5931 + y % 90 * 8, z % 256)
    return (W, 0x5930 + y % 90 * 8, z % 4)


def s_video(i, x, y, z):
    return [(O, 0xF7, y % 256), (O, 0xF8, 8), (O, 0xF7, 64 + y % 64), (O, 0xF7, 64 + z % 64), (O, 0xF8, 7),
            (O, 0xF7, 128 + y % 64), (O, 0xF7, 192 + y % 64), (W, 0x5930 + y % 90 * 8, z % 256)][i % 8]


def s_reset(i, x, y, z):
    return {0: (O, 0xF7, 0xC0), 3: (O, 0xF8, 1 + y % 16 * 16), 4: (O, 0xF8, 1), 5: (O, 0xF7, 0x3F), 6: (O, 0xF8, 8),
            7: (O, 0xF8, 1), 9: (O, 0xF7, 0x40)}.get(i % 10, (W, 0x5930 + y % 90 * 8, z % 256))


def s_scans(i, x, y, z):
    return {0: (F, y), 1: (R, y), 2: (I, 0xF4), 3: (I, 0xF8), 4: (D, y % 2 == 0), 5: (X, y % 2 == 0),
            6: (O, 0xF8, 2 + y % 3), 7: (O, 0x80 + y % 112, z % 256), 8: (O, 0xF8, y % 2 * 9)}.get(i % 16, (S,))


def s_refused(i, x, y, z):
    return [(I, 0xF0 + y % 4), (O, 0, z % 256), (I, 0xF9 + y % 3), (O, 0xFE + y % 2, z % 256), (K, 16 + y % 240, z % 256),
            (O, 2 + y % 126, z % 256), (K, 16, z % 256), (W, 0xB600 + y % 512, z % 256)][i % 8]


def s_mixture(i, x, y, z):
    k, b = x % 64, z % 256
    if k <= 25:
        return (W, 0x5930 + y % 23040, b)
    if k <= 35:
        return (W, y * 2 + z // 256 % 2, b)
    if k <= 41:
        return (W, 0xB600 + y % 512, b)
    if k <= 45:
        return (K, y % 18, b)
    if k <= 47:
        return (O, 0xF6, y % 256)
    if k == 48:
        return (O, 0xF5, [0x7F, 0x2A, b, 0x5B][y % 4])
    if k == 49:
        return (O, 0xF7, y % 256)
    if k == 50:
        return (O, 0xF0 + y % 4, b)
    if k <= 52:
        return (O, 0xF0 + y % 4, 0x80 + y % 4)
    if k == 53:
        return (O, 0xF4, b)
    if k == 54:
        return (O, 0xF8, y % 256)
    if k == 55:
        return (O, y % 256, b)
    if k == 56:
        return (I, y % 256)
    if k == 57:
        return (F, y * 2)
    if k == 58:
        return (R, y * 2)
    if k == 59:
        return (D, y % 2 == 0)
    if k == 60:
        return (X, y % 2 == 0)
    return (S,)


# rounds of refused calls at the end of a scene, before its last refresh
ROUNDS = {"refused calls": 4, "mixture": 8}

SCENES = [
    ("first refresh", s_table, 0, 0), ("table built", s_table, 512, 5), ("text", s_text, 4000, 16),
    ("text again, equal bytes", s_text, 4000, 40), ("rolls", s_rolls, 700, 1), ("split maps", s_split, 640, 3),
    ("table rewritten", s_rewritten, 900, 3), ("keys in the table", s_keytable, 600, 2),
    ("keys in the pixels", s_keypixels, 1100, 3), ("table in its pixels", s_overlap, 1500, 4),
    ("lines over block ends", s_ends, 1300, 3), ("shared bytes", s_shared, 900, 4), ("video", s_video, 480, 1), ("resets", s_reset, 300, 1),
    ("scans", s_scans, 1300, 50), ("refused calls", s_refused, 400, 6), ("mixture", s_mixture, 12000, 4),
]


def main():
    run = CallList()
    for rate in (50, 60):
        run.power_on(rate)
        seed = 1985
        for name, f, count, every in SCENES:
            for i in range(count):
                a = lcg(seed)
                b = lcg(a)
                seed = lcg(b)
                run.step(*f(i, a >> 16, b >> 16, seed >> 16))
                if every and i % every == 0:
                    run.refresh()
            run.refused_calls(ROUNDS.get(name, 0))
            run.end(f"{rate} {name}")
    run.write(sys.argv[1])


main()
