#!/usr/bin/env python3
"""Writes stdin (the list that test_archive reads) and stdout (what it must print, by the rules of document 02). The program has
an archive that is held, room for the next one, and a picture. Usage: test_archive.py DIRECTORY

A group is four numbers of four bytes, op a b c.
0: the 64 bytes that follow are printed. 1: the archive held is a bytes long. 2: the room is. 3: the picture is, of pattern b.
4: an archive is started. 5: the picture is added as the frame a b c. 6: what was written is held. 7: the bits b are turned over
in byte a of the archive held. 8: the count while they are turned over. 9: the count. 10: entry a. 11: entry a as it stands.
12: where the pair a b stands. 13: entry a is read into the picture. 14: whether bench a and shown b are in range. 15: the bytes
from a up to b."""
import sys
from contextlib import contextmanager
from functools import lru_cache

import archives
from archives import HEADER, PICTURE, length_of, numbers, picture_offset
from common import lcg, pattern

SIZE, PICTURE_SIZE = 400000, 23050
LARGEST = 4294967295
ROOM_PATTERN = pattern(SIZE, 91)

groups = bytearray()
text = []
held, room, picture = bytearray(SIZE), bytearray(SIZE), bytearray(PICTURE_SIZE)
held_length = room_length = picture_length = written_length = 0


def put(op, a=0, b=0, c=0):
    groups.extend(numbers(op, a, b, c))


@lru_cache(None)
def checksum(data):
    total = 1
    for byte in data:
        total = (total * 257 + byte) % 1000000007
    return total


def title(line):
    put(0)
    line = ("== %s " % line).ljust(63, "=") + "\n"
    assert len(line) == 64
    groups.extend(line.encode())
    text.append(line)


# ---------------------------------------------------------------- what is lent
def archive():
    return bytes(held[:held_length])


def hold_length(n):
    global held_length
    put(1, n)
    held_length = n


def lend_room(n):
    global room_length
    if n != room_length:
        put(2, n)
        room_length = n


def lend_picture(n, first):
    global picture_length
    put(3, n, first)
    picture_length = n
    picture[:n] = pattern(n, first)


def change(at, mask):
    put(7, at, mask)
    held[at] ^= mask


def overwrite(at, data):
    for i, byte in enumerate(data):
        if held[at + i] != byte:
            change(at + i, held[at + i] ^ byte)


@contextmanager
def altered(at, data):
    """The archive held has other bytes at an index, and then has its own again."""
    before = bytes(held[at:at + len(data)])
    overwrite(at, data)
    yield
    overwrite(at, before)


# ---------------------------------------------------------------- calls, each with the line that it prints
def written(asked, length, refusal, lent):
    global written_length
    room[:room_length] = lent
    written_length = length
    text.append("%s in %d: length %d sum %d behind %d refusal %d\n" % (
        asked, room_length, length, checksum(bytes(lent[:length])), checksum(bytes(lent[length:])), refusal))
    return refusal == 0


def start(size):
    lend_room(size)
    put(4)
    lent = ROOM_PATTERN[:room_length]
    return written("start", *archives.start(lent), lent)


def add(bench, number, shown, size):
    lend_room(size)
    put(5, bench, number, shown)
    lent = ROOM_PATTERN[:room_length]
    answer = archives.add(archive(), bench, number, shown, picture[:picture_length], lent)
    return written("add %d %d %d of %d" % (bench, number, shown, picture_length), *answer, lent)


def hold():
    global held_length
    put(6)
    held[:] = room
    held_length = written_length


def counted(a):
    n, refusal = archives.count(a)
    return ": sound %d count %d refusal %d\n" % (refusal == 0, n, refusal)


def count():
    put(9)
    text.append("length %d%s" % (held_length, counted(archive())))


def count_changed(at, mask):
    put(8, at, mask)
    a = bytearray(archive())
    a[at] ^= mask
    text.append("byte %d ^ %02x%s" % (at, mask, counted(bytes(a))))


def fields(e):
    return "bench %d number %d shown %d offset %d" % e


def entry(k):
    put(10, k)
    answer, refusal = archives.entry(archive(), k)
    text.append("entry %d: %s refusal %d\n" % (k, fields(answer), refusal))


def stands(k):
    put(11, k)
    text.append("stands %d: %s\n" % (k, fields(archives.stands(archive(), k))))


def find(bench, number):
    put(12, bench, number)
    index, refusal = archives.find(archive(), bench, number)
    text.append("find %d %d: %s refusal %d\n" % (bench, number, "nothing" if index is None else "at %d" % index, refusal))


def read(k):
    put(13, k)
    lent = picture[:picture_length]
    answer, refusal = archives.read(archive(), k, lent)
    picture[:picture_length] = lent
    text.append("read %d in %d sum %d: %s refusal %d\n" % (k, picture_length, checksum(bytes(lent)), fields(answer), refusal))


def in_range(bench, shown):
    put(14, bench, shown)
    text.append("bench %d shown %d: in range %d\n" % (bench, shown, archives.fields_in_range(bench, shown)))


def show(begin, end):
    put(15, begin, end)
    data = archive()[begin:end]
    text.append("bytes %d to %d:%s\n" % (begin, begin + len(data), "".join(" %02x" % byte for byte in data)))


# ---------------------------------------------------------------- scenes
FRAMES = [(7, 12, 256), (1, 0, 200), (65535, LARGEST, 256), (12, 7, 200), (7, 13, 256)]
MISSING = [(7, 0), (1, 12), (0, 0), (65543, 12), (65536, LARGEST)]


def look(frames):
    """All that the archive of these frames tells."""
    n = len(frames)
    count()
    for k, (bench, number, _) in enumerate(frames):
        entry(k)
        find(bench, number)
        lend_picture(PICTURE, 200 + k)
        read(k)
    for bench, number, _ in FRAMES[n:]:
        find(bench, number)
    for k in (n, LARGEST):
        entry(k)
        read(k)


def three_frames():
    start(length_of(0))
    hold()
    for k, frame in enumerate(FRAMES[:3]):
        lend_picture(PICTURE, 59 + k)
        assert add(*frame, SIZE)
        hold()


def starting():
    title("an archive of no frames")
    for size in (0, 1, 19, 20, 21, 100, SIZE):
        start(size)
    hold()
    show(0, HEADER)
    lend_picture(PICTURE, 200)
    look([])
    for k in (0, LARGEST):
        stands(k)
    for at in range(HEADER):
        count_changed(at, 1)


def ranges():
    title("benches and shown lines")
    for bench in (0, 1, 65535, 65536, LARGEST):
        in_range(bench, 200)
        in_range(bench, 256)
    for shown in (0, 32, 144, 199, 201, 255, 257, 312, 512, 65736, LARGEST):
        in_range(1, shown)


def adding():
    title("frames added in turn")
    for k, frame in enumerate(FRAMES):
        # no room behind, one byte, 20, and all there is
        size = min(length_of(k + 1) + (0, 1, 20, SIZE)[k % 4], SIZE)
        lend_picture(PICTURE, 59 + k)
        add(*frame, size)
        hold()
        look(FRAMES[:k + 1])
    for bench, number in MISSING:
        find(bench, number)


def form():
    title("the bytes of an archive of three frames")
    three_frames()
    show(0, HEADER)
    for k in range(3):
        show(HEADER + 16 * k, HEADER + 16 * k + 16)
    for k, (_, _, shown) in enumerate(FRAMES[:3]):
        at = picture_offset(3, k)
        for begin in (at, at + shown * 90 - 8, at + PICTURE - 16):
            show(begin, begin + 16)
    title("entries as they stand: the fourth is of the first picture")
    for k in (0, 1, 2, 3, LARGEST):
        stands(k)
    for length in (35, 36, 51, 52, length_of(3)):
        hold_length(length)
        for k in (0, 1):
            stands(k)


def refused_adds():
    size = length_of(4)
    title("adds refused: picture")
    for length in (0, 23039, 23041):
        lend_picture(length, 59)
        add(7, 13, 256, size)
    lend_picture(PICTURE, 59)
    title("adds refused: pair, bench, shown lines")
    for bench, number, shown in FRAMES[:3] + [(7, 12, 200), (1, 0, 256)]:
        add(bench, number, shown, size)
    for bench in (0, 65536, 65543, LARGEST):
        add(bench, 13, 256, size)
    for shown in (0, 1, 199, 201, 255, 257, 456, LARGEST):
        add(7, 13, shown, size)
    title("adds refused: room")
    for length in (0, HEADER, length_of(3), size - 23040, size - 1):
        add(7, 13, 256, length)
    title("adds accepted")
    for bench, number in ((7, 13), (12, 7), (1, 12), (7, 0), (65535, 0), (1, LARGEST)):
        for shown in (200, 256):
            add(bench, number, shown, size)


def order_of_refusals():
    title("the first of several refusals")
    long, short = length_of(4), length_of(4) - 1
    lend_picture(23039, 59)
    add(7, 12, 255, short)
    with altered(0, b"\2"):
        add(7, 12, 255, short)
        lend_picture(PICTURE, 59)
        add(7, 12, 255, short)
        add(0, 13, 256, long)
        add(7, 12, 256, long)
        add(7, 13, 256, short)
        add(7, 13, 256, long)
    add(7, 12, 256, short)
    add(0, 13, 256, short)
    add(7, 13, 255, short)
    add(7, 13, 256, short)


def refused_reads():
    title("reads refused")
    for length in (0, 23039, 23041):
        lend_picture(length, 200)
        read(0)
        read(3)
    lend_picture(PICTURE, 200)
    for k in (3, 4, 1000, LARGEST):
        read(k)
        entry(k)
    with altered(8, b"\x15"):
        for k in (0, 3):
            read(k)
            entry(k)
        find(7, 12)
        find(7, 13)
        count()


def changed_bytes():
    title("one byte of an archive of three frames changed")
    entry_1 = HEADER + 16
    for at in list(range(HEADER)) + list(range(entry_1, entry_1 + 16)):
        for mask in (0x01, 0x80):
            count_changed(at, mask)
    title("one byte of a picture changed, of 256 lines and of 200")
    first, second = picture_offset(3, 0), picture_offset(3, 1)
    for at in (first, first + 17999, first + 18000, first + 23039, second, second + 17999, second + 18000, second + 20000,
               second + 23039, second + 23040, length_of(3) - 1):
        count_changed(at, 0x10)


def changed_entries():
    title("entries changed")
    at = [HEADER + 16 * k for k in range(3)]
    lend_picture(PICTURE, 200)
    for what in ((1, 12), (7, 0), (7, 12), (0, 0), (65536, 0), (65535, LARGEST), (65535, 0), (12, 7)):
        with altered(at[1], numbers(*what)):
            entry(1)
            stands(1)
    for k, shown in ((0, 200), (1, 256), (2, 200), (1, 0), (1, 199), (1, 255), (1, 257), (1, 456)):
        with altered(at[k] + 8, numbers(shown)):
            read(k)
    title("offsets changed")
    first, second = bytes(held[at[0]:at[1]]), bytes(held[at[1]:at[2]])
    swapped = [first[:12] + second[12:], second[:12] + first[12:]]
    for k, what in ((0, swapped[0] + swapped[1]), (1, swapped[1]), (0, second + first)):
        with altered(at[k], what):
            show(at[0], at[2])
            count()
    show(at[0], at[2])
    count()


def changed_headers():
    title("headers changed")
    for values in ((0, 3, 20, 68, 69188), (2, 3, 20, 68, 69188), (1, 2, 20, 52, 46132), (1, 4, 20, 84, 92244),
                   (1, 3, 24, 68, 69188), (1, 3, 16, 68, 69188), (1, 3, 20, 64, 69188), (1, 3, 20, 84, 69188),
                   (1, 3, 20, 68, 69187), (1, 3, 20, 68, 92244), (1, 3, 20, 68, 69188), (1, 0, 20, 20, 20)):
        with altered(0, numbers(*values)):
            show(0, HEADER)
            count()
    title("lengths changed")
    whole = held_length
    for length in (0, 1, 4, 19, 20, 21, length_of(2), whole - 1, whole + 1, length_of(4), whole):
        hold_length(length)
        count()
    lend_picture(PICTURE, 200)
    for length in (whole - 1, whole + 1):
        hold_length(length)
        entry(0)
        find(7, 12)
        read(0)
        add(7, 13, 256, SIZE)
    title("headers of other counts, in their length and in 20 bytes")
    for n in (0, 1, 2, 3, 4, 1000, 1001, 186284, LARGEST // 16):
        header = numbers(1, n, HEADER, (20 + 16 * n) % (LARGEST + 1), length_of(n) % (LARGEST + 1))
        with altered(0, header):
            show(0, HEADER)
            for length in sorted({HEADER, min(length_of(n), SIZE)}):
                hold_length(length)
                count()
    hold_length(whole)
    count()


def many():
    title("as many frames as the room has")
    start(HEADER)
    hold()
    for k in range(17):
        lend_picture(PICTURE, 3 * k)
        add(1 + k % 3, 1000 + k // 3, (256, 200)[k // 2 % 2], length_of(k + 1))
        hold()
    count()
    lend_picture(PICTURE, 200)
    for k in range(17):
        find(1 + k % 3, 1000 + k // 3)
        read(k)
    add(1, 999, 256, SIZE)
    last = HEADER + 16 * 16
    for k in (0, 8, 15):
        with altered(last, bytes(held[HEADER + 16 * k:HEADER + 16 * k + 8])):
            stands(16)
            count()
    count_changed(picture_offset(17, 14) + 18000, 1)
    count_changed(picture_offset(17, 16) + 18000, 1)


def one_of(values, n):
    return values[n % len(values)]


def mixture(seed, count_of_calls):
    title("a mixture")
    start(HEADER)
    hold()
    for i in range(count_of_calls):
        a = lcg(seed)
        b = lcg(a)
        seed = lcg(b)
        x, y, z = a >> 16, b >> 16, seed >> 16
        n = archives.count(archive())[0]
        if n == 5:
            lend_picture(PICTURE, x % 256)
            read(y % 5)
            start(HEADER + z % 3)
            hold()
            n = 0
        bench = one_of((1, 2, 3, 256, 257, 65535, 0, 65536), x // 8)
        number = one_of((0, 1, 256, 65536, 16777216, LARGEST), y)
        shown = one_of((200, 256, 200, 256, 200, 256, 200, 256, 0, 512, 56, 257), z // 4)
        lend_picture(one_of((PICTURE,) * 15 + (PICTURE - 90,), y // 8), x % 256)
        size = length_of(n + 1) + one_of((0, 1, 90, 500, 0, 3, 7, 16, 20, -1, -16, 23), x // 64)
        if add(bench, number, shown, size):
            hold()
            lend_picture(PICTURE, z % 256)
            read(n)
            if n > 0:
                read(y % n)
            find(bench, number)


def main():
    for scene in (starting, ranges, adding, form, refused_adds, order_of_refusals, refused_reads, changed_bytes,
                  changed_entries, changed_headers, many):
        scene()
    mixture(1985, 80)
    open(sys.argv[1] + "/stdin", "wb").write(bytes(groups))
    open(sys.argv[1] + "/stdout", "w").write("".join(text))


main()
