"""The rules of archives (document 02, request [1]: a book of frames), written from that document. Bytes are a sound archive if
they are what is written of the frames that are read from them."""
from dataclasses import dataclass

HEADER, ENTRY, LINE, PICTURE = 20, 16, 90, 256 * 90
MOST = 1000
NO_ENTRY = (0, 0, 0, 0)


@dataclass(frozen=True)
class Frame:
    bench: int
    number: int
    shown: int
    lines: bytes


def numbers(*values):
    """Each of four bytes, low first."""
    return b"".join(value.to_bytes(4, "little") for value in values)


def numbers_at(archive, at, count):
    return tuple(int.from_bytes(archive[i:i + 4], "little") for i in range(at, at + 4 * count, 4))


def length_of(count):
    return HEADER + (ENTRY + PICTURE) * count


def picture_offset(count, k):
    return HEADER + ENTRY * count + PICTURE * k


def fields_in_range(bench, shown):
    return 1 <= bench <= 65535 and shown in (200, 256)


# ---------------------------------------------------------------- a list of frames and its archive
def written(frames):
    n = len(frames)
    entries = [numbers(f.bench, f.number, f.shown, picture_offset(n, k)) for k, f in enumerate(frames)]
    pictures = [f.lines.ljust(PICTURE, b"\0") for f in frames]
    return b"".join([numbers(1, n, HEADER, picture_offset(n, 0), length_of(n))] + entries + pictures)


def stands(archive, k):
    """Entry k in whatever bytes; zeros where it is not wholly there."""
    at = HEADER + ENTRY * k
    return numbers_at(archive, at, 4) if at + ENTRY <= len(archive) else NO_ENTRY


def frame_at(archive, count, k):
    bench, number, shown, _ = stands(archive, k)
    at = picture_offset(count, k)
    return Frame(bench, number, shown, bytes(archive[at:at + shown * LINE]))


def frames_of(archive):
    """The frames of a sound archive, in order; None of any other bytes."""
    if len(archive) < HEADER:
        return None
    count, = numbers_at(archive, 4, 1)
    if count > MOST or len(archive) != length_of(count):
        return None
    if not all(fields_in_range(bench, shown) for bench, _, shown, _ in (stands(archive, k) for k in range(count))):
        return None
    frames = [frame_at(archive, count, k) for k in range(count)]
    if len({(f.bench, f.number) for f in frames}) < count or written(frames) != archive:
        return None
    return frames


# ---------------------------------------------------------------- what is asked of an archive: an answer, and the refusal
def count(archive):
    frames = frames_of(archive)
    return (0, 10) if frames is None else (len(frames), 0)


def entry(archive, k):
    frames = frames_of(archive)
    if frames is None:
        return NO_ENTRY, 10
    if k >= len(frames):
        return NO_ENTRY, 11
    f = frames[k]
    return (f.bench, f.number, f.shown, picture_offset(len(frames), k)), 0


def find(archive, bench, number):
    frames = frames_of(archive)
    if frames is None:
        return None, 10
    pairs = [(f.bench, f.number) for f in frames]
    return (pairs.index((bench, number)) if (bench, number) in pairs else None), 0


def read(archive, k, picture):
    """Writes the shown lines to the lent picture."""
    if len(picture) != PICTURE:
        return NO_ENTRY, 2
    answer, refusal = entry(archive, k)
    if refusal == 0:
        lines = frames_of(archive)[k].lines
        picture[:len(lines)] = lines
    return answer, refusal


# ---------------------------------------------------------------- what is written in lent room: the length, and the refusal
def put(archive, room):
    if len(archive) > len(room):
        return 0, 12
    room[:len(archive)] = archive
    return len(archive), 0


def start(room):
    return put(written([]), room)


def add(archive, bench, number, shown, picture, room):
    if len(picture) != PICTURE:
        return 0, 2
    frames = frames_of(archive)
    if frames is None:
        return 0, 10
    if not fields_in_range(bench, shown) or any((f.bench, f.number) == (bench, number) for f in frames):
        return 0, 11
    if len(frames) == MOST:
        return 0, 12
    return put(written(frames + [Frame(bench, number, shown, bytes(picture[:shown * LINE]))]), room)
