"""What the test programs share beside the rules: the pattern their memory starts with, numbers that only look random, and
how the crate test_print writes a record."""


def pattern(length, first):
    return bytearray((at * 167 + at // 256 * 3 + first) % 256 for at in range(length))


def lcg(seed):
    return (seed * 1103515245 + 12345) % 2147483648


def three_bytes(number):
    """Lowest first."""
    return number % 256, number // 256 % 256, number // 65536


def words(lines):
    """A set of lines as four words, line 0 in the lowest bit of the first."""
    return " ".join("%016x" % sum(1 << (line - 64 * k) for line in lines if line // 64 == k) for k in range(4))


def record_text(b):
    return ("   %d of %d rate %d maps %02x %02x %02x %02x lock %02x F5 %02x F6 %02x F7 %02x counter %d beam %d boot %d at %d "
            "route %d line %d count %d motor %d external %d driven %d bleeper %d" % (
                b.internal, b.total, b.rate, *b.maps, b.lock, b.table, b.top, b.control, b.counter, b.beam, b.boot_mode,
                b.boot_at, b.route, b.disc_line, b.terminal_count, b.motor, b.external, b.driven, b.bleeper))


def dirty_text(b):
    return "   dirty %s\n" % words(b.dirty)
