"""Lists for the programs of the crate test_list, and what these must print by the rules: a Reference is stepped by the same
list. A group is four bytes; crates/test_list/src/lib.rt has what they mean."""
from common import pattern
from rules import LINE_BYTES, Reference

KIND = {"fetch": 1, "read": 2, "write": 3, "in": 4, "out": 5, "scan": 6, "key": 7, "disc": 8, "external": 9}
# Refused calls: a step on a short RAM, each followed by a refresh into a short picture.
TRIED = [(3, 0x30, 85), (7, 3, 85), (5, 0xF6, 85), (6, 0, 0)]


def checksum(data):
    total = 1
    for byte in data:
        total = (total * 257 + byte) % 1000000007
    return total


class BootStream:
    """Which fetches are refused with 4. The Reference knows nothing of it."""

    def __init__(self, length):
        self.mode, self.at, self.length = True, 0, length

    def refusal(self, kind, args):
        if kind == "fetch" and self.mode:
            if self.at >= self.length:
                return 4
            self.at += 1
        if kind == "out" and args[0] == 0xF8 and args[1] % 16 == 0:
            self.mode = False
        if kind == "out" and args[0] == 0xF8 and args[1] % 16 == 1:
            self.mode, self.at = True, 0
        return 0


class CallList:
    """The groups, and what is printed for them."""

    def __init__(self):
        self.groups, self.text = bytearray(), ""

    def put(self, op, a=0, b=0, c=0):
        self.groups += bytes((op, a, b, c))

    def power_on(self, rate):
        self.put(10, rate)
        self.reference = Reference(8, 8, rate, [0x80, 0x81, 0x82, 0x83], 0, 0x5B, 0, pattern(131072, 167))
        self.boot = BootStream(4)
        self.picture = pattern(23040, 59)
        self.begin()

    def begin(self):
        self.steps = self.refused = self.refreshes = self.lines = 0

    def step(self, kind, *args):
        number, value = (0, int(args[0])) if kind in ("disc", "external") else (list(args) + [0, 0])[:2]
        self.put(KIND[kind], number % 256, number // 256, value)
        self.steps += 1
        if self.reference.refusal(kind, args) or self.boot.refusal(kind, args):
            self.refused += 1
        else:
            self.reference.step(kind, args)

    def refresh(self):
        self.put(11)
        self.lines += self.reference.refresh()
        self.refreshes += 1

    def refused_calls(self, rounds):
        for k in range(rounds):
            self.put(12, *TRIED[k % 4])
            self.put(13)
            self.refused += 2

    def say(self, text):
        self.text += text
        for byte in text.encode():
            self.put(21, byte)

    def end(self, title):
        """A scene ends by a refresh; its line is printed."""
        self.refresh()
        self.reference.draw(self.picture)
        self.say(title)
        self.put(20)
        self.text += (f": steps {self.steps}, refused {self.refused}, refreshes {self.refreshes}, lines {self.lines}, wrong 0, "
                      f"differed 0, spoilt 0, picture {checksum(self.picture)}, ram {checksum(self.reference.ram)}\n")
        self.begin()

    def print_line(self, line):
        self.put(22, line)
        drawn = self.picture[line * LINE_BYTES:(line + 1) * LINE_BYTES]
        self.text += "".join("{:08b}".format(byte) for byte in drawn).replace("1", "#").replace("0", ".") + "\n"

    def write(self, folder):
        open(folder + "/stdin", "wb").write(self.groups)
        open(folder + "/stdout", "w").write(self.text)
