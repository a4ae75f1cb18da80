"""Report descriptors in hex, made from a number: the same number gives the same text on every machine.

Most are nearly well-formed: some are accepted, and all faults of docs/formats.md come up.
"""

import random

USAGE_PAGE, LOGICAL_MIN, LOGICAL_MAX, UNIT, SIZE, ID, COUNT, PUSH, POP = 0x04, 0x14, 0x24, 0x64, 0x74, 0x84, 0x94, 0xA4, 0xB4
USAGE, USAGE_MIN, USAGE_MAX, DELIMITER = 0x08, 0x18, 0x28, 0xA8
INPUT, OUTPUT, FEATURE, COLLECTION, END = 0x80, 0x90, 0xB0, 0xA0, 0xC0


class Text:
    """The bytes of a descriptor, which grow item by item."""

    def __init__(self, number):
        self.random = random.Random(number)
        # In most texts nothing is wrong by intent.
        self.wrong = self.random.choice([0, 0, 0, 0, 30, 8])
        self.depth = self.pushed = 0
        self.bytes = bytearray()

    def below(self, end):
        return self.random.randrange(end)

    def one_of(self, choices):
        return self.random.choice(choices)

    def is_wrong(self):
        """Whether something is to be wrong here."""
        return self.wrong > 0 and self.below(self.wrong) == 0

    def add(self, prefix, value=None, size=None):
        """An item; its value in the least size that holds it, or a greater one."""
        if value is None:
            self.bytes.append(prefix)
            return
        least = next(n for n in (1, 2, 4) if -(1 << (8 * n - 1)) <= value < 1 << 8 * n)
        size = size or self.one_of([n for n in (1, 1, 2, 4) if n >= least] or [4])
        if value == 0 and self.below(4) == 0:
            self.bytes.append(prefix)
            return
        self.bytes.append(prefix | {1: 1, 2: 2, 4: 3}[size])
        self.bytes += (value % (1 << 8 * size)).to_bytes(size, "little")

    def extents(self):
        """Logical extents, mostly in order."""
        low, high = self.one_of([(0, 1), (0, 0xFF), (-127, 127), (0, 0x3FF), (1, 5), (self.below(9) - 4, self.below(500) - 9)])
        self.add(LOGICAL_MIN, low)
        # (A greatest value whose highest bit would be a sign takes a byte more.)
        self.add(LOGICAL_MAX, high, 2 if 0x7F < high < 0x8000 and self.below(8) else None)

    def usages(self):
        for _ in range(self.one_of([0, 1, 1, 2, 3, 8])):
            if self.below(2):
                self.add(USAGE, self.one_of([self.below(300), 0xFF000000 + self.below(9), 0x000C0000 + self.below(99)]))
            else:
                self.range()

    def range(self):
        """A pair of usages, in either order; both ends have four bytes, with one page in them, or neither."""
        low = 1 + self.below(200)
        high = low + self.below(200) if not self.is_wrong() else low - 1
        size = self.one_of([2, 2, 2, 4]) if not self.is_wrong() else None
        if size == 4:
            page = self.one_of([0, 0, 12, 12, 7]) << 16
            low, high = low + page, high + page + (self.is_wrong() << 16)
        pair = [(USAGE_MIN, low), (USAGE_MAX, high)]
        for prefix, value in pair if self.below(4) else pair[::-1]:
            self.add(prefix, value, size)

    def field(self):
        """A Main item with what it wants."""
        self.add(SIZE, self.one_of([0, 1, 1, 1, 2, 7, 8, 8, 16, 32, 33 if self.is_wrong() else 4]))
        self.add(COUNT, self.one_of([0, 1, 2, 3, 6, 8, 8, 104, 1024, 70000 if self.is_wrong() else 5]))
        if self.below(3):
            self.extents()
        self.usages()
        self.add(self.one_of([INPUT, INPUT, INPUT, OUTPUT, FEATURE]), self.one_of([0, 1, 2, 2, 2, 3, 6, 0x103, self.below(512)]))

    def open(self):
        self.add(COLLECTION, self.one_of([0, 1, 1, 2, 0x80]))
        self.depth += 1

    def close(self):
        if self.depth > 0 or self.is_wrong():
            self.add(END)
            self.depth = max(self.depth - 1, 0)

    def push(self):
        if self.depth < 8:
            self.add(PUSH)
            self.pushed += 1

    def pop(self):
        if self.pushed > 0 or self.is_wrong():
            self.add(POP)
            self.pushed = max(self.pushed - 1, 0)

    def other(self):
        """Items that change no field, and in texts that are wrong any bytes."""
        if self.is_wrong():
            self.bytes += self.random.randbytes(1 + self.below(4))
        elif self.below(12) == 0:
            self.bytes += bytes([0xFE, self.below(6), self.below(256)]) + bytes(self.below(6))
        else:
            self.add(self.one_of([0x34, 0x44, 0x54, UNIT, 0x38, 0x48, 0x58, 0x78, 0x88, 0x98]), self.below(300))

    def report_id(self):
        self.add(ID, 0 if self.is_wrong() else 1 + self.below(3) if self.below(9) else 1 + self.below(255))


def descriptor(number):
    """The bytes of the descriptor of this number."""
    made = Text(number)
    with_ids = made.below(2)
    items = [made.field] * 6 + [made.open] * 2 + [made.close] * 2 + [made.push, made.pop, made.other]
    items.append(lambda: made.add(USAGE_PAGE, made.one_of([1, 7, 8, 9, 12, 0xFF00, 0x10000 if made.is_wrong() else 13])))
    if with_ids:
        items += [made.report_id] * 2
        made.report_id()
    if made.is_wrong():
        items.append(lambda: made.add(DELIMITER, made.below(3)))
    for _ in range(1 + made.below(24) if number % 40 else 600):
        made.one_of(items)()
    if number % 40 == 20:
        # About as many fields as there may be.
        made.bytes += bytes([INPUT | 1, 2]) * (240 + made.below(20))
    while made.depth and not made.is_wrong():
        made.close()
    if made.is_wrong():
        del made.bytes[len(made.bytes) - made.below(min(5, len(made.bytes))):]
    return bytes(made.bytes)


def text(number):
    """The text in hex of this number: in either case, with blanks, now and then with a digit too few or none."""
    made = random.Random(number)
    digits = descriptor(number).hex()
    if made.randrange(3) == 0:
        digits = "".join(made.choice([digit, digit.upper()]) for digit in digits)
    if made.randrange(3) == 0:
        digits = "".join(digit + made.choice(["", "", "", " ", "\n", "\t", "\r\n"]) for digit in digits)
    if made.randrange(40) == 0:
        at = made.randrange(len(digits) + 1)
        digits = digits[:at] + made.choice(["g", "0", "x", "-", "\u00e4"]) + digits[at:]
    return digits
