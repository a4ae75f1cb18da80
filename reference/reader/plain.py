"""What a report descriptor declares and what a report says, once more, from HID 1.11 sections 5 and 6.2.2 alone.

It shares nothing with the crates: tests/test_reader.py compares the two over descriptors that are real, mutated and made up.
"""

from dataclasses import dataclass, field
from fractions import Fraction

INPUT, OUTPUT, FEATURE = "input", "output", "feature"
DATA = {0x80: INPUT, 0x90: OUTPUT, 0xB0: FEATURE}
COLLECTION, END = 0xA0, 0xC0
PAGE, MINIMUM, MAXIMUM, PHYSICAL_MINIMUM, PHYSICAL_MAXIMUM, EXPONENT, UNIT = 0x04, 0x14, 0x24, 0x34, 0x44, 0x54, 0x64
SIZE, ID, COUNT, PUSH, POP = 0x74, 0x84, 0x94, 0xA4, 0xB4
USAGE, USAGE_MINIMUM, USAGE_MAXIMUM, DELIMITER = 0x08, 0x18, 0x28, 0xA8
NAMING = {0x78: "string", 0x88: "string", 0x98: "string", 0x38: "designator", 0x48: "designator", 0x58: "designator"}
INDICES, LEAST_OF_NAMING = {0x78, 0x38}, {0x88, 0x48}
MAIN = {*DATA, COLLECTION, END}
SET = {PAGE, MINIMUM, MAXIMUM, PHYSICAL_MINIMUM, PHYSICAL_MAXIMUM, EXPONENT, UNIT, SIZE, ID, COUNT}


class Refused(Exception):
    """A fault by its number, and the offset of its item."""

    def __init__(self, number, offset):
        super().__init__(number, offset)
        self.number, self.offset = number, offset


def unsigned(data):
    """The number of little-endian data; none are 0."""
    return int.from_bytes(data, "little")


def signed(data):
    """The same in two's complement."""
    return int.from_bytes(data, "little", signed=True)


def nibble(number):
    """Four bits in two's complement."""
    return number - 16 if number > 7 else number


def items(text):
    """The items of a text: offset, code without the size, data; the last is None where it is cut off."""
    at = 0
    while at < len(text):
        prefix = text[at]
        if prefix == 0xFE:
            head, size = 3, text[at + 1] if at + 1 < len(text) else 0
        else:
            head, size = 1, (0, 1, 2, 4)[prefix & 3]
        whole = at + head + size <= len(text)
        yield at, prefix & 0xFC, text[at + head:at + head + size] if whole else None
        at += head + size


@dataclass
class Declared:
    """A data item."""

    offset: int
    kind: str
    flags: int
    id: int
    bit: int
    size: int
    count: int
    least: int
    greatest: int
    physical: tuple          # as declared, 0 where not
    unit: int
    exponent: int
    usages: list             # first and last of ranges
    around: list             # the collections around it, outermost first, by their numbers
    names: dict              # first and last of strings and of designators

    def has(self, bit):
        """A bit of the item's data."""
        return self.flags >> bit & 1 == 1

    @property
    def constant(self):
        """Whether it is padding."""
        return self.has(0)

    @property
    def array(self):
        """Whether a place holds the number of a usage."""
        return not self.has(1)

    @property
    def physical_extents(self):
        """The declared ones, or the logical ones where both are 0."""
        return (self.least, self.greatest) if self.physical == (0, 0) else self.physical

    @property
    def dimensions(self):
        """The exponents of length, mass, time, temperature, current and luminous intensity; or the name of why there are none."""
        system, reserved = self.unit & 15, self.unit >> 28
        if reserved:
            return "ReservedDigit"
        if system == 0 and self.unit:
            return "NoSystem"
        if system > 4:
            return "Vendor" if system == 15 else "ReservedSystem"
        return [nibble(self.unit >> 4 * place & 15) for place in range(1, 7)]

    def usage(self, number):
        """The usage with a number in the list that the ranges make, or None."""
        for first, last in self.usages:
            if number <= last - first:
                return first + number
            number -= last - first + 1
        return None

    @property
    def listed(self):
        """How many usages the list has."""
        return sum(last - first + 1 for first, last in self.usages)


@dataclass
class Descriptor:
    """All that a text declares."""

    declared: list = field(default_factory=list)
    collections: list = field(default_factory=list)     # offset, data, usage or None, the one around it or None
    uses_ids: bool = False
    skipped: dict = field(default_factory=dict)         # the bits of data items past the limits, by kind and ID
    passed: list = field(default_factory=list)          # number and offset of each fault that was passed over

    @property
    def fields(self):
        """The data items that are not padding."""
        return [item for item in self.declared if not item.constant]

    def bits(self, kind, number):
        """The bits of a report."""
        declared = sum(item.size * item.count for item in self.declared if (item.kind, item.id) == (kind, number))
        return declared + self.skipped.get((kind, number), 0)

    def length(self, kind, number):
        """The bytes of a report with its ID, or None."""
        bits = self.bits(kind, number)
        return (bits + 7) // 8 + self.uses_ids if bits else None

    def application(self, item):
        """The innermost application around a data item, or None."""
        return next((place for place in reversed(item.around) if self.collections[place][1] == 1), None)

    def reports(self, application=None):
        """Kind and ID of the reports, by their first data items; those of an application alone."""
        return list(dict.fromkeys((item.kind, item.id) for item in self.declared
                                  if application is None or self.application(item) == application))

    def members(self, kind, number):
        """The data items of a report, by their places among all."""
        return [place for place, item in enumerate(self.declared) if (item.kind, item.id) == (kind, number)]

    def applications(self, kind, number):
        """The applications that the data items of a report belong to, by their places."""
        return sorted({self.application(self.declared[place]) for place in self.members(kind, number)} - {None})


class Parser:
    """Goes over the items once, with what is in force."""

    def __init__(self):
        self.now, self.stack, self.open, self.bare = {}, [], [], False
        self.out = Descriptor()
        self.forget()

    def forget(self):
        """Ends the Local items."""
        self.ranges, self.half, self.first = [], None, None
        self.names, self.begun = {"string": [], "designator": []}, {}

    def data(self, code):
        """The data of a Global item in force."""
        return self.now.get(code, b"")

    def number(self, code):
        """The same as a number."""
        return unsigned(self.data(code))

    def greatest(self, least, code):
        """A maximum: signed only under a negative minimum."""
        return signed(self.data(code)) if least < 0 else self.number(code)

    def extents(self):
        """The logical extents in force."""
        least = signed(self.data(MINIMUM))
        return least, self.greatest(least, MAXIMUM)

    def faults(self, code, data):
        """The numbers of all faults that an item shows."""
        if code == DELIMITER:
            yield 2
        if code == POP and not self.stack:
            yield 3
        if code == PUSH and len(self.stack) >= 8:
            yield 4
        if code == ID and not 1 <= unsigned(data) <= 255:
            yield 5
        if code == END and not self.open:
            yield 8
        if code == COLLECTION and len(self.open) >= 16:
            yield 9
        if code in MAIN and self.half:
            yield 10
        if code in (USAGE_MINIMUM, USAGE_MAXIMUM) and self.half:
            yield from self.pair_faults(code, data)
        if code == ID and self.bare:
            yield 14
        if code in DATA:
            yield from self.data_faults(data)

    def pair_faults(self, code, data):
        """Those of the second of a pair."""
        other, before = self.half
        least, greatest = (data, before) if code == USAGE_MINIMUM else (before, data)
        whole = [len(end) == 4 for end in (least, greatest)]
        if other == code or whole[0] != whole[1] or whole[0] and least[2:] != greatest[2:]:
            yield 10
        if unsigned(least) > unsigned(greatest):
            yield 11

    def data_faults(self, data):
        """Those of an Input, Output or Feature."""
        constant, array = unsigned(data) & 1, not unsigned(data) & 2
        size, count = self.number(SIZE), self.number(COUNT)
        least, greatest = self.extents()
        if size > (1024 if constant else 32):
            yield 6
        if count > 1024:
            yield 7
        if array and not constant and least > greatest:
            yield 12
        if not constant and size and count and len(self.out.fields) >= 256:
            yield 13
        if not self.number(ID) and self.out.uses_ids:
            yield 14

    def usage(self, data):
        """The number of a usage: one of four bytes has its page with it."""
        return unsigned(data) if len(data) == 4 else (self.number(PAGE) & 0xFFFF) << 16 | unsigned(data)

    def take(self, offset, code, data):
        """Takes an item that shows no fault."""
        if code in SET:
            self.now = {**self.now, code: data}
            self.out.uses_ids |= code == ID
        elif code == PUSH:
            self.stack.append(self.now)
        elif code == POP:
            self.now = self.stack.pop()
        elif code == USAGE:
            self.first = data if self.first is None else self.first
            self.ranges.append((data, data))
        elif code in (USAGE_MINIMUM, USAGE_MAXIMUM):
            if self.half:
                pair = (data, self.half[1]) if code == USAGE_MINIMUM else (self.half[1], data)
                self.ranges.append(pair)
                self.half = None
            else:
                self.half = (code, data)
        elif code in NAMING:
            self.name(code, unsigned(data))
        elif code in MAIN:
            self.main(offset, code, data)
            self.forget()

    def name(self, code, number):
        """Takes a String or Designator: an Index is a range of its own, and a Minimum waits for the Maximum behind it."""
        naming = NAMING[code]
        if code in INDICES:
            self.names[naming].append((number, number))
        elif code in LEAST_OF_NAMING:
            self.begun[naming] = number
        elif naming in self.begun:
            self.names[naming].append((self.begun.pop(naming), number))

    def main(self, offset, code, data):
        """Takes a Main item."""
        if code == COLLECTION:
            usage = None if self.first is None else self.usage(self.first)
            self.out.collections.append((offset, unsigned(data), usage, self.open[-1] if self.open else None))
            self.open.append(len(self.out.collections) - 1)
        elif code == END:
            self.open.pop()
        else:
            self.declare(offset, DATA[code], unsigned(data))
            self.bare |= not self.number(ID)

    def declare(self, offset, kind, flags):
        """Takes a data item."""
        size, count, number = self.number(SIZE), self.number(COUNT), self.number(ID)
        if not size * count:
            return
        least, greatest = self.extents()
        physical = signed(self.data(PHYSICAL_MINIMUM))
        exponent = self.number(EXPONENT)
        self.out.declared.append(Declared(
            offset, kind, flags, number, self.out.bits(kind, number), size, count, least, greatest,
            (physical, self.greatest(physical, PHYSICAL_MAXIMUM)), self.number(UNIT),
            nibble(exponent) if exponent < 16 else signed(self.data(EXPONENT)),
            [(self.usage(first), self.usage(last)) for first, last in self.ranges], list(self.open),
            self.names))


def parse(text):
    """The descriptor of a text, or `Refused` with the first fault: that of the least offset, and there of the least number."""
    parser = Parser()
    for offset, code, data in items(text):
        if offset > 4096:
            break
        fault = 1 if data is None else min(parser.faults(code, data), default=None)
        if fault:
            raise Refused(fault, offset)
        parser.take(offset, code, data)
    if len(text) > 4096:
        raise Refused(16, 4096)
    if parser.open:
        raise Refused(15, len(text))
    return parser.out


class LenientParser(Parser):
    """Reads on where Linux does: sets by their first, large data items as bits alone, nothing before a late Report ID."""

    def data_faults(self, data):
        """Those of a data item: one that is only skipped has neither of the faults of its size and its count."""
        skips = self.skips(data)
        return (number for number in super().data_faults(data) if not (skips and number in (6, 7, 12, 13)))

    def skips(self, data):
        """The fault for which a data item is bits alone, or None."""
        size, count = self.number(SIZE), self.number(COUNT)
        if size * count > 1 << 20:
            return None
        return 6 if size > (1024 if unsigned(data) & 1 else 32) else 7 if count > 1024 else None

    def main(self, offset, code, data):
        """Takes a Main item."""
        if code in DATA and self.skips(data):
            self.out.passed.append((self.skips(data), offset))
            key = DATA[code], self.number(ID)
            self.out.skipped[key] = self.out.skipped.get(key, 0) + self.number(SIZE) * self.number(COUNT)
            self.bare |= not self.number(ID)
        else:
            super().main(offset, code, data)


def late(found):
    """The places of the data items before a late Report ID, and of their Local items."""
    codes = [code for _, code, _ in found]
    first = codes.index(ID) if ID in codes else 0
    data = {place for place in range(first) if codes[place] in DATA}
    local = set()
    for place in data:
        while place and codes[place - 1] not in MAIN:
            place -= 1
            local |= {place} if codes[place] & 0x0C == 0x08 else set()
    return data, local


def alternatives(found):
    """The places of Delimiters that begin a whole set, of those that end one, and of what is not the first in it."""
    begins, ends, others = set(), set(), set()
    bounds = [place for place, (_, code, _) in enumerate(found) if code in MAIN | {DELIMITER}]
    for first, last in zip(bounds, bounds[1:]):
        if first in ends or {found[first][1], found[last][1]} != {DELIMITER} or not any(found[first][2]) or any(found[last][2]):
            continue
        begins.add(first)
        ends.add(last)
        whole = {"usage": 0, "string": 0, "designator": 0}
        for place in range(first + 1, last):
            code = found[place][1]
            name = "usage" if code in (USAGE, USAGE_MINIMUM, USAGE_MAXIMUM) else NAMING.get(code)
            if name and whole[name] > 1:
                others.add(place)
            elif name:
                whole[name] += 2 if code in INDICES | {USAGE} else 1
    return begins, ends, others


def parse_lenient(text):
    """The same in the lenient mode; `passed` says which faults were passed over."""
    if len(text) > 4096:
        return parse(text)
    parser = LenientParser()
    found = list(items(text))
    whole = found[:-1] if found and found[-1][2] is None else found
    (data, local), (begins, ends, others) = late(whole), alternatives(whole)
    for place, (offset, code, given) in enumerate(found):
        if place in begins | data:
            parser.out.passed.append((14 if place in data else 2, offset))
        if place in data | local | begins | ends | others:
            continue
        fault = 1 if given is None else min(parser.faults(code, given), default=None)
        if fault:
            raise Refused(fault, offset)
        parser.take(offset, code, given)
    if parser.open:
        raise Refused(15, len(text))
    return parser.out


# ---- reports

def number_at(body, bit, size):
    """So many bits of a report from one on."""
    return int.from_bytes(body, "little") >> bit & (1 << size) - 1


def value_of(item, body, place):
    """The value of a place, and where it is: range, null or out."""
    value = number_at(body, item.bit + item.size * place, item.size)
    if item.least < 0 and value >> item.size - 1:
        value -= 1 << item.size
    if item.least <= value <= item.greatest:
        return value, "range"
    return value, "null" if item.has(6) and not item.array else "out"


def usage_of(item, place, value, within):
    """The usage of a place: its own in a variable field, where the last serves the rest; that which an array's value names."""
    if item.array:
        return item.usage(value - item.least) if within == "range" else None
    return item.usage(min(place, max(item.listed - 1, 0)))


def read(descriptor, kind, report):
    """The values of a report: field, place, usage, value, where it is; or the name of what is wrong."""
    if not report:
        return "empty"
    number, body = (report[0], report[1:]) if descriptor.uses_ids else (0, report)
    length = descriptor.length(kind, number)
    if length is None:
        return "unknown"
    if len(report) < length:
        return "short"
    told = []
    for place_of_field, item in enumerate(descriptor.fields):
        if (item.kind, item.id) == (kind, number):
            for place in range(item.count):
                value, within = value_of(item, body, place)
                told.append((place_of_field, place, usage_of(item, place, value, within), value, within))
    return told


def physical(item, value):
    """The physical value of a logical one, as a fraction, or the name of why there is none."""
    if item.greatest == item.least:
        return "equal"
    if item.greatest < item.least:
        return "inverted"
    least, greatest = item.physical_extents
    return least + Fraction((value - item.least) * (greatest - least), item.greatest - item.least)


def decimal(fraction, exponent, digits):
    """A fraction times a power of ten as a decimal, cut off; what is cut to nothing has no sign."""
    if abs(exponent) <= 18:
        fraction, exponent = fraction * Fraction(10) ** exponent, 0
    whole, rest = divmod(abs(fraction.numerator) * 10**digits // fraction.denominator, 10**digits)
    behind = f".{rest:0{digits}}".rstrip("0").rstrip(".")
    return f"{'-' if fraction < 0 and (whole or behind) else ''}{whole}{behind}{f'e{exponent}' if exponent else ''}"
