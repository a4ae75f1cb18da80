"""The report that a driver wants to be sent, from controls and values, once more, from HID 1.11 alone, over `plain`.

It shares nothing with the crates: tests/test_reader.py compares the two.
"""

from plain import usage_of, value_of


class NotWritten(Exception):
    """Why nothing is written, and the number of the setting or field."""


def held(item):
    """The least and greatest value that the bits of a place hold."""
    half = 1 << item.size - 1
    return (-half, half - 1) if item.least < 0 else (0, 2 * half - 1)


def fits(item, value):
    """Whether the bits of a place hold a value."""
    least, greatest = held(item)
    return least <= value <= greatest


def outside(item):
    """A value outside the extents: 0, one over the greatest, or one under the least."""
    wanted = (0, item.greatest + 1, item.least - 1)
    return next((value for value in wanted if fits(item, value) and not item.least <= value <= item.greatest), None)


def names_none(item, value):
    """Whether a value of an array names no usage, or one of number 0."""
    usage = usage_of(item, 0, value, "range" if item.least <= value <= item.greatest else "out")
    return usage is None or usage & 0xFFFF == 0


def unused(item):
    """A value by which a place of an array names no usage."""
    zeros, before = [], 0
    for first, last in item.usages:
        if first & 0xFFFF == 0:
            zeros.append(item.least + before)
        before += last - first + 1
    wanted = [0, outside(item), item.least + item.listed, *zeros]
    return next((value for value in wanted if value is not None and fits(item, value) and names_none(item, value)), None)


def number_of(item, usage):
    """The number of a usage in the list of a field, or None."""
    before = 0
    for first, last in item.usages:
        if first <= usage <= last:
            return before + usage - first
        before += last - first + 1
    return None


class Writer:
    """A report that is being written, its bits as one number."""

    def __init__(self, descriptor, kind, number, onto):
        self.descriptor, self.set = descriptor, set()
        self.fields = [(place, item) for place, item in enumerate(descriptor.fields) if (item.kind, item.id) == (kind, number)]
        length = descriptor.length(kind, number)
        if length is None:
            raise NotWritten("unknown-report")
        if onto is not None:
            if descriptor.uses_ids and onto and onto[0] != number:
                raise NotWritten("other-id")
            if len(onto) < max(length, 1):
                raise NotWritten("short")
        self.head = bytes([number]) if descriptor.uses_ids else b""
        whole = onto if onto is not None else self.head + bytes(length - len(self.head))
        self.size = len(whole) - len(self.head)
        self.bits = int.from_bytes(whole[len(self.head):], "little")
        if onto is None:
            self.fill()

    def fill(self):
        """A new report: nulls, and arrays that name nothing."""
        for place_of_field, item in self.fields:
            value = unused(item) if item.array else (outside(item) or 0) if item.has(6) else 0
            if value is None:
                raise NotWritten("no-unused", place_of_field)
            for place in range(item.count):
                self.put(item, place, value)

    def put(self, item, place, value):
        """Changes the bits of a place, and no others."""
        at, mask = item.bit + item.size * place, (1 << item.size) - 1
        self.bits = self.bits & ~(mask << at) | (value & mask) << at

    def value(self, item, place):
        """The value of a place."""
        return value_of(item, self.bits.to_bytes(self.size, "little"), place)

    def mark(self, place_of_field, place, number, stays=True):
        """Refuses a place that is set, and notes that it is, if it stays so."""
        if (place_of_field, place) in self.set:
            raise NotWritten("twice", number)
        if stays:
            self.set.add((place_of_field, place))

    def having(self, usage):
        """What has a usage, in order: places of variable fields, and arrays."""
        for place_of_field, item in self.fields:
            if item.array:
                if number_of(item, usage) is not None:
                    yield place_of_field, item, None
            else:
                for place in range(item.count):
                    if usage_of(item, place, 0, "") == usage:
                        yield place_of_field, item, place

    def apply(self, number, target, asked):
        """Sets a control: target is ("field", field, place) or ("usage", usage, place), asked a number or None for a null."""
        word, which, place = target
        if word == "field":
            found = [(at, item, place) for at, item in self.fields if at == which and place < item.count]
        else:
            found = list(self.having(which))[place:place + 1]
        if not found:
            raise NotWritten("unknown", number)
        place_of_field, item, place = found[0]
        if place is None:
            self.in_array(place_of_field, item, which, asked, number)
        else:
            self.mark(place_of_field, place, number)
            self.put(item, place, self.checked(item, asked, number))

    @staticmethod
    def checked(item, asked, number):
        """The value of a place that is asked for."""
        if asked is None:
            if item.array or not item.has(6) or outside(item) is None:
                raise NotWritten("no-null", number)
            return outside(item)
        if not fits(item, asked):
            raise NotWritten("too-large", number)
        if not item.least <= asked <= item.greatest:
            raise NotWritten("out-of-range", number)
        return asked

    def in_array(self, place_of_field, item, usage, asked, number):
        """Puts a usage into an array, or takes it out."""
        value = item.least + number_of(item, usage)
        if asked is None:
            raise NotWritten("no-null", number)
        if asked not in (0, 1):
            raise NotWritten("out-of-range", number)
        if asked and not fits(item, value):
            raise NotWritten("too-large", number)
        if asked and value > item.greatest:
            raise NotWritten("out-of-range", number)
        named = [usage_of(item, place, *self.value(item, place)) for place in range(item.count)]
        having = [place for place, name in enumerate(named) if name == usage]
        if not asked and unused(item) is None:
            raise NotWritten("no-room", number)
        if asked:
            none = [place for place, name in enumerate(named) if name is None or name & 0xFFFF == 0]
            free = [place for place in none if (place_of_field, place) not in self.set]
            having = (having or free)[:1]
            if not having:
                raise NotWritten("no-room", number)
        for place in having:
            self.mark(place_of_field, place, number, stays=asked == 1)
            self.put(item, place, value if asked else unused(item))


def write(descriptor, kind, number, settings, onto=None):
    """The report with these controls set, or `NotWritten`."""
    writer = Writer(descriptor, kind, number, onto)
    for place, (target, asked) in enumerate(settings):
        writer.apply(place, target, asked)
    return writer.head + writer.bits.to_bytes(writer.size, "little")
