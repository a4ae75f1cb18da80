# SPDX-License-Identifier: MIT OR Apache-2.0
"""A kept descriptor, and reports by it."""

import threading
from collections.abc import Iterable, Iterator
from ctypes import byref, c_int8, c_int64, c_size_t, c_uint8, c_uint32, c_uint64
from dataclasses import dataclass
from enum import IntEnum
from fractions import Fraction
from typing import BinaryIO, NoReturn

from wuzhikar_hid import _library as library
from wuzhikar_hid._library import DescriptorError, HidError

_NONE = library.NONE
# Powers of ten that a fraction takes: more would take memory without end.
_POWERS = 400


class Kind(IntEnum):
    """The kinds of reports (HID 1.11, section 6.2.2.5)."""

    INPUT = 0
    OUTPUT = 1
    FEATURE = 2


class Within(IntEnum):
    """Where a value is, by the logical extents of its field (HID 1.11, sections 5.10 and 6.2.2.5)."""

    RANGE = 0
    NULL = 1
    OUT = 2


@dataclass(frozen=True)
class Detail:
    """What an Input, Output or Feature item declares (HID 1.11, sections 6.2.2.4 to 6.2.2.7). `flags` are the item's bits; `field` is
    None for padding; `unit` is a name, as "degree", or empty; `exponents` are those of length, mass, time, temperature,
    current and luminous intensity, or None where the unit is reserved or a vendor's."""

    item: int
    kind: Kind
    id: int
    offset: int
    bit: int
    size: int
    count: int
    flags: int
    min: int
    max: int
    physical_min: int
    physical_max: int
    exponent: int
    unit: str
    exponents: tuple[int, ...] | None
    field: int | None
    collection: int | None
    application: int | None
    usages: tuple[tuple[int, int], ...]
    strings: tuple[tuple[int, int], ...]
    designators: tuple[tuple[int, int], ...]

    @property
    def is_variable(self) -> bool:
        """Whether each place is a value of a usage, and not the number of one."""
        return bool(self.flags & 2)


@dataclass(frozen=True)
class Collection:
    """A collection (HID 1.11, section 6.2.2.6): its type and its name, as 2 and "Logical", and the usage before it, if any."""

    number: int
    offset: int
    type: int
    name: str
    usage: int | None
    outer: int | None


@dataclass(frozen=True)
class Report:
    """A report: its bits without the ID byte, padding among them, and its bytes with it. `id` is 0 where none is used."""

    kind: Kind
    id: int
    bits: int
    bytes: int


@dataclass(frozen=True)
class Value:
    """The value of a place of a field. `usage` is None where the place has none."""

    raw: int
    usage: int | None
    within: Within
    field: int
    place: int
    item: int

    @property
    def name(self) -> str:
        """The name of the usage, as "Num Lock"; empty where there is none."""
        return "" if self.usage is None else usage_name(self.usage)


@dataclass(frozen=True)
class Setting:
    """A control of a report, and what it is set to: by `usage`, or by `field`. `place` counts from 0. Of an array 1 puts the usage in,
    and 0 takes it out. A `value` of None is no value, where the field has Null State."""

    value: int | None
    usage: int | None = None
    field: int | None = None
    place: int = 0


def usage_name(usage: int) -> str:
    """The name of a usage, as "Num Lock", or its page and number where none is known. The page is the high half."""
    return library.text("usage_name", usage)


def page_name(page: int) -> str:
    """The name of a usage page, as "LED"; empty where none is known."""
    return library.text("page_name", page)


def _pairs(name: str, handle: int, number: int) -> tuple[tuple[int, int], ...]:
    return tuple((pair.first, pair.last) for pair in library.many(name, library.Range, handle, number))


def _some(number: int) -> int | None:
    return None if number == _NONE else number


class Reader:
    """A report descriptor of at most 4,096 bytes, kept for its reports.

    Raises `DescriptorError` with the first fault. With `lenient`, late delimiters, extents and padding are passed over as
    docs/reader.md says, and `passed` has what was passed over. Close it, or use it in a `with` statement."""

    def __init__(self, text: bytes, *, lenient: bool = False) -> None:
        handle, fault, count = c_uint64(), library.Fault(), c_size_t()
        text = as_bytes(text)
        passed = (library.Fault * (len(text) if lenient else 0))()
        if lenient:
            last = (byref(handle), byref(fault), passed, len(passed), byref(count))
            refusal = library.status_of("reader_open_lenient", text, len(text), *last)
        else:
            refusal = library.status_of("reader_open", text, len(text), byref(handle), byref(fault))
        if refusal == "Fault":
            raise DescriptorError(library.fault_name(fault.fault), fault.offset)
        if refusal:
            raise HidError(refusal)
        self._handle = handle.value
        self._closing = threading.Lock()
        self.passed = [DescriptorError(library.fault_name(one.fault), one.offset) for one in passed[: count.value]]
        self.uses_ids = bool(library.one("uses_ids", c_uint8, self._handle).value)
        self.details = [self._detail(item) for item in range(library.one("detail_count", c_size_t, self._handle).value)]
        self.fields = [detail for detail in self.details if detail.field is not None]
        self.collections = [self._collection(k) for k in range(library.one("collection_count", c_size_t, self._handle).value)]
        found = library.many("reports", library.Report, self._handle)
        self.reports = [Report(Kind(one.kind), one.id, one.bits, one.bytes) for one in found]

    def close(self) -> None:
        """Frees the memory of the descriptor. Later reports are refused as `Closed`."""
        with self._closing:
            handle, self._handle = self._handle, 0
        if handle:
            library.call("close", handle)

    def __enter__(self) -> "Reader":
        return self

    def __exit__(self, *_: object) -> None:
        self.close()

    def __del__(self) -> None:
        if getattr(self, "_handle", 0):
            self.close()

    def __reduce__(self) -> NoReturn:
        raise TypeError("a Reader holds memory of the library, and can't be copied: make another one of the same text")

    def handle(self) -> int:
        """The handle of the library, for its calls. Refused: `Closed`."""
        if not self._handle:
            raise HidError("Closed")
        return self._handle

    def _detail(self, item: int) -> Detail:
        of = library.one("detail_at", library.Detail, self._handle, item)
        exponents = (c_int8 * 6)()
        has_unit = not library.status_of("unit_exponents", self._handle, item, exponents)
        field = _some(of.field)
        return Detail(
            item, Kind(of.kind), of.id, of.offset, of.bit, of.size, of.count, of.flags, of.min, of.max, of.physical_min,
            of.physical_max, of.exponent, library.text("unit_name", self._handle, item), tuple(exponents) if has_unit else None,
            field, _some(of.collection), _some(of.application), () if field is None else _pairs("ranges", self._handle, field),
            _pairs("strings", self._handle, item), _pairs("designators", self._handle, item),
        )

    def _collection(self, number: int) -> Collection:
        of = library.one("collection_at", library.Collection, self._handle, number)
        name = library.text("collection_name", self._handle, number)
        return Collection(number, of.offset, of.type, name, of.usage if of.has_usage else None, _some(of.outer))

    def around(self, item: int) -> list[Collection]:
        """The collections around an item, outermost first."""
        return [self.collections[number] for number in library.many("around", c_uint32, self.handle(), item)]

    def report_length(self, kind: Kind = Kind.INPUT, id: int = 0) -> int | None:
        """The length in bytes of a report, with its ID byte; None where there is none."""
        count = c_size_t()
        refusal = library.status_of("report_length", self.handle(), kind, id, byref(count))
        return None if refusal else count.value

    def read(self, report: bytes, kind: Kind = Kind.INPUT) -> list[Value]:
        """The values of a report, by rising field and place. Bytes behind its end are ignored. Refused: `EmptyReport`,
        `UnknownReport`, `ShortReport`."""
        report, count = as_bytes(report), c_size_t()
        library.call("read", self.handle(), kind, report, len(report), None, 0, byref(count), None)
        into = (library.Value * count.value)()
        library.call("read", self.handle(), kind, report, len(report), into, count.value, byref(count), None)
        return [
            Value(of.raw, of.usage if of.has_usage else None, Within(of.within), of.field, of.place, of.item) for of in into
        ]

    def pressed(self, report: bytes, kind: Kind = Kind.INPUT) -> list[int]:
        """The usages that are on, rising, each once: those that arrays name, and those of variable fields whose value isn't 0. A value
        outside the logical extents is off."""
        on = {
            value.usage
            for value in self.read(report, kind)
            if value.usage is not None and value.usage & 0xFFFF and value.within == Within.RANGE
            and (value.raw or not self.details[value.item].is_variable)
        }
        return sorted(on)

    def changes(self, before: bytes, now: bytes, kind: Kind = Kind.INPUT) -> tuple[list[int], list[int]]:
        """The usages that are on in the later report alone, and those that are on in the earlier one alone. Refused as `read` refuses
        either; then `OtherId`."""
        before, now, counts = as_bytes(before), as_bytes(now), (c_size_t(), c_size_t())
        given = (self.handle(), kind, before, len(before), now, len(now))
        library.call("changes", *given, None, 0, byref(counts[0]), None, 0, byref(counts[1]))
        lists = [(c_uint32 * count.value)() for count in counts]
        ends = [part for found, count in zip(lists, counts) for part in (found, len(found), byref(count))]
        library.call("changes", *given, *ends)
        return list(lists[0]), list(lists[1])

    def buffered(self, report: bytes, field: int, kind: Kind = Kind.INPUT) -> bytes:
        """The bytes of a field of Buffered Bytes. Refused as `read`; `Absent` where it is none."""
        report = as_bytes(report)
        return bytes(library.many("buffered", c_uint8, self.handle(), kind, report, len(report), field))

    def physical(self, value: Value) -> Fraction:
        """A value in its unit, exactly (HID 1.11, section 6.2.2.7). Refused: `EqualLimits`, `InvertedLimits`, `TooLarge`, also where the
        power of ten is beyond 400 either way, as no real device has it."""
        of = library.one("physical", library.Fraction, self.handle(), value.field, value.raw)
        if abs(of.exponent) > _POWERS:
            raise HidError("TooLarge", f" (ten to the power of {of.exponent})")
        return Fraction(of.numerator, of.denominator) * Fraction(10) ** of.exponent

    def raw_of(self, field: int, physical: Fraction | int) -> int:
        """The value of a field that is just so much in its unit. Refused: `Absent`, `EqualLimits`, `InvertedLimits`, `NoStep`."""
        exact = Fraction(physical)
        return library.one("value_of", c_int64, self.handle(), field, exact.numerator, exact.denominator).value

    def write(
        self, settings: Iterable[Setting] | dict[int, int], kind: Kind = Kind.OUTPUT, id: int = 0, onto: bytes = b"",
    ) -> bytes:
        """A report with these controls set; a dict gives usages their values. Each other bit is that of `onto`. Without it places with
        Null State are null if there is a value for it, arrays name no usage, and the rest is 0. The order of refusals is that of
        `hidr_write` (c/reader/hid_reader.h); the message has the number of the setting."""
        if isinstance(settings, dict):
            settings = [Setting(value, usage=usage) for usage, value in settings.items()]
        asked = [_asked(setting) for setting in settings]
        array, length, which = (library.Setting * len(asked))(*asked), c_size_t(), c_size_t(_NONE)
        room = self.report_length(kind, id) or 0
        into, onto = (c_uint8 * room)(), as_bytes(onto)
        given = (self.handle(), kind, id, array, len(asked), onto, len(onto), into, room)
        refusal = library.status_of("write", *given, byref(length), byref(which))
        if refusal:
            raise HidError(refusal, "" if which.value == _NONE else f" (setting {which.value})")
        return bytes(into)[: length.value]

    def reports_of(self, stream: BinaryIO, kind: Kind = Kind.INPUT) -> Iterator[bytes]:
        """The reports that follow each other in a file or a pipe that blocks: each is as long as its ID says. A last one that is cut off
        is refused as `ShortReport`, an ID without a report as `UnknownReport`."""
        while first := _whole(stream, 1):
            length = self.report_length(kind, first[0] if self.uses_ids else 0)
            if length is None:
                raise HidError("UnknownReport")
            report = first + _whole(stream, length - 1)
            if len(report) < length:
                raise HidError("ShortReport")
            yield report


def _whole(stream: BinaryIO, count: int) -> bytes:
    """So many bytes, or those up to the stream's end."""
    found = b""
    while len(found) < count and (more := stream.read(count - len(found))) != b"":
        if more is None:
            raise BlockingIOError("the stream has no byte now")
        found += more
    return found


def as_bytes(given: bytes) -> bytes:
    """Bytes of what has some: of a number `bytes` would make so many zeros."""
    return bytes(memoryview(given))


def _asked(setting: Setting) -> library.Setting:
    if (setting.usage is None) == (setting.field is None):
        raise ValueError("a setting names a usage or a field")
    by_field = setting.usage is None
    control = setting.field if by_field else setting.usage
    value = 0 if setting.value is None else setting.value
    made = library.Setting(value, control, setting.place, by_field, setting.value is None)
    if (made.value, made.control, made.place) != (value, control, setting.place):
        raise OverflowError(f"a number of {setting} is too large")
    return made

