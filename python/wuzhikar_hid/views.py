# SPDX-License-Identifier: MIT OR Apache-2.0
"""What a device is, in an input report of it: keys, a pointer, a pad, contacts, pens. And raw writes, for devices whose descriptors
declare no extents."""

import math
from collections.abc import Sequence
from ctypes import byref, c_int64, c_size_t, c_uint8, c_uint32
from dataclasses import dataclass
from typing import Any

from wuzhikar_hid import _library as library
from wuzhikar_hid import _views as views
from wuzhikar_hid._library import HidError
from wuzhikar_hid.reader import Kind, Reader, as_bytes


@dataclass(frozen=True)
class Axis:
    """A value of an axis: its share of the logical extents, 0 to 1, the same from their middle, -1 to 1, and what it is in its unit,
    where that is a length or an angle. A relative one is added to the last one."""

    raw: int
    min: int
    max: int
    share: float | None
    centred: float | None
    millimetres: float | None
    degrees: float | None
    is_relative: bool


@dataclass(frozen=True)
class Pointer:
    """A mouse or a trackball. `buttons` has their numbers, from 1 on; `wheel` steps away from the user, `pan` to the right."""

    x: Axis | None
    y: Axis | None
    wheel: int
    pan: int
    buttons: tuple[int, ...]


@dataclass(frozen=True)
class Pad:
    """A gamepad, a joystick or a wheel: X, Y, Z, Rx, Ry, Rz; each hat as its step clockwise from 0 for up, of how many, None at rest;
    and sliders and pedals by their usage."""

    axes: tuple[Axis | None, ...]
    buttons: tuple[int, ...]
    hats: tuple[tuple[int, int] | None, ...]
    others: tuple[tuple[int, Axis | None], ...]


@dataclass(frozen=True)
class Contact:
    """A finger. `is_valid` is None where the report does not tell."""

    x: Axis | None
    y: Axis | None
    pressure: Axis | None
    id: int | None
    touches: bool
    is_valid: bool | None


@dataclass(frozen=True)
class Pen:
    """A pen. Where it is not in range the rest says nothing."""

    x: Axis | None
    y: Axis | None
    pressure: Axis | None
    tilt: tuple[Axis | None, Axis | None]
    in_range: bool
    touches: bool
    erases: bool
    is_inverted: bool
    buttons: tuple[bool, bool]


def _axis(of: Any) -> Axis | None:
    if not of.is_there:
        return None
    numbers = (None if math.isnan(number) else number for number in (of.share, of.centred, of.millimetres, of.degrees))
    return Axis(of.raw, of.min, of.max, *numbers, bool(of.is_relative))


def _buttons(words: Any) -> tuple[int, ...]:
    whole = words[0] | words[1] << 64
    return tuple(number + 1 for number in range(128) if whole >> number & 1)


def keys(reader: Reader, report: bytes) -> tuple[list[int], bool]:
    """The usages of keys that are down, rising; and whether the report says that it does not know them (ErrorRollOver)."""
    report, count, is_error = as_bytes(report), c_size_t(), c_uint8()
    given = (reader.handle(), report, len(report))
    library.call("view_keys", *given, None, 0, byref(count), byref(is_error))
    into = (c_uint32 * count.value)()
    library.call("view_keys", *given, into, count.value, byref(count), byref(is_error))
    return list(into), bool(is_error.value)


def pointer(reader: Reader, report: bytes) -> Pointer:
    report = as_bytes(report)
    of = library.one("view_pointer", views.Pointer, reader.handle(), report, len(report))
    return Pointer(_axis(of.x), _axis(of.y), of.wheel, of.pan, _buttons(of.buttons))


def pad(reader: Reader, report: bytes) -> Pad:
    """At most 4 hats and 8 sliders or pedals."""
    report = as_bytes(report)
    of = library.one("view_pad", views.Pad, reader.handle(), report, len(report))
    hats = tuple((hat.step, hat.of) if hat.of else None for hat in of.hats[: min(of.hat_count, len(of.hats))])
    others = tuple((one.usage, _axis(one.axis)) for one in of.others[: min(of.other_count, len(of.others))])
    return Pad(tuple(_axis(axis) for axis in of.axes), _buttons(of.buttons), hats, others)


def touch(reader: Reader, report: bytes) -> list[Contact]:
    """The contacts of a report: one for each Finger collection, at most so many as Contact Count says where that is not 0."""
    report = as_bytes(report)
    found = library.many("view_touch", views.Contact, reader.handle(), report, len(report))
    return [
        Contact(_axis(of.x), _axis(of.y), _axis(of.pressure), of.id if of.has_id else None, bool(of.touches),
                None if of.is_valid > 1 else bool(of.is_valid))
        for of in found
    ]


def pens(reader: Reader, report: bytes) -> list[Pen]:
    report = as_bytes(report)
    return [
        Pen(_axis(of.x), _axis(of.y), _axis(of.pressure), (_axis(of.tilt[0]), _axis(of.tilt[1])), bool(of.in_range),
            bool(of.touches), bool(of.erases), bool(of.is_inverted), (bool(of.buttons[0]), bool(of.buttons[1])))
        for of in library.many("view_pens", views.Pen, reader.handle(), report, len(report))
    ]


def read_all(reader: Reader, report: bytes, usage: int, kind: Kind = Kind.INPUT) -> list[int]:
    """The value of each control of a report that has a usage, in their order; 1 for each place of an array that names it."""
    report = as_bytes(report)
    return [one for one in library.many("read_all", c_int64, reader.handle(), kind, report, len(report), usage)]


def write_all(
    reader: Reader, usage: int, values: Sequence[int], kind: Kind = Kind.OUTPUT, id: int = 0, onto: bytes = b"",
) -> bytes:
    """A report with the first controls of a usage set to these values. It is refused as `Reader.write` refuses."""
    array, onto = (c_int64 * len(values))(*values), as_bytes(onto)
    if list(array) != list(values):
        raise OverflowError("a value does not fit into 64 bits")
    room = reader.report_length(kind, id) or 0
    into, length, which = (c_uint8 * room)(), c_size_t(), c_size_t(library.NONE)
    given = (reader.handle(), kind, id, usage, array, len(values), onto, len(onto), into, room)
    refusal = library.status_of("write_all", *given, byref(length), byref(which))
    if refusal:
        raise HidError(refusal, "" if which.value == library.NONE else f" (value {which.value})")
    return bytes(into)[: length.value]


def put_raw(reader: Reader, report: bytes, field: int, place: int, number: int, kind: Kind = Kind.OUTPUT) -> bytes:
    """A report with a number in the bits of a place of a field, whatever the logical extents are. Refused: `Absent`, `TooLarge`."""
    into = (c_uint8 * len(as_bytes(report))).from_buffer_copy(as_bytes(report))
    library.call("put_raw", reader.handle(), kind, into, len(into), field, place, number)
    return bytes(into)


def put_bytes(reader: Reader, report: bytes, field: int, data: bytes, kind: Kind = Kind.OUTPUT) -> bytes:
    """A report with these bytes in a field, from its first bit on. Refused as `put_raw`."""
    data, into = as_bytes(data), (c_uint8 * len(as_bytes(report))).from_buffer_copy(as_bytes(report))
    library.call("put_bytes", reader.handle(), kind, into, len(into), field, data, len(data))
    return bytes(into)


def raw_report(reader: Reader, data: bytes, kind: Kind = Kind.OUTPUT, id: int = 0) -> bytes:
    """A report with these bytes behind its ID, and zeros where there are fewer. Refused: `UnknownReport`, `TooLarge`."""
    data = as_bytes(data)
    return bytes(library.many("raw_report", c_uint8, reader.handle(), kind, id, data, len(data)))
