# SPDX-License-Identifier: MIT OR Apache-2.0
"""The shared library, as c/reader/hid_reader.h declares it."""

import ctypes
import operator
import os
from ctypes import POINTER, byref, c_char_p, c_int8, c_int32, c_int64, c_size_t, c_uint8, c_uint16, c_uint32, c_uint64
from typing import Any

NONE = 0xFFFF_FFFF

LIBRARY = ctypes.CDLL(os.path.join(os.path.dirname(os.path.abspath(__file__)), "libhid_reader.so"))


class Fault(ctypes.Structure):
    _fields_ = [("offset", c_uint64), ("fault", c_uint32)]


class Range(ctypes.Structure):
    _fields_ = [("first", c_uint32), ("last", c_uint32)]


class Detail(ctypes.Structure):
    _fields_ = [
        *[(name, c_uint64) for name in ("offset", "bit")],
        *[(name, c_int64) for name in ("min", "max", "physical_min", "physical_max", "exponent")],
        *[(name, c_uint32) for name in ("flags", "size", "count", "unit", "field", "collection", "application")],
        *[(name, c_uint8) for name in ("kind", "id")],
    ]


class Collection(ctypes.Structure):
    _fields_ = [("offset", c_uint64), ("type", c_uint32), ("usage", c_uint32), ("outer", c_uint32), ("has_usage", c_uint8)]


class Report(ctypes.Structure):
    _fields_ = [("bits", c_uint64), ("bytes", c_uint64), ("kind", c_uint8), ("id", c_uint8)]


class Value(ctypes.Structure):
    _fields_ = [
        ("raw", c_int64), ("usage", c_uint32), ("field", c_uint32), ("place", c_uint16), ("within", c_uint8),
        ("has_usage", c_uint8), ("item", c_uint32),
    ]


class Fraction(ctypes.Structure):
    _fields_ = [(name, c_int64) for name in ("numerator", "denominator", "exponent")]


class Setting(ctypes.Structure):
    _fields_ = [("value", c_int64), ("control", c_uint32), ("place", c_uint32), ("by", c_uint8), ("null", c_uint8)]


HANDLE, SIZE, COUNT, BYTES = c_uint64, c_size_t, POINTER(c_size_t), c_char_p
TEXT = (c_char_p, SIZE, COUNT)
CALLS: dict[str, tuple[Any, ...]] = {
    "reader_open": (BYTES, SIZE, POINTER(HANDLE), POINTER(Fault)),
    "reader_open_lenient": (BYTES, SIZE, POINTER(HANDLE), POINTER(Fault), POINTER(Fault), SIZE, COUNT),
    "close": (HANDLE,),
    "uses_ids": (HANDLE, POINTER(c_uint8)),
    "report_length": (HANDLE, c_uint8, c_uint8, COUNT),
    "detail_count": (HANDLE, COUNT),
    "detail_at": (HANDLE, SIZE, POINTER(Detail)),
    "detail_of": (HANDLE, SIZE, COUNT),
    "ranges": (HANDLE, SIZE, POINTER(Range), SIZE, COUNT),
    "collection_count": (HANDLE, COUNT),
    "collection_at": (HANDLE, SIZE, POINTER(Collection)),
    "around": (HANDLE, SIZE, POINTER(c_uint32), SIZE, COUNT),
    "reports": (HANDLE, POINTER(Report), SIZE, COUNT),
    "strings": (HANDLE, SIZE, POINTER(Range), SIZE, COUNT),
    "designators": (HANDLE, SIZE, POINTER(Range), SIZE, COUNT),
    "unit_exponents": (HANDLE, SIZE, POINTER(c_int8)),
    "unit_name": (HANDLE, SIZE, *TEXT),
    "collection_name": (HANDLE, SIZE, *TEXT),
    "usage_name": (c_uint32, *TEXT),
    "page_name": (c_uint16, *TEXT),
    "read": (HANDLE, c_uint8, BYTES, SIZE, POINTER(Value), SIZE, COUNT, COUNT),
    "buffered": (HANDLE, c_uint8, BYTES, SIZE, SIZE, POINTER(c_uint8), SIZE, COUNT),
    "changes": (HANDLE, c_uint8, BYTES, SIZE, BYTES, SIZE, POINTER(c_uint32), SIZE, COUNT, POINTER(c_uint32), SIZE, COUNT),
    "physical": (HANDLE, SIZE, c_int64, POINTER(Fraction)),
    "value_of": (HANDLE, SIZE, c_int64, c_uint64, POINTER(c_int64)),
    "decimal": (HANDLE, SIZE, c_int64, c_uint32, *TEXT),
    "write": (HANDLE, c_uint8, c_uint8, POINTER(Setting), SIZE, BYTES, SIZE, POINTER(c_uint8), SIZE, COUNT, COUNT),
}


def declare(calls: dict[str, tuple[Any, ...]]) -> None:
    """Gives calls of the library their types."""
    CALLS.update(calls)
    for name, types in calls.items():
        call = getattr(LIBRARY, f"hidr_{name}")
        call.argtypes, call.restype = types, c_int32


declare(CALLS)
for _name, _type in (("fault_name", c_uint32), ("status_name", c_int32)):
    _call = getattr(LIBRARY, f"hidr_{_name}")
    _call.argtypes, _call.restype = (_type,), c_char_p


class HidError(Exception):
    """A refusal of a call, by its name, as `ShortReport`."""

    def __init__(self, name: str, detail: str = "") -> None:
        super().__init__(name, detail)
        self.name = name

    def __str__(self) -> str:
        return "".join(self.args)


class DescriptorError(HidError):
    """The first fault of a descriptor: its name, as `EndWithoutCollection`, and the offset in bytes of the item that it falls on."""

    def __init__(self, name: str, offset: int) -> None:
        super().__init__(name, f" at byte {offset}")
        self.offset = offset

    def __reduce__(self) -> tuple[type, tuple[str, int]]:
        return type(self), (self.name, self.offset)


def fault_name(number: int) -> str:
    return LIBRARY.hidr_fault_name(number).decode()


def status_of(name: str, *arguments: Any) -> str:
    """Makes a call: the name of its refusal, or an empty text."""
    for kind, given in zip(CALLS[name], arguments):
        # ctypes would cut off what is too large.
        if hasattr(given, "__index__") and kind(number := operator.index(given)).value != number:
            raise OverflowError(f"{number} does not fit into a number of {8 * ctypes.sizeof(kind)} bits")
    status = getattr(LIBRARY, f"hidr_{name}")(*arguments)
    return LIBRARY.hidr_status_name(status).decode() if status else ""


def call(name: str, *arguments: Any) -> None:
    refusal = status_of(name, *arguments)
    if refusal:
        raise HidError(refusal)


def one(name: str, kind: Any, *arguments: Any) -> Any:
    """A call that writes one value behind its last pointer."""
    into = kind()
    call(name, *arguments, byref(into))
    return into


def many(name: str, kind: Any, *arguments: Any) -> list[Any]:
    """A call that writes as many values as there is room for, and tells how many there are."""
    count = c_size_t()
    call(name, *arguments, None, 0, byref(count))
    into = (kind * count.value)()
    call(name, *arguments, into, count.value, byref(count))
    return list(into)


def text(name: str, *arguments: Any) -> str:
    length = c_size_t()
    call(name, *arguments, None, 0, byref(length))
    into = ctypes.create_string_buffer(length.value + 1)
    call(name, *arguments, into, length.value + 1, byref(length))
    return into.value.decode()
