# SPDX-License-Identifier: MIT OR Apache-2.0
"""The views of the shared library, as c/reader/hid_reader.h declares them."""

import ctypes
from ctypes import POINTER, c_double, c_int64, c_size_t, c_uint8, c_uint32, c_uint64

from wuzhikar_hid import _library as library


class Axis(ctypes.Structure):
    _fields_ = [
        *[(name, c_double) for name in ("share", "centred", "millimetres", "degrees")],
        *[(name, c_int64) for name in ("raw", "min", "max")], ("is_there", c_uint8), ("is_relative", c_uint8),
    ]


class Pointer(ctypes.Structure):
    _fields_ = [("x", Axis), ("y", Axis), ("wheel", c_int64), ("pan", c_int64), ("buttons", c_uint64 * 2)]


class Hat(ctypes.Structure):
    _fields_ = [("step", c_uint64), ("of", c_uint64)]


class Control(ctypes.Structure):
    _fields_ = [("axis", Axis), ("usage", c_uint32)]


class Pad(ctypes.Structure):
    _fields_ = [
        ("axes", Axis * 6), ("buttons", c_uint64 * 2), ("hats", Hat * 4), ("others", Control * 8), ("hat_count", c_uint32),
        ("other_count", c_uint32),
    ]


class Contact(ctypes.Structure):
    _fields_ = [
        ("x", Axis), ("y", Axis), ("pressure", Axis), ("id", c_int64), ("has_id", c_uint8), ("touches", c_uint8),
        ("is_valid", c_uint8),
    ]


class Pen(ctypes.Structure):
    _fields_ = [
        ("x", Axis), ("y", Axis), ("pressure", Axis), ("tilt", Axis * 2), ("in_range", c_uint8), ("touches", c_uint8),
        ("erases", c_uint8), ("is_inverted", c_uint8), ("buttons", c_uint8 * 2),
    ]


_REPORT = (library.HANDLE, library.BYTES, library.SIZE)
_KIND = (library.HANDLE, c_uint8)
library.declare({
    "view_keys": (*_REPORT, POINTER(c_uint32), library.SIZE, library.COUNT, POINTER(c_uint8)),
    "view_pointer": (*_REPORT, POINTER(Pointer)),
    "view_pad": (*_REPORT, POINTER(Pad)),
    "view_touch": (*_REPORT, POINTER(Contact), library.SIZE, library.COUNT),
    "view_pens": (*_REPORT, POINTER(Pen), library.SIZE, library.COUNT),
    "read_all": (*_KIND, library.BYTES, library.SIZE, c_uint32, POINTER(c_int64), library.SIZE, library.COUNT),
    "write_all": (
        *_KIND, c_uint8, c_uint32, POINTER(c_int64), library.SIZE, library.BYTES, library.SIZE, POINTER(c_uint8), library.SIZE,
        library.COUNT, POINTER(c_size_t),
    ),
    "put_raw": (*_KIND, POINTER(c_uint8), library.SIZE, library.SIZE, ctypes.c_uint16, c_uint32),
    "put_bytes": (*_KIND, POINTER(c_uint8), library.SIZE, library.SIZE, library.BYTES, library.SIZE),
    "raw_report": (*_KIND, c_uint8, library.BYTES, library.SIZE, POINTER(c_uint8), library.SIZE, library.COUNT),
})
