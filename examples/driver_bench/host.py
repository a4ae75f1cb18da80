# SPDX-License-Identifier: MIT OR Apache-2.0
"""A host in Python. The argument is the shared library."""

import ctypes
import sys

bench = ctypes.CDLL(sys.argv[1])
bench.bench_new.restype = ctypes.c_void_p
device, data = ctypes.c_void_p(bench.bench_new(2, 64)), ctypes.create_string_buffer(64)
control = lambda setup: bench.bench_control(device, bytes.fromhex(setup), 8, data, 64)
assert control("80 06 00 01 00 00 12 00") == 18 and data.raw[8:12].hex() == "09120100"  # the device descriptor
assert control("00 09 01 00 00 00 00 00") == 0  # SET_CONFIGURATION
for _ in range(5):
    bench.bench_scan(device, (ctypes.c_uint16 * 6)(1), 6)  # a millisecond with key 0
assert bench.bench_poll(device, data, 64) == 23 and data.raw[:3].hex() == "010001"  # the letter a
