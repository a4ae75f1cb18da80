# SPDX-License-Identifier: MIT OR Apache-2.0
"""A device that is plugged in, by Linux's hidraw."""

import fcntl
import os
import struct
from collections.abc import Iterator
from types import TracebackType

from wuzhikar_hid._library import HidError
from wuzhikar_hid.reader import Kind, Reader, as_bytes

# <linux/hidraw.h>: HIDIOCGRDESCSIZE and HIDIOCGRDESC; then those of a length, HIDIOCSFEATURE and HIDIOCGFEATURE.
_DESCRIPTOR_SIZE, _DESCRIPTOR = 0x80044801, 0x90044802
_SET_FEATURE, _GET_FEATURE = 0xC0004806, 0xC0004807
_LONGEST, _MOST = 4096, (1 << 14) - 1


class Live:
    """A hidraw device: `reader` has its descriptor, and iterating gives its input reports until it is unplugged (`OSError`)."""

    def __init__(self, path: str | os.PathLike[str], *, lenient: bool = False) -> None:
        self._file = open(path, "r+b", buffering=0)
        try:
            size = struct.unpack("i", fcntl.ioctl(self._file, _DESCRIPTOR_SIZE, bytes(4)))[0]
            # struct hidraw_report_descriptor: a size, and room for the longest text.
            filled = bytearray(struct.pack("I", size) + bytes(_LONGEST))
            fcntl.ioctl(self._file, _DESCRIPTOR, filled, True)
            self.reader = Reader(bytes(filled[4 : 4 + size]), lenient=lenient)
        except BaseException:
            self._file.close()
            raise

    def __iter__(self) -> Iterator[bytes]:
        while True:
            yield self._file.read(_LONGEST)

    def send(self, report: bytes) -> None:
        """Sends an output report, which begins with its ID, or with 0 where none is used."""
        self._file.write(as_bytes(report) if self.reader.uses_ids else b"\0" + as_bytes(report))

    def feature(self, id: int = 0) -> bytes:
        """Gets a feature report."""
        length = self.reader.report_length(Kind.FEATURE, id)
        if length is None:
            raise HidError("UnknownReport")
        room = bytearray([id]) + bytes(length if not self.reader.uses_ids else length - 1)
        count = self._call(_GET_FEATURE, room)
        return bytes(room[:count] if self.reader.uses_ids else room[1:count])

    def set_feature(self, report: bytes) -> None:
        """Sends a feature report, which begins with its ID where one is used."""
        self._call(_SET_FEATURE, bytearray(as_bytes(report) if self.reader.uses_ids else b"\0" + as_bytes(report)))

    def _call(self, request: int, report: bytearray) -> int:
        """Makes a call of a length, which has 14 bits."""
        if len(report) > _MOST:
            raise OverflowError(f"a feature report of {len(report)} bytes: hidraw takes {_MOST}")
        return fcntl.ioctl(self._file, request | len(report) << 16, report, True)

    def close(self) -> None:
        """Closes the device, and frees its descriptor."""
        self._file.close()
        self.reader.close()

    def __enter__(self) -> "Live":
        return self

    def __exit__(self, kind: type[BaseException] | None, error: BaseException | None, trace: TracebackType | None) -> None:
        self.close()


def live(path: str | os.PathLike[str], *, lenient: bool = False) -> Live:
    """Opens a hidraw device, as /dev/hidraw0, and reads its descriptor. Raises `OSError` where it can't be opened or is no hidraw
    device, and `DescriptorError`."""
    return Live(path, lenient=lenient)
