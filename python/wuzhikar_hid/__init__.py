# SPDX-License-Identifier: MIT OR Apache-2.0
"""Reads and writes HID reports by their report descriptor (HID 1.11, sections 5.6, 6.2.2 and 8.4).

    >>> reader = Reader(bytes.fromhex("050719e029e715002501750195088102"))
    >>> [usage_name(usage) for usage in reader.pressed(bytes([0b10]))]
    ['Keyboard LeftShift']
"""

from wuzhikar_hid._library import DescriptorError, HidError
from wuzhikar_hid import views
from wuzhikar_hid.live import Live, live
from wuzhikar_hid.reader import (
    Collection, Detail, Kind, Reader, Report, Setting, Value, Within, page_name, usage_name,
)

__all__ = [
    "Collection", "DescriptorError", "Detail", "HidError", "Kind", "Live", "Reader", "Report", "Setting", "Value", "Within",
    "live", "page_name", "usage_name", "views",
]
