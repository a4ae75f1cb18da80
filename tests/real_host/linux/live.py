# SPDX-License-Identifier: MIT OR Apache-2.0
"""The package python/ with a keyboard on hidraw: sets an entry and a LED, and tells the entry that is read back, a refusal, and
what two reports say is pressed.

    live.py FILE
"""

import itertools
import sys

from wuzhikar_hid import HidError, live, usage_name

with live(sys.argv[1]) as keyboard:
    keyboard.set_feature(bytes([3, 1, 0, 0, 0x06, 0x00]))
    keyboard.set_feature(bytes([3, 0, 0, 0, 0, 0]))
    told = [keyboard.feature(3).hex()]
    keyboard.send(bytes([1, 0b101]))
    try:
        keyboard.feature(5)
    except HidError as refusal:
        told.append(str(refusal))
    print("ready", flush=True)
    told += [f"pressed {[usage_name(usage) for usage in keyboard.reader.pressed(report)]}" for report in itertools.islice(keyboard, 2)]
    print("\n".join(told))
