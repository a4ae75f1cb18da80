"""The lists: what a stock Linux is asked about the keyboard, and what it is to say."""

import difflib
import re

from guest import FILES

EVERY = ["typing", "keymap", "keymap_file", "cuts", "requests", "boot"]
ALONE = ["asleep"]
OF_FUNCTION = ["typing", "boot", "function"]
OF_PYTHON = ["live"]


def followed(programs):
    """The lists that can be followed with these programs."""
    return [name for name in EVERY if name != "keymap_file" or "keymap" in programs]


# The keyboard as a function in Rust, which has no device layer of its own: what that gives is marked in the lists.
WITHOUT_LAYER, LAYER = "real_host", "layer: "


def expected(text, size, has_layer=True):
    """The lines that Linux has to print when it follows a list, for packets of this size: all but comments, empty lines, and without
    the device layer those that it gives. SIZE is replaced by the size, as sysfs has it."""
    lines = [line for line in text.replace("SIZE", f"{size:04x}").splitlines() if line and not line.startswith("#")]
    return [line.removeprefix(LAYER) for line in lines if has_layer or not line.startswith(LAYER)]


def sections(said):
    """What was said of each list and serial number, in order, and the times of the guest, by the lines that begin with ---."""
    found, times, lines = {}, {}, None
    for line in said.splitlines():
        words = line.split()
        if words[:1] == ["---"] and len(words) == 4 and words[2] == "on":
            lines = found.setdefault((words[1], words[3]), [])
        elif words[:1] == ["---"] and len(words) == 3:
            times[words[1]], lines = float(words[2]), None
        elif lines is not None:
            lines.append(line)
    return found, times


def differences(wanted, said):
    """The lines in which two texts differ, with some before them."""
    return list(difflib.unified_diff(wanted, said, "what it should say", "what Linux says", lineterm="", n=3))


def compared(name, serial, size, found):
    """The lines in which what was said of a list on a keyboard is otherwise. One that counts no waits says so with a dash."""
    said = found.get((name, serial), [])
    with open(f"{FILES}/lists/{name}", encoding="utf-8") as file:
        wanted = expected(file.read(), size, serial != WITHOUT_LAYER)
    if "waits -" in said:
        wanted = [re.sub(r"^waits \d+$", "waits -", line) for line in wanted]
    lines = differences(wanted, said)
    return [f"{name}, serial number {serial}:", *lines] if lines else []
