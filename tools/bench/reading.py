"""The section of the kept reader in plain Rust, `rust/wuzhikar-hid`, and of `kbsim read`, which reads with it.

Instructions are those of callgrind, as the difference of two runs with more calls and fewer, divided by the calls.
"""

import re
import shutil
import sys

from builds import ROOT
from results import Row

sys.path[:0] = [f"{ROOT}/tools", f"{ROOT}/tests"]
import program_steps
from room import Skipped

# Of a keyboard in boot protocol a report of 8 bytes: left shift, and six keys.
BOOT = "0200040506070809"

# Of a finger of a touch screen in examples/hid_driver: Tip Switch, padding, Contact Identifier, X and Y.
FINGERS = 10
CONTACT = "01{:02x}34025601"

# The usages 1 to 1,024, as one range and one by one.
RANGE = "19012a0004"


def two(number):
    """A number in two bytes."""
    return number.to_bytes(2, "little").hex()


def singles(count):
    """So many usages, one by one."""
    return "".join(f"0a{two(usage)}" for usage in range(1, count + 1))


def array(count):
    """An Array of so many places, over as many usages that are declared one by one."""
    return f"0600ff150026ff0f751096{two(count)}{singles(count)}8100"


def fields(count):
    """So many fields of one usage each."""
    return "0600ff1500250175089501" + "".join(f"0a{two(usage)}8102" for usage in range(1, count + 1))


def reports(count):
    """So many reports of one field each."""
    return "0600ff1500250175089501" + "".join(f"85{identifier:02x}09028102" for identifier in range(1, count + 1))


def example(name):
    """A report descriptor of the examples, as lines of hex."""
    with open(f"{ROOT}/examples/hid_driver/{name}.hex", encoding="utf-8") as file:
        return ["".join(line.split()) for line in file]


def ten_fingers():
    """The touch screen of the examples with ten fingers in place of two, and a report of it."""
    lines = example("touch_screen")
    first = lines.index("0922a102")
    second = lines.index("0922a102", first + 1)
    text = lines[:first] + FINGERS * lines[first:second] + lines[2 * second - first:]
    contacts = "".join(CONTACT.format(number) for number in range(FINGERS))
    return "".join(text), f"01{contacts}1000{FINGERS:02x}"


def many_places(usages, count=1024):
    """A field of so many places of two bits with these usages of a vendor's page."""
    return f"0600ff{usages}15002502750296{two(count)}8102"


def touch_screen():
    """The report descriptor of 1,103 bytes of a touch screen."""
    # Here, since it runs kbsim when it is read.
    from test_kbsim import read_cases

    cases = read_cases(f"{ROOT}/tests/descriptors/real.rows")
    return "".join(cases["a_touch_screen: parse"][0].given.decode().split())


# What is to grow as its input does: a row's name, what is counted, and the input by a number.
GROWING = [
    ("{} settings of as many usages that are declared one by one", "write", lambda count: many_places(singles(count), count), 256),
    ("{} settings of an Array of as many places", "write", array, 128),
    ("{} settings of as many fields", "write", fields, 127),
    ("a reader of {} reports", "new", reports, 127),
]


def instructions(room, words, given):
    """How many instructions a program takes."""
    room.run(["valgrind", "--tool=callgrind", "--callgrind-out-file=/dev/null", f"--log-file={room.path('told')}", *words], given=given)
    with open(room.path("told"), encoding="utf-8") as file:
        return int(re.search(r"Collected : (\d+)", file.read())[1])


def rows(room):
    """Measures all rows."""
    for tool in ("cargo", "valgrind"):
        if not shutil.which(tool):
            raise Skipped(f"there is no {tool}")
    room.cargo("build", "--profile", "counted", "--package", "tell", cwd=room.tree)
    count, kbsim = room.program("count", profile="counted"), program_steps.built()

    def counted(*words, times=(111, 11)):
        many, few = (instructions(room, [count, *words, str(number)], b"") for number in times)
        return round((many - few) / (times[0] - times[1]))

    keyboard, text = "".join(example("keyboard")), touch_screen()
    alone = counted("parse", text)

    def counted_line(*words):
        read = [kbsim, "read", *words, f"{ROOT}/examples/hid_driver/keyboard.hex"]
        many, few = (instructions(room, read, f"{BOOT}\n".encode() * times) for times in (1100, 100))
        return round((many - few) / 1000)

    return [
        Row("reader", "a boot report of a keyboard, 14 values", counted("read", keyboard, BOOT), None),
        Row("reader", "a report of a touch screen with ten contacts, 42 values", counted("read", *ten_fingers()), None),
        Row("reader", "1,024 settings of a field with one range of usages", counted("write", many_places(RANGE)), None),
        Row("reader", "1,024 settings of a field whose usages are declared one by one", counted("write", many_places(singles(1024))), None),
        Row("reader", "a reader of a descriptor of 1,103 bytes, beside its parse", counted("new", text), alone),
        Row("reader", "details of a descriptor of 1,103 bytes, beside its parse", counted("details", text) - alone, alone),
        Row("reader", "a boot report in hex by `kbsim read`, its line of text with it", counted_line(), None),
        Row("reader", "a boot report in hex by `kbsim read --json`, its object with it", counted_line("--json"), None),
        *(Row("reader", f"{name.format(2 * most)}, beside {most}", *(counted(word, made(number), times=(3, 1)) for number in (2 * most, most)))
          for name, word, made, most in GROWING),
    ]


SECTIONS = {"reader": rows}
