"""The step of bin/export-test that counts instructions, which don't move with the load, and compares them with their limits."""

import re
import shutil

import program_steps
import reader_steps
from room import Failed, Skipped, say, version_of

# Descriptors by their length in bytes, and how many instructions a parse may take, with what it drops.
PARSES = {99: 5_700, 128: None, 1103: 57_000}

# How many a scan of a script may take, where nothing changes: a thousandth of a line `scans 1000` of six keys.
SCAN = 526

# The rustc from which on these limits hold, and how much of them an older one, which optimizes less, may take.
MEASURED_WITH, OLDER_MAY_TAKE = (1, 95), 1.06


def instructions(room, words, given):
    """How many instructions a program takes."""
    words = ["valgrind", "--tool=callgrind", f"--callgrind-out-file={room.path('callgrind')}", f"--log-file={room.path('told')}", *words]
    room.run(words, given=given)
    with open(room.path("told"), encoding="utf-8") as file:
        return int(re.search(r"Collected : (\d+)", file.read())[1])


def counted(name, number, limit):
    """Says a number, and compares it with its limit."""
    if limit and version_of("rustc") < MEASURED_WITH:
        limit = int(limit * OLDER_MAY_TAKE)
    say(f"{name}: {number} instructions" + (f", at most {limit}" if limit else ""))
    if limit and number > limit:
        raise Failed(f"{name}: {number} instructions, more than {limit}")


def count(room, _):
    """Counts a parse of each descriptor, in fresh memory, and a scan of a script."""
    if not shutil.which("valgrind"):
        raise Skipped("there is no valgrind (Debian: valgrind)")
    texts = {len(digits) // 2: digits for digits in ("".join(text.split()) for _, text, _ in reader_steps.cases())}
    room.cargo("build", "--profile", "counted", "--package", "reader", cwd=room.tree)
    reader = room.program("reader", profile="counted")
    for length, limit in PARSES.items():
        many, one = (instructions(room, [reader, "parse", times], texts[length].encode() + b"\n") for times in ("11", "1"))
        counted(f"a parse of {length} bytes", (many - one) // 10, limit)
    kbsim = program_steps.built()
    many, one = (instructions(room, [kbsim, "run"], b"scans 1000 0 1 2 3 4 5\n" * lines) for lines in (11, 1))
    counted("a scan of a script", (many - one) // 10_000, SCAN)


STEPS = {"instructions": count}
