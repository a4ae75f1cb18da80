"""Builds and tests the crates of rust/ and the examples that stand on them, and compares them with the proved program.

It needs rustc and cargo (1.85 or later) and the crates arrayvec, hex, clap, strsim, serde_json and thiserror, installs nothing, and says what it skips.
The variable KBSIM names a program to compare with, where it is not the proved one of this clone, or else the unproved one.
"""

import argparse
import shutil
import subprocess
import sys
import time

sys.dont_write_bytecode = True

import count_steps
import crate_steps
import program_steps
import reader_steps
import target_steps
from room import HERE, OLDEST, Failed, Room, Skipped, building, say, version_of

from debian_crates import OF_PROGRAM, lacking  # (room adds its folder to the path)

# The steps by their names, in order. Each takes a room, and the count that the command line gives.
STEPS = {**crate_steps.STEPS, **reader_steps.STEPS, **target_steps.STEPS, **program_steps.STEPS,
         **count_steps.STEPS}


def take(name, room, counts):
    """Runs a step; whether it didn't fail."""
    begun = time.monotonic()
    try:
        STEPS[name](room, counts)
    except Skipped as lacks:
        say(f"skipped: {name}: {lacks}")
        return True
    except (Failed, building.Wrong) as why:
        print(f"export-test: {name} FAILED: {why}", flush=True)
        say(f"alone: bin/export-test --only '{name}'")
        return False
    say(f"{name}: ok, {time.monotonic() - begun:.0f} s")
    return True


def parse_words():
    words = argparse.ArgumentParser(prog="export-test", description=__doc__, formatter_class=argparse.RawDescriptionHelpFormatter)
    words.add_argument("--only", metavar="NAME", action="append", help="runs the step of this name alone; may come again")
    words.add_argument("--list", action="store_true", help="prints the names of the steps")
    words.add_argument("--scripts", metavar="COUNT", type=int, default=3000, help="how many scripts are compared")
    words.add_argument("--texts", metavar="COUNT", type=int, default=2000, help="how many report descriptors are compared")
    words.add_argument("--words", metavar="COUNT", type=int, default=1000, help="how many command lines are compared")
    given = words.parse_args()
    for name in given.only or []:
        if name not in STEPS:
            words.error(f"no step is called {name!r}: --list prints their names")
    return given


def main():
    given = parse_words()
    if given.list:
        print("\n".join(STEPS))
        return 0
    subprocess.run([sys.executable, "-B", f"{HERE}/check.py"], check=True)
    version = version_of("rustc")
    if version is None or not shutil.which("cargo"):
        say("skipped: everything, since rustc or cargo is not on the PATH (Debian: rustc-web, cargo-web)")
        return 0
    if version < OLDEST:
        say(f"skipped: everything, since rustc is older than 1.85: {version}")
        return 0
    if lacking(*OF_PROGRAM):
        say(f"skipped: everything: {lacking(*OF_PROGRAM)}")
        return 0
    room = Room()
    passed = [take(name, room, given) for name in STEPS if not given.only or name in given.only]
    return 0 if all(passed) else 1


if __name__ == "__main__":
    sys.exit(main())
