"""Steps of bin/export-test: the program in plain Rust beside the one that Rattle makes of the same source."""

import os
import subprocess
import sys

from room import HERE, ROOT, Failed, Skipped, say


def built():
    """The program in plain Rust, built for release, as users have it."""
    told = subprocess.run([f"{ROOT}/bin/kbsim", "--way", "plain", "--path"], stdout=subprocess.PIPE, stderr=subprocess.PIPE, text=True)
    if told.returncode != 0:
        raise Failed(told.stderr)
    return told.stdout.strip()


def reference():
    """The program to compare with, and what it is: the proved one, or where none is built the unproved one."""
    if os.environ.get("KBSIM"):
        return os.environ["KBSIM"], "the program that KBSIM names"
    for way in ("proved", "unproved"):
        told = subprocess.run([f"{ROOT}/bin/kbsim", "--way", way, "--path"], stdout=subprocess.PIPE, stderr=subprocess.DEVNULL, text=True)
        if told.returncode == 0:
            return told.stdout.strip(), f"the {way} program"
    raise Skipped("no program is built by Rattle here (bin/prove), and none can be without its command rt")


def compare(programs, **counts):
    """Compares two programs over so many inputs: the status and what was printed."""
    words = [f"--{kind}={count}" for kind, count in counts.items()]
    ran = subprocess.run([sys.executable, "-B", f"{HERE}/compare_programs.py", *programs, *words], stdout=subprocess.PIPE, text=True)
    return ran.returncode, ran.stdout.strip()


def programs(room, given):
    """Compares both programs: scripts, report descriptors and command lines."""
    kbsim, (proved, named) = built(), reference()
    say(f"kbsim in plain Rust is compared with {named}")
    status, told = compare([proved, kbsim], scripts=given.scripts, explained=given.scripts, texts=given.texts, words=given.words)
    if status != 0:
        raise Failed(told)
    for line in told.split("\n"):
        say(line)


STEPS = {"kbsim beside the proved one": programs}
