"""Refuses each growth that the calls which take memory want, one in each run, and looks at what they tell.

`rt try` runs a program of this folder over the sources of crates, unproved, twice: interpreted, and compiled with checks. In each
run allocation 64 is refused, and the program makes as many before that this is growth N of its call: N is the first byte of its
input. It takes minutes.
"""

import argparse
import concurrent.futures
import os
import shutil
import subprocess
import sys
import tempfile

HERE = os.path.dirname(os.path.abspath(__file__))
ROOT = os.path.dirname(os.path.dirname(HERE))
LAST = 64  # the allocation that `rt try` refuses
BY_BYTES = 64  # is added to the number of a growth where the parser gets its text byte by byte


class Failed(Exception):
    """What a program told where a run did not end as it should."""


def text_cases(text, offsets, whole):
    """Runs of the parser on a text, in hex: growth 1, 2, 3 .. is wanted by the items at these offsets, whole is printed where none
    is refused. The text comes whole, and byte by byte."""
    told = [f"fault 17 at {offset}: Memory" for offset in offsets] + [whole]
    for number, answer in enumerate(told, start=1):
        for way in (0, BY_BYTES):
            yield bytes([number + way]) + bytes.fromhex(text), answer


def parser_cases():
    """A growth that is refused is told as Memory (17) at the item that wanted it."""
    # Push; Report ID 5; a Usage, for which there is room; an Input, which wants places for fields, for the ends of their usages,
    # for their usages, for the counts of these and for the lengths of reports; a Constant Output and a Constant Feature, for which
    # there is room.
    yield from text_cases(
        "A4 85 05 05 07 09 04 75 01 95 08 81 02 91 03 B1 03 B4",
        [0, 11, 11, 11, 11, 11],
        "[Field { kind: Input, id: 5, bit: 0, size: 1, count: 8, min: 0, max: 0, array: false }] [(458756, 458756)]",
    )
    # A Usage Maximum, its Minimum, and a Feature without a Report ID.
    yield from text_cases(
        "05 07 29 05 19 01 75 01 95 05 B1 02",
        [10, 10, 10, 10, 10],
        "[Field { kind: Feature, id: 0, bit: 0, size: 1, count: 5, min: 0, max: 0, array: false }] [(458753, 458757)]",
    )
    # Seventeen usages, of which the last wants room, and a Delimiter: a growth refused before it is told first.
    yield from text_cases("08" * 17 + "A8", [16], "fault 2 at 17: Delimiter")
    # A Constant Input of ID 20: lengths of sixteen IDs, and then of more.
    yield from text_cases("85 14 75 01 95 01 81 03", [6, 6], "[] []")


def call_cases(call, beside, told, later=0):
    """Runs of a call, the second byte of the input, that comes after so many growths: what is printed where each of its own is
    refused in turn, and whole where none is, of its own and of so many that come later."""
    for number, answer in enumerate(told, start=beside + 1):
        yield bytes([number, call]), answer
    yield bytes([beside + len(told) + later + 1, call]), "whole"


def refused(number):
    """What is printed where each of so many growths is refused."""
    return ["refused"] * number


def stopped(*growths):
    """What is printed where that many growths are wanted before the first line is printed, after one line, and so on."""
    return [f"refused after {lines}" for lines, number in enumerate(growths) for _ in range(number)]


def host_cases():
    """A refused call tells it, and what comes after it is right: the same call again, and what the host kept before."""
    yield from call_cases(0, 5, refused(1))
    yield from call_cases(1, 0, refused(4))
    yield from call_cases(2, 5, refused(5), later=2)
    yield from call_cases(3, 5, refused(2))
    yield from call_cases(4, 5, refused(7))


def device_cases():
    """What makes a device's parts; and of a script, or a descriptor's lines, whole lines are printed as far as it had come."""
    for call, beside, number in ((0, 0, 1), (1, 0, 1), (2, 0, 1), (3, 1, 1), (4, 0, 2)):
        yield from call_cases(call, beside, refused(number))
    yield from call_cases(5, 0, stopped(11, 0, 0, 2))
    yield from call_cases(6, 1, stopped(10, 0, 0, 2))
    yield from call_cases(7, 0, stopped(8))
    # `describe` takes no memory.
    yield from call_cases(8, 0, [])
    yield from call_cases(9, 1, refused(1))
    yield from call_cases(10, 5, refused(5))


def world_cases():
    """A world, whose keyboard, host and flash are all in one program."""
    yield from call_cases(0, 1, refused(1))
    yield from call_cases(1, 4, refused(4))
    yield from call_cases(2, 4, refused(8))


# Each program: what is run, the crates that it stands on directly (none: it is a part of descriptor_parse), and its runs.
PROGRAMS = {
    "parser": ("the parser", [], parser_cases),
    "host": ("extraction and the host", ["reports", "host"], host_cases),
    "device": ("the device, scripts and descriptors", ["kbsim", "parse_lines"], device_cases),
    "world": ("the world", ["world"], world_cases),
}


def lines_of_crates():
    """What each crate of crates.txt stands on, lowest first."""
    with open(f"{ROOT}/crates.txt", encoding="utf-8") as file:
        parts = [line.split("#")[0].strip().partition(":") for line in file]
    return {name: below.split() for name, colon, below in parts if colon}


def crates_below(crates):
    """These crates and all that they stand on, lowest first."""
    lines, wanted = lines_of_crates(), set(crates)
    for name in reversed(lines):
        if name in wanted:
            wanted.update(lines[name])
    return [name for name in lines if name in wanted]


def take_crate(name, folder):
    """Copies a crate's sources and definitions."""
    for part in ("src", "specs"):
        if os.path.isdir(f"{ROOT}/crates/{name}/{part}"):
            shutil.copytree(f"{ROOT}/crates/{name}/{part}", f"{folder}/{part}")


def take_program(name, crates, work):
    """Makes the crate `growths` of a program, and what it stands on."""
    lines, crate = lines_of_crates(), f"{work}/crates/growths"
    with open(f"{HERE}/{name}.rattle", encoding="utf-8") as file:
        program = file.read()
    stands_on = crates_below(crates) if crates else lines["descriptor_parse"]
    below = crates_below(stands_on)
    for library in below:
        take_crate(library, f"{work}/crates/{library}")
    if crates:
        os.makedirs(f"{crate}/src")
    else:
        # A `main` at the end of the parser itself.
        take_crate("descriptor_parse", crate)
        with open(f"{crate}/src/lib.rt", encoding="utf-8") as file:
            program = file.read() + "\n" + program
        os.remove(f"{crate}/src/lib.rt")
    listed = {library: lines[library] for library in below} | {"growths": stands_on}
    with open(f"{crate}/src/main.rt", "w", encoding="utf-8") as file:
        file.write(program)
    with open(f"{work}/crates.txt", "w", encoding="utf-8") as file:
        file.writelines(f"{library}: {' '.join(below)}\n" for library, below in listed.items())
    return crate


def put_cases(cases, folder):
    """Writes the inputs of runs, and what each has to print."""
    os.mkdir(folder)
    for number, (given, answer) in enumerate(cases):
        with open(f"{folder}/{number:03}", "wb") as file:
            file.write(given)
        with open(f"{folder}/{number:03}.stdout", "w", encoding="utf-8") as file:
            file.write(f"{answer}\n")
    return number + 1


def try_program(name, temporary):
    """Makes a program, and refuses each growth of its calls."""
    what, crates, cases = PROGRAMS[name]
    work = f"{temporary}/{name}"
    crate = take_program(name, crates, work)
    count = put_cases(cases(), f"{work}/cases")
    ran = subprocess.run(["rt", "try", "--fail-alloc", str(LAST), "--cases", f"{work}/cases"], cwd=crate, stdout=subprocess.PIPE,
                         stderr=subprocess.STDOUT, text=True, check=False)
    if ran.returncode or not any(line.startswith(f"cases={count} ended={count} ") for line in ran.stdout.split("\n")):
        raise Failed(f"refused-growth: {what}:\n{ran.stdout}")
    return f"refused-growth: {count} runs of {what}, each refused growth told"


def main():
    """Tries the named programs, or all, side by side."""
    arguments = argparse.ArgumentParser(prog="refused-growth", description=__doc__, formatter_class=argparse.RawDescriptionHelpFormatter)
    arguments.add_argument("names", nargs="*", metavar="NAME", choices=[*PROGRAMS, []], help=f"of {', '.join(PROGRAMS)} (all of them)")
    names = arguments.parse_args().names or list(PROGRAMS)
    with tempfile.TemporaryDirectory() as temporary, concurrent.futures.ThreadPoolExecutor(len(os.sched_getaffinity(0))) as pool:
        tried = [pool.submit(try_program, name, temporary) for name in names]
        failed = False
        for one in tried:
            try:
                print(one.result(), flush=True)
            except Failed as error:
                print(error)
                failed = True
    return failed


if __name__ == "__main__":
    sys.exit(main())
