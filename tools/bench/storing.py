"""The section of settings in flash: what `FlashSettings` costs a chip, and its flash.

Text is that of bench/settings/src/bin/smallest.rs, stack that of calls under qemu-arm, RAM that of the settings without their flash.
Operations are counted over CHANGES changes on two pages of 4,096 bytes, each of another value.
"""

import shutil

from builds import DEBIAN_RUSTC, TARGETS, lacks
from results import Row
from room import Skipped

CHANGES = 60_000

# Bytes of a value, and how many ids have one.
VALUES = [(1, 30), (10, 12), (64, 3)]

# How many ids have a value on all pages.
PAGED_IDS = [30, 200, 1000]

CHIPS = {"thumbv7em": "Cortex-M4", "thumbv6m": "Cortex-M0+"}


def built(room, folder, name, target):
    """A program for a chip."""
    flags = f"-D warnings --sysroot {room.sysroot(target.triple)} -C linker=ld.lld -C linker-flavor=ld.lld"
    room.cargo("build", "--release", "--bin", name, "--target", target.triple, cwd=folder, RUSTC=DEBIAN_RUSTC, RUSTFLAGS=flags)
    return room.program(name, target.triple)


def chip_rows(room, folder, target):
    """The rows of a chip: text, and where its instructions can be run RAM and stack."""
    told = room.run([f"{target.prefix}size", built(room, folder, "smallest", target)]).decode().split("\n")[1]
    yield f"text of the smallest program with settings, {CHIPS[target.name]}, bytes", int(told.split()[0])
    if target.name == "thumbv7em":
        lines = room.run([target.qemu, built(room, folder, "stack", target)]).decode().split("\n")
        numbers = {name: int(number) for name, number in (line.split() for line in lines if line)}
        yield "RAM of the settings on a chip, bytes", numbers.pop("RAM")
        yield f"stack of any call of settings, {CHIPS[target.name]}, bytes", max(numbers.values())


def operations(room, folder):
    """The rows of values of each length: of a change, and of the longest call."""
    room.cargo("build", "--release", "--bin", "count", cwd=folder, RUSTC=DEBIAN_RUSTC)
    for length, ids in VALUES:
        told = room.run([room.program("count"), str(length), str(ids), str(CHANGES)])
        every, longest, erases = map(int, told.split())
        what = f"of {CHANGES:,} changes of {length} byte{'s' * (length > 1)}, {ids} ids"
        yield f"flash operations {what}", every
        yield f"flash operations of the longest call {what}", longest
        yield f"erases {what}", erases


def on_all_pages(room, folder):
    """The rows of settings on all pages: the slots that calls read, and the operations of the longest change."""
    room.cargo("build", "--release", "--bin", "paged", cwd=folder, RUSTC=DEBIAN_RUSTC)
    for ids in PAGED_IDS:
        get, every, least, most, longest = map(int, room.run([room.program("paged"), str(ids)]).split())
        on = f"on 8 pages, {ids:,} ids of 4 bytes"
        yield f"slots read by a get {on}", get
        yield f"slots read by ids {on}", every
        yield f"slots read by the shortest set {on}", least
        yield f"slots read by the longest of 2,000 sets {on}", most
        yield f"flash operations of that set {on}", longest


def rows(room):
    """All rows."""
    targets = [target for target in TARGETS if target.name in CHIPS]
    for target in targets:
        if why := lacks(target):
            raise Skipped(why)
    if not shutil.which("ld.lld"):
        raise Skipped("there is no ld.lld (Debian: lld)")
    folder = room.package("bench/settings")
    found = [row for target in targets for row in chip_rows(room, folder, target)]
    return [Row("settings", what, number, None) for what, number in [*found, *operations(room, folder), *on_all_pages(room, folder)]]


SECTIONS = {"settings": rows}
