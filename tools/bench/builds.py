"""Builds what is measured: the peer by gcc, the exported keyboard by Debian's rustc, each under bench/calls.c and bench/firmware.c.

What is built stays in out/build, so that a further run is faster.
"""

import os
import re
import shutil
import subprocess
import sys
from typing import NamedTuple

HERE = os.path.dirname(os.path.abspath(__file__))
ROOT = os.path.dirname(os.path.dirname(HERE))
sys.path.insert(0, f"{ROOT}/tools/export_rust")

from room import DEBIAN_RUSTC, Room, debian_sources

BENCH = f"{ROOT}/bench"
PEER = f"{ROOT}/reference/peer"


class Target(NamedTuple):
    """A machine: how its programs are built and run. `ours` and `peer` are the levels of optimization."""

    name: str
    triple: str
    prefix: str  # of gcc, nm and size
    machine: list[str]
    qemu: str
    ours: str
    peer: str
    packages: str


ARM_PACKAGES = "gcc-arm-none-eabi, libnewlib-arm-none-eabi, qemu-user, rustc-web, cargo-web, rust-web-src, librust-arrayvec-dev"
TARGETS = [
    Target("thumbv7em", "thumbv7em-none-eabi", "arm-none-eabi-", ["-mthumb", "-mcpu=cortex-m4", "-mfloat-abi=soft"], "qemu-arm",
           "s", "s", ARM_PACKAGES),
    Target("thumbv6m", "thumbv6m-none-eabi", "arm-none-eabi-", ["-mthumb", "-mcpu=cortex-m0plus"], "qemu-arm", "s", "s", ARM_PACKAGES),
    Target("x86", "x86_64-unknown-linux-gnu", "", [], "qemu-x86_64", "3", "2", "gcc, libc6-dev, binutils, qemu-user, rustc-web, "
           "cargo-web, librust-arrayvec-dev"),
]

SECTIONS = ["-ffunction-sections", "-fdata-sections"]

# gcc makes no call of memset or memcpy of the peer's loops.
LOOPS = "-fno-tree-loop-distribute-patterns"
INCLUDES = [f"-I{BENCH}", f"-I{PEER}"]
WARNINGS = ["-Wall", "-Wextra", "-Werror"]


def lacks(target):
    """What is missing for a target, as a sentence; empty where nothing is."""
    tools = [f"{target.prefix}gcc", f"{target.prefix}nm", f"{target.prefix}size", target.qemu, "cargo", DEBIAN_RUSTC]
    absent = [tool for tool in tools if not shutil.which(tool)]
    if target.triple.startswith("thumb") and not debian_sources():
        absent.append("the source of Rust's library")
    return f"there is no {' and no '.join(absent)} (Debian: {target.packages})" if absent else ""


class Builds:
    """The builds of one target, in a folder of their own."""

    def __init__(self, room, target):
        self.room, self.target = room, target
        self.folder = room.path(target.name)
        os.makedirs(self.folder, exist_ok=True)

    def path(self, name):
        return f"{self.folder}/{name}"

    def compile(self, source, *options, of=BENCH):
        """Compiles a file of bench/, or of another folder."""
        name = self.path(os.path.basename(source)[:-2] + ".o")
        words = [f"{self.target.prefix}gcc", *self.target.machine, *SECTIONS, *INCLUDES, *WARNINGS, *options, "-c", f"{of}/{source}"]
        self.room.run([*words, "-o", name], self.folder)
        return name

    def bench(self):
        """The parts of the bench: what makes the calls, and the marks for a trace and for painted stacks."""
        options = ["-std=gnu11", "-O2", "-fno-builtin"]
        entry = "arm.c" if self.target.prefix else "host.c"
        parts = [self.compile(name, *options) for name in ("calls.c", "draw.c", entry)]
        return parts, {name: self.compile(f"{name}.c", *options) for name in (["trace", "paint"] if self.target.prefix else ["trace"])}

    def peer(self):
        """The peer, as objects. A restart is a call from another file."""
        options = ["-std=c11", f"-O{self.target.peer}", LOOPS]
        return [self.compile(f"{name}.c", *options, of=PEER) for name in ("keyboard", "restart")]

    def ours(self):
        """The exported keyboard behind the peer's header, as a static library."""
        level = {"CARGO_PROFILE_RELEASE_OPT_LEVEL": self.target.ours}
        flags = "-D warnings"
        if self.target.triple.startswith("thumb"):
            flags += f" --sysroot {self.room.sysroot(self.target.triple)}"
        self.room.cargo("build", "--release", "--target", self.target.triple, cwd=self.room.package("bench/shim"), RUSTC=DEBIAN_RUSTC,
                        RUSTFLAGS=flags, **level)
        return [shutil.copy(self.room.program("libshim.a", self.target.triple), self.path("ours.a"))]

    def link(self, name, parts, *options):
        """Links a program. On a chip nothing comes before its own entry."""
        words = [f"{self.target.prefix}gcc", *self.target.machine, "-static", "-Wl,--gc-sections", *options, *parts]
        if self.target.prefix:
            words += ["-nostartfiles", "-Wl,-Ttext=0x10000", "-Wl,--no-warn-rwx-segments"]
        self.room.run([*words, "-o", self.path(name)], self.folder)
        return self.path(name)

    def firmware(self, name, keyboard):
        """The smallest firmware around a keyboard, whose flash is elsewhere."""
        elsewhere = ["-Wl,-e,main", "-Wl,--defsym=flash_cells=0x08008000"]
        if name == "ours":
            return self.link("firmware-ours", [self.compile("firmware.c", "-std=c11", "-Os"), *keyboard], *elsewhere)
        whole = ["-std=c11", "-Os", "-flto", LOOPS]
        parts = [self.compile("firmware.c", *whole), self.compile("keyboard.c", *whole, of=PEER)]
        return self.link("firmware-peer", parts, *elsewhere, "-flto", "-Os")

    def firmware_in_c(self):
        """The same firmware over c/firmware."""
        flags = f"-D warnings --sysroot {self.room.sysroot(self.target.triple)}"
        folder = self.room.package("c/firmware")
        self.room.cargo("build", "--release", "--target", self.target.triple, cwd=folder, RUSTC=DEBIAN_RUSTC, RUSTFLAGS=flags)
        parts = [self.compile("firmware.c", "-std=c11", "-Os"), self.compile("through_c.c", "-std=c11", "-Os", f"-I{folder}")]
        library = self.room.program("libwuzhikar.a", self.target.triple)
        return self.link("firmware-in-c", [*parts, library], "-Wl,-e,main", "-Wl,--defsym=flash_cells=0x08008000")

    def text(self, program):
        """Bytes of code and constants."""
        return int(self.room.run([f"{self.target.prefix}size", program]).decode().split("\n")[1].split()[0])

    def size_of(self, program, symbol):
        """Bytes of a variable that begins as zeros, and so takes no ROM."""
        told = self.room.run([f"{self.target.prefix}nm", "-S", program]).decode()
        return int(re.search(rf"^\S+ (\S+) [bB] {symbol}$", told, re.M)[1], 16)


def room():
    """A folder for builds."""
    return Room("bench")


def versions():
    """The compilers and tools, one a line."""
    told = []
    for words in (["arm-none-eabi-gcc", "--version"], ["gcc", "--version"], [DEBIAN_RUSTC, "--version"], ["rustc", "--version"],
                  ["qemu-arm", "--version"], ["valgrind", "--version"]):
        if shutil.which(words[0]):
            first = subprocess.run(words, capture_output=True, text=True).stdout.strip().split("\n")[0]
            told.append(first if first.startswith(os.path.basename(words[0])) else f"{os.path.basename(words[0])}: {first}")
    return list(dict.fromkeys(told))
