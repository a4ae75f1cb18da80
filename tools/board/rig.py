"""What a run of bin/board-test needs: the firmware, the power switch and the host, built in a folder; and the time that it has."""

import hashlib
import os
import re
import shutil
import subprocess
import sys
import threading
import time

HERE = os.path.dirname(os.path.abspath(__file__))
ROOT = os.path.dirname(os.path.dirname(HERE))
sys.path[:0] = [f"{ROOT}/tools", f"{ROOT}/tools/export_rust"]

import building  # noqa: E402
from debian_crates import environment, lacking  # noqa: E402
from faults import LAYOUT, plant  # noqa: E402
from room import Failed  # noqa: E402

TARGET = "thumbv6m-none-eabi"
PROGRAMS = {"rustc": "rustc-web", "cargo": "cargo-web", "cc": "gcc", "ld.lld": "lld", "qemu-system-arm": "qemu-system-arm"}
LOOPS = {"asked at the token": "", "with buffers": "buffers"}
# Each is cut and measured. The features of a firmware by its name.
WAVERING = {"cells that waver": "steady"}
FIRMWARES = LOOPS | {"error correction": "ecc"} | WAVERING
# The firmware in C over c/firmware, with buffers.
IN_C = {"in C": "c"}
WITH_BUFFERS = ("with buffers", *IN_C)
C_PROGRAMS = {"arm-none-eabi-gcc": "gcc-arm-none-eabi", "make": "make"}
# The firmware asked at the token with other default codes (faults.py), which random sessions cut.
OTHER = {"other default codes": "layout"}


class NoTime(Exception):
    """What was not reached in the time that a run has."""


def say(text):
    # In one piece, since several threads say something.
    print(f"board-test: {text}\n", end="", flush=True)


def missing():
    """What this machine lacks, a phrase, or nothing."""
    for name, package in PROGRAMS.items():
        if not shutil.which(name):
            return f"no {name} (Debian: {package})"
    told = subprocess.run(["qemu-system-arm", "--version"], stdout=subprocess.PIPE, text=True).stdout
    if not re.search(r"version 7\.2\.", told):
        return f"another QEMU than 7.2, whose plugins the power switch knows: {told.splitlines()[0]} (Debian 12: qemu-system-arm)"
    return lacking("arrayvec")


class Time:
    """The time that a run has; without a word no end."""

    def __init__(self, minutes=None):
        self.begun, self.minutes = time.monotonic(), minutes

    def spent(self):
        """Seconds since the begin."""
        return time.monotonic() - self.begun

    def end(self):
        """When it ends, by time.monotonic(), or None."""
        return None if self.minutes is None else self.begun + 60 * self.minutes

    def left(self):
        """Seconds up to the end, at least one, or None."""
        return None if self.minutes is None else max(1, self.end() - time.monotonic())

    def allows(self, seconds):
        """Whether so much time is left."""
        return self.left() is None or self.left() >= seconds


class Bench:
    """The firmware, the power switch and the host."""

    def __init__(self, room, more):
        self.room, self.more, self.clock, self.building, self.detached = room, more, Time(), threading.Lock(), False
        # Faults are planted there, so what is built of it is in no folder of others.
        room.environment.update(environment(room.folder, "arrayvec"), CARGO_TARGET_DIR=room.path("target"))
        room.copy("rust")
        self.folder = room.copy("examples/chip_nrf51")
        self.switch = room.path("switch.so")
        # An earlier run in this folder has left what was built of planted faults, which cargo takes for new.
        shutil.rmtree(room.path("target", TARGET), ignore_errors=True)
        room.run(["cc", "-std=gnu11", "-O2", "-Wall", "-Wextra", "-Werror", "-shared", "-fPIC", f"{HERE}/switch.c", "-o", self.switch])
        self.host = f"{building.programs()}/board"
        for features in FIRMWARES.values():
            self.build(features, self.firmware(features))
        self.firmwares = FIRMWARES | self.build_in_c()
        mend = plant(room.folder, LAYOUT)
        self.build("", self.firmware("layout"))
        mend()

    def firmware(self, features):
        """The path of the firmware with these features, or of the one with other default codes."""
        return self.room.path(f"chip_{features}.elf")

    def build(self, features, path):
        """Builds the firmware with these features, as it stands now."""
        words = ["--features", features, "--target", TARGET]
        self.room.cargo("build", "--release", *words, cwd=self.folder, **self.more)
        shutil.copyfile(self.room.program("chip_nrf51", TARGET), path)

    def build_in_c(self):
        """Builds the firmware in C: its name, or nothing where it can't be built here."""
        lacks = [f"{name} (Debian: {package})" for name, package in C_PROGRAMS.items() if not shutil.which(name)]
        if lacks:
            say(f"skipped: the firmware in C, since there is no {' and no '.join(lacks)}")
            return {}
        folder = self.room.copy("c/firmware")
        self.room.cargo("build", "--release", "--target", TARGET, cwd=folder, **self.more)
        made = f"{folder}/examples/chip_nrf51"
        self.room.run(["make", "-C", made, f"LIBRARY={self.room.program('libwuzhikar.a', TARGET)}"])
        shutil.copyfile(f"{made}/chip_nrf51.elf", self.firmware("c"))
        return IN_C

    def board(self, firmware):
        """The words of the program that runs this firmware."""
        return [self.host, firmware, self.switch]

    def run(self, firmware, *words):
        """Runs a test: whether it passed, and what it told. The rig ends by itself where the chip is silent."""
        try:
            ran = subprocess.run([*self.board(firmware), *map(str, words)], text=True, stdout=subprocess.PIPE,
                                 stderr=subprocess.STDOUT, timeout=self.clock.left(), start_new_session=self.detached)
        except subprocess.TimeoutExpired as error:
            raise NoTime from error
        return ran.returncode == 0, ran.stdout

    def told(self, name, features, *words):
        """What a test of a firmware told, which has to pass."""
        passed, told = self.run(self.firmware(features), *words)
        if not passed:
            raise Failed(f"{name}, {' '.join(map(str, words))}: {told}")
        return told.strip()

    def session(self, firmware):
        """The session that is told, beside what is expected of it."""
        passed, told = self.run(firmware, "session")
        with open(f"{self.folder}/expected", encoding="utf-8") as file:
            if passed and told == file.read():
                return True, "a session is as expected"
        return False, f"a session is not that of examples/chip_nrf51/expected:\n{told}"

    def size(self, features):
        """The bytes of code and constants of a firmware."""
        return int(self.room.run(["size", self.firmware(features)]).decode().splitlines()[1].split()[0])

    def sum(self, features):
        """A checksum of a firmware and of what cuts it."""
        paths = [self.firmware(features), f"{HERE}/switch.c", *(f"{HERE}/src/{name}" for name in sorted(os.listdir(f"{HERE}/src")))]
        whole = hashlib.sha256()
        for path in paths:
            with open(path, "rb") as file:
                whole.update(hashlib.sha256(file.read()).digest())
        return whole.hexdigest()[:16]
