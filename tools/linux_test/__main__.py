"""Hangs the exported keyboard on a stock Linux, on a BIOS and on UEFI, in QEMU, and compares what they say with what they should.

One Linux boots with a keyboard for each packet size of endpoint 1, by USB/IP, and one behind the machine's own controller, by USB
redirection. The lists of tests/real_host/linux are followed on each. Then it gets devices of real report descriptors, by uhid,
and what it makes of them and of their reports is compared with what `kbsim` says (values.py). Another Linux has the keyboard as a
function of its own (FunctionFS on dummy_hcd), from Rust and from C: it keeps no endpoint 0 there, and its process is killed. SeaBIOS
is started once for each size and controller, the shell of UEFI once with a keyboard of each size.

It needs rustc, cargo, the crate arrayvec, gcc with a static libc, qemu-system-x86_64, busybox-static and kmod; OVMF for UEFI, and
the crates of rust/ for the programs keymap and kbsim. What is not there is skipped by name. The variable LINUX names a folder with
boot/vmlinuz-* and lib/modules; without it Debian's kernel is fetched by apt-get download into a cache (CACHE, or wuzhikar in
~/.cache), and nothing is installed.
"""

import argparse
import concurrent.futures
import os
import subprocess
import sys
import tempfile
import time

import guest
import lists
import machines
import parts
from processes import Silent
from values import Values

SIZES = [8, 16, 32, 64]
WIRE = 16  # the packet size of the keyboard behind the machine's own controller
REFUSED = 16  # SeaBIOS takes no more bytes in a packet
MACHINES = ["linux", "function", "bios", "uefi"]
ALLOWED = 120  # seconds for all machines on two processors that do nothing else


class Test:
    """A run: where it works, the programs of the guest, and what failed."""

    def __init__(self, work, sizes):
        self.work, self.sizes, self.failed = work, sizes, False
        self.programs = parts.build(work)
        self.values = None

    def keyboard(self, size, serial="0001"):
        """The one in memory, with packets of this size."""
        return machines.Keyboard([self.programs["real_host"], "--packet", str(size), "--serial", serial], size, serial)

    def tell(self, name, begun, differing):
        """Says what came of a machine."""
        spent = time.monotonic() - begun
        print(f"linux-test: {name}: {'otherwise than it should be' if differing else 'as it should be'}, {spent:.0f} s", flush=True)
        print("".join(f"    {line}\n" for line in differing), end="", flush=True)
        self.failed |= bool(differing)

    def run(self, names):
        """Starts these machines. Linux takes as long as the others, and has a processor of its own where there are two."""
        begun = time.monotonic()
        with concurrent.futures.ThreadPoolExecutor(2) as threads:
            started = [threads.submit(self.linux)] if "linux" in names else []
            for name in names:
                if name != "linux":
                    getattr(self, name)()
            for thread in started:
                thread.result()
        spent = time.monotonic() - begun
        print(f"linux-test: {spent:.0f} s altogether, of {ALLOWED} allowed on two processors", flush=True)

    def boot(self):
        """What the guest boots, and its release."""
        return machines.boot(self.work, self.programs, self.values.lines() if self.values else b"")

    def linux(self):
        """A stock Linux, and the lists."""
        reader = parts.reader()
        if not reader:
            print(f"linux-test: skipped: the values of reports, as Linux has them (Debian: {parts.WORKSPACE[1]})")
        if reader:
            self.values = Values(reader, self.work)
            self.programs |= {"kbsim": reader, **parts.linked(reader)}
        try:
            kernel, disk, release = self.boot()
        except parts.Missing as error:
            print(f"linux-test: skipped: Linux: {error}")
            return
        every = lists.followed(self.programs)
        if "keymap" not in self.programs:
            print(f"linux-test: skipped: rust/keymap, whose crates are not there (Debian: {parts.WORKSPACE[1]})")
        begun, words = time.monotonic(), f"attach={','.join(map(str, self.sizes))} values=1"
        attached = [(name, str(size), size) for size in self.sizes for name in every]
        found, differing = machines.follow(self.work, self.keyboard(WIRE, "wire"), (kernel, disk), every, words, attached)
        if self.values and found:
            differing += self.values.differences(found.get(("values", "uhid"), []))
        self.tell(f"Linux {release}, packets of {', '.join(map(str, self.sizes))} bytes", begun, differing)

    def function(self):
        """A stock Linux whose own function the keyboard is, from Rust and from C."""
        folder = f"{self.work}/function"
        os.mkdir(folder)
        python = parts.python_package(folder)
        if not python:
            print(f"linux-test: skipped: the package of Python on hidraw, no {parts.PYTHON} (Debian: python3)")
        programs = {**self.programs, "function_in_c": parts.function_in_c(folder), **python}
        names = [*lists.OF_FUNCTION, *(lists.OF_PYTHON if python else [])]
        try:
            booted = machines.boot(folder, programs, b"", [*guest.MODULES, *guest.OF_FUNCTION])
        except (parts.Missing, guest.Lacking) as error:
            print(f"linux-test: skipped: the keyboard as a function of Linux: {error}")
            return
        begun = time.monotonic()
        sizes = {"real_host": 16, "function_in_c": 32}
        self.tell(f"Linux {booted[2]}, the keyboard as its function", begun, machines.function(booted, sizes, names))

    def bios(self):
        """SeaBIOS, once for each controller and size."""
        begun, differing = time.monotonic(), []
        for controller in machines.CONTROLLERS:
            for size in self.sizes:
                wanted = "types" if size <= REFUSED else f"USB keyboard wMaxPacketSize={size}; aborting"
                try:
                    said = machines.bios(self.work, self.keyboard(size), controller)
                except Silent as error:
                    said = str(error)
                if said != wanted:
                    differing.append(f"{controller}, packets of {size} bytes: {said}, and not: {wanted}")
        self.tell("SeaBIOS, " + " and ".join(machines.CONTROLLERS), begun, differing)

    def uefi(self):
        """The shell of UEFI, with a keyboard of each size."""
        if not os.path.exists(parts.OVMF):
            print(f"linux-test: skipped: UEFI, no {parts.OVMF} (Debian: ovmf)")
            return
        begun, differing = time.monotonic(), []
        try:
            machines.uefi(self.work, [self.keyboard(size) for size in self.sizes], parts.OVMF)
        except Silent as error:
            differing = [str(error), *error.said.splitlines()[-5:]]
        self.tell("UEFI's shell", begun, differing)


def shell(test, size):
    """A shell in that Linux, with a keyboard of this packet size."""
    kernel, disk, _ = test.boot()
    print("linux-test: Linux boots, which takes some seconds; its shell is on this terminal", flush=True)
    append = f"console=ttyS0 quiet panic=-1 i8042.nokbd i8042.noaux attach={size} shell=1"
    return subprocess.run(machines.qemu("-kernel", kernel, "-initrd", disk, "-append", append, line="mon:stdio")).returncode


def main():
    words = argparse.ArgumentParser(prog="linux-test", description=__doc__, formatter_class=argparse.RawDescriptionHelpFormatter)
    words.add_argument("sizes", metavar="SIZE", nargs="*", type=int, help="packet sizes of endpoint 1: 8 16 32 64 (all of them)")
    words.add_argument("--shell", action="store_true", help="gives a shell in that Linux, with the keyboard attached")
    words.add_argument("--only", choices=MACHINES, help="starts this machine alone")
    given = words.parse_args()
    sizes = given.sizes or ([WIRE] if given.shell else SIZES)
    if not set(sizes) <= set(SIZES):
        words.error("a packet size is 8, 16, 32 or 64")
    with tempfile.TemporaryDirectory() as work:
        try:
            parts.need_programs()
            test = Test(work, sizes)
            if given.shell:
                sys.exit(shell(test, sizes[0]))
            test.run([given.only] if given.only else MACHINES)
        except parts.Missing as error:
            print(f"linux-test: skipped: {error}")
            return
    sys.exit(1 if test.failed else 0)


if __name__ == "__main__":
    main()
