"""Opens the page in a Chromium of a stock Linux in QEMU, with the exported keyboard behind the machine's USB controller.

The guest takes /usr and /etc of this machine, read only, and has udev and a browser of its own. The page, served on localhost, reads
the keyboard's entries by WebHID, sets a key, resets a layer, and finds what it set again when the power went and when the keyboard
was plugged in anew. It loads a keymap in whose middle the power goes, goes on, and explains refusals; what Linux gets of the keys is
read beside it. The profile of the browser has a grant of an earlier day, as Chromium keeps one: so it is seen whether one lasts, from
localhost and from a file. What is seen is told a line each, pictures are kept in out/page, and the first thing that is otherwise than
it should be ends it.

By QEMU's interpreter it takes half an hour and more; KVM is used where a Linux runs by it. It needs chromium, rustc, cargo, the
crate arrayvec, gcc, qemu-system-x86_64, busybox-static and kmod. Debian's kernel (or LINUX, as bin/linux-test takes it) and udev are
fetched by apt-get download into a cache, and nothing is installed.
"""

import argparse
import contextlib
import os
import shutil
import socket
import subprocess
import sys
import tempfile
import threading
import time

HERE = os.path.dirname(os.path.abspath(__file__))
sys.path.insert(0, os.path.join(os.path.dirname(os.path.dirname(HERE)), "linux_test"))

import guest  # noqa: E402
import parts  # noqa: E402
from processes import Silent, running  # noqa: E402

TOLD = ("saw ", "---")  # what lines that are told begin with
LONGEST = 7200.0  # seconds, by QEMU's interpreter on a machine that does other things too
SERIAL = "1"  # without one a browser forgets which keyboard it was let open
MODULES = ["evdev", "usbhid", "hid-generic", "xhci-pci", "virtio-pci", "9pnet_virtio", "9p", "overlay"]


def udev():
    """Debian's udevadm, which is udevd too: its bytes, fetched into the cache of the kernel where it is not there yet."""
    cache = os.path.dirname(parts.linux()[0]) if "LINUX" not in os.environ else tempfile.gettempdir()
    program = f"{cache}/udev/bin/udevadm"
    if not os.path.exists(program):
        part = f"{cache}/udev.part"
        shutil.rmtree(part, ignore_errors=True)
        os.makedirs(part)
        got = subprocess.run(["apt-get", "download", "udev"], cwd=part, stdout=subprocess.PIPE, stderr=subprocess.STDOUT, text=True)
        packages = [name for name in os.listdir(part) if name.endswith(".deb")]
        if got.returncode != 0 or not packages:
            raise parts.Missing(f"apt-get download udev failed: {got.stdout.strip().splitlines()[-1:]}")
        subprocess.run(["dpkg-deb", "-x", f"{part}/{packages[0]}", f"{cache}/udev"], check=True)
        shutil.rmtree(part)
    return guest.read(program)


def disk(tree, release):
    """The RAM disk: busybox, modules, udev, and init."""
    paths = guest.modules(tree, release, MODULES)
    files = {f"modules.d/{os.path.basename(path)}": guest.read(path) for path in paths}
    files["modules"] = "".join(f"/modules.d/{os.path.basename(path)}\n" for path in paths).encode()
    files.update({"init": guest.read(f"{HERE}/init"), "udev/udevadm": udev()})
    files.update({name: guest.read("/bin/busybox") for name in ("bin/busybox", "bin/sh")})
    return guest.archive(files)


class Keyboard:
    """The keyboard at a socket, and its hands at a line to the guest: `keyboard FLASH` pulls it out and plugs one in with this flash
    (`kept` or `damaged`), and each other line is one of the hands'."""

    def __init__(self, program, work, line):
        self.program, self.path, self.line, self.work = program, f"{work}/keyboard", line, work
        for name, byte in (("kept", 0xff), ("damaged", 0)):
            with open(f"{work}/{name}", "wb") as file:
                file.write(bytes([byte]) * (2 * guest.PAGE))
        self.process = None
        self.plug("kept")
        threading.Thread(target=self.follow, daemon=True).start()

    def plug(self, flash):
        """Plugs in a keyboard with a flash, which is kept in a file."""
        self.close()
        file = f"{self.work}/{flash}"
        command = [self.program, "--serial", SERIAL, "--image", file, "--save", file, "guest", self.path]
        self.process = subprocess.Popen(command, stdin=subprocess.PIPE, stdout=subprocess.DEVNULL, stderr=subprocess.DEVNULL, text=True)
        until = time.monotonic() + 20
        while not os.path.exists(self.path) and time.monotonic() < until:
            time.sleep(0.05)

    def follow(self):
        """Does what the guest's lines say."""
        with self.line.makefile("r", encoding="utf-8", errors="replace") as lines:
            for line in lines:
                word, _, rest = line.strip().partition(" ")
                if word == "keyboard" and rest in ("kept", "damaged"):
                    self.plug(rest)
                elif word:
                    self.process.stdin.write(line)
                    self.process.stdin.flush()

    def close(self):
        """Unplugs it."""
        if self.process:
            self.process.kill()
            self.process.wait()
            with contextlib.suppress(FileNotFoundError):
                os.unlink(self.path)


def command(kernel, initrd, out, path, line, chosen):
    """The machine."""
    shares = {"usr": ("/usr", ",readonly=on"), "etc": ("/etc", ",readonly=on"), "repository": (parts.ROOT, ",readonly=on"), "out": (out, "")}
    words = [word for tag, (folder, more) in shares.items() for word in ("-virtfs", f"local,path={folder},mount_tag={tag},security_model=none,multidevs=remap{more}")]
    # Each system call would change the tables of pages where the kernel hides its own, and the interpreter forget all translations.
    append = f"console=ttyS0 quiet panic=-1 mitigations=off i8042.nokbd i8042.noaux repository={parts.ROOT}"
    return ["qemu-system-x86_64", "-accel", chosen, "-cpu", "Nehalem", "-m", "3072", "-smp", "2", "-nodefaults", "-display", "none", "-vga", "none",
            "-nic", "none", "-no-reboot", "-serial", "stdio", "-chardev", f"socket,id=hands,fd={line.fileno()}", "-serial", "chardev:hands",
            "-device", "qemu-xhci,id=usb", "-chardev", f"socket,id=kb,path={path},reconnect=1", "-device", "usb-redir,chardev=kb,bus=usb.0",
            "-kernel", kernel, "-initrd", initrd, "-append", append, *words]


def accelerator(kernel):
    """KVM, where it can be opened and a Linux says something on it; or else QEMU's interpreter."""
    if os.access("/dev/kvm", os.R_OK | os.W_OK):
        machine = ["qemu-system-x86_64", "-accel", "kvm", "-cpu", "max", "-m", "512", "-nodefaults", "-display", "none", "-no-reboot",
                   "-serial", "stdio", "-kernel", kernel, "-append", "console=ttyS0 panic=-1"]
        with contextlib.suppress(Silent), running(machine, patience=20.0) as probe:
            probe.until("Linux version")
            return "kvm"
        print("page_on_linux: no Linux runs by this machine's KVM, so QEMU's interpreter does it", flush=True)
    return "tcg,thread=multi"


def told(machine):
    """Tells what was seen as it is said, each line once."""
    given = 0

    def hear():
        nonlocal given
        lines = [line for line in machine.text().split("\n")[:-1] if line.startswith(TOLD)]
        print(*lines[given:], sep="\n", end="\n" if lines[given:] else "", flush=True)
        given = len(lines)
    return hear


def run(work, chosen):
    """Starts the machine: what it said."""
    programs = parts.build(work)
    tree, release = parts.linux()
    for name, content in (("kernel", guest.unpacked(guest.read(f"{tree}/boot/vmlinuz-{release}"))), ("disk", disk(tree, release))):
        with open(f"{work}/{name}", "wb") as file:
            file.write(content)
    out, kept = f"{work}/out", f"{parts.ROOT}/out/page"
    for folder in (out, kept):
        os.makedirs(folder, exist_ok=True)
    ours, theirs = socket.socketpair()
    begun = time.monotonic()
    with ours, theirs, contextlib.closing(Keyboard(programs["real_host"], work, ours)) as keyboard:
        chosen = chosen or accelerator(f"{work}/kernel")
        machine = command(f"{work}/kernel", f"{work}/disk", out, keyboard.path, theirs, chosen)
        with running(machine, (theirs.fileno(),), LONGEST, LONGEST) as machine:
            machine.until("--- off", hear=told(machine))
            said = machine.text()
    for name in sorted(os.listdir(out)):
        shutil.copy(f"{out}/{name}", f"{kept}/{name}")
    print(f"page_on_linux: Linux {release} by {chosen}, {time.monotonic() - begun:.0f} s; pictures in out/page")
    return said


def main():
    words = argparse.ArgumentParser(prog="page_on_linux", description=__doc__, formatter_class=argparse.RawDescriptionHelpFormatter)
    words.add_argument("--interpreter", action="store_true", help="uses QEMU's interpreter, also where KVM is there")
    words.add_argument("--all", action="store_true", help="shows all that the machine said")
    given = words.parse_args()
    with tempfile.TemporaryDirectory() as work:
        try:
            if not shutil.which("chromium"):
                raise parts.Missing("no chromium (Debian: chromium)")
            parts.need_programs()
            said = run(work, "tcg,thread=multi" if given.interpreter else "")
        except parts.Missing as error:
            print(f"page_on_linux: skipped: {error}")
            return
        except Silent as error:
            print(f"--- {error}")
            said = error.said
    if given.all:
        print(said)
    sys.exit(0 if "--- all was seen" in said.splitlines() else 1)


if __name__ == "__main__":
    main()
