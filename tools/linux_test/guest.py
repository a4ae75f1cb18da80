"""The initial RAM disk of a guest, the kernel, and the image of a full flash."""

import gzip
import lzma
import os
import stat
import struct
import subprocess

FILES = f"{os.path.dirname(os.path.dirname(os.path.dirname(os.path.abspath(__file__))))}/tests/real_host/linux"
MODULES = ["evdev", "usbhid", "hid-generic", "vhci-hcd", "xhci-pci", "uhid"]
# Those of a keyboard that is a function of this Linux, and what one of them is given.
OF_FUNCTION = ["dummy-hcd", "usb-f-fs"]
GIVEN = {"dummy_hcd.ko": " is_high_speed=0"}
PAGE, SLOTS, LAYERS, KEYS = 4096, 512, 4, 96


def entry(name, content=b"", mode=stat.S_IFREG | 0o755, number=0):
    """A file of an archive of cpio, in the format "newc" (Linux, Documentation/driver-api/early-userspace/buffer-format.rst)."""
    path = name.encode() + b"\0"
    numbers = [number, mode, 0, 0, 1, 0, len(content), 0, 0, 0, 0, len(path), 0]
    head = b"070701" + b"".join(b"%08x" % value for value in numbers) + path
    return padded(head) + padded(content)


def padded(data):
    """The bytes, filled up to a multiple of four."""
    return data + bytes(-len(data) % 4)


def archive(files):
    """An archive of these files, by path, with the folders that they stand in."""
    folders = sorted({"/".join(path.split("/")[:depth]) for path in files for depth in range(1, path.count("/") + 1)})
    entries = [entry(folder, mode=stat.S_IFDIR | 0o755, number=at) for at, folder in enumerate(folders, 1)]
    entries += [entry(path, content, number=at) for at, (path, content) in enumerate(sorted(files.items()), len(folders) + 1)]
    return gzip.compress(b"".join(entries) + entry("TRAILER!!!", mode=0), 1, mtime=0)


def read(path):
    """The bytes of a file."""
    with open(path, "rb") as file:
        return file.read()


class Lacking(Exception):
    """The kernel has no such module."""


def modules(tree, release, names):
    """The paths of some of the kernel's modules in a tree, each behind those that it needs."""
    if not os.path.exists(f"{tree}/lib/modules/{release}/modules.dep"):
        subprocess.run(["depmod", "-b", tree, release], check=True)
    paths = []
    for name in names:
        told = subprocess.run(["modprobe", "-d", tree, "-S", release, "--show-depends", name], stdout=subprocess.PIPE, stderr=subprocess.DEVNULL, text=True)
        if told.returncode != 0:
            raise Lacking(f"no module {name} in {tree}/lib/modules/{release}")
        paths += [line.split()[1] for line in told.stdout.splitlines() if line.startswith("insmod ")]
    return list(dict.fromkeys(paths))


def disk(tree, release, programs, reports, names=MODULES):
    """The RAM disk: busybox, modules, the files of tests/real_host/linux, programs by their names, and the reports for uhid."""
    paths = modules(tree, release, names)
    files = {f"modules.d/{os.path.basename(path)}": read(path) for path in paths}
    files["modules"] = "".join(f"/modules.d/{name}{GIVEN.get(name, '')}\n" for name in map(os.path.basename, paths)).encode()
    files.update({name: read(f"{FILES}/{name}") for name in ("init", "commands", "live.py")})
    files.update({f"lists/{name}": read(f"{FILES}/lists/{name}") for name in os.listdir(f"{FILES}/lists")})
    files.update({name: read(path) for name, path in programs.items()})
    files.update({"bin/busybox": read("/bin/busybox"), "bin/sh": read("/bin/busybox"), "full.image": full_image()})
    files["reports"] = reports
    files.update({f"{folder}/.there": b"" for folder in ("proc", "sys", "dev", "tmp")})
    return archive(files)


def unpacked(kernel):
    """A kernel as an ELF file, which starts three times as fast in an emulator as one that unpacks itself. One that is not packed
    by xz stays as it is."""
    try:
        return lzma.LZMADecompressor().decompress(kernel[kernel.index(b"\xfd7zXZ\0"):])
    except (ValueError, lzma.LZMAError):
        return kernel


def full_image():
    """A flash of two pages whose first is full (docs/formats.md): each key of layers 1 to 3 is the letter a, again and again. The
    first command that changes something makes a compaction with a copy of each."""
    assigned = [(layer, key) for layer in range(1, LAYERS) for key in range(KEYS)]
    words = [0x20000000] + [0x10000004 | layer << 24 | key << 16 for layer, key in (assigned * 2)[:SLOTS - 1]]
    slots = b"".join(struct.pack("<II", word, word ^ 0xFFFFFFFF) for word in words)
    return slots + b"\xff" * PAGE
