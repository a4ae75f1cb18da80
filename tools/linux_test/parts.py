"""What a test needs of the machine: programs, a Linux, and what is built of the repository."""

import fcntl
import glob
import os
import re
import shutil
import subprocess
import sys

ROOT = os.path.dirname(os.path.dirname(os.path.dirname(os.path.abspath(__file__))))
sys.path.insert(0, f"{ROOT}/tools")

import building  # noqa: E402
from debian_crates import OF_PROGRAM, lacking  # noqa: E402

# Programs, and Debian's packages of them.
PROGRAMS = {
    "rustc": "rustc", "cargo": "cargo", "cc": "gcc", "qemu-system-x86_64": "qemu-system-x86", "modprobe": "kmod", "depmod": "kmod",
    "busybox": "busybox-static",
}
IN_C = ["-std=c11", "-D_DEFAULT_SOURCE", "-O1", "-static", "-Wall", "-Wextra", "-Werror"]
PYTHON = "/usr/bin/python3"
# Prints which files of modules it has loaded.
LOADS = """
import sys, wuzhikar_hid
print("\\n".join({getattr(module, "__file__", None) or "" for module in list(sys.modules.values())} - {""}))
"""
OVMF = "/usr/share/ovmf/OVMF.fd"
# The crates of the workspace rust/, and their packages: for rust/keymap, and for rust/kbsim.
WORKSPACE = (list(OF_PROGRAM), " ".join(f"librust-{name.replace('_', '-')}-dev" for name in OF_PROGRAM))


class Missing(Exception):
    """Something is not installed: what, and what it is of Debian's."""


def need_programs():
    """Looks for the programs. Those of the administrator may not be on the PATH."""
    os.environ["PATH"] += ":/usr/sbin:/sbin"
    for name, package in PROGRAMS.items():
        if not shutil.which(name):
            raise Missing(f"no {name} (Debian: {package})")


def linux():
    """A folder with boot/vmlinuz-RELEASE and lib/modules/RELEASE, and the release. Debian's is fetched into a cache where it is not
    there yet; nothing is installed."""
    tree = os.environ.get("LINUX")
    if tree and not glob.glob(f"{tree}/boot/vmlinuz-*"):
        raise Missing(f"no boot/vmlinuz-* in {tree}")
    if not tree:
        cache = os.environ.get("CACHE") or os.path.join(os.environ.get("XDG_CACHE_HOME") or os.path.expanduser("~/.cache"), "wuzhikar")
        tree = f"{cache}/linux"
        os.makedirs(cache, exist_ok=True)
        with open(f"{cache}/lock", "w") as lock:
            fcntl.flock(lock, fcntl.LOCK_EX)
            if not glob.glob(f"{tree}/boot/vmlinuz-*"):
                fetch(cache, tree)
    release = sorted(glob.glob(f"{tree}/boot/vmlinuz-*"))[-1].split("/vmlinuz-")[1]
    if not os.path.isdir(f"{tree}/lib/modules/{release}"):
        raise Missing(f"no lib/modules/{release} in {tree}")
    return tree, release


def fetch(cache, tree):
    """Fetches Debian's kernel, and unpacks it."""
    for program in ("apt-cache", "apt-get", "dpkg-deb"):
        if not shutil.which(program):
            raise Missing(f"no {program}, so Debian's kernel can't be fetched: LINUX may name a folder with boot/vmlinuz-*, lib/modules")
    told = subprocess.run(["apt-cache", "depends", "linux-image-amd64"], stdout=subprocess.PIPE, stderr=subprocess.DEVNULL, text=True)
    names = [line.split()[1] for line in told.stdout.splitlines() if line.strip().startswith("Depends: linux-image-")]
    if not names:
        raise Missing("apt-cache knows no linux-image-amd64: apt-get update")
    part = f"{cache}/part"
    shutil.rmtree(part, ignore_errors=True)
    os.makedirs(part)
    got = subprocess.run(["apt-get", "download", names[0]], cwd=part, stdout=subprocess.PIPE, stderr=subprocess.STDOUT, text=True)
    packages = glob.glob(f"{part}/*.deb")
    if got.returncode != 0 or not packages:
        raise Missing(f"apt-get download {names[0]} failed: {got.stdout.strip().splitlines()[-1:]}")
    subprocess.run(["dpkg-deb", "-x", packages[0], f"{part}/linux"], check=True)
    os.rename(f"{part}/linux", tree)
    shutil.rmtree(part)


def are_there(crates):
    """Whether cargo can have these crates: of Debian's packages, or from where it takes them."""
    return not lacking(*crates)


def build(work):
    """Builds the programs of the guest, which need no library of it: their paths by name. Without its crates keymap is not among
    them."""
    host = subprocess.run(["rustc", "-vV"], check=True, stdout=subprocess.PIPE, text=True).stdout
    target = next(line.split()[1] for line in host.splitlines() if line.startswith("host: "))
    if not are_there(["arrayvec"]):
        raise Missing("no crate arrayvec (Debian: librust-arrayvec-dev)")
    folders = {"real_host": "", **({"keymap": "rust"} if are_there(WORKSPACE[0]) else {})}
    variables = {"RUSTFLAGS": "-D warnings -C target-feature=+crt-static"}
    for name, folder in folders.items():
        building.cargo("build", "-q", "--release", "--target", target, "--package", name, folder=folder, **variables)
    in_c = {name: f"{work}/{name}" for name in ("host", "uhid")}
    for name, path in in_c.items():
        subprocess.run(["cc", *IN_C, "-o", path, f"{ROOT}/tests/real_host/linux/{name}.c"], check=True)
    return {**in_c, **{name: f"{building.TARGET}/{target}/release/{name}" for name in folders}}


def function_in_c(work):
    """Builds the keyboard as a function of Linux in C: its path."""
    building.cargo("build", "-q", "--release", folder="c/firmware")
    folder, program = f"{ROOT}/c/firmware", f"{work}/function_in_c"
    words = [*IN_C, "-pthread", "-I", folder, f"{folder}/tests/function.c", f"{building.TARGET}/release/libwuzhikar.a", "-o", program]
    subprocess.run(["cc", *words], check=True)
    return program


def python_package(work):
    """The package python/ with its library, and what Python loads for it: by their paths in the guest. Empty without Debian's Python."""
    if not os.path.exists(PYTHON):
        return {}
    building.cargo("build", "-q", "--release", folder="c/reader")
    package, program = f"{work}/wuzhikar_hid", os.path.realpath(PYTHON)
    shutil.copytree(f"{ROOT}/python/wuzhikar_hid", package)
    shutil.copy(f"{building.TARGET}/release/libhid_reader.so", package)
    with open(f"{work}/program", "w", encoding="utf-8") as file:
        file.write(program)
    told = subprocess.run([program, "-S", "-B", "-c", LOADS], env={"PYTHONPATH": work}, check=True, stdout=subprocess.PIPE, text=True).stdout
    files = [path for path in told.splitlines() if not path.startswith(work)]
    own = {f"python/wuzhikar_hid/{name}": f"{package}/{name}" for name in os.listdir(package)}
    for path in [program, f"{package}/libhid_reader.so", *(path for path in files if ".so" in path)]:
        own |= linked(path)
    return {**own, "python/program": f"{work}/program", **{path.lstrip("/"): path for path in [program, *files]}}


def reader():
    """The program of `kbsim read`, which runs beside the guest; empty where its crates are not there."""
    if not are_there(WORKSPACE[0]):
        return ""
    words = [f"{ROOT}/bin/kbsim", "--way", "plain", "--path", "read"]
    return subprocess.run(words, check=True, stdout=subprocess.PIPE, text=True).stdout.strip()


def linked(program):
    """The libraries that a program is linked with, by their paths in the guest."""
    told = subprocess.run(["ldd", program], stdout=subprocess.PIPE, stderr=subprocess.DEVNULL, text=True).stdout
    return {path.lstrip("/"): path for path in re.findall(r"(/\S+) \(0x", told)}
