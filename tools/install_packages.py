"""Installs Debian's packages that bin/test can use and this machine lacks, where it is root and apt-get is there.

What can't be installed is said in a line: the tests that want it skip themselves by name. A compiler is installed only where the
rustc on the PATH is older than 1.85 or missing, never in place of one that serves; Debian's own also beside one that serves, as
/usr/bin/rustc where there is none, since with its sources, of its very version, it builds for chips and for 32 bits. The status is
0, whatever of that could be done.
"""

import argparse
import contextlib
import os
import re
import shutil
import subprocess
import sys

# Packages for what is looked for: a program on the PATH, or a path.
WANTED = [
    ("librust-arrayvec-dev", "/usr/share/cargo/registry/arrayvec-*"),
    ("librust-hex-dev", "/usr/share/cargo/registry/hex-*"),
    ("librust-clap-dev", "/usr/share/cargo/registry/clap-4*"),
    ("librust-strsim-dev", "/usr/share/cargo/registry/strsim-*"),
    ("librust-serde-json-dev", "/usr/share/cargo/registry/serde_json-*"),
    ("librust-thiserror-dev", "/usr/share/cargo/registry/thiserror-*"),
    ("librust-clap-complete-dev", "/usr/share/cargo/registry/clap_complete-*"),
    ("librust-proptest-dev", "/usr/share/cargo/registry/proptest-*"),
    ("librust-proptest+std-dev", "/usr/share/cargo/registry/quick-error-*"),
    ("gcc", "cc"),
    ("gcc-multilib", "/usr/lib32/crt1.o"),
    ("valgrind", "valgrind"),
    ("binutils", "size"),
    ("pyflakes3", "pyflakes3"),
    ("lld", "ld.lld"),
    ("libc6-dev", "/usr/include/stdio.h"),
    ("gcc-arm-none-eabi", "arm-none-eabi-gcc"),
    ("libnewlib-arm-none-eabi", "/usr/lib/arm-none-eabi/newlib"),
    ("qemu-user", "qemu-arm"),
    ("qemu-system-x86", "qemu-system-x86_64"),
    ("qemu-system-arm", "qemu-system-arm"),
    ("busybox-static", "busybox"),
    ("kmod", "/sbin/modprobe"),
    ("chromium", "chromium"),
    ("tshark", "tshark"),
    ("ovmf", "/usr/share/ovmf/OVMF.fd"),
    ("make", "make"),
    ("pkg-config", "pkg-config"),
    ("cmake", "cmake"),
    ("g++", "g++"),
    ("zsh", "zsh"),
]
# Debian's compilers, each with its cargo and its sources. The first is the one that is installed where none serves.
COMPILERS = {"rustc-web": ("cargo-web", "rust-web-src"), "rustc": ("cargo", "rust-src")}
OLDEST = (1, 85)
SECONDS = {"update": 120, "install": 600}


def is_there(what):
    """Whether a program, or a path with a pattern, is on this machine."""
    if "/" not in what:
        return shutil.which(what) is not None
    folder, pattern = os.path.split(what)
    named = re.compile(re.escape(pattern).replace(r"\*", ".*"))
    return os.path.isdir(folder) and any(named.fullmatch(name) for name in os.listdir(folder))


def told(*command):
    """What a command prints, or nothing where it fails or can't be run."""
    try:
        ran = subprocess.run(command, stdout=subprocess.PIPE, stderr=subprocess.DEVNULL, text=True, errors="replace")
    except OSError:
        return ""
    return ran.stdout.strip() if ran.returncode == 0 else ""


def compiler_serves():
    """Whether the rustc on the PATH is new enough."""
    version = re.match(r"rustc (\d+)\.(\d+)", told("rustc", "--version"))
    return version is not None and tuple(map(int, version.groups())) >= OLDEST


def missing_of_compiler():
    """What is missing of Debian's compiler, of cargo, and of the sources of /usr/bin/rustc, which are of its own version."""
    owner = told("dpkg-query", "--search", "/usr/bin/rustc").partition(":")[0]
    version = re.match(r"rustc (\S+)", told("/usr/bin/rustc", "--version"))
    if not version or not compiler_serves():
        owner, version = next(iter(COMPILERS)), None
    elif owner not in COMPILERS:
        return []
    cargo, sources = COMPILERS[owner]
    names = [] if version else [owner]
    if not shutil.which("cargo") or not compiler_serves():
        names.append(cargo)
    if version is None:
        names.append(sources)
    elif not is_there(f"/usr/src/rustc-{version[1]}"):
        names.append(f"{sources}={told('dpkg-query', '--show', '--showformat=${Version}', owner)}")
    return names


def missing():
    """The packages that would be installed."""
    return [name for name, what in WANTED if not is_there(what)] + missing_of_compiler()


def apt(step, *words):
    """Runs a step of apt-get within its time; whether it ended well."""
    environment = {**os.environ, "DEBIAN_FRONTEND": "noninteractive"}
    command = ["apt-get", "-qq", "-o", "DPkg::Lock::Timeout=60", step, *words]
    try:
        ran = subprocess.run(command, env=environment, timeout=SECONDS[step], stdin=subprocess.DEVNULL, stdout=subprocess.DEVNULL)
    except (OSError, subprocess.TimeoutExpired):
        return False
    return ran.returncode == 0


def main():
    words = argparse.ArgumentParser(description=__doc__, formatter_class=argparse.RawDescriptionHelpFormatter)
    words.add_argument("--list", action="store_true", help="prints what is missing, and installs nothing")
    given = words.parse_args()
    names = missing()
    if given.list or not names:
        print("\n".join(names) if names else "packages: nothing is missing")
        return
    if os.geteuid() != 0 or not shutil.which("apt-get"):
        print(f"packages: not installed, since this is not root or has no apt-get: {' '.join(names)}")
        return
    apt("update")
    for name in names:
        if not apt("install", "-y", "--no-install-recommends", name):
            print(f"packages: skipped: {name} could not be installed")


if __name__ == "__main__":
    try:
        main()
        sys.stdout.flush()
    except Exception as error:  # (also where nobody reads what is printed)
        with contextlib.suppress(OSError):
            print(f"packages: not looked at: {error}", file=sys.stderr, flush=True)
        os._exit(0)
