"""Where what is exported is built and run, the ways to call cargo, and what this machine has."""

import os
import re
import shutil
import subprocess
import sys

HERE = os.path.dirname(os.path.abspath(__file__))
ROOT = os.path.dirname(os.path.dirname(HERE))
sys.path[:0] = [f"{ROOT}/tools", f"{ROOT}/tests"]

import building
from debian_crates import lacking

OLDEST = (1, 85)

# Debian's own rustc, and the source of its library, by which libraries for other targets are made.
DEBIAN_RUSTC = "/usr/bin/rustc"


class Failed(Exception):
    """A check that failed: why."""


class Skipped(Exception):
    """What can't be checked on this machine: what is missing, with Debian's name for it."""


def say(text):
    print(f"export-test: {text}", flush=True)


def version_of(rustc):
    """The version of a rustc, as numbers, or None where there is none."""
    if not shutil.which(rustc):
        return None
    told = subprocess.run([rustc, "--version"], stdout=subprocess.PIPE, text=True).stdout
    found = re.match(r"rustc (\d+)\.(\d+)\.(\d+)", told)
    return tuple(map(int, found.groups())) if found else None


def debian_sources():
    """The library's source for Debian's rustc, or None: also where compiler_builtins is not among it, as in that of 1.85."""
    version = version_of(DEBIAN_RUSTC)
    path = f"/usr/src/rustc-{'.'.join(map(str, version))}/library" if version else ""
    return path if os.path.isdir(f"{path}/compiler-builtins") else None


class Room:
    """A folder of work in that of bin/test (tools/building.py), and the ways to build there."""

    def __init__(self, name=""):
        self.folder, self.tree, self.environment = os.path.join(building.FOLDER, name), building.tree(), building.environment()
        self.rust = f"{self.tree}/rust"
        os.makedirs(self.folder, exist_ok=True)

    def path(self, *names):
        return os.path.join(self.folder, *names)

    def copy(self, folder):
        """A copy of a folder of the tree, to be changed, in the place of an earlier one, without what was built of it."""
        shutil.rmtree(self.path(folder), ignore_errors=True)
        return shutil.copytree(f"{self.tree}/{folder}", self.path(folder), ignore=shutil.ignore_patterns("Cargo.lock", "target"))

    def package(self, folder):
        """A package's folder in the tree, where its crates can be had."""
        if not os.path.exists(f"{self.tree}/{folder}/Cargo.toml"):
            raise Skipped(f"{folder}: {lacking(*building.crates_of(f'{ROOT}/{folder}/Cargo.toml'))}")
        return f"{self.tree}/{folder}"

    def sysroot(self, target):
        """A folder with Rust's core for a chip, by Debian's rustc."""
        folder = f"{building.FOLDER}/sysroot-{'.'.join(map(str, version_of(DEBIAN_RUSTC)))}"
        with building.alone():
            if not os.path.exists(f"{folder}/{target}.made"):
                self.run([f"{HERE}/make_core.sh", DEBIAN_RUSTC, debian_sources(), target, folder])
                with open(f"{folder}/{target}.made", "w", encoding="utf-8"):
                    pass
        return folder

    def run(self, words, cwd=None, given=None, **more):
        """Runs a command, and gives its standard output; `more` are variables. What it says is shown where it fails."""
        environment = {**self.environment, **more}
        ran = subprocess.run(words, cwd=cwd or self.rust, input=given, env=environment, stdout=subprocess.PIPE,
                             stderr=subprocess.PIPE)
        if ran.returncode != 0:
            told = (ran.stdout[-8000:] + ran.stderr[-8000:]).decode(errors="replace")
            raise Failed(f"{' '.join(words)} (in {cwd or self.rust}):\n{told}")
        return ran.stdout

    def cargo(self, *words, cwd=None, **more):
        return self.run(["cargo", *words], cwd, **more)

    def tests(self, *words, cwd=None, name="", among=(), **more):
        """Runs the tests that `cargo test` finds, and says how many passed. It fails where there is none, or among them not this
        count of those of a module."""
        told = self.cargo("test", *words, cwd=cwd, **more).decode()
        passed = sum(map(int, re.findall(r"^test result: ok\. (\d+) passed", told, re.M)))
        if passed == 0:
            raise Failed(f"no test ran: cargo test {' '.join(words)}")
        for module, count in [among] if among else []:
            found = len(re.findall(rf"^test {module}::.*\.\.\. ok$", told, re.M))
            if found != count:
                raise Failed(f"{found} tests of {module} ran, and there are {count}")
        say(f"{name}: {passed} tests passed")

    def program(self, name, target="", profile="release"):
        """The path of a program that was built, for release if nothing else is said."""
        return os.path.join(self.environment["CARGO_TARGET_DIR"], target, profile, name)

    def compare(self, path, printed):
        """Compares what was printed with a file of the repository."""
        with open(os.path.join(ROOT, path), "rb") as file:
            wanted = file.read()
        if printed != wanted:
            lines = zip(wanted.split(b"\n") + [b"(end)"], printed.split(b"\n") + [b"(end)"])
            at, (one, other) = next((at, pair) for at, pair in enumerate(lines, 1) if pair[0] != pair[1])
            raise Failed(f"{path}:{at}: is {one.decode()!r}, and what is printed is {other.decode()!r}")
