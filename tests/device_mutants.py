"""Tries the mutants of tests/device_mutants on the files by hand of rust/wuzhikar-device, whose tests have to kill each of them. Those
of a driver in examples/ the played host of `testing` has to kill, and to say the seed and the last tokens.

A mutant names a file of the crate, a text that stands there once, and what takes its place. Those in the folder right change the
code and not what it does: the tests have to pass. Each worker has a copy of rust/ and a target folder of its own, so that a try builds
one crate anew. It takes some minutes.

What is exported has its mutants beside its source, in crates/usb_device/must-fail and crates/usb_keyboard/must-fail; here stand those of
it that no clause speaks of, and those of the settings on all pages, which the tests of `paged` of rust/wuzhikar-log kill.
"""

import argparse
import glob
import os
import queue
import re
import shutil
import subprocess
import sys
import tempfile
import threading

ROOT = os.path.dirname(os.path.dirname(os.path.abspath(__file__)))
sys.path[:0] = [f"{ROOT}/tools", f"{ROOT}/tools/export_rust"]
from changes import replace_once  # noqa: E402
from debian_crates import OF_PROGRAM, environment  # noqa: E402

MUTANTS = f"{ROOT}/tests/device_mutants"
SECONDS = 100  # a program that takes so many seconds of the processor, which takes one or two, hangs; that kills it


def read_mutant(path):
    """The file, the old and the new text of a mutant. A text may have several lines."""
    with open(path, encoding="utf-8") as file:
        found = re.fullmatch(r"file: (\S+)\nold: (.*?)\nnew: (.*)\n", file.read(), re.DOTALL)
    if not found:
        sys.exit(f"{path} is no mutant")
    return found.groups()


def apply(mutant, crate):
    """Writes a mutant into a copy of the crate; gives the file's path and what it held."""
    name, old, new = mutant
    path = f"{crate}/{name}"
    return path, replace_once(path, old, new)


def write(path, text):
    """Writes a file."""
    with open(path, "w", encoding="utf-8") as file:
        file.write(text)


def tests_of(name, driver):
    """The tests of a file, as words of cargo."""
    if name.startswith("../wuzhikar-log/"):
        return ["-p", "wuzhikar-log", "--features", "sim,settings", "--lib", "paged"]
    return ["-p", "wuzhikar-device", *(["--example", "drivers", driver] if driver else ["--lib"])]


class Worker(threading.Thread):
    """Takes mutants from a queue, and tries them one after the other in its copy."""

    def __init__(self, work, tries, found):
        super().__init__(daemon=True)
        self.rust, self.tries, self.found = f"{work}/rust", tries, found
        ignored = shutil.ignore_patterns("target", "Cargo.lock")
        shutil.copytree(f"{ROOT}/rust", self.rust, ignore=ignored)
        self.environment = environment(work, *OF_PROGRAM)
        self.environment.update(CARGO_TARGET_DIR=f"{work}/target", HISTORIES="4000", RUST_BACKTRACE="0")

    def cargo(self, part):
        """Runs some tests: the status, None where they hang, and what was printed. The time of the clock says nothing of that, since it
        is that of the whole machine."""
        # Behind `ulimit` each program that is started has so many seconds of the processor for itself.
        command = ["sh", "-c", f'ulimit -t {SECONDS} && exec "$@"', "-", "cargo", "test", "-q", *part]
        made = subprocess.run(command, cwd=self.rust, env=self.environment, text=True, stdout=subprocess.PIPE, stderr=subprocess.STDOUT)
        hangs = re.search(r"SIGXCPU|signal: (9|24)\b", made.stdout)
        return None if hangs else made.returncode, made.stdout

    def run(self):
        while True:
            try:
                path = self.tries.get_nowait()
            except queue.Empty:
                return
            self.found.put((path, *self.one(path)))

    def one(self, path):
        """Tries a mutant: whether it is as it should be, and why."""
        right = os.path.basename(os.path.dirname(path)) == "right"
        mutant = read_mutant(path)
        driver = mutant[0].removeprefix("examples/").removesuffix(".rs") if mutant[0].startswith("examples/") else ""
        try:
            changed, text = apply(mutant, f"{self.rust}/wuzhikar-device")
        except ValueError as error:
            return False, str(error)
        try:
            status, found = self.cargo(tests_of(mutant[0], driver))
        finally:
            write(changed, text)
        if status is None:
            return not right, "it hangs"
        if "could not compile" in found:
            return False, "it does not build"
        refused = sorted(set(re.findall(r"^    (\S+::\S+)$", found, re.MULTILINE)))
        if status == 0:
            return right, "it survives"
        if driver and not re.search(r"^seed \d+; the last on the bus:\n  \w", found, re.MULTILINE):
            return False, "it is killed without the seed and the last tokens"
        return not right and bool(refused), f"killed by {', '.join(refused[:2])}" + (" .." if len(refused) > 2 else "")


def main():
    words = argparse.ArgumentParser(description=__doc__, formatter_class=argparse.RawDescriptionHelpFormatter)
    words.add_argument("names", nargs="*", help="mutants to be tried; all of them without a name")
    words.add_argument("--workers", type=int, default=3, help="how many tries at once (3)")
    given = words.parse_args()
    paths = sorted(glob.glob(f"{MUTANTS}/*.edit") + glob.glob(f"{MUTANTS}/right/*.edit"))
    if given.names:
        known = {os.path.basename(path)[:-5]: path for path in paths}
        for name in given.names:
            if name not in known:
                words.error(f"tests/device_mutants has no mutant {name!r}")
        paths = [known[name] for name in given.names]
    tries, found = queue.Queue(), queue.Queue()
    for path in paths:
        tries.put(path)
    failed = []
    with tempfile.TemporaryDirectory() as work:
        for number in range(given.workers):
            os.mkdir(f"{work}/{number}")
            Worker(f"{work}/{number}", tries, found).start()
        for _ in paths:
            path, well, why = found.get()
            name = os.path.relpath(path, MUTANTS)
            print(f"{name}: {why}" + ("" if well else "  <-- NOT AS IT SHOULD BE"), flush=True)
            failed += [] if well else [name]
    right = sum("/right/" in path for path in paths)
    print(f"{len(paths) - right} wrong and {right} right ones, {len(failed)} not as they should be")
    sys.exit(1 if failed or not paths else 0)


if __name__ == "__main__":
    main()
