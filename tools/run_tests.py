"""Runs all that can be checked on this machine, step by step. bin/test calls it, and CI runs bin/test.

The first line installs what is missing. Each step says its name and its time. One that fails names the command that repeats it
alone, and the steps after it go on. What needs something that is not installed is skipped by name, a whole step or a part of it.
The gate comes first, alone; then two lists of steps run beside one another, and what a step of them prints comes in one piece.
A summary stands at the end, and after it, where
the Rattle toolchain is there and nothing else failed, the gate's line 'N passed, M failed'.
"""

import argparse
import filecmp
import os
import re
import shutil
import subprocess
import sys
import threading
import time
import traceback
from typing import Callable, NamedTuple

import building
import install_packages
from debian_crates import OF_PROGRAM, is_reached, lacking

ROOT = os.path.dirname(os.path.dirname(os.path.abspath(__file__)))
PYTHON = ["python3", "-B"]

# What a step says of a part that it did not run: a line that begins with `skipped: `, or with its program's name and that, as
# `board-test: skipped: armv8m, whose core this rustc lacks (Debian: rust-web-src)`. The summary repeats each such line. A step
# that skipped parts alone ends with status 0; one that could not run the least that it has to run ends with another status.
SKIPPED = re.compile(r"(?:[\w-]+: )?skipped: (.+)")
# The same of Python's unittest, which gives their number alone.
OF_UNITTEST = re.compile(r"OK \(skipped=(\d+)\)")
# How a step is run that the gate must not wait for.
GIVES_WAY = ["nice", "-n", "10"]


class Step(NamedTuple):
    """A step: its name, its command, and what is missing for it (a sentence), if anything."""

    name: str
    command: list[str]
    lacks: Callable[[], str] = lambda: ""
    program: str = ""  # the way of bin/kbsim whose program the command is run on (the variable KBSIM)


def needs(*tools, paths=(), crates=()):
    """What is missing of these tools, of these paths of the repository, and of these crates."""

    def lacks():
        absent = [tool for tool in tools if not shutil.which(tool)]
        absent += [path for path in paths if not os.path.exists(f"{ROOT}/{path}")]
        if absent:
            return f"{' and '.join(absent)} not there"
        return lacking(*crates) if crates else ""

    return lacks


def needs_cargo(*tools, crates=OF_PROGRAM, paths=()):
    """The same, with cargo and rustc; without a word of the crates those of the program."""
    return needs("cargo", "rustc", *tools, paths=paths, crates=crates)


def needs_registry():
    """What is missing for a build with the crates that Cargo.lock names, which Debian's are not."""
    return needs("cargo", "rustc")() or ("" if is_reached(OF_PROGRAM) else "cargo reaches no public registry")


def steps_of_program(way, lacks):
    """The rows of the program that was built in this way. Completions and man page are of plain Rust, which has all words."""
    completions = Step("completions and man page", [*PYTHON, "tests/test_completions.py", "--quiet"], lacks, way)
    named = {"proved": "the proved program", "plain": "plain Rust"}[way]
    return [
        Step(f"command line, {named}", [*PYTHON, "tests/test_command_line.py", "--quiet"], lacks, way),
        Step(f"rows and long inputs, {named}", [*PYTHON, "tests/test_kbsim.py", "--quiet"], lacks, way),
        *([completions] if way == "plain" else []),
    ]


# Steps that take seconds, one after the other.
QUICK = [
    Step("bin/test itself", [*PYTHON, "tests/test_run_tests.py", "--quiet"]),
    Step("one version everywhere", [*PYTHON, "tools/checks/version.py"]),
    Step("what the documents name", ["tools/check-docs"]),
    Step("a test at the largest input of each call", [*PYTHON, "tools/checks/extremes.py"]),
    Step("names of usages are those of the reader", [*PYTHON, "tools/make/usage_names.py"]),
    Step("files and functions are short", [*PYTHON, "tools/checks/shape.py"]),
    Step("each name in Python is defined, and used", ["pyflakes3", *"bin bench c examples python tests tools web".split()], needs("pyflakes3")),
    Step("some proof reaches each lemma", [*PYTHON, "tools/checks/lemmas.py"]),
    Step("how bin/kbsim chooses", [*PYTHON, "tests/test_entry_script.py", "--quiet"]),
    Step("the pictures", [*PYTHON, "tools/make/pictures", "--check"]),
    Step("the exporter's own tests", [*PYTHON, "tools/export_rust/test_export.py", "--quiet"]),
    Step("plain Rust is that of the source", [*PYTHON, "tools/export_rust/check.py"]),
    Step("plain Rust has the tokens of the source", [*PYTHON, "tools/export_rust/same_tokens.py"]),
    Step("how names in docs are found", [*PYTHON, "tools/export_rust/test_names.py", "--quiet"]),
    Step("what the docs of plain Rust name", [*PYTHON, "tools/export_rust/check_names.py"]),
    Step("the page is that of its sources", ["bin/build-page", "--check"]),
    Step("the bench's own tests", [*PYTHON, "tools/bench/test_results.py", "--quiet"]),
    Step("the parts of bin/board-test", [*PYTHON, "tools/board/test_board.py", "--quiet"]),
    Step("the parts of bin/linux-test", [*PYTHON, "tools/linux_test/test_linux_test.py", "--quiet"]),
]
# Then these lists. The first is the gate, which is alone; the others run beside one another.
LANES = [
    [
        Step("gate", ["rt", "ci"], needs("rt")),
        *steps_of_program("proved", needs("rt")),
        Step("refused growths", [*PYTHON, "tools/refused-growth"], needs("rt")),
    ],
    [
        Step("what is exported", ["bin/export-test"], needs_cargo()),
        Step("what the documents show", [*PYTHON, "tests/test_documents.py", "--quiet"], needs_cargo("cc", "make", "pkg-config")),
        Step("what Cargo.lock names", [*PYTHON, "tools/checks/locked.py"], needs_registry),
        Step("mutants of the USB device by hand are killed", [*PYTHON, "tests/device_mutants.py"], needs_cargo()),
    ],
    [
        *steps_of_program("plain", needs_cargo(paths=["rust/kbsim/SOURCES"])),
        Step("the keyboard and the parser by hand in C", ["bin/bench", "compare", "--scripts", "300", "--texts", "300"],
             needs_cargo("gcc"), "plain"),
        Step("the reader from C", [*PYTHON, "tests/test_hid_reader.py", "--quiet"], needs_cargo("gcc"), "plain"),
        Step("the kept reader beside a plain program", [*PYTHON, "tests/test_reader.py"], needs_cargo(), "plain"),
        Step("the reader from Python", [*PYTHON, "tests/test_python.py", "--quiet"], needs_cargo(crates=["arrayvec"])),
        Step("the firmware in C", [*PYTHON, "tests/test_c_firmware.py", "--quiet"], needs_cargo("gcc", crates=["arrayvec"])),
        Step("a log, settings and keyboards outlive power losses", ["tests/power-losses"], needs_cargo(crates=["arrayvec", "thiserror"])),
        Step("what takes bytes from outside, by drawn bytes", ["tools/fuzz", "5"], needs_cargo("clang")),
        Step("the page's core, built anew", ["bin/build-page", "--check", "--core"]),
        Step("a run as a capture", [*PYTHON, "tests/test_pcap.py", "--quiet"], needs_cargo(), "plain"),
    ],
]
# Last those that have a clock, or take all processors by themselves, one after the other.
TIMED = [
    Step("the page in a browser", ["bin/page-test"], needs("chromium")),
    Step("a chip that is cut at any instruction", ["bin/board-test"], needs_cargo(crates=["arrayvec"])),
    Step("a Linux that types", ["bin/linux-test"], needs_cargo(crates=["arrayvec"])),
]
STEPS = [*QUICK, *(step for lane in LANES for step in lane), *TIMED]


class Run:
    """A run of some steps: what failed, what was skipped, and what the gate said last."""

    def __init__(self, chosen):
        self.chosen, self.begun, self.printing, self.programs = chosen, time.monotonic(), threading.Lock(), {}
        self.failed, self.skipped, self.parts, self.times, self.gate = [], [], [], [], ""

    def whole(self):
        """Runs all steps that are chosen."""
        self.take_all(QUICK)
        # The gate's list comes alone: rt ci refuses the copy that the other steps build in, which it therefore removes.
        self.take_all(LANES[0])
        if shutil.which("cargo") and any(step.name in self.chosen for lane in [*LANES[1:], TIMED] for step in lane):
            building.tree()
            os.environ[building.IS_CURRENT] = "1"
        lanes = [lane for lane in LANES[1:] if any(step.name in self.chosen for step in lane)]
        if len(lanes) > 1:
            if shutil.which("cargo"):
                self.program("plain")  # (once, before two lists want it)
            threads = [threading.Thread(target=self.take_all, args=(lane, False), daemon=True) for lane in lanes]
            for thread in threads:
                thread.start()
            for thread in threads:
                thread.join()
        else:
            self.take_all(*lanes or [[]])
        self.take_all(TIMED)

    def take_all(self, steps, alone=True):
        """Runs those of some steps that are chosen, one after the other; `alone` as if nothing ran beside them."""
        for step in steps:
            if step.name in self.chosen:
                try:
                    self.take(step, alone)
                except Exception:  # (else it would end this list of steps, and nothing would tell)
                    self.say(f"   {step.name}: FAILED\n{traceback.format_exc()}")
                    self.failed.append(step.name)

    def say(self, text):
        """Prints something in one piece, with whole lines."""
        with self.printing:
            print(text, flush=True)

    def take(self, step, alone=True):
        """Runs one step, or skips it. The output of a step that runs beside others is shown when the step has ended."""
        if lacks := step.lacks():
            self.say(f"-- {step.name}: skipped, {lacks}")
            self.skipped.append(f"{step.name} ({lacks})")
            return
        self.say(f"== {step.name}" if alone else f".. {step.name} begins")
        begun, told = time.monotonic(), []
        passed, used = (run_gate if step.name == "gate" else run)(self, step, self.say if alone else told.append, [] if alone else GIVES_WAY)
        spent = time.monotonic() - begun
        self.times.append((spent, step.name))
        told += [f"   {step.name}: {'ok' if passed else 'FAILED'}, {spent:.1f} s, of processors {used:.1f} s"]
        if not passed:
            told += [f"   alone: bin/test --only '{step.name}', which runs: {' '.join(step.command)}"]
            self.failed.append(step.name)
        self.say("\n".join(told if alone else [f"== {step.name}", *told]))

    def program(self, way):
        """The path of the program that was built in this way, which is built first where it has to be; empty where that failed."""
        with self.programs.setdefault(way, threading.Lock()):
            ran = subprocess.run(["bin/kbsim", "--way", way, "--path"], cwd=ROOT, stdout=subprocess.PIPE, text=True)
        return ran.stdout.strip() if ran.returncode == 0 else ""

    def summary(self):
        """Prints the last lines: the longest steps, what was skipped or failed, and what the gate said."""
        print(f"== summary: {len(self.times)} steps in {time.monotonic() - self.begun:.0f} s")
        for spent, name in sorted(self.times, reverse=True)[:5] if len(self.times) > 5 else []:
            print(f"   {spent:.0f} s: {name}")
        for name in self.skipped:
            print(f"   skipped: {name}")
        for part in self.parts:
            print(f"   skipped a part of: {part}")
        for name in self.failed:
            print(f"   FAILED: {name} (bin/test --only '{name}')")
        if any(name.startswith("gate ") for name in self.skipped):
            print("   the proofs were not checked: that needs the Rattle toolchain, whose command is rt")
        if self.gate and self.failed in ([], ["gate"]):
            print(self.gate)


def run(whole, step, say, first):
    """Runs a step's command: whether it ended well, and the seconds of processors that it took."""
    environment = dict(os.environ)
    if step.program:
        environment["KBSIM"] = whole.program(step.program)
        if not environment["KBSIM"]:
            return False, 0
    status, used = follow([*first, *step.command], environment, lambda line: (say(line), note(whole, step, line)))
    return status == 0, used


def follow(command, environment, heard):
    """Runs a command, whose lines are heard as they come: its status, and the seconds of processors that it and its own took."""
    ran = subprocess.Popen(command, cwd=ROOT, env=environment, stdout=subprocess.PIPE, stderr=subprocess.STDOUT, text=True, errors="replace")
    for line in ran.stdout:
        heard(line.rstrip("\n"))
    _, status, used = os.wait4(ran.pid, 0)
    ran.returncode = os.waitstatus_to_exitcode(status)
    return ran.returncode, used.ru_utime + used.ru_stime


def note(whole, step, line):
    """Keeps what a line of a step says that was skipped."""
    if part := SKIPPED.fullmatch(line.strip()):
        whole.parts.append(f"{step.name}: {part[1]}")
    elif count := OF_UNITTEST.fullmatch(line.strip()):
        whole.parts.append(f"{step.name}: {count[1]} of its tests (they say which with -v in place of --quiet)")


def sources():
    """The checksum of what a proof of the program reads."""
    script = 'root=$1; . tools/sources.sh; sum_of_proved "$root"'
    return subprocess.run(["bash", "-c", script, "-", ROOT], cwd=ROOT, check=True, stdout=subprocess.PIPE, text=True).stdout.strip()


# What a check of the gate takes at most, and what the steps beside it, in bytes of memory.
A_CHECK, BESIDE = 4 << 30, 2 << 30


def text_of(path):
    """What a file of the system says; nothing where it is not there."""
    try:
        with open(path, encoding="ascii") as file:
            return file.read()
    except OSError:
        return ""


def processors(quota=""):
    """How many processors this process may use, by what its control group says of them (cpu.max)."""
    number = len(os.sched_getaffinity(0))
    share, _, period = quota.strip().partition(" ")
    return max(1, min(number, int(share) // int(period))) if share.isdigit() else number


def free_memory(information, limit=""):
    """How many bytes of memory are free, by /proc/meminfo and what the control group may hold (memory.max)."""
    free = [int(line.split()[1]) * 1024 for line in information.splitlines() if line.startswith("MemAvailable:")]
    return min([*free, *([int(limit)] if limit.strip().isdigit() else [])], default=0)


def environment_of_gate(given, checks, memory):
    """The environment that the gate runs in: so many checks at once, by one job each, where this memory holds them.

    Left to itself rt gives a check the processors that no other one wants, and a check by two jobs costs a fifth more. By
    RT_JOBS it starts so many checks whatever memory is free.
    """
    return {"RT_JOBS": str(checks), **given} if checks * A_CHECK <= memory else dict(given)


def run_gate(whole, _, say, __):
    """Runs the gate, and keeps the program that it proved for bin/kbsim; whether it passed, and its seconds."""
    # It runs the program on crates/kbsim_cli/stdin and compares what it prints: one example is that run.
    for name, given in [("stored_key.kbs", "stdin"), ("stored_key.expected", "stdout")]:
        if not filecmp.cmp(f"{ROOT}/examples/{name}", f"{ROOT}/crates/kbsim_cli/{given}", shallow=False):
            say(f"examples/{name} is not crates/kbsim_cli/{given}")
            return False, 0
    # rt ci refuses links, and sources beside the crates: the copy that an earlier run built in goes.
    shutil.rmtree(building.TREE, ignore_errors=True)
    before = sources()
    groups = "/sys/fs/cgroup"
    memory = free_memory(text_of("/proc/meminfo"), text_of(f"{groups}/memory.max")) - BESIDE
    environment = environment_of_gate(os.environ, processors(text_of(f"{groups}/cpu.max")), memory)
    lines = [""]
    status, used = follow(["rt", "ci"], environment, lambda line: (say(line), lines.append(line)))
    whole.gate = next(line for line in reversed(lines) if line or line is lines[0])
    if status != 0:
        return False, used
    if sources() != before:
        say("the sources changed while they were proved")
        return False, used
    script = f'root=$1; . tools/sources.sh; keep crates/kbsim_cli/out/kbsim_cli "proved-{before}"'
    return subprocess.run(["bash", "-c", script, "-", ROOT], cwd=ROOT).returncode == 0, used


def missing():
    """The line that installs what Debian has and this machine lacks; empty where nothing is missing."""
    names = install_packages.missing() if shutil.which("apt-get") else []
    line = f"sudo apt-get install --no-install-recommends {' '.join(names)}"
    return f"-- to check all that can be checked here: {line}" if names else ""


def main():
    words = argparse.ArgumentParser(description=__doc__, formatter_class=argparse.RawDescriptionHelpFormatter, prog="bin/test")
    words.add_argument("--only", metavar="NAME", action="append", help="runs the step of this name alone; may come again")
    words.add_argument("--list", action="store_true", help="prints the names of the steps")
    given = words.parse_args()
    names = [step.name for step in STEPS]
    if given.list:
        print("\n".join(names))
        return
    for name in given.only or []:
        if name not in names:
            words.error(f"no step is called {name!r}: --list prints their names")
    if not given.only and (line := missing()):
        print(line, flush=True)
    whole = Run(set(given.only or names))
    whole.whole()
    whole.summary()
    sys.exit(1 if whole.failed else 0)


if __name__ == "__main__":
    main()
