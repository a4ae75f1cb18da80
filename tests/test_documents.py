"""Runs what the documents show: each fenced program, command and output of README.md, of the pages of docs/ that `SHOWING` names, and
of the READMEs of examples/ and c/.

A fence says what it is, and a copy of the repository's folders, called `wuzhikar`, is what it runs on:

- `toml` is what stands in the Cargo.toml of a package beside the copy: it has to resolve. A `rust` program behind it is
  that package's src/main.rs.
- `c` is a program, which is linked with the library of c/reader where it includes its header, and else with that of c/firmware.
- `sh` are commands, run at the copy's root; `python` is a program that is run where the last `sh` of its page ended, beside the
  package of python/.
- `text` is what the one before it prints on standard output, `text part` some lines of it that follow each other.
- `console` are commands behind `$`, each above what a terminal shows of it; they are run in the repository itself, where `kbsim` is
  bin/kbsim.
- README.md runs in the repository itself, and shows what a terminal does: standard error, too.
- What is not run has `<!-- not run: why -->` in the line before.

`-k marked` only looks whether each fence is one of these, `-k programs` whether the programs in READMEs of crates are those of docs
that are run, and `-k counted` whether what is written by hand has as many lines as docs/USING.md says, within a tenth; these take no
time. The rest needs cargo, rustc and cc.
"""

import glob
import os
import pathlib
import re
import shutil
import subprocess
import sys
import unittest
from typing import NamedTuple

ROOT = os.path.dirname(os.path.dirname(os.path.abspath(__file__)))
sys.path.insert(0, f"{ROOT}/tools")
import building  # noqa: E402

README = f"{ROOT}/README.md"
SHOWING = ("USING", "firmware", "hosts", "log", "reader", "simulator")
PAGES = [README, *(f"{ROOT}/docs/{name}.md" for name in SHOWING), *sorted(glob.glob(f"{ROOT}/examples/*/README.md") + glob.glob(f"{ROOT}/c/*/README.md"))]
NOT_RUN = re.compile(r"<!-- not run: \S.* -->")
KINDS = ("toml", "rust", "c", "sh", "python", "console", "text", "text part")
SECONDS = 1200  # (much, for a machine that many share)


class Fence(NamedTuple):
    """What stands between two lines of backticks."""

    place: str  # the page and the line
    kind: str
    text: str
    runs: bool


def fences(page):
    """The fences of a page, in order."""
    found, before, block = [], "", None
    with open(page, encoding="utf-8") as file:
        for number, line in enumerate(file, 1):
            if block is not None and line.strip() == "```":
                found.append(Fence(*block[:2], "".join(block[2]), block[3]))
                block = None
            elif block is not None:
                block[2].append(line)
            elif line.lstrip().startswith("```"):
                place = f"{os.path.relpath(page, ROOT)}:{number}"
                block = (place, line.strip()[3:], [], not NOT_RUN.fullmatch(before.strip()))
            else:
                before = line if line.strip() else before
    return found


def lines_of_code(path):
    """The lines of a source in Rust, without its tests."""
    with open(path, encoding="utf-8") as file:
        return file.read().partition("#[cfg(test)]\nmod tests {")[0].count("\n")


def is_code(path):
    """Whether a path is that of a source in Rust that is not for tests alone, and not written by tools/make/usage_names.py."""
    folder, name = os.path.split(path)
    if not name.endswith(".rs") or re.search(r"/tests(/|\.rs$)|/wuzhikar-hid/src/usages\.rs$", path):
        return False
    root = f"{folder}/lib.rs"
    if not os.path.isfile(root):
        return True
    with open(root, encoding="utf-8") as file:
        return f"#[cfg(test)]\nmod {name.removesuffix('.rs')};" not in file.read()


def by_hand():
    """The sources in Rust that rust/BY_HAND names."""
    with open(f"{ROOT}/rust/BY_HAND", encoding="utf-8") as file:
        return {path for path in (f"{ROOT}/rust/{line.strip()}" for line in file) if is_code(path)}


def files_of(names):
    """The files of names in backticks, each of which is a path, a pattern, or a file beside the one before it."""
    found, folder = set(), ""
    for name in re.findall(r"`([^`]+)`", names):
        folder = os.path.dirname(name) if "/src" in name else folder
        path = os.path.normpath(f"{ROOT}/{name}" if "/src" in name else f"{ROOT}/{folder}/{name}")
        found |= set(glob.glob(f"{path}/**" if os.path.isdir(path) else path, recursive=True))
    return {path for path in found if is_code(path)}


class Counted(unittest.TestCase):
    """The table of what is written by hand, in docs/USING.md."""

    def test_what_is_written_by_hand_is_counted(self):
        with open(f"{ROOT}/docs/USING.md", encoding="utf-8") as file:
            table = re.search(r"^\| By hand \| Lines \|.*?\n\|[-|]+\n(.*?)\n\n", file.read(), re.M | re.S)[1]
        left, seen = by_hand(), set()
        for row in table.splitlines():
            names, said, _ = row.strip("|").split("|")
            files = {path for path in files_of(names) if path in left or re.search("/(examples|c)/", path)}
            self.assertTrue(files - seen, f"docs/USING.md:{names}names no file that is left")
            lines = sum(lines_of_code(path) for path in files - seen)
            self.assertLessEqual(abs(lines - int(said)), max(10, lines // 10), f"docs/USING.md:{names}has {lines} lines, not{said}")
            seen |= files
        self.assertEqual(sorted(left - seen), [], "no row of docs/USING.md names these files")


class Crates(unittest.TestCase):
    """The READMEs of the crates, whose programs are those of docs that are run."""

    def test_programs_are_those_of_docs(self):
        pages = [*glob.glob(f"{ROOT}/rust/*/src/lib.rs"), *glob.glob(f"{ROOT}/docs/*.md")]
        run = {line.removeprefix("//!").strip() for page in pages for line in pathlib.Path(page).read_text("utf-8").splitlines()}
        for page in glob.glob(f"{ROOT}/rust/*/README.md"):
            for fence in (fence for fence in fences(page) if fence.runs):
                for line in fence.text.splitlines():
                    self.assertIn(line.strip(), run, f"{fence.place}: a line that no docs run")


class Documents(unittest.TestCase):
    """The pages, a method each."""

    def test_each_fence_is_marked(self):
        kept = [fence for page in PAGES for fence in fences(page) if fence.runs]
        for fence in kept:
            self.assertIn(fence.kind, KINDS, f"{fence.place}: a fence that says no kind, nor `<!-- not run: why -->` before it")
        self.assertGreater(len(kept), 8)

    def run_page(self, page):
        Page(self, page == README).run_all(fences(page))


class Page:
    """A page that is run, from its first fence to its last."""

    def __init__(self, test, is_readme):
        self.test, self.environment = test, building.environment()
        self.root, self.before = (ROOT, "exec 2>&1\n") if is_readme else (building.tree(), "")
        self.folder, self.printed = self.root, None

    def run_all(self, found):
        for fence in found:
            if not fence.runs:
                self.printed = None
            elif fence.kind in ("text", "text part"):
                self.compare(fence)
            else:
                self.printed = getattr(self, fence.kind)(fence)

    def compare(self, fence):
        if self.printed is None:
            self.test.fail(f"{fence.place}: an output, and nothing before it that prints one")
        if fence.kind == "text":
            self.test.assertEqual(self.printed, fence.text, fence.place)
        else:
            self.test.assertIn(f"\n{fence.text}", f"\n{self.printed}", fence.place)

    def ran(self, fence, command, folder):
        """What a command prints, which has to end well."""
        try:
            ran = subprocess.run(
                command,
                cwd=folder,
                env=self.environment,
                stdin=subprocess.DEVNULL,
                stdout=subprocess.PIPE,
                stderr=subprocess.PIPE,
                text=True,
                timeout=SECONDS,
            )
        except subprocess.TimeoutExpired:
            self.test.fail(f"{fence.place}: not done in {SECONDS} s")
        self.test.assertEqual(ran.returncode, 0, f"{fence.place}: {' '.join(command)}\n{ran.stdout}\n{ran.stderr}")
        return ran.stdout

    def toml(self, fence):
        self.package = f"{building.FOLDER}/mine"
        shutil.rmtree(self.package, ignore_errors=True)
        os.makedirs(f"{self.package}/src")
        with open(f"{self.package}/src/main.rs", "w") as file:
            file.write("fn main() {}\n")
        with open(f"{self.package}/Cargo.toml", "w") as file:
            file.write(f'[package]\nname = "mine"\nversion = "0.1.0"\nedition = "2024"\n\n{fence.text}')
        self.ran(fence, ["cargo", "metadata", "--format-version", "1"], self.package)

    def rust(self, fence):
        with open(f"{self.package}/src/main.rs", "w") as file:
            file.write(fence.text)
        return self.ran(fence, ["cargo", "run", "-q"], self.package)

    def c(self, fence):
        folder = f"{building.tree()}/c/{'reader' if 'hid_reader.h' in fence.text else 'firmware'}"
        shown = f"{building.FOLDER}/shown"
        with open(f"{shown}.c", "w") as file:
            file.write(fence.text)
        self.ran(fence, ["cargo", "build", "-q", "--release"], folder)
        library = f"{building.TARGET}/release/lib{'hid_reader' if folder.endswith('reader') else 'wuzhikar'}.a"
        words = ["cc", "-std=c11", "-Wall", "-Wextra", "-Wpedantic", "-Werror", "-I.", "-Iexamples", f"{shown}.c", library]
        self.ran(fence, [*words, "-o", shown], folder)
        return self.ran(fence, [shown], folder)

    def sh(self, fence):
        told = self.ran(fence, ["bash", "-euo", "pipefail", "-c", f"{self.before}{fence.text}\npwd"], self.root)
        printed, self.folder = re.fullmatch(r"(.*?)([^\n]*)\n", told, re.S).groups()
        return printed

    def console(self, fence):
        for shown in fence.text.removeprefix("$ ").split("\n$ "):
            command, _, wanted = shown.partition("\n")
            # (The first run of a fresh clone says that it builds.)
            called = f'"{ROOT}/bin/kbsim" --quiet --way plain'
            script = f'{called} --version >/dev/null 2>&1; kbsim() {{ {called} "$@"; }}; exec 2>&1; {command} || true'
            told = self.ran(fence, ["bash", "-c", script], ROOT)
            self.test.assertEqual(told.rstrip("\n"), wanted.rstrip("\n"), f"{fence.place}: {command}")

    def python(self, fence):
        if "wuzhikar_hid" in fence.text:
            self.ran(fence, ["cargo", "build", "-q", "--release"], f"{building.tree()}/c/reader")
            package = f"{building.FOLDER}/python/wuzhikar_hid"
            shutil.copytree(f"{ROOT}/python/wuzhikar_hid", package, dirs_exist_ok=True)
            shutil.copy(f"{building.TARGET}/release/libhid_reader.so", package)
            self.environment = {**self.environment, "PYTHONPATH": f"{building.FOLDER}/python"}
        return self.ran(fence, ["python3", "-B", "-c", fence.text], self.folder)


for page in PAGES:
    name = re.sub(r"\W+", "_", os.path.relpath(page, ROOT).lower().removesuffix(".md"))
    setattr(Documents, f"test_{name}", lambda self, page=page: self.run_page(page))

if __name__ == "__main__":
    unittest.main()
