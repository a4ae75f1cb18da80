"""Writes the proved source as plain Rust: `export-rust [--contracts] [--crate NAME] [DIR]`.

What is exported is the text of the proved sources without what proofs alone read: ghost items, clauses, theorems, the prover's
attributes and impls. Each crate of the source becomes a module `parts::NAME` of one crate of plain Rust, and paths are
changed. `rules.py` says what is known; anything else is refused with its file and line, and then nothing is written.
"""

import argparse
import hashlib
import os
import shutil
import sys

import by_hand
import rules
from items import Translator
from lexing import Refused

HERE = os.path.dirname(os.path.abspath(__file__))
ROOT = os.path.dirname(os.path.dirname(HERE))
RUST = os.path.join(ROOT, "rust")

# The file that says of which sources a crate was exported.
SOURCES = "SOURCES"

# What an export of a crate consists of: all else in its folder is written by hand.
GENERATED = (SOURCES, "src/parts.rs", "src/parts")

UNPROVED = "export-rust: no proof was checked: run `rt verdict` in the crates of a change, or bin/test (docs/USING.md)"

BANNER = "// Exported from crates/{} by bin/export-rust. Edit that file instead.\n"

PARTS = """// Written by bin/export-rust.
//! The crates of the proved source, for the crates of this workspace. **Not part of the stable interface**: what is here changes
//! without a word, and has calls with a condition on their caller that nothing checks.
#![allow(dead_code, unused_imports, unused_variables, clippy::all)]

"""


class Export:
    """The generated files of one crate of plain Rust, by their path in its folder, and what was read for them."""

    translator = Translator

    def __init__(self, root, of, contracts=False):
        self.root, self.of, self.contracts = root, of, contracts
        self.files = {}
        self.digests = {}
        self.met = set()
        self.faults = []

    def make(self):
        """Reads all crates. `faults` then says what was refused."""
        stands_on = read_crates(self.root)
        held = {crate: held_by(self.of, crate) for crate in stands_on}
        for crate in self.of.crates:
            for name in stands_on.get(crate, ()):
                known = (rules.STAND_INS, rules.LIBRARIES, rules.DERIVING_LIBRARIES, rules.PROOF_CRATES)
                if not held.get(name) and not any(name in of for of in known):
                    self.faults.append(f"crates.txt: {crate} stands on {name}, which is not exported")
            neighbours = {name for name in stands_on.get(crate, ()) if held.get(name)}
            self.guarded(lambda: self.module(crate, "", neighbours, self.of.allocs))
        named = set(self.of.owed) | self.of.hidden | self.of.fallible_clones | set(self.of.derives) | self.of.inlined \
            | set(self.of.docs) | set(self.of.unstarted)
        for crate, name in sorted(named - self.met):
            self.faults.append(f"tools/export_rust/rules.py: {self.of.name} names {crate}::{name}, which is not there, or needs no rule")
        self.files["src/parts.rs"] = PARTS + "".join(f"pub mod {crate};\n" for crate in sorted(self.of.crates))
        self.files[SOURCES] = "".join(f"{of}  crates/{source}\n" for source, of in sorted(self.digests.items()))

    def guarded(self, step):
        """Takes a step, and notes what it refuses."""
        try:
            return step()
        except Refused as fault:
            self.faults.append(str(fault))
        except OSError as fault:
            self.faults.append(f"{fault.filename}: {fault.strerror}")
        return True

    def module(self, crate, module, neighbours, hosted):
        """Translates a module's file and those of its modules, and answers whether any code is left of it."""
        source = f"{crate}/src/{module or 'lib'}.rt"
        with open(os.path.join(self.root, "crates", source), encoding="utf-8") as file:
            text = file.read()
        self.digests[source] = digest(text.encode())
        translator = self.translator(crate, module, f"crates/{source}", neighbours, self.of, hosted, self.contracts)
        translator.open_module = lambda name, hosted: self.guarded(
            lambda: self.module(crate, translator.joined(name), neighbours, hosted))
        made = translator.translate(text)
        self.met |= translator.met
        if not has_code(made):
            return False
        made = self.worded(crate, module, made)
        self.files[f"src/parts/{crate}/{module}.rs" if module else f"src/parts/{crate}.rs"] = BANNER.format(source) + made
        return True

    def worded(self, crate, module, made):
        """A module with the docs that its rules give it in place of the source's."""
        pairs = self.of.docs.get((crate, module), ())
        for old, new in pairs:
            if made.count(old) != 1:
                self.faults.append(f"tools/export_rust/rules.py: {made.count(old)} times and not once in {crate}, {module or 'lib'}: {old}")
            made = made.replace(old, new)
        if pairs:
            self.met.add((crate, module))
        return made

    def write(self, folder):
        """Writes the generated files of the crate into its folder, in place of those that were there."""
        for name in GENERATED:
            path = os.path.join(folder, name)
            if os.path.isdir(path):
                shutil.rmtree(path)
            elif os.path.exists(path):
                os.remove(path)
        for name, text in sorted(self.files.items()):
            path = os.path.join(folder, name)
            os.makedirs(os.path.dirname(path), exist_ok=True)
            with open(path, "w", encoding="utf-8") as file:
                file.write(text)


def held_by(of, crate):
    """The rules of the crate of plain Rust that holds a crate of the source, as seen from one above or itself."""
    return of.holder(crate)


def digest(content):
    return hashlib.sha256(content).hexdigest()


def has_code(text):
    """Whether a file has anything but comments and imports."""
    return any(line.strip() and not line.strip().startswith(("//", "use ")) for line in text.split("\n"))


def read_crates(root):
    """The crates, and what each stands on."""
    crates = {}
    with open(os.path.join(root, "crates.txt"), encoding="utf-8") as file:
        for line in file:
            if not line.startswith("#") and ":" in line:
                name, below = line.split(":")
                crates[name.strip()] = below.split()
    return crates


def exports(root, contracts=False, crates=rules.WORKSPACE):
    """The exports of these crates of plain Rust, made."""
    made = [Export(root, of, contracts) for of in crates]
    for export in made:
        export.make()
    return made


def with_those_below(name):
    """The crate of plain Rust of this name and those that it stands on, lowest first."""
    of = next(of for of in rules.WORKSPACE if of.name == name)
    return tuple(other for other in rules.WORKSPACE if other is of or other in of.below)


def parse_words():
    """What the command line asks for."""
    parser = argparse.ArgumentParser(prog="export-rust", description="Writes the proved source as plain Rust, into rust/.")
    parser.add_argument("--contracts", action="store_true", help="write each contract into its function's docs")
    parser.add_argument("--crate", choices=[of.name for of in rules.WORKSPACE], help="write this crate alone, with those that it stands on")
    parser.add_argument("dir", nargs="?", metavar="DIR", help="a folder for a workspace like rust/: none yet, or an empty one")
    words = parser.parse_args()
    if words.dir is None and (words.crate or words.contracts):
        parser.error("--contracts and --crate want a DIR")
    return words


def main():
    words = parse_words()
    crates = with_those_below(words.crate) if words.crate else rules.WORKSPACE
    made = exports(ROOT, words.contracts, crates)
    faults = [fault for export in made for fault in export.faults]
    folder = words.dir or RUST
    if words.dir and os.path.exists(folder) and (not os.path.isdir(folder) or os.listdir(folder)):
        faults.append(f"{folder}: is there, and no empty folder")
    for fault in faults:
        print(f"export-rust: {fault}", file=sys.stderr)
    if faults:
        print("export-rust: nothing was written", file=sys.stderr)
        return 1
    if words.dir:
        by_hand.copy(folder, [of.name for of in crates])
    for export in made:
        export.write(os.path.join(folder, export.of.name))
    read = len({source for export in made for source in export.digests})
    lines = sum(text.count("\n") for export in made for name, text in export.files.items() if name.endswith(".rs"))
    print(f"export-rust: {folder}: {read} files of the source read, {lines} lines of Rust written")
    print(UNPROVED, file=sys.stderr)
    return 0


if __name__ == "__main__":
    sys.exit(main())
