"""Names the lemmas of crates/*/proofs that no proof reaches. Takes two seconds; bin/test calls it.

A proof begins at a function's answers (proofs/FUNCTION/), at a name that a source gives a tactic, or at a definition of specs/.
From there each lemma and definition that a text names is reached, and then what that one names. One that only itself or other
lemmas out of reach name is printed, with its lines, and the status is 1.
"""

import argparse
import collections
import glob
import os
import re
import sys

ROOT = os.path.dirname(os.path.dirname(os.path.dirname(os.path.abspath(__file__))))
# How many may still stand unused in a crate; a number here only falls.
MOST = {"debounce": 1, "kbsim": 3, "key_reports": 1, "layers": 3, "reports": 18, "world": 2}

NAME = r"[A-Za-z_][\w'-]*"
BEGINS = re.compile(rf"(?:abbrev |unfoldable |pub |record |data )*({NAME})(?= [({{:]|$)")
IMPORT = re.compile(r"^(?:pub )?use Rattle\.(\w+)\.proofs\.(\w+)(?:\.\{([^}]*)\})?(?: as (\w+))?[^\n]*$", re.MULTILINE)
IN_SOURCE = re.compile(rf"proofs(?:::|\.)(\w+)(?:::|\.)(?:\{{([^}}]*)\}}|({NAME}))")


def read(path):
    """A text without its comments."""
    with open(path, encoding="utf-8") as file:
        return re.sub(r"--[^\n]*", "", file.read())


def named(text, within):
    """The lemmas that a text names: of its own file (their place), and of those that it imports."""
    place, own, imports = within
    words = set(re.findall(NAME, text))
    found = {(place, word) for word in words & own}
    for target, name, local in imports:
        if name is None:
            found |= {(target, word) for word in re.findall(rf"\b{re.escape(local)}\.({NAME})", text)}
        elif local in words:
            found.add((target, name))
    return found


def imports_of(text):
    """What a text imports of proofs: the file, the name there (None for the whole file), and the name here."""
    for crate, module, names, other in IMPORT.findall(text):
        if not names:
            yield (crate, module), None, other or module
        for one in filter(None, (part.strip() for part in names.split(","))):
            name, _, local = one.partition(" as ")
            yield (crate, module), name, local or name


def parts_of(text):
    """The declarations of a file of lemmas: name, number of its first line, text. A module's are two columns in."""
    begun, indent = [], ""
    lines = text.split("\n")
    for number, line in enumerate(lines):
        if re.match(r"module\b", line):
            indent = "  "
            continue
        if line and not line.startswith(" "):
            indent = ""
        match = BEGINS.match(line[len(indent):]) if line.startswith(indent) and line.strip() else None
        is_equation = begun and match and match[1] == begun[-1][0]
        if match and not is_equation and not line.startswith(("use ", "pub use ")) and re.search(r":(?= |$)", line):
            begun.append((match[1], number))
    ends = [number for _, number in begun[1:]] + [len(lines)]
    return [(name, number + 1, "\n".join(lines[number:end])) for (name, number), end in zip(begun, ends)]


def in_files(root):
    """The files of specs/ and proofs/: the crate, the path in it, the text with its imports blank, and what it imports."""
    for path in sorted(one for folder in ("proofs", "specs") for one in glob.glob(f"{root}/crates/*/{folder}/**/*.antt", recursive=True)):
        crate, *rest = os.path.relpath(path, f"{root}/crates").split(os.sep)
        text = read(path)
        yield crate, rest, IMPORT.sub(lambda match: "\n" * match[0].count("\n"), text), list(imports_of(text))


def named_in_sources(root):
    """The lemmas that attributes and ghost imports of sources name."""
    for path in glob.glob(f"{root}/crates/*/src/**/*.rt", recursive=True):
        crate = os.path.relpath(path, f"{root}/crates").split(os.sep)[0]
        with open(path, encoding="utf-8") as file:
            for module, names, name in IN_SOURCE.findall(file.read()):
                yield from (((crate, module), one.strip()) for one in (names.split(",") if names else [name]))


def lemmas(root):
    """The declarations by their places, with where each stands and what it names; and what is named from outside of them."""
    declared, first = {}, set(named_in_sources(root))
    for crate, rest, text, imports in in_files(root):
        if rest[0] == "specs" or len(rest) > 2 or rest[1] == "Lib.antt":
            first |= named(text, (None, set(), imports))
            continue
        place, parts = (crate, rest[1][:-5]), parts_of(text)
        within = (place, {name for name, _, _ in parts}, imports)
        for name, number, part in parts:
            declared[place, name] = (f"crates/{crate}/proofs/{rest[1]}:{number}", part.count("\n"), named(part, within))
    return declared, first


def out_of_reach(declared, first):
    """Those that nothing reaches, in the order of their files."""
    reached, new = set(), {one for one in first if one in declared}
    while new:
        reached |= new
        new = {other for one in new for other in declared[one][2] if other in declared} - reached
    return [one for one in declared if one not in reached]


def main():
    parser = argparse.ArgumentParser(description=__doc__, formatter_class=argparse.RawDescriptionHelpFormatter)
    parser.add_argument("--root", default=ROOT, help="another copy of the repository")
    root = parser.parse_args().root
    declared, first = lemmas(root)
    unused = out_of_reach(declared, first)
    counts = collections.Counter(crate for (crate, _), _ in unused)
    wrong = {crate for crate, count in counts.items() if count > MOST.get(crate, 0)}
    for one in unused:
        where, lines, _ = declared[one]
        if one[0][0] in wrong:
            print(f"{where}: nothing uses {one[1]} ({lines} lines)")
    print(f"{len(declared)} lemmas, {len(unused)} that nothing uses")
    return 1 if wrong or not declared else 0


if __name__ == "__main__":
    sys.exit(main())
