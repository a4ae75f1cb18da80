"""Compares the calls that take memory, read or write with tests/extremes.txt, which names a test at the largest input of each.

A body that invents want of memory, a failed read or a failed write past some size keeps every contract, so that only such a test
tells it. A function of the proved crates is listed where its text takes memory, is given an allocator or answers `AllocError`,
reads, writes or flushes. A line of the list is a file of crates/, the names of these functions in it (`fmt*2` where two have that
name), `=`, and the tests: the name of a folder of rust/tests, of a crate or of a program in tests/, and the test's name. bin/test calls it.
"""

import argparse
import collections
import glob
import os
import re
import sys

ROOT = os.path.dirname(os.path.dirname(os.path.dirname(os.path.abspath(__file__))))
LIST = "tests/extremes.txt"
# Files of tests and examples: no guarantee is about them.
LEFT_OUT = re.compile(r"acceptance/.*|world/src/examples/.*")
# What takes memory, reads or writes. The methods of arrayvec whose names begin with `try_` take none.
CALL = re.compile(
    r"\balloc\b|\bAllocError\b|\.reserve\(|\bwith_capacity\(|\.push\(.*\)(\?|\.is_err)|\.push_str\(|\bextend_from_slice\(|\.clone\(\)\?"
    r"|\bvec!\[in\b|\bformat!\(in\b|\bBox::new\(|\.collect\b|(?<!self)\.read\(|\.write\(|\.flush\(|\bwrite!\("
)
FUNCTION = re.compile(r"( *)(?:pub(?:\([a-z]+\))? )?(?:const )?fn (\w+)")
# Lines of contracts and comments.
SAID = re.compile(r"\s*(//|ensures\b|requires\b|ghost\b|→|×)")


def functions_of(text):
    """The names of the functions of a file that take memory, read or write, in order."""
    lines, found, at = text.split("\n"), [], 0
    while at < len(lines):
        begins = FUNCTION.match(lines[at])
        if not begins:
            at += 1
            continue
        indent, name = begins.groups()
        end = at
        # The end of a body, or of a declaration without one.
        while end < len(lines) - 1 and lines[end] not in (f"{indent}}}", f"{indent}{{}}") and not lines[end].endswith(";\n"):
            end += 1
        body = [line.split("//")[0] for line in lines[at : end + 1] if not SAID.match(line)]
        if any(CALL.search(line) for line in body):
            found.append(name)
        at = end + 1
    return found


def written(names):
    """Names as the list writes them."""
    return " ".join(name if count == 1 else f"{name}*{count}" for name, count in collections.Counter(names).items())


def calls_of(root):
    """The functions of each file that take memory, read or write, as the list writes them."""
    found = {}
    for path in sorted(glob.glob(f"{root}/crates/*/src/**/*.rt", recursive=True)):
        name = os.path.relpath(path, f"{root}/crates")
        if LEFT_OUT.fullmatch(name):
            continue
        with open(path, encoding="utf-8") as file:
            names = functions_of(file.read())
        if names:
            found[name] = written(names)
    return found


def tests_of(root, place):
    """The names of the tests of a folder of rust/tests, of a crate, or of a program in tests/."""
    found = set()
    for path in glob.glob(f"{root}/rust/tests/tests/{place}/*.rs") + glob.glob(f"{root}/crates/{place}/src/**/*.rt", recursive=True):
        with open(path, encoding="utf-8") as file:
            found.update(re.findall(r"#\[test\]\n *fn (\w+)", file.read()))
    if os.path.exists(f"{root}/tests/{place}.py"):
        with open(f"{root}/tests/{place}.py", encoding="utf-8") as file:
            found.update(re.findall(r"^ +def (test_\w+)", file.read(), re.M))
    return found


def wrong_tests(root, words):
    """What is wrong with the tests of a line."""
    pairs = [pair.split() for pair in words.split(",")]
    if not all(len(pair) == 2 for pair in pairs):
        return ["no test, or one without its crate or program"]
    return [f"{place} has no test {name}" for place, name in pairs if name not in tests_of(root, place)]


def wrong_lines(root):
    """What is wrong, a sentence each."""
    calls, listed, wrong = calls_of(root), set(), []
    with open(f"{root}/{LIST}", encoding="utf-8") as file:
        lines = [(number, line.rstrip("\n")) for number, line in enumerate(file, 1)]
    for number, line in lines:
        if not line or line.startswith("#"):
            continue
        names, _, tests = line.partition(" = ")
        path, _, functions = names.partition(" ")
        listed.add(path)
        wrong += [f"{LIST}:{number}: {fault}" for fault in wrong_tests(root, tests)]
        now = calls.get(path, "")
        if functions != now:
            wrong.append(f"{LIST}:{number}: of {path} these functions take memory, read or write: {now or 'none'}")
    missing = [f"{LIST}: no line for {path} {calls[path]}" for path in calls if path not in listed]
    return wrong + missing


def main():
    parser = argparse.ArgumentParser(description=__doc__, formatter_class=argparse.RawDescriptionHelpFormatter)
    parser.add_argument("root", nargs="?", default=ROOT, help="the repository, this one if left out")
    wrong = wrong_lines(parser.parse_args().root)
    for line in wrong:
        print(f"check_extremes: {line}", file=sys.stderr)
    if wrong:
        return 1
    count = sum(len(re.findall(r"\w+(?:\*\d+)?", names)) for names in calls_of(ROOT).values())
    print(f"check_extremes: each of {count} functions that take memory, read or write has a test at its largest input")
    return 0


if __name__ == "__main__":
    sys.exit(main())
