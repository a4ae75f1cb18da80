"""The keyboard beside the same keyboard by hand in C (reference/peer): what each call costs, as one table with ratios.

`bin/bench` builds what it can from Debian's packages, says what it skips, and counts. Where a number differs by more than one
in a hundred from bench/results.tsv it is said. The status is 1 where a bound of that file is missed, unless the file lists the
miss with its reason. `bin/bench compare` compares the answers of the peer with those of `kbsim`, over generated scripts and report descriptors.
"""

import argparse
import sys

sys.dont_write_bytecode = True

import builds
import chips
import comparing
import document
import reading
import results
import storing
from comparing import say
from room import Skipped

FILE = f"{builds.BENCH}/results.tsv"


def measured_chips(target):
    """The rows of a target of the exported crate."""
    why = builds.lacks(target)
    if why:
        raise Skipped(why)
    return chips.Keyboards(builds.room(), target).rows()


OTHERS = {**reading.SECTIONS, **storing.SECTIONS}


def measured_elsewhere(name):
    """The rows of another section."""
    return OTHERS[name](builds.room())


SECTIONS = {**{target.name: (lambda target=target: measured_chips(target)) for target in builds.TARGETS},
            **{name: (lambda name=name: measured_elsewhere(name)) for name in OTHERS}}


def parse_words():
    words = argparse.ArgumentParser(prog="bench", description=__doc__, formatter_class=argparse.RawDescriptionHelpFormatter)
    words.add_argument("section", nargs="*", help=f"what is measured, by default all: {', '.join(SECTIONS)}; or compare, alone")
    words.add_argument("--write", action="store_true", help="writes the numbers into bench/results.tsv, and into the documents")
    words.add_argument("--tables", action="store_true", help="writes the numbers of bench/results.tsv into the documents; measures nothing")
    words.add_argument("--scripts", metavar="COUNT", type=int, default=3000, help="how many scripts compare takes (3000)")
    words.add_argument("--texts", metavar="COUNT", type=int, default=2000, help="how many report descriptors compare takes (2000)")
    words.add_argument("--hot", metavar="ROW", help="prints by function where our instructions of a row go, or of all")
    given = words.parse_args()
    if given.section != ["compare"]:
        for name in given.section:
            if name not in SECTIONS:
                words.error(f"no section is called {name!r}: {', '.join(SECTIONS)}")
    return given


def measure(names):
    """The rows of some sections, and which of them could be measured."""
    rows, done = [], []
    for name in names:
        try:
            rows += SECTIONS[name]()
            done.append(name)
        except Skipped as lacks:
            say(f"skipped: {name}: {lacks}")
    return rows, done


def write_documents(rows):
    """Writes what the documents show of these rows."""
    for name, shown in document.SHOWN.items():
        with open(f"{builds.ROOT}/{name}", encoding="utf-8") as file:
            text = file.read()
        with open(f"{builds.ROOT}/{name}", "w", encoding="utf-8") as file:
            file.write(document.rewritten(text, shown, rows))


def report(rows, done, write):
    """Prints the table, and what it differs in from the file; the exit status."""
    known = results.read(FILE)
    rows = results.with_bounds(rows, known)
    print("\n".join(results.table(rows)))
    if write:
        results.write(FILE, results.merged(known, rows, done), builds.versions())
        write_documents(results.merged(known, rows, done))
        known = {**known, **{row.key: row for row in rows}}
    elif results.versions_of(FILE) != builds.versions():
        say(f"other compilers or tools than in the file: {'; '.join(builds.versions())}")
    said, faults = results.remarks(rows, known, done)
    for line in said:
        say(line)
    for line in faults:
        say(f"FAILED: {line}")
    return 1 if faults else 0


def main():
    given = parse_words()
    if given.section == ["compare"]:
        return comparing.compare(given.scripts, given.texts)
    if given.hot:
        target = next(target for target in builds.TARGETS if target.name == (given.section or ["thumbv7em"])[0])
        print("\n".join(chips.Keyboards(builds.room(), target).hot(given.hot)))
        return 0
    if given.tables:
        write_documents(list(results.read(FILE).values()))
        return 0
    rows, done = measure(given.section or SECTIONS)
    return report(rows, done, given.write)


if __name__ == "__main__":
    sys.exit(main())
