"""Compares the committed rust/ with what the exporter gives, and says which file differs: `check.py`. It needs python3 alone.

Each file of rust/ is either what the exporter writes, to the byte, or named in rust/BY_HAND.
"""

import argparse
import difflib
import os
import sys

sys.dont_write_bytecode = True

import by_hand
from export_rust import ROOT, RUST, exports


def differing(rust, generated):
    """What differs from the generated files, by their paths in rust/, as lines."""
    listed, found = by_hand.listed(rust), set(by_hand.found(rust))
    for name in sorted({name for name in listed if listed.count(name) > 1}):
        yield f"rust/{name}: BY_HAND names it more than once"
    for name in sorted(set(listed) & set(generated)):
        yield f"rust/{name}: BY_HAND names a file that bin/export-rust writes"
    for name in sorted(set(listed) - found):
        yield f"rust/{name}: BY_HAND names it, and it is not there"
    for name in sorted(found - set(listed) - set(generated)):
        yield f"rust/{name}: on no list: bin/export-rust doesn't write it, and BY_HAND doesn't name it"
    for name in sorted(set(generated) - found):
        yield f"rust/{name}: bin/export-rust writes it, and it is not there"
    for name in sorted(set(generated) & found):
        yield from difference(name, os.path.join(rust, name), generated[name])


def difference(name, path, text):
    """Where a file is not the text, as a line."""
    with open(path, "rb") as file:
        there = file.read()
    if there == text.encode():
        return
    lines = there.decode("utf-8", "replace").split("\n")
    for at, (old, new) in enumerate(zip(lines, text.split("\n")), 1):
        if old != new:
            yield f"rust/{name}:{at}: is not what bin/export-rust writes:\n" + "\n".join(difflib.ndiff([old], [new]))
            return
    yield f"rust/{name}: is not what bin/export-rust writes: it has another end"


def main():
    argparse.ArgumentParser(prog="check.py", description=__doc__).parse_args()
    made = exports(ROOT)
    refused = [fault for export in made for fault in export.faults]
    generated = {f"{export.of.name}/{name}": text for export in made for name, text in export.files.items()}
    faults = refused or list(differing(RUST, generated))
    for fault in faults:
        print(f"rust: {fault}", file=sys.stderr)
    if faults and not refused:
        print("rust: bin/export-rust writes it anew", file=sys.stderr)
    return 1 if faults else 0


if __name__ == "__main__":
    sys.exit(main())
