"""Draws docs/pictures: each picture is made from what the examples print, or from the words of a definition.

With --check it draws nothing, and says which file is not what it would draw.
"""

import argparse
import os
import sys

import cut
import life
import record
import report
import stage
import turnover
from slots import ROOT

FOLDER = f"{ROOT}/docs/pictures"
PICTURES = {"cut": cut, "life": life, "record": record, "report": report, "stage": stage, "turnover": turnover}


def is_there(path, text):
    """Whether a file has just this text."""
    if not os.path.exists(path):
        return False
    with open(path, encoding="utf-8") as file:
        return file.read() == text


def main():
    """Draws the pictures, or compares them."""
    words = argparse.ArgumentParser(prog="pictures", description=__doc__, formatter_class=argparse.RawDescriptionHelpFormatter)
    words.add_argument("--check", action="store_true", help="compares docs/pictures, and writes nothing")
    given = words.parse_args()
    others = set(os.listdir(FOLDER)) - {f"{name}.svg" for name in PICTURES}
    stale = [f"docs/pictures/{name} is drawn by nothing" for name in sorted(others)]
    for name, module in PICTURES.items():
        path, text = f"{FOLDER}/{name}.svg", module.drawn().written()
        if not given.check:
            with open(path, "w", encoding="utf-8") as file:
                file.write(text)
        elif not is_there(path, text):
            stale.append(f"docs/pictures/{name}.svg is not what python3 tools/make/pictures draws")
    if stale:
        sys.exit("\n".join(stale))


if __name__ == "__main__":
    main()
