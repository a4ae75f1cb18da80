"""What is written by hand in rust/: the files that its list, BY_HAND, names."""

import os
import re
import shutil

HERE = os.path.dirname(os.path.abspath(__file__))
RUST = os.path.join(os.path.dirname(os.path.dirname(HERE)), "rust")
LIST = "BY_HAND"

# What cargo makes, which is never committed.
MADE_BY_CARGO = {"target", "Cargo.lock"}


def listed(rust=RUST):
    """The names of the files that are written by hand, as paths in rust/."""
    with open(os.path.join(rust, LIST), encoding="utf-8") as file:
        return [line.strip() for line in file if line.strip() and not line.startswith("#")]


def found(rust=RUST):
    """The names of all files in rust/, but for what cargo makes."""
    names = []
    for folder, inside, files in os.walk(rust):
        inside[:] = [name for name in inside if name not in MADE_BY_CARGO]
        names += [os.path.relpath(os.path.join(folder, name), rust) for name in files if name not in MADE_BY_CARGO]
    return sorted(names)


def copy(folder, crates):
    """Copies what is written by hand for these crates into a folder."""
    for name in listed():
        crate = name.split("/")[0]
        if "/" in name and crate not in crates:
            continue
        to = os.path.join(folder, name)
        os.makedirs(os.path.dirname(to), exist_ok=True)
        shutil.copyfile(os.path.join(RUST, name), to)
    members(os.path.join(folder, "Cargo.toml"), crates)


def members(path, crates):
    """Makes these crates the members of a workspace."""
    with open(path, encoding="utf-8") as file:
        text = file.read()
    listed_crates = ", ".join(f'"{crate}"' for crate in crates)
    with open(path, "w", encoding="utf-8") as file:
        file.write(re.sub(r"members = \[.*?\]", f"members = [{listed_crates}]", text, flags=re.S))
