"""Compares each version that the repository names with the file VERSION, the Cargo.lock of each program with its manifests, and the
manifests of the crates with what their packages need. Takes no time; bin/test calls it."""

import argparse
import glob
import os
import re
import sys
import tomllib

ROOT = os.path.dirname(os.path.dirname(os.path.dirname(os.path.abspath(__file__))))
NUMBER = r"(\d+\.\d+\.\d+)"
# Files with a version, where it stands in them, and whether each has to be there.
PLACES = [
    ("crates/command_line/src/lib.rt", rf'^const VERSION: &str = "{NUMBER}";', True),
    ("CHANGELOG.md", rf"^## {NUMBER}$", True),
    ("README.md", rf"^\*\*Version {NUMBER}\*\*$", True),
    ("rust/Cargo.toml", rf'^version = "{NUMBER}"', False),
    ("rust/*/Cargo.toml", rf'^version = "{NUMBER}"', False),
    ("c/*/Cargo.toml", rf'^version = "{NUMBER}"', True),
    ("python/pyproject.toml", rf'^version = "{NUMBER}"', True),
    ("c/firmware/arduino/library.properties", rf"^version={NUMBER}$", True),
    ("docs/kbsim.1", rf'^\.TH KBSIM 1 .*"kbsim {NUMBER}"', True),
    ("Cargo.toml", rf'^version = "{NUMBER}"', True),
]

# The programs whose Cargo.lock is kept, and the manifests that it is of.
LOCKED = {"rust": "rust/*/Cargo.toml"}  # (those of its workspace)
LICENCES = ("LICENSE-APACHE", "LICENSE-MIT")
REGISTRY = "registry+https://github.com/rust-lang/crates.io-index"


def read_toml(path):
    with open(path, "rb") as file:
        return tomllib.load(file)


def wrong_in_lock(root, folder, version):
    """What is wrong with the Cargo.lock of a program, a sentence each."""
    name = f"{folder}/Cargo.lock"
    if not os.path.exists(f"{root}/{name}"):
        return [f"{name} is not there"]
    packages = {one["name"]: one for one in read_toml(f"{root}/{name}")["package"]}
    wrong = []
    for crate, one in packages.items():
        ours = "source" not in one
        if ours and one["version"] != version:
            wrong.append(f"{name}: {crate} is {one['version']}, and VERSION {version}")
        if "source" in one and (one["source"] != REGISTRY or not re.fullmatch("[0-9a-f]{64}", one.get("checksum", ""))):
            wrong.append(f"{name}: {crate} is not the public registry's, with a checksum")
    members = [read_toml(path) for path in glob.glob(f"{root}/{LOCKED[folder]}")]
    wanted = {crate for one in members if folder != "rust" or "workspace" not in one for crate in one.get("dependencies", {})}
    return wrong + [f"{name}: it has no {crate}" for crate in sorted(wanted - set(packages))]


def wrong_in_crates(root, version):
    """What would be wrong with the packages of the crates of rust/, a sentence each."""
    whole = read_toml(f"{root}/rust/Cargo.toml")["workspace"]
    wrong = [f"rust/Cargo.toml: {name} is to be of version ={version}" for name, given in whole["dependencies"].items()
             if "path" in given and given.get("version") != f"={version}"]
    for name in whole["members"]:
        package = read_toml(f"{root}/rust/{name}/Cargo.toml")
        if package["package"].get("publish", True):
            wrong += [f"rust/{name} has no {file}" for file in LICENCES if not os.path.isfile(f"{root}/rust/{name}/{file}")]
            wrong += [f"rust/{name}: {key} is to be that of rust/Cargo.toml" for key in whole["package"] if key not in package["package"]]
        for tables in (package, *package.get("target", {}).values()):
            wrong += [f"rust/{name}: {crate} is to be that of rust/Cargo.toml" for kind in ("dependencies", "dev-dependencies")
                      for crate, given in tables.get(kind, {}).items() if "workspace" not in given and given.get("path") != "."]
    return wrong


def found_in(path, pattern):
    """The first version that stands in a file, and its line."""
    with open(path, encoding="utf-8") as file:
        for line, text in enumerate(file, 1):
            match = re.search(pattern, text)
            if match:
                return match[1], line
    return None, 0


def wrong_places(root):
    """What is wrong, a sentence each."""
    with open(f"{root}/VERSION", encoding="utf-8") as file:
        version = file.read().strip()
    if not re.fullmatch(NUMBER, version):
        return [f"VERSION: {version!r} is no version"]
    wrong = []
    for place, pattern, needed in PLACES:
        paths = sorted(glob.glob(f"{root}/{place}"))
        if needed and not paths:
            wrong.append(f"{place} is not there")
        for path in paths:
            name, (found, line) = os.path.relpath(path, root), found_in(path, pattern)
            if found is None and needed:
                wrong.append(f"{name} names no version")
            elif found not in (None, version):
                wrong.append(f"{name}:{line} says {found}, and VERSION {version}")
    wrong += wrong_in_crates(root, version)
    return wrong + [sentence for folder in LOCKED for sentence in wrong_in_lock(root, folder, version)]


def main():
    words = argparse.ArgumentParser(description=__doc__)
    words.add_argument("--root", default=ROOT, help="the repository that is looked at")
    wrong = wrong_places(words.parse_args().root)
    print("\n".join(wrong) or "one version everywhere")
    sys.exit(1 if wrong else 0)


if __name__ == "__main__":
    main()
