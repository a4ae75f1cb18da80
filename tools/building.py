"""Builds all checks of bin/test with cargo, in one copy of the repository and one target folder (out/build). So each crate is built
once, and nothing is written into the repository itself.

The copy has no Cargo.lock, which is for the public registry. If Debian's crates are used, tools/debian.toml configures cargo there,
and packages that need other crates are left out. As a program (tools/cargo FOLDER WORD..) this file runs cargo in a folder of the
copy. Without a word it builds the programs of the top folder's workspace, and prints where they are.
"""

import contextlib
import fcntl
import functools
import os
import subprocess
import sys
import tomllib

from debian_crates import ROOT, SOURCE, absent, takes_debians

FOLDER = f"{ROOT}/out/build"
TREE, TARGET = f"{FOLDER}/wuzhikar", f"{FOLDER}/target"  # (docs/USING.md calls a clone by this name)
# Whether bin/test, which runs steps beside one another, has brought the copy up to date for them.
IS_CURRENT = "WUZHIKAR_TREE_IS_CURRENT"
# No cargo reads these, and some are large.
LEFT_OUT = {".git", "crates", "crates.txt", "docs", "out", "target", "Cargo.lock", "__pycache__"}
CONFIGURATION = f"{FOLDER}/.cargo/config.toml"


@contextlib.contextmanager
def alone():
    """Holds the lock of the copy, so that no other step works on it at the same time."""
    os.makedirs(TREE, exist_ok=True)
    with open(f"{FOLDER}/lock", "w") as lock:
        fcntl.flock(lock, fcntl.LOCK_EX)
        yield


class Wrong(Exception):
    """A build that failed: cargo's arguments, and what it printed."""


def files(top):
    """The files of a copy, by their paths from the top."""
    for folder, folders, names in os.walk(top):
        folders[:] = [name for name in folders if name not in LEFT_OUT]
        yield from (os.path.relpath(f"{folder}/{name}", top) for name in names if name not in LEFT_OUT)


def bytes_of(path):
    """What a file holds; nothing where it is not there."""
    try:
        with open(path, "rb") as file:
            return file.read()
    except FileNotFoundError:
        return None


def write(path, held, mode):
    """Writes a file where it holds anything else. Its time is that of the change, by which cargo knows it."""
    if bytes_of(path) != held:
        os.makedirs(os.path.dirname(path), exist_ok=True)
        with open(path, "wb") as file:
            file.write(held)
    os.chmod(path, mode)


def crates_of(manifest):
    """The crates of a registry that a package needs, itself or by packages of the repository."""
    found, seen, left = set(), set(), [os.path.normpath(manifest)]
    while left:
        manifest = left.pop()
        if manifest in seen:
            continue
        seen.add(manifest)
        with open(manifest, "rb") as file:
            told = tomllib.load(file)
        tables = [table.get(kind, {}) for table in (told, *told.get("target", {}).values())
                  for kind in ("dependencies", "dev-dependencies", "build-dependencies")]
        for name, given in [pair for table in tables for pair in table.items()]:
            if isinstance(given, dict) and "path" in given:
                left.append(os.path.normpath(f"{os.path.dirname(manifest)}/{given['path']}/Cargo.toml"))
            elif name.startswith("wuzhikar") or name == "kbsim":
                left.append(f"{ROOT}/rust/{name}/Cargo.toml")
            else:
                found.add(name)
    return frozenset(found)


def sync(folder, held):
    """Makes a folder one of these files, which hold bytes and have a mode, by their names."""
    for name, (text, mode) in held.items():
        write(f"{folder}/{name}", text, mode)
    for name in set(files(folder)) - set(held):
        os.remove(f"{folder}/{name}")
        with contextlib.suppress(OSError):
            os.removedirs(os.path.dirname(f"{folder}/{name}"))


def held_in(folder, names):
    """What these files of a folder hold, and their modes."""
    return {name: (bytes_of(f"{folder}/{name}"), os.stat(f"{folder}/{name}").st_mode & 0o777) for name in names}


def mirror(left_out):
    """Makes the copy that of all files but those of these packages."""
    wanted = [name for name in files(ROOT) if not any(name.startswith(f"{folder}/") for folder in left_out)]
    held = held_in(ROOT, wanted)
    text, mode = held["Cargo.toml"]
    lines = text.decode().splitlines(keepends=True)
    held["Cargo.toml"] = "".join(line for line in lines if line.strip(' ",\n') not in left_out).encode(), mode
    sync(TREE, held)


def changed(name, folder, more):
    """A copy of a folder of the tree with some files more, or others: bytes by their names. It is written where it differs alone."""
    copy = f"{FOLDER}/{name}"
    os.makedirs(copy, exist_ok=True)
    held = held_in(f"{tree()}/{folder}", files(f"{TREE}/{folder}"))
    sync(copy, {**held, **{name: (text, 0o644) for name, text in more.items()}})
    return copy


@functools.cache
def tree():
    """The copy of the repository, brought up to date."""
    if os.environ.get(IS_CURRENT):
        return TREE
    with alone():
        packages = {os.path.dirname(name): crates_of(f"{ROOT}/{name}") for name in files(ROOT) if os.path.basename(name) == "Cargo.toml"}
        if debian := takes_debians(frozenset().union(*packages.values())):
            write(CONFIGURATION, bytes_of(SOURCE), 0o644)
        elif os.path.exists(CONFIGURATION):
            os.remove(CONFIGURATION)
        mirror({folder for folder, crates in packages.items() if debian and absent(crates)})
        for folder in [*packages, "rust"]:
            if os.path.isdir(f"{TREE}/{folder}") and not os.path.lexists(f"{TREE}/{folder}/target"):
                os.symlink(TARGET, f"{TREE}/{folder}/target")
    return TREE


def environment(**more):
    """Cargo's variables there. A warning is a fault."""
    kept = {name: value for name, value in os.environ.items() if name not in ("CARGO_TARGET_DIR", "RUSTFLAGS")}
    return {**kept, "CARGO_TARGET_DIR": TARGET, "RUSTFLAGS": "-D warnings", **more}


def cargo(*words, folder="", **more):
    """Runs cargo in a folder of the copy, and gives what it prints; `more` are variables."""
    ran = subprocess.run(["cargo", *words], cwd=f"{tree()}/{folder}", env=environment(**more), stdout=subprocess.PIPE, stderr=subprocess.STDOUT)
    told = ran.stdout.decode(errors="replace")
    if ran.returncode != 0:
        raise Wrong(f"cargo {' '.join(words)} (in {folder or 'the top folder'}):\n{told}")
    return told


def programs():
    """Builds the programs of the top folder's workspace, and gives the folder that they are in."""
    cargo("build", "--release", "--quiet")
    return f"{TARGET}/release"


def main():
    if "--help" in sys.argv[1:2]:
        print(__doc__)
    elif words := sys.argv[1:]:
        flags = {name: value for name, value in os.environ.items() if name == "RUSTFLAGS"}
        sys.exit(subprocess.run(["cargo", *words[1:]], cwd=f"{tree()}/{words[0]}", env=environment(**flags)).returncode)
    else:
        try:
            print(programs())
        except Wrong as why:
            sys.exit(str(why))


if __name__ == "__main__":
    main()
