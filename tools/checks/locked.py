"""Builds the programs for users with the crates that rust/Cargo.lock names, of the public registry, and runs one. bin/test calls it where
that registry answers."""

import argparse
import os
import shutil
import subprocess
import sys

ROOT = os.path.dirname(os.path.dirname(os.path.dirname(os.path.abspath(__file__))))
# Not in out/build, where cargo takes Debian's crates.
FOLDER = f"{ROOT}/out/locked"
PROGRAMS = ("kbsim", "keymap")


def main():
    argparse.ArgumentParser(description=__doc__, formatter_class=argparse.RawDescriptionHelpFormatter).parse_args()
    shutil.rmtree(f"{FOLDER}/rust", ignore_errors=True)
    shutil.copytree(f"{ROOT}/rust", f"{FOLDER}/rust", ignore=shutil.ignore_patterns("target"))
    words = ["cargo", "build", "--locked", "--quiet", "--release", *(f"--package={name}" for name in PROGRAMS)]
    environment = {**os.environ, "CARGO_TARGET_DIR": f"{FOLDER}/target"}
    if subprocess.run(words, cwd=f"{FOLDER}/rust", env=environment).returncode != 0:
        sys.exit("what rust/Cargo.lock names does not build")
    for name in PROGRAMS:
        if subprocess.run([f"{FOLDER}/target/release/{name}", "--help"], stdout=subprocess.DEVNULL).returncode != 0:
            sys.exit(f"{name}, built with what rust/Cargo.lock names, does not run")
    with open(f"{ROOT}/examples/stored_key.kbs", "rb") as given, open(f"{ROOT}/examples/stored_key.expected", "rb") as wanted:
        ran = subprocess.run([f"{FOLDER}/target/release/kbsim", "run"], stdin=given, stdout=subprocess.PIPE)
        if ran.stdout != wanted.read():
            sys.exit("kbsim, built with what rust/Cargo.lock names, does not print examples/stored_key.expected")
    print(f"{' and '.join(PROGRAMS)} build with the crates that rust/Cargo.lock names")


if __name__ == "__main__":
    main()
