"""Steps of bin/export-test: the crates of rust/ and the examples that stand on them, on this machine."""

import glob
import os
import shutil

import acceptance
import by_hand
from room import ROOT, Failed, Skipped, building, say

# Those of keyboard and log, and all.
FEATURES = "wuzhikar/sim,wuzhikar-log/sim,wuzhikar-log/settings"
ALL_FEATURES = f"{FEATURES},wuzhikar-device/testing"


def crates(room, _):
    """Runs the tests of the crates, of their docs and of crates/acceptance, with overflow checks. A warning is a fault."""
    copy, among = acceptance.folder()
    room.tests("--workspace", "--features", ALL_FEATURES, cwd=copy, name="the crates with their docs, and crates/acceptance", among=among)


def documents(room, _):
    """Makes the documents of all crates."""
    room.cargo("doc", "--workspace", "--no-deps", "--features", ALL_FEATURES, RUSTDOCFLAGS="-D warnings")
    say("the crates have documents without a warning")


def packages(room, _):
    """Packages the crates, and checks that they build of their packages alone."""
    if b"--exclude-lockfile" not in room.cargo("package", "--help"):
        raise Skipped("this cargo packages no crate whose dependencies no registry has")
    shutil.rmtree(f"{building.TARGET}/package", ignore_errors=True)
    words = ["--workspace", "--exclude", "keymap", "--no-verify", "--exclude-lockfile", "--allow-dirty"]
    room.cargo("package", *words)
    folder, crates = room.path("packages"), {}
    shutil.rmtree(folder, ignore_errors=True)
    for path in sorted(glob.glob(f"{building.TARGET}/package/*.crate")):
        shutil.unpack_archive(path, folder, "gztar")
        crates[os.path.basename(path).rpartition("-")[0]] = os.path.basename(path).removesuffix(".crate")
    for name, inner in crates.items():
        for file in ("README.md", "LICENSE-APACHE", "LICENSE-MIT"):
            if not os.path.isfile(f"{folder}/{inner}/{file}"):
                raise Failed(f"the package of {name} has no {file}")
    with open(f"{folder}/Cargo.toml", "w", encoding="utf-8") as file:
        file.write('[workspace]\nresolver = "2"\nmembers = ["*-*"]\n\n[patch.crates-io]\n')
        file.writelines(f'{name} = {{ path = "{inner}" }}\n' for name, inner in crates.items())
    room.cargo("check", "--workspace", "--all-features", cwd=folder)
    say(f"{', '.join(crates)} build of their packages")


def lints(room, _):
    """Compares what is written by hand with what rustfmt makes of it, and asks clippy about all that runs on this machine."""
    if not shutil.which("rustfmt") or not shutil.which("cargo-clippy"):
        raise Skipped("there is no rustfmt or no cargo-clippy (rustup component add rustfmt clippy; Debian: rustfmt rust-clippy, in "
                      "Debian 12 rustfmt-web rust-web-clippy)")
    for name in by_hand.listed():
        if name.endswith(".rs"):
            with open(f"{ROOT}/rust/{name}", "rb") as file:
                text = file.read()
            if room.run(["rustfmt", "--edition", "2024", "--config-path", f"{room.rust}/rustfmt.toml"], given=text) != text:
                raise Failed(f"rust/{name} is not as rustfmt writes it")
    for folder, *more in [(room.rust,), (room.rust, "--features", ALL_FEATURES), (room.tree, "--release")]:
        room.cargo("clippy", "--workspace", "--all-targets", *more, "--", "-D", "warnings", cwd=folder)


def tests(room, _):
    """Runs the tests of rust/tests, with overflow checks."""
    room.tests("--release", cwd=room.package("rust/tests"), name="rust/tests")


def firmware(room, _):
    """Runs the example of a firmware on this machine."""
    room.compare("examples/firmware/expected", room.cargo("run", "-q", "--release", cwd=room.package("examples/firmware")))


def driver_bench(room, _):
    """Runs the test bench for drivers, from Rust and from C."""
    folder = room.package("examples/driver_bench")
    room.tests(cwd=folder, name="examples/driver_bench")
    room.cargo("build", "--release", cwd=folder)
    if not shutil.which("cc"):
        raise Skipped("the host in C, since there is no cc (Debian: gcc, libc6-dev)")
    library = room.program("libdriver_bench.a")
    room.run(["cc", "-std=c99", "-Wall", "-Wextra", "-Werror", "-pedantic", "host.c", library, "-o", room.path("host")], folder)
    printed = room.run([room.path("host")], folder)
    room.compare("examples/driver_bench/expected", printed)
    # The report descriptor is the one that the simulator prints. The others are the front's.
    with open(f"{ROOT}/examples/describe.expected", "rb") as file:
        wanted, got = ([line for line in text.splitlines() if line.startswith(b"report ")] for text in (file.read(), printed))
    if got != wanted:
        raise Failed("the host in C doesn't get the report descriptor of examples/describe.expected")


def hosts(room, _):
    """Runs the tests of what meets a host."""
    room.tests("--release", cwd=room.package("tests/real_host"), name="tests/real_host")
    room.tests(cwd=room.package("examples/usb_device_class"), name="examples/usb_device_class")
    room.tests(cwd=room.package("examples/chip_rp2040"), name="examples/chip_rp2040")


STEPS = {
    "crates": crates,
    "documents": documents,
    "packages": packages,
    "format and lints": lints,
    "rust/tests": tests,
    "examples/firmware": firmware,
    "examples/driver_bench": driver_bench,
    "examples that meet a host": hosts,
}
