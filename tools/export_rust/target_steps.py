"""Steps of bin/export-test: other targets than this machine's."""

import os
import shutil

import acceptance
import in_ram
import widths
from crate_steps import FEATURES
from room import DEBIAN_RUSTC, HERE, Failed, Skipped, building, debian_sources, say
from debian_crates import REGISTRY, SOURCE

BARE = ("thumbv7em-none-eabi", "thumbv6m-none-eabi", "riscv32imc-unknown-none-elf")
NARROW = "i686-unknown-linux-gnu"

# What to install where a library can't be made.
SOURCES = "Debian: rustc-web and rust-web-src, of 1.96; the sources of 1.85 have no compiler_builtins"

# Of each program for chips: its folder in examples/, its targets, and bytes of text that it is no smaller than: nine tenths of what
# it takes. What no interrupt can ask for the compiler leaves out: without the mailbox of settings_stm32g0 no call stores, and 1,812
# bytes are left.
PROGRAMS = {
    "firmware": ("firmware", BARE, 13_000),
    "chip_nrf51": ("chip_nrf51", ("thumbv6m-none-eabi",), 13_800),
    "chip_rp2040": ("chip_rp2040", ("thumbv6m-none-eabi",), 17_300),
    "settings_stm32g0": ("settings", ("thumbv6m-none-eabi",), 6_300),
}

# A target of the chips whose USB controllers have drivers.
OF_DRIVERS = "thumbv6m-none-eabi"


def has_library(room, name, target):
    """Whether the rustc on the PATH has a library for a target."""
    found = f"{room.run(['rustc', '--print', 'sysroot']).decode().strip()}/lib/rustlib/{target}/lib"
    return os.path.isdir(found) and any(file.startswith(f"lib{name}-") for file in os.listdir(found))


def variables(room, target):
    """Cargo's variables to build for a chip, or none where rustc has no core for it. A core that is not there is built first."""
    more = {f"CARGO_TARGET_{target.upper().replace('-', '_')}_LINKER": shutil.which("rust-lld") or shutil.which("ld.lld")}
    if has_library(room, "core", target):
        return more
    if not debian_sources():
        return None
    return more | {"RUSTC": DEBIAN_RUSTC, "RUSTFLAGS": f"-D warnings --sysroot {room.sysroot(target)}"}


def build_bare(room, name, target, more):
    """Builds a program for a chip, which is not to be empty, and takes no ROM for what is in RAM."""
    folder, _, least = PROGRAMS[name]
    inner = "" if name == folder else f"/{name.removeprefix(folder + '_')}"
    room.cargo("build", "--release", "--target", target, cwd=room.package(f"examples/{folder}{inner}"), **more)
    told = room.run(["size", room.program(name, target)]).decode().split("\n")[1]
    text, initialized = map(int, told.split()[:2])
    if text < least:
        raise Failed(f"{name} for {target} has {text} bytes of text, and should have {least}: does anything leave a request?")
    if initialized:
        raise Failed(f"{name} for {target} has {initialized} bytes of initialized data: what it keeps in RAM is to begin as zeros, "
                     "by `unstarted` in tools/export_rust/rules.py")
    if name == "chip_rp2040" and (faults := in_ram.check(room.program(name, target))):
        raise Failed(f"examples/{name}: " + "; ".join(faults))
    say(f"examples/{folder}{inner} builds for {target}, {text} bytes of text")


def build_drivers(room, more):
    """Builds the drivers of USB controllers."""
    room.cargo("build", "--release", "--target", OF_DRIVERS, "-p", "wuzhikar-device", "--example", "drivers", **more)
    say(f"the drivers of rust/wuzhikar-device build for {OF_DRIVERS}")


def bare(room, _):
    """Builds the programs and the drivers for chips."""
    if not shutil.which("ld.lld") or not shutil.which("size"):
        raise Skipped("there is no ld.lld or no size (Debian: lld, binutils)")
    lacking = []
    for name, (_, targets, _) in PROGRAMS.items():
        for target in targets:
            more = variables(room, target)
            if more is None:
                lacking.append(target)
            else:
                build_bare(room, name, target, more)
    if more := variables(room, OF_DRIVERS):
        build_drivers(room, more)
    if lacking:
        raise Skipped(f"{', '.join(sorted(set(lacking)))}, which this rustc has no core for ({SOURCES})")


# The crates whose proved code runs on chips, lowest first, with their features.
ON_CHIPS = {"wuzhikar-log": ["--features", "settings"], "wuzhikar": [], "wuzhikar-device": []}
# What has sums of a `usize` that only a contract bounds, and is left out until they are narrowed.
WIDE = "/src/parts/settings_log"


def functions_of(room, name, words, constants):
    """The functions that rustc, which these words call, writes of a crate."""
    path = os.path.join(building.TARGET, f"{name}.mir")
    room.run([*words, "--emit", f"mir={path}", "-Zmir-include-spans=on"], RUSTC_BOOTSTRAP="1")
    with open(path, encoding="utf-8") as file:
        return widths.functions(file.read(), constants)


def refused_forms(room):
    """How many planted forms there are, all of which are refused, and none of those beside them."""
    words = ["rustc", "--edition", "2024", "--crate-type", "lib", os.path.join(HERE, "forms.rs")]
    forms = functions_of(room, "forms", words, {})
    for form in forms:
        if any(map(form.fault, form.steps)) != form.name.startswith("refused"):
            raise Failed(f"tools/export_rust/forms.rs: {form.name} is {'taken' if form.name.startswith('refused') else 'refused'}")
    return sum(form.name.startswith("refused") for form in forms)


def numbers_at_32_bits(room, _):
    """Refuses what is proved at 64 bits and may mean something else where a `usize` has 32."""
    count, constants, faults = refused_forms(room), {}, {}
    for name, features in ON_CHIPS.items():
        words = ["cargo", "rustc", "-p", name, "--lib", *features, "--"]
        steps = [(function, step) for function in functions_of(room, name, words, constants) for step in function.steps
                 if "/src/parts/" in step[3] and WIDE not in step[3]]
        if not steps:
            raise Failed(f"rustc wrote no step of the proved code of {name}")
        for function, step in steps:
            if why := function.fault(step):
                faults[f"rust/{step[3]}:{step[4]}: {why}"] = None
    if faults:
        raise Failed("\n".join(faults))
    say(f"the proved code of {', '.join(ON_CHIPS)}, but for settings_log, means the same at 32 bits; {count} planted forms are refused")


# Each build for 32 bits has one profile, so that std is built once, with overflow checks.
NARROW_PROFILE = {"CARGO_PROFILE_RELEASE_OPT_LEVEL": "1", "CARGO_PROFILE_RELEASE_OVERFLOW_CHECKS": "true", "RUSTFLAGS": ""}


def narrow(room):
    """How cargo builds for 32 bits: its words and variables."""
    words = ["--release", "--target", NARROW]
    if has_library(room, "std", NARROW):
        return words, NARROW_PROFILE
    sources = debian_sources()
    if not sources or not os.path.isdir(f"{sources}/vendor"):
        raise Skipped(f"this rustc has no std for {NARROW} ({SOURCES})")
    if not links_narrow(room):
        raise Skipped("gcc links no programs of 32 bits (Debian: gcc-multilib)")
    crates = with_those_of_std(room, f"{sources}/vendor")
    return ["-Zbuild-std", *words, *crates], {"RUSTC": DEBIAN_RUSTC, "RUSTC_BOOTSTRAP": "1", **NARROW_PROFILE}


def links_narrow(room):
    """Whether gcc links programs of 32 bits."""
    with open(room.path("probe.c"), "w", encoding="utf-8") as file:
        file.write("int main(void) { return 0; }\n")
    try:
        room.run(["gcc", "-m32", room.path("probe.c"), "-o", room.path("probe")])
    except (Failed, FileNotFoundError):
        return False
    return True


def with_those_of_std(room, vendor):
    """Cargo's words by which it takes crates from Debian's registry and from those that lie beside std's source."""
    crates = room.path("crates")
    shutil.rmtree(crates, ignore_errors=True)
    os.makedirs(crates)
    for folder in (REGISTRY, vendor):
        for name in os.listdir(folder):
            if not os.path.lexists(f"{crates}/{name}"):
                os.symlink(f"{folder}/{name}", f"{crates}/{name}")
    return ["--config", SOURCE, "--config", f'source.debian.directory="{crates}"']


def on_each(room, name):
    """A program of the top folder's workspace for this machine, and for one of 32 bits where that can be: the machine and the path."""
    yield "this machine", f"{building.programs()}/{name}"
    try:
        words, more = narrow(room)
    except Skipped as lacks:
        say(f"skipped: {NARROW}: {lacks}")
        return
    room.cargo("build", *words, "--package", name, cwd=room.tree, **more)
    yield NARROW, room.program(name, NARROW)


def narrow_tests(room, _):
    """Runs the tests of rust/tests, of crates/acceptance and of the crates on a machine of 32 bits, with overflow checks."""
    words, more = narrow(room)
    copy, among = acceptance.folder()
    of_crates = ["--lib", "-p", "wuzhikar", "-p", "wuzhikar-log", "-p", "kbsim", "--features", FEATURES]
    room.tests(*words, *of_crates, cwd=copy, name=f"{NARROW}, wuzhikar, wuzhikar-log, kbsim and crates/acceptance", among=among, **more)
    room.tests(*words, cwd=room.package("rust/tests"), name=f"{NARROW}, rust/tests", **more)


STEPS = {
    "bare targets": bare,
    "numbers at 32 bits": numbers_at_32_bits,
    "32 bits": narrow_tests,
}
