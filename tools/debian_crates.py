"""The crates that cargo builds with: Debian's where it has installed them, without a network, and else cargo's own."""

import functools
import os
import subprocess
import tempfile

ROOT = os.path.dirname(os.path.dirname(os.path.abspath(__file__)))
REGISTRY = "/usr/share/cargo/registry"
SOURCE = f"{ROOT}/tools/debian.toml"  # cargo's configuration by which it takes them

# What the program in plain Rust is built with.
OF_PROGRAM = ("arrayvec", "hex", "clap", "strsim", "serde_json", "thiserror")


def installed(crate):
    """Whether Debian has installed a crate."""
    return os.path.isdir(REGISTRY) and any(name.startswith(f"{crate}-") for name in os.listdir(REGISTRY))


# What is taken with a crate, and is of a package of Debian's beside that of the crate.
WITH = {"proptest": ("quick-error", "regex-syntax", "lazy_static")}


def absent(crates):
    """Which of these crates Debian has not installed, with all that is taken with them."""
    return [crate for name in sorted(crates) for crate in (name, *WITH.get(name, ())) if not installed(crate)]


def takes_debians(crates):
    """Whether cargo takes Debian's crates: where it has all of these, or where no registry gives those that it lacks."""
    return not absent(crates) or bool(lacking(*absent(crates)))


def environment(work, *crates):
    """The variables of cargo. Where Debian has all of these crates, `work` gets a folder `cargo` whose configuration names them;
    else cargo takes them from where it always does."""
    made = {name: value for name, value in os.environ.items() if name != "CARGO_TARGET_DIR"}
    if all(installed(crate) for crate in crates):
        made.update(home(f"{work}/cargo", REGISTRY))
    return made


def home(folder, crates):
    """Makes a home for cargo that takes crates from a folder alone, and gives its variables."""
    os.makedirs(folder, exist_ok=True)
    with open(SOURCE) as source, open(f"{folder}/config.toml", "w") as file:
        file.write(source.read().replace(REGISTRY, crates))
    return {"CARGO_HOME": folder}


@functools.cache
def lacking(*crates):
    """What is missing of these crates (a phrase with Debian's packages), if cargo can't have them all."""
    lacks = absent(crates)
    if not lacks or is_reached(crates):
        return ""
    packages = " ".join(f"librust-{crate.replace('_', '-')}-dev" for crate in lacks)
    return f"{' and '.join(lacks)} not there, and cargo reaches no registry (Debian: {packages})"


def is_reached(crates):
    """Whether cargo's own registry gives these crates."""
    with tempfile.TemporaryDirectory() as work:
        os.mkdir(f"{work}/src")
        open(f"{work}/src/lib.rs", "w").close()
        with open(f"{work}/Cargo.toml", "w") as file:
            file.write('[package]\nname = "probe"\nversion = "0.0.0"\nedition = "2021"\n\n[dependencies]\n')
            file.writelines(f'{crate} = "*"\n' for crate in crates)
        variables = {**os.environ, "CARGO_NET_RETRY": "0", "CARGO_HTTP_TIMEOUT": "10"}
        try:
            ran = subprocess.run(["cargo", "generate-lockfile"], cwd=work, env=variables, capture_output=True)
        except OSError:
            return False
    return ran.returncode == 0
