"""The WebAssembly module of the page: its sources by their checksums, and its build."""

import hashlib
import os
import pathlib
import re
import shutil
import subprocess
import tempfile

ROOT = pathlib.Path(__file__).resolve().parent.parent.parent
CORE = ROOT / "web/core"
SOURCES = ROOT / "web/SOURCES"
CRATES = ["rust/wuzhikar", "rust/wuzhikar-hid", "rust/wuzhikar-log", "rust/wuzhikar-reader"]
TARGET = "wasm32-unknown-unknown"
REGISTRY = pathlib.Path("/usr/share/cargo/registry")
HEAD = "# What the WebAssembly module of web/wuzhikar.html was made from, written by bin/build-page.\n"


class Wrong(Exception):
    """A sentence about what is wrong."""


def read_files(target, root):
    """The files that the module was made from, as cargo says after the build, and what says how they are built."""
    told = (target / TARGET / "release/page_core.d").read_text().split(": ", 1)[1]
    paths = [pathlib.Path(path.replace("\\ ", " ")) for path in re.split(r"(?<!\\)\s+", told.strip())]
    files = {path.relative_to(root).as_posix() for path in paths if path.is_relative_to(root)}
    return sorted(files | {"rust/Cargo.toml", "web/core/Cargo.toml", *(f"{crate}/Cargo.toml" for crate in CRATES)})


def checksum(name, root=ROOT):
    """The line of a file: its SHA-256 and its name."""
    file = root / name
    return f"{hashlib.sha256(file.read_bytes()).hexdigest() if file.exists() else 'none'}  {name}"


def sources_text(wasm, made_by, names):
    """The text of web/SOURCES: the tools, the module's checksum, and those of its sources."""
    module = f"# tools {made_by}\n# module {hashlib.sha256(wasm).hexdigest()}\n"
    return HEAD + module + "".join(f"{checksum(name)}\n" for name in names)


def recorded():
    """What web/SOURCES says: the checksum of the module, and the lines of its sources."""
    text = SOURCES.read_text() if SOURCES.exists() else ""
    module = re.search(r"^# module ([0-9a-f]{64})$", text, re.M)
    return module[1] if module else "", [line for line in text.splitlines() if not line.startswith("#")]


def changed():
    """The names of sources that are not as they were when the module was made. A file that is new is named by one of them."""
    names = [line.split("  ", 1)[1] for line in recorded()[1]]
    return [name for name, line in zip(names, recorded()[1]) if checksum(name) != line] if names else ["file"]


def recorded_tools():
    """The tools that made the module, by web/SOURCES."""
    made_by = re.search(r"^# tools (.*)$", SOURCES.read_text() if SOURCES.exists() else "", re.M)
    return made_by[1] if made_by else ""


def tools():
    """What a module is built by here: the same tools make the same bytes of the same sources, in any folder."""
    rustc, _, library = chosen()
    told = [subprocess.run([tool, "--version"], check=True, stdout=subprocess.PIPE, text=True).stdout.strip() for tool in (rustc, "cargo", "wasm-ld")]
    crates = [path.name for path in sorted(REGISTRY.glob("arrayvec-*"))] or ["crates.io"]
    return "; ".join([*told[:1], "library from sources" if library else "library of its own", *told[1:], *crates])


def is_stale():
    """Whether the module has to be built."""
    return bool(changed())


def version_of(rustc):
    """The version of a compiler, as 1.96.0; empty where it can't be run."""
    try:
        told = subprocess.run([rustc, "--version"], stdout=subprocess.PIPE, stderr=subprocess.DEVNULL, text=True).stdout
    except OSError:
        return ""
    match = re.match(r"rustc (\d+\.\d+\.\d+)", told)
    return match[1] if match else ""


def compilers():
    """The compilers of this machine, 1.85 and later, with their versions."""
    found = []
    for rustc in dict.fromkeys(filter(None, [shutil.which("rustc"), "/usr/bin/rustc"])):
        version = version_of(rustc)
        if version and tuple(map(int, version.split(".")))[:2] >= (1, 85):
            found.append((rustc, version))
    return found


def has_library(rustc):
    """Whether this compiler has a library for WebAssembly."""
    sysroot = subprocess.run([rustc, "--print", "sysroot"], stdout=subprocess.PIPE, text=True).stdout.strip()
    return any(pathlib.Path(sysroot, "lib/rustlib", TARGET, "lib").glob("libcore-*.rlib"))


def lacks():
    """What is missing on this machine for a build: a sentence, or nothing."""
    absent = [f"{tool} ({package})" for tool, package in (("cargo", "cargo-web"), ("wasm-ld", "lld")) if not shutil.which(tool)]
    if not chosen():
        absent.append("a rustc of 1.85 or later with a library for WebAssembly, or with its sources (rustc-web, rust-web-src)")
    return f"not there: {', '.join(absent)}" if absent else ""


def chosen():
    """A compiler, its version, and the sources of its library where it has none for WebAssembly; or nothing."""
    for rustc, version in compilers():
        library = pathlib.Path(f"/usr/src/rustc-{version}/library")
        if has_library(rustc):
            return rustc, version, None
        if (library / "compiler-builtins").is_dir():
            return rustc, version, library
    return None


def sysroot_for(rustc, version, library):
    """The folder of a library for WebAssembly, made once and kept."""
    kept = ROOT / f"out/page/sysroot-{version}"
    if not kept.exists():
        kept.parent.mkdir(parents=True, exist_ok=True)
        with tempfile.TemporaryDirectory(dir=kept.parent) as made:
            subprocess.run([ROOT / "tools/export_rust/make_core.sh", rustc, library, TARGET, made, "alloc"], check=True)
            shutil.copytree(made, kept)
    return kept


def workspace(root, folder):
    """Copies what the module is made from into a folder, as one workspace: cargo names crates by their paths from its root, so
    that symbols, and with them the order of functions, are the same wherever it lies."""
    for part in ("web/core", *CRATES):
        shutil.rmtree(folder / part, ignore_errors=True)
        shutil.copytree(root / part, folder / part, ignore=shutil.ignore_patterns("target", "Cargo.lock"))
    shutil.copy2(root / "rust/Cargo.toml", folder / "rust/Cargo.toml")
    (folder / "Cargo.lock").unlink(missing_ok=True)
    package, profile = (root / "web/core/Cargo.toml").read_text().split("[profile.release]")
    (folder / "web/core/Cargo.toml").write_text(package.replace("[workspace]\n", ""))
    (folder / "Cargo.toml").write_text(f'[workspace]\nresolver = "2"\nmembers = ["web/core"]\nexclude = ["rust"]\n\n[profile.release]{profile}')
    members = ", ".join(f'"{crate.removeprefix("rust/")}"' for crate in CRATES)
    rust = (root / "rust/Cargo.toml").read_text()
    (folder / "rust/Cargo.toml").write_text(re.sub(r"^members = .*$", f"members = [{members}]", rust, flags=re.M))


def build(root=ROOT, target=None, **more):
    """Builds the module of a copy of the repository: its bytes, the tools that made it, and the files that it was made from. `more`
    are variables of cargo."""
    if lacks():
        raise Wrong(lacks())
    rustc, version, library = chosen()
    target = target or ROOT / "out/page/target"
    folder = target.parent / f"{target.name}-source"
    workspace(root, folder)
    remapped = [(folder, "."), (REGISTRY, "registry")] + ([(library, "library")] if library else [])
    flags = [f"--remap-path-prefix={path}={name}" for path, name in remapped] + ["-Clink-arg=-zstack-size=65536"]
    if library:
        flags.append(f"--sysroot={sysroot_for(rustc, version, library)}")
    words = ["cargo", "build", "-q", "--release", "--target", TARGET]
    if any(REGISTRY.glob("arrayvec-*")):
        words += ["--config", str(ROOT / "tools/debian.toml")]
    environment = {**os.environ, **more, "RUSTC": rustc, "CARGO_TARGET_DIR": str(target), "CARGO_ENCODED_RUSTFLAGS": "\x1f".join(flags)}
    environment[f"CARGO_TARGET_{TARGET.upper().replace('-', '_')}_LINKER"] = "wasm-ld"
    if subprocess.run(words, cwd=folder, env=environment).returncode != 0:
        raise Wrong("cargo could not build web/core")
    return (target / TARGET / "release/page_core.wasm").read_bytes(), tools(), read_files(target, folder)
