"""Cores that are broken on purpose: the page's own, with a line of web/core changed as a mutant says."""

import hashlib
import pathlib
import shutil

from page import core
from support import alone

FOLDER = pathlib.Path(__file__).resolve().parent / "broken"
KEPT = core.ROOT / "out/page/broken"
# They need not be small.
QUICKLY = {f"CARGO_PROFILE_RELEASE_{name}": value for name, value in {"LTO": "off", "OPT_LEVEL": "1", "CODEGEN_UNITS": "16"}.items()}


def edited(text, edit):
    """A file's text with the one line that a mutant replaces."""
    old, new = edit["old"], edit["new"]
    if text.count(old) != 1:
        raise AssertionError(f"{edit['name']}: {edit['file']} has {text.count(old)} times, not once: {old.strip()}")
    return text.replace(old, new)


def read(name):
    """An edit: its file, and the line that it replaces."""
    lines = dict(line.split(": ", 1) for line in (FOLDER / f"{name}.edit").read_text().splitlines())
    return {"name": name, **lines}


def built(name):
    """The module with this edit, built once for its sources."""
    edit = read(name)
    said = core.SOURCES.read_text() + (FOLDER / f"{name}.edit").read_text()
    kept = KEPT / f"{name}-{hashlib.sha256(said.encode()).hexdigest()[:16]}.wasm"
    with alone():
        if not kept.exists():
            build(edit, kept)
    return kept.read_bytes()


def build(edit, kept):
    """Builds it into a file."""
    root = KEPT / "root"
    shutil.rmtree(root, ignore_errors=True)
    for part in ("rust", "web/core"):
        shutil.copytree(core.ROOT / part, root / part, ignore=shutil.ignore_patterns("target"))
    file = root / "web/core" / edit["file"]
    file.write_text(edited(file.read_text(), edit))
    kept.write_bytes(core.build(root=root, target=KEPT / "target", **QUICKLY)[0])
