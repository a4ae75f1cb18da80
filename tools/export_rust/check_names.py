"""Resolves each name in backticks in the docs of the crates of rust/ to a thing that is there: `check_names.py`.

rustdoc sees links alone. A name in backticks is a path (`Log::step`), a call (`pages()`), a type or a constant, or a word that is a
function, a method, a field or an argument. It has to be one of the crate, of the crates of rust/ that it stands on, or of Rust's
own and of the crates that it depends on, which are listed here. In what is shown to a crate's user a call has to be public.
Words in backticks that are no names (bytes, options, lines of scripts) are listed, too, by crate.
"""

import argparse
import glob
import os
import re
import sys
from collections import defaultdict

sys.dont_write_bytecode = True

import rules
from by_hand import RUST

# Names of Rust and of the crates that are depended on.
KNOWN = {"None", "Some", "Ok", "Err", "Display", "Debug", "Clone", "no_std", "unsafe", "std::simd", "cargo test", "clap",
         "embedded_storage", "embedded_storage::nor_flash", "embedded_storage::nor_flash::NorFlash", "AlreadyExists", "u64::MAX"}

# Programs and files of Linux, whose output is read.
LINUX = {"hexdump", "od", "rdesc", "xxd"}

# What stands in backticks and names nothing of Rust, by crate: parts of lines that are printed or read, and words of them.
WORDS = {
    "kbsim": LINUX | {"array", "bound", "feature", "first-last", "input", "most", "negative", "output", "packet", "variable", "count"},
    "wuzhikar-device": {"ack"},
    "wuzhikar-hid": LINUX,
    "wuzhikar-reader": {"_in", "try_"},
}

# The crates of rust/, as they are named in Rust.
CRATES = {of.library for of in rules.WORKSPACE} | {"wuzhikar_device"}

# Spans of this form may be names.
NAME = re.compile(r"(?:[A-Za-z_]\w*)(?:::[A-Za-z_]\w*)*(?:\(.*\))?")

ITEM = re.compile(r"(?P<vis>pub(?:\([^)]*\))?\s+)?(?:const\s+)?(?:fn|struct|enum|trait|const|static|type|mod)\s+(?P<name>\w+)")

# The head of an `impl` with its type, and of an item with members of its own.
OWNER = re.compile(r"^(?:impl(?:<[^>]*(?:<[^>]*>)?[^>]*>)?\s+(?:(?:[\w:]+(?:<[^{]*?>)?)\s+for\s+)?&?(?:'\w+\s+)?(?P<of>[\w:]+)"
                   r"|(?:pub(?:\([^)]*\))?\s+)?(?:trait|enum|struct)\s+(?P<own>\w+))", re.M)

# A second name of a type, and that type.
ALIAS = re.compile(r"\btype\s+(?P<name>\w+)(?:<[^=]*>)?\s*=\s*(?:\w+::)*(?P<of>\w+)")

MEMBER = re.compile(r"(?:^|[{,\n])\s*(?:#\[[^\]]*\]\s*)*(?P<vis>pub(?:\([^)]*\))?\s+)?(?P<name>[A-Za-z_]\w*)\s*(?=[,:({=}])")


class Names:
    """The names of a crate: items by name, members by their owner, and all that stands in its code."""

    def __init__(self):
        self.public, self.all = set(), set()
        self.members = defaultdict(set)   # by owner: all
        self.shown = defaultdict(set)     # by owner: those that are public
        self.words = set()                # each identifier of the code
        self.aliases = {}                 # second names of types: the type of each

    def join(self, other):
        self.public |= other.public
        self.all |= other.all
        self.words |= other.words
        self.aliases |= other.aliases
        for mine, others in ((self.members, other.members), (self.shown, other.shown)):
            for owner, found in others.items():
                mine[owner] |= found


def code_of(text):
    """A file without its comments and strings."""
    return re.sub(r'"(?:[^"\\]|\\.)*"|//[^\n]*', lambda found: '""' if found[0][0] == '"' else "", text)


def read_names(crate):
    """The names of a crate's code."""
    names = Names()
    for path in glob.glob(f"{RUST}/{crate}/src/**/*.rs", recursive=True):
        with open(path, encoding="utf-8") as file:
            text = code_of(file.read())
        read_file(names, text)
        stem = os.path.splitext(os.path.basename(path))[0]
        names.all.add(stem)
        names.members["mod " + stem] |= {found["name"] for found in ITEM.finditer(text)}
    return names


def read_file(names, text):
    """Adds the names of a file."""
    names.words |= set(re.findall(r"[A-Za-z_]\w*", text))
    names.aliases |= {found["name"]: found["of"] for found in ALIAS.finditer(text)}
    for found in ITEM.finditer(text):
        names.all.add(found["name"])
        if (found["vis"] or "").strip() == "pub":
            names.public.add(found["name"])
    for block in re.finditer(r"\bmod (\w+)(?= {)", text):
        names.members["mod " + block[1]] |= {found["name"] for found in ITEM.finditer(body_after(text, block.end()))}
    for block in OWNER.finditer(text):
        owner = (block["of"] or block["own"]).split("::")[-1]
        body = body_after(text, block.end())
        is_open = block["own"] or " for " in block[0]
        for found in ITEM.finditer(body):
            names.members[owner].add(found["name"])
            if is_open or (found["vis"] or "").strip() == "pub":
                names.shown[owner].add(found["name"])
        if block["own"]:
            for member in MEMBER.finditer(body):
                names.members[owner].add(member["name"])
                # (A variant, and what a trait has, is as public as its owner.)
                if "struct" not in block[0] or member["vis"] == "pub ":
                    names.shown[owner].add(member["name"])


def body_after(text, at):
    """The block in braces that begins after a place, or nothing."""
    opening = re.compile(r"[{;]").search(text, at)
    if not opening or opening[0] == ";":
        return ""
    depth = 0
    for end in range(opening.start(), len(text)):
        depth += {"{": 1, "}": -1}.get(text[end], 0)
        if depth == 0:
            return text[opening.start():end + 1]
    return text[opening.start():]


def below(crate):
    """The crates of rust/ that a crate stands on, itself among them."""
    with open(f"{RUST}/{crate}/Cargo.toml", encoding="utf-8") as file:
        named = set(re.findall(r"^(wuzhikar[\w-]*|kbsim)(?:\.workspace)? =", file.read(), re.M))
    found = {crate}
    for name in named - {crate}:  # (its tests take it with another feature)
        found |= below(name)
    return found


def docs_of(path):
    """The docs of a file, as (line, text, shown): `shown` where they are of an item, or of what a user reads first."""
    with open(path, encoding="utf-8") as file:
        lines = file.read().split("\n")
    fenced = False
    for number, line in enumerate(lines, 1):
        found = (re.match(r"()(.*)", line) if path.endswith(".md") else re.match(r"\s*//([/!]) ?(.*)", line))
        if not found:
            continue
        if found[2].startswith("```"):
            fenced = not fenced
        elif not fenced:
            yield number, found[2], found[1] != "!" or os.path.basename(path) in ("lib.rs", "face.rs")


def unresolved(crate):
    """The names in a crate's docs that name nothing, as lines."""
    names = Names()
    for name in sorted(below(crate)):
        names.join(read_names(name))
    paths = sorted(glob.glob(f"{RUST}/{crate}/src/**/*.rs", recursive=True)) + [f"{RUST}/{crate}/README.md"]
    for path in paths:
        for number, text, shown in docs_of(path):
            for span in re.findall(r"`([^`]+)`", text):
                why = fault(names, crate, span, shown)
                if why:
                    yield f"{os.path.relpath(path, os.path.dirname(RUST))}:{number}: `{span}` {why}"


def fault(names, crate, span, shown):
    """Why a span names nothing, if it doesn't."""
    if span in KNOWN or span in WORDS.get(crate, ()) or not NAME.fullmatch(span):
        return ""
    path = re.sub(r"\(.*\)$", "", span).removeprefix("crate::").split("::")
    *owners, last = path
    if not owners:
        if last in names.all or last in names.words or last in CRATES:
            return ""
        return "is nothing of this crate"
    owner = names.aliases.get(owners[-1], owners[-1])
    if last in names.members["mod " + owner] or owner in CRATES and last in names.public:
        return ""
    if last not in names.members[owner]:
        return f"names nothing: {owner} has no {last}"
    if shown and last not in names.shown[owner]:
        return "is not public, and its user can't call it"
    return ""


def main():
    argparse.ArgumentParser(prog="check_names.py", description=__doc__, formatter_class=argparse.RawDescriptionHelpFormatter).parse_args()
    crates = sorted(name for name in os.listdir(RUST) if os.path.isdir(f"{RUST}/{name}/src") and name != "tests")
    faults = [fault for crate in crates for fault in unresolved(crate)]
    for fault in faults:
        print(fault)
    return 1 if faults else 0


if __name__ == "__main__":
    sys.exit(main())
