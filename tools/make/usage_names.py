"""Compares what is made of the names of usages with them: `usage_names.py`. With --write it writes it anew.

The one file of names is rust/wuzhikar-hid/src/usages.txt. Of it are made the names that `run --explain` tells (those of the pages
07h and 0Ch that a report of this keyboard can have), and the constants of Rust and of C.
"""

import argparse
import os
import re
import sys

ROOT = os.path.dirname(os.path.dirname(os.path.dirname(os.path.abspath(__file__))))
SOURCE = "rust/wuzhikar-hid/src/usages.txt"
EXPLAINED = """\
//! The names of the usages that reports of this keyboard can have. `tools/make/usage_names.py --write` makes this file from
//! `rust/wuzhikar-hid/src/usages.txt`.
"""
# The pages that are explained: their number, their constant, what it says of them, and the usages.
PAGES = [
    (0x07, "KEYBOARD", "Page 07h (HUT section 10): a usage in hex and its name in each line.", [*range(0x01, 0xA5), *range(0xE0, 0xE8)]),
    (0x0C, "CONSUMER", "Page 0Ch (HUT section 15): the same.", range(0x001, 0x400)),
]
RUST = """\
//! The usages of the HID Usage Tables as constants, a module for each page: its number, and its usages by their names.
//!
//! A usage has its page in the high half. A constant is the name in the tables in capitals, with an underscore between words:
//! Volume Increment is [`consumer::VOLUME_INCREMENT`], and PageUp [`keyboard::PAGE_UP`]. A sign between words is left out, but a
//! plus and a sign that stands alone have their names: [`keyboard::KEYPAD_SLASH`]. An N stands before a digit that would come
//! first. On the page Keyboard/Keypad the word Keyboard and what follows "and" are left out: [`keyboard::A`], [`keyboard::N1`].
//! A module has the name of the page up to a slash. Usages that a page counts have no constants: button 3 is
//! `button::PAGE << 16 | 3`.
//!
//! `tools/make/usage_names.py --write` of the repository makes this file from `usages.txt`.
"""
C = """\
// SPDX-License-Identifier: MIT OR Apache-2.0
/* The usages of the HID Usage Tables as constants, by page: its number, and its usages by their names.
 *
 * A usage has its page in the high half. A constant is HIDU_, the name of the page up to a slash, and the name in the tables in
 * capitals, with an underscore between words: Volume Increment of the page Consumer is HIDU_CONSUMER_VOLUME_INCREMENT. A sign
 * between words is left out, but a plus and a sign that stands alone have their names: HIDU_KEYBOARD_KEYPAD_SLASH. An N stands
 * before a digit that would come first in a name. On the page Keyboard/Keypad the word Keyboard and what follows "and" are left
 * out: HIDU_KEYBOARD_A, HIDU_KEYBOARD_N1. Usages that a page counts have no constants: button 3 is HIDU_BUTTON_PAGE << 16 | 3.
 *
 * tools/make/usage_names.py --write makes this file from rust/wuzhikar-hid/src/usages.txt. */
#ifndef HID_USAGES_H
#define HID_USAGES_H

#include <stdint.h>
"""
SIGNS = {
    "!": "EXCLAMATION_MARK", "#": "HASH", "%": "PERCENT", "&": "AMPERSAND", "'": "APOSTROPHE", "(": "LEFT_PARENTHESIS",
    ")": "RIGHT_PARENTHESIS", "*": "ASTERISK", "+": "PLUS", ",": "COMMA", "-": "MINUS", ".": "DOT", "/": "SLASH", ":": "COLON",
    ";": "SEMICOLON", "<": "LESS", "=": "EQUALS", ">": "GREATER", "@": "AT", "[": "LEFT_BRACKET", "\\": "BACKSLASH",
    "]": "RIGHT_BRACKET", "^": "CARET", "{": "LEFT_BRACE", "}": "RIGHT_BRACE",
}


class Page:
    """A page of the names: its number and name, where its lines begin and end in bytes, and its usages with their names."""

    def __init__(self, number, name, first):
        self.number, self.name, self.first, self.end = number, name, first, first
        self.usages = []
        self.module = capitals(name.split("/")[0]).lower()

    def constant(self, name):
        """The constant of a usage."""
        if self.number == 0x07:
            name = name.removeprefix("Keyboard ").split(" and ")[0]
        name = capitals(name)
        return "N" + name if name[0].isdigit() else name


def capitals(name):
    """A name as an identifier: its words in capitals, with an underscore between them."""
    words = []
    for word in name.split(" "):
        if not re.search("[A-Za-z0-9]", word):
            words += [SIGNS[sign] for sign in word]
            continue
        word = re.sub("(?<=[a-z])(?=[A-Z])|(?<=[A-Z])(?=[A-Z][a-z])(?![A-Z]s$)", " ", word.replace("+", "plus "))
        words += re.findall("[A-Za-z0-9]+", word)
    return "_".join(words).upper()


def pages_of(text):
    """The pages of the file of names. They and their usages rise, and `*` stands first on its page: a name is found by halves."""
    pages, at = [], 0
    for line in text.splitlines(keepends=True):
        number, _, name = line.rstrip("\n").partition(" ")
        if number == "page":
            number, _, name = name.partition(" ")
            pages.append(Page(int(number, 16), name, at))
        at += len(line.encode())
        if pages:
            pages[-1].end = at
        if number == "*":
            assert not pages[-1].usages, line
        elif pages and not line.startswith("page"):
            pages[-1].usages.append((int(number, 16), name.split(" | ")[0]))
    for rising in ([page.number for page in pages], *([usage for usage, _ in page.usages] for page in pages)):
        assert rising == sorted(set(rising)), rising
    return pages


def explained(pages):
    """The module of the names that `run --explain` tells."""
    parts, by_number = [EXPLAINED], {page.number: page.usages for page in pages}
    for page, constant, said, usages in PAGES:
        rows = [f"{usage:02X} {name}" for usage, name in by_number[page] if usage in usages]
        rows = [row.replace("\\", "\\\\").replace('"', '\\"') for row in rows]
        parts.append(f'/// {said}\npub(crate) const {constant}: &str = "\\\n' + "\n".join(rows) + '";\n')
    return "\n".join(parts)


def in_rust(pages):
    """The constants of Rust, and where each page stands in the file of names."""
    lines = [RUST, "/// The pages of `usages.txt`, rising: the number of each, and where its lines begin and end, in bytes."]
    lines += [f"pub(crate) static PAGES: [(u16, usize, usize); {len(pages)}] = ["]
    lines += [*(f"    (0x{page.number:02x}, {page.first}, {page.end})," for page in pages), "];"]
    for page in pages:
        lines += [f"\n/// The page {page.name}.", f"pub mod {page.module} {{", "    /// The number of the page: the high half of each usage."]
        lines += [f"    pub const PAGE: u32 = 0x{page.number:04x};"]
        for usage, name in page.usages:
            lines += [f"    /// {name}", f"    pub const {page.constant(name)}: u32 = 0x{page.number:04x}_{usage:04x};"]
        lines += ["}"]
    return "\n".join(lines) + "\n"


def in_c(pages):
    """The constants of C, each once."""
    lines, seen = [C], set()
    for page in pages:
        named = [("PAGE", f"0x{page.number:04x}", page.name)]
        named += [(page.constant(name), f"0x{page.number:04x}{usage:04x}", name) for usage, name in page.usages]
        for constant, number, name in named:
            constant = f"HIDU_{page.module.upper()}_{constant}"
            assert constant not in seen, constant
            seen.add(constant)
            lines.append(f"#define {constant} UINT32_C({number}) /* {name} */")
        lines.append("")
    return "\n".join(lines) + "\n#endif\n"


MADE = {
    "crates/explanations/src/usages.rt": explained,
    "rust/wuzhikar-hid/src/usages.rs": in_rust,
    "c/reader/hid_usages.h": in_c,
}


def main():
    parser = argparse.ArgumentParser(description=__doc__, formatter_class=argparse.RawDescriptionHelpFormatter)
    parser.add_argument("--write", action="store_true", help="writes what is made")
    arguments = parser.parse_args()
    with open(f"{ROOT}/{SOURCE}", encoding="utf-8") as file:
        pages = pages_of(file.read())
    status = 0
    for path, make in MADE.items():
        with open(f"{ROOT}/{path}", "w" if arguments.write else "r", encoding="utf-8") as file:
            if arguments.write:
                file.write(make(pages))
            elif file.read() != make(pages):
                print(f"{path} is not what {SOURCE} gives: python3 -B tools/make/usage_names.py --write makes it anew")
                status = 1
    return status


if __name__ == "__main__":
    sys.exit(main())
