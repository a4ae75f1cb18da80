"""Compares the peer's answers with those of `kbsim`: of the keyboard over generated scripts of all lines of the language, and on
images of flash; of the parser over generated report descriptors.

With other default codes the keyboard is compared with the exported crate, by tools/export_rust/driver, over a third of the scripts.

The peer is built with AddressSanitizer and UBSan. Then copies of it with one wrong line each have to be told apart. The variable
KBSIM names the program to compare with, or else it is that of bin/kbsim.
"""

import collections
import os
import shutil
import subprocess
import sys
import tempfile
from typing import NamedTuple

HERE = os.path.dirname(os.path.abspath(__file__))
ROOT = os.path.dirname(os.path.dirname(HERE))
sys.path[:0] = [f"{ROOT}/tools/export_rust", f"{ROOT}/tools"]

import building
from changes import replace_once
from compare import answers, counted, difference
from texts import text

BENCH = f"{ROOT}/bench"
PEER = f"{ROOT}/reference/peer"
STRICT = ["-Wall", "-Wextra", "-Wpedantic", "-Werror", "-g", "-O1", "-fsanitize=address,undefined", "-fno-sanitize-recover=all"]

# Wrong lines, of which the comparison has to see each: the file, what stands there once, and what in its place.
PLANTED = [
    ("keys.h", "five = a & c;", "five = ~a & c;"),
    ("keys.h", "layer == 0 || kb.momentary[layer]", "layer == 0 || kb.momentary[layer] == 1"),
    ("keymap.h", "return code - MODIFIER < 8;", "return code - MODIFIER < 7;"),
    ("keymap.h", "0xea, 0x192, 0x223", "0xea, 0x193, 0x223"),
    ("reports.h", "due == 3 ? kb.last == 1", "due == 3 ? kb.last != 2"),
    ("reports.h", "to->words[1] = 0x01010101;", "to->words[1] = 0x010101;"),
    ("reports.h", "kb.age[1] >= 4u * kb.idle[1]", "kb.age[1] > 4u * kb.idle[1]"),
    ("reports.h", "least[i - 1] == usage) ||", "least[i - 1] > usage) ||"),
    ("state.h", "QUEUE = 8,", "QUEUE = 9,"),
    ("log.h", "sequence > kb.sequence", "sequence >= kb.sequence"),
    ("log.h", "|| is_good(slot_at(page, slot), word);", ";"),
    ("log.h", "if (!is_free(slot_at(kb.active, kb.tail)))", "if (is_free(slot_at(kb.active, kb.tail)))"),
    ("endpoint.h", "n % KB_PACKET == 0;", "n % KB_PACKET == 1;"),
    ("endpoint.h", "kb.sequence == SEQUENCE_MAX", "kb.sequence > SEQUENCE_MAX"),
    ("endpoint.h", "if (kb.command)\n        return KB_NAK;", ""),
    ("endpoint.h", "kb.leds = p[n - 1] & 0x1f;", "kb.leds = p[n - 1];"),
    ("keyboard.c", "kb.idle[0] = 125;", "kb.idle[0] = 124;"),
    ("descriptors.h", "0x75, 0x10, 0x95, 0x04", "0x75, 0x10, 0x95, 0x05"),
]

# The same of a keyboard with other default codes.
PLANTED_IN_CODES = [
    ("keymap.h", "{ return CODES[place]; }", "{ return place < KEYS ? CODES[place] : TRANSPARENT; }"),
    ("keymap.h", "kb.keymap[from] = default_at(from);", "kb.keymap[from] = from < KEYS ? default_at(from) : TRANSPARENT;"),
]

# The same of the parser.
PLANTED_IN_PARSER = [
    ("parser.c", "now->min < 0 ? now->signed_max", "now->min <= 0 ? now->signed_max"),
    ("parser.c", "(whole && (first ^ last) >> 16)", "(whole && (first ^ last) >> 17)"),
    ("parser.c", "p->now = p->saved[--p->pushes];", "p->pushes--;"),
    ("parser.c", "reports->bits[kind] = bit + now->size * now->count;", "reports->bits[kind] = bit + now->size;"),
    ("parser.c", "as_signed = (int8_t)item[1];", "as_signed = item[1];"),
    ("parser.c", "    if (first > last)\n", "    if (first >= last)\n"),
    ("parser.c", "return now->id == 0 && p->has_ids ? MIXED_IDS", "return now->id == 0 && p->has_bare ? MIXED_IDS"),
]


class Wrong(Exception):
    """What does not hold, in words."""


def say(text):
    print(f"bench: {text}", flush=True)


class Player(NamedTuple):
    """A program over the peer: its sources in bench/ and in the peer's folder, and what is planted there."""

    name: str
    source: str
    parts: list[str]
    planted: list[tuple[str, str, str]]
    defined: tuple[str, ...] = ()

    def built(self, peer, program, *options):
        """Builds it over a copy of the peer."""
        parts = [f"{peer}/{part}" for part in self.parts]
        words = ["gcc", "-std=c11", *options, *self.defined, f"-I{peer}", f"{BENCH}/{self.source}", *parts, "-o", program]
        ran = subprocess.run(words, capture_output=True, text=True)
        if ran.returncode:
            raise Wrong(f"{' '.join(words)}:\n{ran.stderr}")
        return program


KEYBOARD = Player("scripts", "play.c", ["keyboard.c", "restart.c"], PLANTED)
PARSER = Player("texts", "parse.c", ["parser.c"], PLANTED_IN_PARSER)


def reference():
    """The program to compare with."""
    if os.environ.get("KBSIM"):
        return os.environ["KBSIM"]
    told = subprocess.run([f"{ROOT}/bin/kbsim", "--path"], stdout=subprocess.PIPE, text=True)
    if told.returncode:
        raise Wrong("bin/kbsim has no program")
    return told.stdout.strip()


class Scripts:
    """Scripts, and what is answered to them."""

    def __init__(self, words):
        self.words, self.kept = words, {}

    def expected(self, number):
        """What the program of these words answers, asked for once."""
        if number not in self.kept:
            self.kept[number] = answers(self.words, number)
        return self.kept[number]

    def difference(self, program, number):
        """The first answer that a program gives otherwise, in words; empty where none is."""
        return difference(number, self.expected(number), answers([program], number))

    def summary(self, count):
        return f"{count} scripts, {counted(map(self.expected, range(count)))}"


def printed(words, given):
    """What a program prints of a text."""
    return subprocess.run(words, input=given.encode(), capture_output=True).stdout.decode()


class Texts:
    """Report descriptors, and what is printed of them."""

    def __init__(self, kbsim):
        self.kbsim, self.kept = kbsim, {}

    def expected(self, number):
        """What kbsim prints, asked for once."""
        if number not in self.kept:
            self.kept[number] = printed([self.kbsim, "parse"], text(number))
        return self.kept[number]

    def difference(self, program, number):
        """The last line that a program prints otherwise, in words; empty where all is the same."""
        one, other = self.expected(number), printed([program], text(number))
        return "" if one == other else f"text {number}: kbsim: {one[-100:].strip()}; the peer: {other[-100:].strip()}"

    def summary(self, count):
        faults = collections.Counter()
        for number in range(count):
            last = (self.expected(number).splitlines() or [""])[-1]
            faults[last.rsplit(" at ", 1)[0] if last.startswith("fault") else "parsed"] += 1
        return f"{count} texts, none differs: " + ", ".join(f"{n} {word}" for word, n in sorted(faults.items()))


def first_difference(cases, program, count):
    """The first difference among so many cases."""
    return next(filter(None, (cases.difference(program, number) for number in range(count))), "")


def changed(folder, name, old, new):
    """A copy of the peer with one change."""
    shutil.rmtree(folder, ignore_errors=True)
    shutil.copytree(PEER, folder)
    try:
        replace_once(f"{folder}/{name}", old, new)
    except ValueError as why:
        raise Wrong(f"reference/peer: {why}") from why
    return folder


def compare_one(folder, player, cases, count, name="kbsim"):
    """Compares a program over the peer, and looks that each copy with a wrong line is told apart."""
    why = first_difference(cases, player.built(PEER, f"{folder}/right", *STRICT), count)
    if why:
        raise Wrong(f"the peer differs from {name}: {why}")
    say(f"the peer and {name}: {cases.summary(count)}")
    for name, old, new in player.planted:
        program = player.built(changed(f"{folder}/peer", name, old, new), f"{folder}/wrong")
        if not first_difference(cases, program, count):
            raise Wrong(f"{count} {player.name} don't tell a peer apart whose {name} says {new or 'nothing'} in place of {old}")
    say(f"{len(player.planted)} copies with a wrong line are told apart")


def compare_other(folder, count):
    """Compares the peer with the exported crate, both with other default codes."""
    lacks = [name for name in ("rustc", "cargo") if not shutil.which(name)]
    if lacks:
        say(f"skipped: other default codes, since there is no {' and no '.join(lacks)} (Debian: rustc-web cargo-web)")
        return
    try:
        driver = f"{building.programs()}/driver"
    except building.Wrong as why:
        raise Wrong(str(why)) from why
    codes = subprocess.run([driver, "codes"], stdout=subprocess.PIPE, check=True).stdout
    with open(f"{folder}/codes", "wb") as file:
        file.write(codes)
    player = KEYBOARD._replace(planted=PLANTED_IN_CODES, defined=(f'-DKB_CODES="{folder}/codes"',))
    compare_one(folder, player, Scripts([driver, "other"]), count, "the exported crate, both with other default codes")


def compare(scripts, texts):
    """The comparison; the exit status."""
    if not shutil.which("gcc"):
        say("skipped: compare, since there is no gcc (Debian: gcc, libc6-dev)")
        return 0
    try:
        kbsim = reference()
        with tempfile.TemporaryDirectory() as folder:
            compare_one(folder, PARSER, Texts(kbsim), texts)
            compare_one(folder, KEYBOARD, Scripts([kbsim, "run"]), scripts)
            compare_other(folder, scripts // 3)
    except Wrong as why:
        say(f"FAILED: {why}")
        return 1
    return 0
