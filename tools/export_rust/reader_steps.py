"""Steps of bin/export-test: the reader in plain Rust over the rows of tests/ and real descriptors, and growths that are refused."""

import glob
import re

import target_steps
import texts
from room import ROOT, Failed, say
from test_kbsim import read_cases

# Descriptors of the repository that are no rows: a text in hex, and its lines.
EXAMPLES = [("examples/media_keys.hex", "examples/media_keys.expected")]

# How many generated descriptors are parsed, besides, while their growths are refused.
GENERATED = 300


def cases():
    """Each descriptor in hex with its place and the lines that are printed of it."""
    for path in sorted(glob.glob(f"{ROOT}/tests/descriptors/*.rows")):
        for heading, found in read_cases(path).items():
            if heading.partition(": ")[2] != "parse":
                continue
            for case in found:
                # (Of a text that is no hex there is nothing to parse.)
                if re.fullmatch(rb"[0-9A-Fa-f\s]*", case.given) and case.printed != "fault hex\n":
                    yield case.place, case.given.decode(), case.printed
    for text, lines in EXAMPLES:
        with open(f"{ROOT}/{text}", encoding="utf-8") as given, open(f"{ROOT}/{lines}", encoding="utf-8") as printed:
            yield text, given.read(), printed.read()


def given_to_reader(found):
    """The texts as the program `reader` takes them, a line each."""
    return "".join("".join(text.split()) + "\n" for _, text, _ in found).encode()


def rows(room, _):
    """Compares the fields, or the fault, of each descriptor; the program parses it whole and in pieces."""
    found = list(cases())
    for name, reader in target_steps.on_each(room, "reader"):
        told = room.run([reader, "lines"], given=given_to_reader(found)).decode()
        printed = re.findall(r"(?:(?!\.$).+\n)*\.\n", told, re.M)
        if len(printed) != len(found):
            raise Failed(f"{len(found)} descriptors were given, and {len(printed)} were answered")
        for (place, _, wanted), answer in zip(found, printed):
            if answer.removesuffix(".\n") != wanted:
                raise Failed(f"{place}: the reader on {name} prints\n{answer}and not\n{wanted}")
        say(f"{len(found)} descriptors on {name}, whole and in seven sizes of pieces: the lines of tests/ and of the examples")


def growths(room, _):
    """Refuses each growth of the reader in turn."""
    found = list(cases()) + [("", texts.descriptor(number).hex(), "") for number in range(GENERATED)]
    for name, reader in target_steps.on_each(room, "reader"):
        told = room.run([reader, "refused"], given=given_to_reader(found)).decode()
        say(f"on {name}: {told.strip()}")


STEPS = {
    "the reader": rows,
    "refused growths of the reader": growths,
}
