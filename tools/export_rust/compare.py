"""The answers of a driver on a keyboard to generated scripts, for a comparison with those of `kbsim`.

A driver is a program that plays a script on its standard input and prints what `kbsim` prints, without what `kbsim` adds on how
a report is read. It takes the options `--pages`, `--image` and `--save` of `kbsim run`.
"""

import collections
import subprocess
import tempfile

from scripts import Lawful, Script, image, script

WORDS = {"ack", "nak", "data", "report", "ok", "idle", "working", "settled", "failed", "restart", "fetched"}

# A look at each entry of the keymap that an image holds.
ENTRIES = "".join(f"entry {layer} {key}\n" for layer in range(4) for key in range(96))


def run(command, text):
    """The lines that a program prints of a script, without what `kbsim` adds on how a report is read."""
    ended = subprocess.run(command, input=text, capture_output=True, text=True)
    if ended.returncode:
        return [f"status {ended.returncode}: {ended.stderr.strip()}"]
    return [" ".join(line.split()[:3]) for line in ended.stdout.splitlines()]


def run_saved(command, text, begun):
    """The same of a script that runs on an image, with the flash after it as a last line."""
    with tempfile.TemporaryDirectory() as folder:
        with open(f"{folder}/begun", "wb") as file:
            file.write(begun)
        lines = run([*command, "--image", f"{folder}/begun", "--save", f"{folder}/saved"], text)
        try:
            with open(f"{folder}/saved", "rb") as file:
                return [*lines, f"flash saved {file.read().hex()}"]
        except FileNotFoundError:
            return [*lines, "flash saved nowhere"]


def answers(command, number):
    """What a program prints of the script of this number. Every second script is of all lines of the language, and every third one
    runs on an image, whose number is that of the script."""
    kind_of_script = Lawful if number % 2 else Script
    if number % 3 == 2:
        begun = image(number)
        return run_saved(command, ENTRIES + script(number, made_for(len(begun) // 4096, kind_of_script))[1], begun)
    pages, text = script(number, kind_of_script)
    return run([*command, "--pages", str(pages)], text)


def made_for(pages, kind_of_script):
    """A kind of script, for a flash of so many pages."""

    class Made(kind_of_script):
        """Looks at no page that is not there."""

        def __init__(self, number):
            super().__init__(number)
            self.pages = pages

    return Made


def difference(number, expected, printed):
    """The first answer that differs, in words; empty where none does."""
    for at, (one, other) in enumerate(zip(expected + ["nothing"], printed + ["nothing"]), 1):
        if one != other:
            shown = [line if len(line) < 80 else f"{line[:60]}.." for line in (one, other)]
            return f"script {number}, answer {at}: kbsim: {shown[0]}; the driver: {shown[1]}"
    return ""


def kind(line):
    """What an answer is counted as."""
    word, *rest = line.split()[1:]
    if word == "stall":
        return f"stall {rest[0]}"
    return "flashes" if word == "saved" else word if word in WORDS else "bytes"


def counted(lists):
    """How many answers of each kind are in these lists of lines."""
    found = collections.Counter(kind(line) for lines in lists for line in lines)
    return f"{sum(found.values())} answers, none differs: " + ", ".join(f"{n} {word}" for word, n in sorted(found.items()))
