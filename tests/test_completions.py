"""Compares the completions and the man page with what tools/make/completions/make writes, and with what the program's help says.

They run on the program that the variable KBSIM names, or else on bin/kbsim.
"""

import os
import re
import shutil
import subprocess
import sys
import tempfile
import unittest

ROOT = os.path.dirname(os.path.dirname(os.path.abspath(__file__)))
sys.path.insert(0, f"{ROOT}/tools")
from debian_crates import installed  # noqa: E402

KBSIM = [os.environ["KBSIM"]] if "KBSIM" in os.environ else [f"{ROOT}/bin/kbsim", "--quiet"]
MADE = ("completions/_kbsim", "completions/kbsim.bash", "completions/kbsim.fish", "docs/kbsim.1")
# What the help of every command line has.
ALWAYS = {"--help", "--version"}
FORMS = {"hex", "c", "rust", "loose", "xxd", "hexdump", "rdesc", "usbhid-dump", "hid-recorder", "bytes", "auto"}


def read(name, folder=ROOT):
    with open(f"{folder}/{name}", encoding="utf-8") as file:
        return file.read()


def help_of(*words):
    """The program's help."""
    return subprocess.run([*KBSIM, *words, "--help"], stdout=subprocess.PIPE, check=True, text=True).stdout


def commands():
    """The commands that the program's help lists, each with its options; `help` itself stands apart."""
    listed = help_of().split("Commands:\n")[1].split("\n\n")[0]
    names = set(re.findall(r"^  ([a-z]+)\b", listed, re.M)) - {"help"}
    return {name: set(re.findall(r"^ +(?:-\w, )?(--[a-z]+)", help_of(name), re.M)) - ALWAYS for name in names}


class Completions(unittest.TestCase):
    """What the shells and `man` are told."""

    @classmethod
    def setUpClass(cls):
        cls.commands = commands()

    @unittest.skipUnless(installed("clap_complete") and shutil.which("cargo"), "no cargo or no clap_complete (Debian: librust-clap-complete-dev)")
    def test_they_are_what_is_written_anew(self):
        with tempfile.TemporaryDirectory() as folder:
            subprocess.run([f"{ROOT}/tools/make/completions/make", folder], check=True)
            for name in MADE:
                with self.subTest(name):
                    self.assertEqual(read(name), read(name, folder))

    def test_they_are_installed_with_the_program(self):
        with tempfile.TemporaryDirectory() as folder:
            subprocess.run([f"{ROOT}/bin/install", "/usr"], env={**os.environ, "DESTDIR": folder}, stdout=subprocess.PIPE, check=True)
            places = ("zsh/site-functions/_kbsim", "bash-completion/completions/kbsim", "fish/vendor_completions.d/kbsim.fish", "man/man1/kbsim.1")
            for name, place in zip(MADE, places, strict=True):
                self.assertEqual(read(name), read(f"usr/share/{place}", folder))
            told = subprocess.run([f"{folder}/usr/bin/kbsim", "--version"], stdout=subprocess.PIPE, check=True, text=True).stdout
            self.assertEqual(told.split(), ["kbsim", *read("VERSION").split()])

    def bash(self, *words):
        """What bash completes the last of these words with."""
        script = 'source "$1"; shift; COMP_WORDS=("$@"); COMP_CWORD=$(($# - 1)); _kbsim kbsim "${@: -1}" "${@: -2:1}"; echo "${COMPREPLY[@]}"'
        words = ["bash", "-c", script, "-", f"{ROOT}/completions/kbsim.bash", "kbsim", *words]
        return set(subprocess.run(words, stdout=subprocess.PIPE, check=True, text=True).stdout.split())

    def test_bash(self):
        self.assertEqual({word for word in self.bash("") if not word.startswith("-")} - {"help"}, set(self.commands))
        for name, options in self.commands.items():
            with self.subTest(name):
                self.assertEqual({word for word in self.bash(name, "--") if word.startswith("--")} - ALWAYS, options)
        self.assertEqual(self.bash("run", "--pages", ""), {"2", "3", "4", "5", "6", "7", "8"})
        self.assertEqual(self.bash("parse", "--from", ""), FORMS)
        self.assertEqual(self.bash("write", "--kind", ""), {"input", "output", "feature"})

    def test_the_others(self):
        with self.subTest("zsh"):
            if not shutil.which("zsh"):
                self.skipTest("zsh is not there (Debian: zsh)")
            subprocess.run(["zsh", "-n", f"{ROOT}/completions/_kbsim"], check=True)
        zsh, fish, page = read(MADE[0]), read(MADE[2]), read(MADE[3]).replace("\\-", "-")
        for name, options in self.commands.items():
            with self.subTest(name):
                part = re.search(rf"^ *\({name}\)\n_arguments(.*?)^;;", zsh, re.M | re.S)
                self.assertEqual(set(re.findall(r"'(?:\(.*?\))?(--[a-z]+)[=\[]", part[1])) - ALWAYS, options)
                lines = [line for line in fish.splitlines() if f'__fish_seen_subcommand_from {name}"' in line]
                self.assertEqual({f"--{word}" for line in lines for word in re.findall(r" -l ([a-z]+)", line)} - ALWAYS, options)
                part = re.search(rf"^\.SS {name}\n(.*?)(?=^\.S[SH] )", page, re.M | re.S)
                self.assertEqual(set(re.findall(r"^\\fB(--[a-z]+)", part[1], re.M)), options)


if __name__ == "__main__":
    unittest.main()
