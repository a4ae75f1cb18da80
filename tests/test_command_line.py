"""Tests of the program's command line, its files, its exit status and what it says on standard error.

They run on the program that the variable KBSIM names, or else on bin/kbsim, and with tests/test_kbsim.py on each program that is
built: the proved one, and that of plain Rust.
"""

import fcntl
import json
import os
import re
import subprocess
import tempfile
import unittest

ROOT = os.path.dirname(os.path.dirname(os.path.abspath(__file__)))
KBSIM = [os.environ["KBSIM"]] if "KBSIM" in os.environ else [f"{ROOT}/bin/kbsim", "--quiet"]

# Whether it is the program of plain Rust, which has words and sentences that the proved one lacks.
IS_PLAIN = subprocess.run([*KBSIM, "read", "--help"], capture_output=True).returncode == 0

# Words that are refused, and the first line of standard error behind `error: `. Plain Rust has the words of its own clap there,
# whose versions differ: what they quote, and the reason behind a value, is the same.
REFUSED = [
    ([], "'kbsim' requires a subcommand but one was not provided"),
    (["play"], "unrecognized subcommand 'play'"),
    (["--pages", "3"], "unexpected argument '--pages' found"),
    (["run", "--pages", "1"], "invalid value '1' for '--pages <N>': 1 is not in 2..=8"),
    (["run", "--pages", "9"], "invalid value '9' for '--pages <N>': 9 is not in 2..=8"),
    (["run", "--pages", "x"], "invalid value 'x' for '--pages <N>': invalid digit found in string"),
    (["run", "--pages", ""], "invalid value '' for '--pages <N>': cannot parse integer from empty string"),
    (["run", "--pages"], "a value is required for '--pages <N>' but none was supplied"),
    (["run", "--image", "a", "--pages", "2"], "the argument '--image <FILE>' cannot be used with '--pages <N>'"),
    (["run", "--image"], "a value is required for '--image <FILE>' but none was supplied"),
    (["parse", "--save", "a"], "unexpected argument '--save' found"),
    (["run", "script", "more"], "unexpected argument 'more' found"),
    (["run", "-", "-"], "unexpected argument '-' found"),
    (["parse", "text", "--items", "more"], "unexpected argument 'more' found"),
    (["describe", "text"], "unexpected argument 'text' found"),
    (["parse", "--items=x"], "unexpected value 'x' for '--items' found; no more were expected"),
    (["run", "--items"], "unexpected argument '--items' found"),
    (["describe", "--pages", "3"], "unexpected argument '--pages' found"),
    (["parse", "--from", "x"], "invalid value 'x' for '--from <FORM>'"),
    (["parse", "--from", "C"], "invalid value 'C' for '--from <FORM>'"),
    (["parse", "--from"], "a value is required for '--from <FORM>' but none was supplied"),
    (["parse", "--from=c", "--from=c"], "the argument '--from <FORM>' cannot be used multiple times"),
    (["run", "--from", "c"], "unexpected argument '--from' found"),
    (["run", "--explain=x"], "unexpected value 'x' for '--explain' found; no more were expected"),
    (["parse", "--explain"], "unexpected argument '--explain' found"),
    (["run", "--explain", "--explain"], "the argument '--explain' cannot be used multiple times"),
]

# Words that ask for help or the version, and a line of what is printed.
HELPS = [
    (["--help"], "Usage: kbsim <COMMAND>"),
    (["help"], "Usage: kbsim <COMMAND>"),
    (["run", "--help"], "Usage: kbsim run [OPTIONS] [FILE]"),
    (["help", "run"], "Usage: kbsim run [OPTIONS] [FILE]"),
    (["describe", "--help"], "Usage: kbsim describe"),
    (["--version"], "kbsim 0.2.0"),
]

WRONG_STAGE = "WrongStage: the packet does not belong to this stage of the transfer, or there is none"

# Words, what is given, the status, what is printed, and what is said on standard error.
ENDS = [
    (["run"], "work\nin x\n", 1, "fault line 2: wrong words\n", "line 2: in takes no word; here it has 1\n"),
    (["run", "-"], "work\nin x\n", 1, "fault line 2: wrong words\n", "line 2: in takes no word; here it has 1\n"),
    (["run", "--pages", "8"], "slot 7 511\n", 0, "1 ffffffffffffffff\n", ""),
    (["run", "--explain", "--pages", "8"], "slot 7 511\n", 0, "1 ffffffffffffffff\n", "line 1: page 7, slot 511: free\n"),
    (["run", "-", "--explain"], "\n# a\nin", 0, "3 stall 16\n", f"line 3: {WRONG_STAGE}\n"),
    (["run", "--explain"], "", 0, "", ""),
    (["parse"], "05\n", 1, "fault parse 1 at 0\n", "byte 0, item 05: truncated item\n"),
    (["parse", "-"], "5\n", 1, "fault hex\n", "the text has 1 hex digits, and a byte takes two\n"),
    (["parse", "--from", "hex"], "75 08 95 01 81 02", 0, "input 0 0 8 1 0 0 variable -\n", ""),
    (["parse", "--from", "c", "-"], "117,8,149,1,129,2", 0, "input 0 0 8 1 0 0 variable -\n", ""),
    (["parse", "-", "--from=bytes"], "\x75\x08", 0, "", ""),
    (["run"], "\ufeffin\n", 1, "fault line 1: unknown word\n", "line 1: a byte order mark (EF BB BF) stands before the text\n"),
    (["run"], "i\0n\0\n\0", 1, "fault line 1: unknown word\n", "line 1: the text is in UTF-16; UTF-8 is wanted\n"),
    (
        ["parse", "--items"],
        "C0\n",
        1,
        "   0  c0              End Collection  <-- fault 8: End Collection without Collection\nfault parse 8 at 0\n",
        "byte 0, item c0: End Collection without Collection\n",
    ),
    (["--version"], "", 0, "kbsim 0.2.0\n", ""),
]

# A file that is not there.
MISSING = "error: missing can't be opened: No such file or directory (os error 2)\n"


def lacks(words):
    """Whether the proved program lacks one of these words."""
    return any(word.startswith(("--items", "--from", "--image", "--save")) for word in words)


class Calls(unittest.TestCase):
    """A folder of its own for each test, and calls of the program in it."""

    def setUp(self):
        folder = tempfile.TemporaryDirectory()
        self.addCleanup(folder.cleanup)
        self.folder = folder.name

    def call(self, words, given="", **how):
        """Runs the program in the test's folder: its status, what it printed, and what it said on standard error."""
        how.setdefault("stdout", subprocess.PIPE)
        if "stdin" not in how:
            how["input"] = given.encode()
        ran = subprocess.run([*KBSIM, *words], stderr=subprocess.PIPE, cwd=self.folder, **how)
        return ran.returncode, (ran.stdout or b"").decode(), ran.stderr.decode(errors="backslashreplace")

    def ends(self, status, printed, words, given="", said=None):
        """The program ends with this status, prints this, and says this where it is told. The proved program says of a fault
        just what it is, and has no other forms of a descriptor."""
        if not IS_PLAIN and lacks(words):
            return
        told = self.call(words, given)
        if not IS_PLAIN and status == 1 and said and not said.startswith("error: "):
            self.assertNotEqual(told[2], "")
            said = None
        self.assertEqual(told, (status, printed, told[2] if said is None else said), f"kbsim {' '.join(words)}")

    def write(self, name, data):
        with open(f"{self.folder}/{name}", "wb") as file:
            file.write(data)

    def read(self, name):
        with open(f"{self.folder}/{name}", "rb") as file:
            return file.read()


def quoted(message):
    """What a refusal quotes, and the reason that it gives of a value."""
    return " ".join(re.findall(r"(?<![a-z])'.*?'", message)) + "".join(re.findall(r"': .*", message))


class Words(Calls):
    """What the command line asks for."""

    def test_refused_words_say_why(self):
        for words, message in REFUSED:
            with self.subTest(words):
                if not IS_PLAIN and lacks(words):
                    self.assertEqual(self.call(words)[:2], (2, ""))
                    continue
                status, printed, said = self.call(words)
                first = said.split("\n")[0]
                self.assertEqual((status, printed, first[:7]), (2, "", "error: "))
                if IS_PLAIN:
                    first, message = quoted(first), quoted(message)
                self.assertEqual(first.removeprefix("error: "), message)

    def test_help_is_printed(self):
        for words, line in HELPS:
            with self.subTest(words):
                status, printed, said = self.call(words)
                self.assertEqual((status, said), (0, ""))
                self.assertIn(line, printed.split("\n"))

    def test_status_and_output(self):
        for words, given, status, printed, said in ENDS:
            with self.subTest(words, given=given):
                self.ends(status, printed, words, given, said)

    def test_as_many_pages_as_were_asked_for(self):
        for pages, words in [(2, []), (2, ["--pages", "2"]), (8, ["--pages", "8"]), (3, ["--pages=3"])]:
            with self.subTest(words):
                self.ends(0, "1 ffffffffffffffff\n", ["run", *words], f"slot {pages - 1} 511\n")
                self.ends(1, "fault line 1: bad number\n", ["run", *words], f"slot {pages} 0\n")

    def test_a_folder_is_no_input(self):
        # (A closed input is taken for another file.)
        folder = os.open(self.folder, os.O_RDONLY)
        self.addCleanup(os.close, folder)
        self.assertEqual(self.call(["parse"], stdin=folder), (1, "fault input\n", "the text can't be read\n"))
        self.assertEqual(self.call(["run"], stdin=folder), (1, "fault input\n", "the input can't be read\n"))
        self.ends(1, "fault input\n", ["parse", "."], said=".: the text can't be read\n")
        self.ends(1, "fault input\n", ["run", "."], said=".: the input can't be read\n")

    def test_a_full_output_is_reported(self):
        self.write("hex", b"05 01")
        self.write("script", b"in\nno\n")
        array, bytes_ = ["parse", "--from", "c", "hex"], ["parse", "--from", "bytes", "script"]
        for words in (["describe"], ["parse", "hex"], array, bytes_, ["parse", "missing"], ["run", "script"], ["run", "missing"], ["run", "."]):
            if not IS_PLAIN and lacks(words):
                continue
            with self.subTest(words), open("/dev/full", "wb") as full:
                status, _, said = self.call(words, "05", stdout=full)
                told = (MISSING if "missing" in words else "") + "error: the output can't be written\n"
                self.assertEqual((status, said), ((0, "") if words == ["parse", "hex"] else (1, told)))

    @unittest.skipUnless(IS_PLAIN, "the proved program names it as any other")
    def test_a_closed_pipe_is_no_error(self):
        self.write("script", b"in\n" * 20_000)
        self.write("hex", b"7508 9501 8102")
        for words in (["describe"], ["run", "script"], ["run", "--explain", "script"], ["run", "missing"], ["parse", "script"],
                      ["parse", "--from", "bytes", "--items", "script"], ["--help"], ["parse", "--json", "missing"], ["read", "--from", "hex", "hex", "hex"]):
            with self.subTest(words):
                reader, writer = os.pipe()
                os.close(reader)
                with os.fdopen(writer, "wb") as closed:
                    status, _, said = self.call(words, stdout=closed)
                said = "".join(line for line in said.splitlines(True) if not line.startswith("line "))
                self.assertEqual((status, said), (1, MISSING if "missing" in words else ""))

    @unittest.skipUnless(IS_PLAIN, "the proved program prints no items")
    def test_items_that_are_lost_are_reported(self):
        # The output is a pipe that does not wait, and has room only for the line of the fault.
        reader, writer = os.pipe()
        self.addCleanup(os.close, reader)
        self.addCleanup(os.close, writer)
        os.set_blocking(writer, False)
        os.write(writer, bytes(fcntl.fcntl(writer, fcntl.F_GETPIPE_SZ) - 100))
        status, _, said = self.call(["parse", "--items"], "05 01 75 08 95 01 81 00 c0", stdout=writer)
        self.assertEqual((status, said), (1, "error: the output can't be written\n"))

    @unittest.skipUnless(IS_PLAIN, "the proved program prints no JSON")
    def test_items_without_bits_at_the_end_of_the_longest_texts(self):
        # What comes before an item of no bits, with as much as a bit of it takes, would be over 4,096 bytes.
        for items, names in (("79 07 " * 2046, [[7, 7]] * 2046), ("05 01 " * 2046, [])):
            status, printed, _ = self.call(["parse", "--json"], f"{items} 81 02")
            self.assertEqual((status, [item["strings"] for item in json.loads(printed)["fields"]]), (0, [names]))

    def test_what_was_not_printed_is_not_explained(self):
        with open("/dev/full", "wb") as full:
            told = self.call(["run", "--explain"], "in\n" * 2000, stdout=full)
        self.assertEqual((told[0], told[2]), (1, "error: the output can't be written\n"))

    def test_each_explanation_stands_behind_its_answer(self):
        # Where both go to the same place, as docs/simulator.md shows it.
        with open(f"{ROOT}/docs/simulator.md", encoding="utf-8") as file:
            found = re.search(r"^\$ printf '([^']*)' \| kbsim run --explain\n(.*?)^```$", file.read(), re.M | re.S)
        script, shown = found[1].replace("\\n", "\n"), found[2]
        words = [*KBSIM, "run", "--explain"]
        told = subprocess.run(words, input=script, stdout=subprocess.PIPE, stderr=subprocess.STDOUT, cwd=ROOT, text=True)
        self.assertEqual((told.returncode, told.stdout), (0, shown))

    def test_the_command_of_the_readme(self):
        # With cargo alone it is run by the program of plain Rust, and with rt alone by the proved one.
        with open(f"{ROOT}/README.md", encoding="utf-8") as file:
            found = re.search(r"^```sh\nbin/kbsim (.*)\n```$.*?^```text part\n(.*?)^```$", file.read(), re.M | re.S)
        words = found[1].split()
        self.assertEqual(words[:2], ["run", "--explain"])
        told = subprocess.run([*KBSIM, *words], stdout=subprocess.PIPE, stderr=subprocess.STDOUT, cwd=ROOT, text=True)
        self.assertEqual(told.returncode, 0)
        self.assertIn(found[2], told.stdout)

    def test_an_explanation_that_can_not_be_written_changes_nothing(self):
        with open("/dev/full", "wb") as full:
            ran = subprocess.run([*KBSIM, "run", "--explain"], input=b"in\nin\n", stdout=subprocess.PIPE, stderr=full, cwd=self.folder)
        self.assertEqual((ran.returncode, ran.stdout), (0, b"1 stall 16\n2 stall 16\n"))

    @unittest.skipUnless(IS_PLAIN, "the proved program saves no flash")
    def test_an_explained_flash_is_saved(self):
        self.ends(0, "1 ack\n", ["run", "--save", "saved"], "set 0 0 0005\n")
        self.ends(0, "1 ack\n", ["run", "--explain", "--save", "explained"], "set 0 0 0005\n")
        self.assertEqual(self.read("saved"), self.read("explained"))

    def test_a_closed_standard_error_changes_nothing(self):
        for words in (["run"], ["parse"], ["run", "missing"]):
            with self.subTest(words), open("/dev/full", "wb") as full:
                ran = subprocess.run([*KBSIM, *words], input=b"x", stdout=subprocess.PIPE, stderr=full, cwd=self.folder)
                told = {"run": b"fault line 1: unknown word\n", "parse": b"fault hex\n"}
                self.assertEqual((ran.returncode, ran.stdout), (1, told[words[0]] if len(words) == 1 else b"fault input\n"))

    def test_what_is_too_long_is_reported(self):
        self.write("long", b"#" * 1_048_577)
        self.ends(1, "fault too long\n", ["run", "long"], said="long: the script is longer than 1048576 bytes\n")
        self.ends(1, "fault too long\n", ["parse", "long"], said="long: the text is longer than 1048576 bytes\n")


class Texts(Calls):
    """What is read from a file."""

    def test_a_text_from_a_file(self):
        self.write("script", b"set 0 0 0005\nentry 0 0\n")
        self.write("hex", b"75 08 95 01 81 02")
        self.ends(0, "1 ack\n2 0005\n", ["run", "script"], "in x\n", "")
        self.ends(0, "1 ack\n2 0005\n", ["run", "--pages", "3", "script"], "in x\n", "")
        self.ends(0, "input 0 0 8 1 0 0 variable -\n", ["parse", "hex"], "x", "")

    def test_a_file_that_is_not_there(self):
        self.ends(1, "fault input\n", ["run", "missing"], "in x\n", MISSING)
        self.ends(1, "fault input\n", ["parse", "missing"], "x", MISSING)


@unittest.skipUnless(IS_PLAIN, "the proved program takes no image")
class Files(Calls):
    """The flash's image before and after a run."""

    def test_images_that_are_refused(self):
        for name, size in [("long", 32769), ("short", 8191), ("page", 4096), ("none", 0)]:
            with self.subTest(name):
                self.write(name, bytes(size))
                self.ends(1, "fault image\n", ["run", "--image", name], "in x\n")
        self.ends(1, "fault input\n", ["run", "--image", "."], "in x\n", ".: the input can't be read\n")
        self.ends(1, "fault input\n", ["run", "--image", "missing"], "in x\n", MISSING)

    def test_a_text_beside_an_image(self):
        self.write("script", b"set 0 0 0005\nentry 0 0\n")
        self.ends(0, "1 ack\n2 0005\n", ["run", "--pages", "3", "script", "--save", "saved"], "in x\n", "")
        self.ends(0, "1 0005\n", ["run", "--image", "saved", "-"], "entry 0 0\n", "")
        self.ends(0, "   0  75 08           Report Size (8)\n", ["parse", "--items", "-"], "75 08", "")
        said = "line 1, column 6: 3 is no page; pages are 0 to 2\n"
        self.ends(1, "fault line 1: bad number\n", ["run", "--image", "saved"], "slot 3 0\n", said)
        self.write("pages", b"slot 3 0")
        self.ends(1, "fault line 1: bad number\n", ["run", "pages", "--image", "saved"], "", f"pages: {said}")
        self.write("end", b"C0")
        said = "end: byte 0, item c0: End Collection without Collection\n"
        for words in (["parse"], ["parse", "--json"], ["read"]):
            self.ends(1, "fault parse 8 at 0\n", [*words, "end"], "", said)
        self.ends(1, "fault input\n", ["parse", "--items", "missing"], "x", MISSING)

    def test_the_image_comes_before_the_script(self):
        self.write("short", bytes(8191))
        told = "short: the image is not 2 to 8 pages of 4096 bytes\n"
        self.ends(1, "fault image\n", ["run", "--image", "short", "missing"], "", told)
        self.ends(1, "fault image\n", ["run", "--image", "short"], "in x\n", told)

    def test_an_image_has_its_own_pages(self):
        self.write("eight", bytes(32768))
        self.write("two", bytes(8192))
        self.ends(0, "1 0000000000000000\n", ["run", "--image", "eight"], "slot 7 511\n")
        self.ends(1, "fault line 1: bad number\n", ["run", "--image", "two"], "slot 2 0\n")
        self.ends(2, "", ["run", "--image", "two", "--pages", "2"])

    def test_a_saved_flash_is_started_from(self):
        self.ends(0, "1 ack\n", ["run", "--save", "saved"], "set 0 0 0005\n")
        self.ends(0, "1 0005\n", ["run", "--image", "saved"], "entry 0 0\n")
        self.ends(0, "1 ack\n", ["run", "--image", "saved", "--save", "saved"], "set 0 0 0006\n")
        self.ends(0, "1 0006\n", ["run", "--image=saved", "--save=again"], "entry 0 0\n")
        self.assertEqual(self.read("saved"), self.read("again"))
        for words in (["--pages", "3", "--save", "blank"], ["--save", "blank", "--pages", "3"]):
            self.ends(0, "", ["run", *words])
            self.assertEqual(self.read("blank"), b"\xff" * 12288)

    def test_the_longest_path(self):
        # Linux takes paths of fewer than 4,096 bytes; `.part` is added.
        folder = "/".join(["x" * 250] * 16)
        os.makedirs(f"{self.folder}/{folder}")
        place = f"{folder}/{'y' * (4_090 - len(folder) - 1)}"
        self.assertEqual(len(f"{place}.part"), 4_095)
        self.ends(0, "1 ack\n", ["run", "--save", place], "set 0 0 0005\n")
        self.ends(0, "1 0005\n", ["run", "--image", place], "entry 0 0\n")

    def test_what_was_saved_stays_where_a_run_fails(self):
        self.ends(0, "1 ack\n", ["run", "--save", "saved"], "set 0 0 0005\n")
        kept = self.read("saved")
        self.write("short", bytes(8191))
        self.ends(1, "fault line 2: unknown word\n", ["run", "--save", "saved"], "set 0 0 0007\nno\n")
        self.ends(1, "fault image\n", ["run", "--image", "short", "--save", "saved"], "set 0 0 0007\n")
        self.ends(1, "1 ack\n", ["run", "--save", "missing/saved"], "set 0 0 0007\n")
        self.ends(1, "1 ack\n", ["run", "--save", "."], "set 0 0 0007\n")
        with open("/dev/full", "wb") as full:
            self.assertEqual(self.call(["run", "--save", "saved"], "set 0 0 0007\n", stdout=full)[0], 1)
        self.assertEqual(self.read("saved"), kept)
        self.assertEqual(sorted(os.listdir(self.folder)), ["saved", "short"])

    def test_an_existing_part_is_reported(self):
        self.write("saved.part", b"")
        said = "error: the flash can't be saved: FILE.part is there already\n"
        self.assertEqual(self.call(["run", "--save", "saved"], "set 0 0 0007\n"), (1, "1 ack\n", said))
        self.assertEqual(os.listdir(self.folder), ["saved.part"])


@unittest.skipUnless(IS_PLAIN, "the sentences are plain Rust's")
class Sentences(Calls):
    """What is said of the longest texts."""

    def test_the_longest_sentences_of_scripts(self):
        words = "scan, scans, poll, setup, out, in, work, workfault, cut, cutwork, reset, entry, slot, leds, set or fetch"
        unknown = f"{'x' * 40}.. is no line of scripts; a line begins with {words}\n"
        mebibyte = 1_048_576
        for script, line, fault, said in [
            ("x" * mebibyte, 1, "unknown word", f"line 1: {unknown}"),
            ("\n" * (mebibyte - 41) + "x" * 41, mebibyte - 40, "unknown word", f"line {mebibyte - 40}: {unknown}"),
            ("\n" * (mebibyte - 2) + "im", mebibyte - 1, "unknown word", f"line {mebibyte - 1}: im is no line of scripts; in is\n"),
            ("entry 0 " + "9" * (mebibyte - 8), 1, "bad number", f"line 1, column 9: {'9' * 40}.. is no key; keys are 0 to 95\n"),
            ("in" + " 1" * (mebibyte // 2 - 1), 1, "wrong words", f"line 1: in takes no word; here it has {mebibyte // 2 - 1}\n"),
        ]:
            with self.subTest(said[-60:]):
                self.ends(1, f"fault line {line}: {fault}\n", ["run"], script, said)

    def test_the_longest_sentences_of_descriptors(self):
        mebibyte = 1_048_576
        for text, fault, said in [
            ("0" * (mebibyte - 1) + "g", "hex", f"line 1, column {mebibyte}: g is no hex digit\n"),
            ("0" * (mebibyte - 1), "hex", f"the text has {mebibyte - 1} hex digits, and a byte takes two\n"),
            ("0" * mebibyte, "parse 16 at 4096", "byte 4096, item 00: descriptor too long\n"),
            # A long item of 255 bytes whose last one is missing.
            ("feff00" + "00" * 254, "parse 1 at 0", f"byte 0, item fe ff{' 00' * 14} ..: truncated item\n"),
        ]:
            with self.subTest(said):
                self.ends(1, f"fault {fault}\n", ["parse"], text, said)
        said = f"line 1, column {mebibyte - 99}: {'x' * 40}.. is no byte; those are 0x0 to 0xff, or 0 to 255 without a 0 in front\n"
        self.ends(1, "fault c\n", ["parse", "--from", "c"], " " * (mebibyte - 100) + "x" * 100, said)
        said = f"line {mebibyte}, column 1: x is no byte; those are 0x0 to 0xff, or 0 to 255 without a 0 in front\n"
        self.ends(1, "fault c\n", ["parse", "--from", "c"], "\n" * (mebibyte - 1) + "x", said)


class Examples(Calls):
    """Each example with what it prints."""

    def example(self, words, given, expected):
        with open(f"{ROOT}/examples/{expected}", encoding="utf-8") as file:
            printed = file.read()
        text = ""
        if given:
            with open(f"{ROOT}/examples/{given}", encoding="utf-8") as file:
                text = file.read()
        self.ends(0, printed, words, text)

    def test_scripts(self):
        for name in ("stored_key", "scans", "driver", "cut"):
            with self.subTest(name):
                self.example(["run"], f"{name}.kbs", f"{name}.expected")

    def test_descriptors(self):
        self.example(["parse"], "media_keys.hex", "media_keys.expected")
        self.example(["parse", "--items"], "media_keys.hex", "media_keys.items.expected")
        self.example(["describe"], None, "describe.expected")

    @unittest.skipUnless(IS_PLAIN, "the proved program takes no image")
    def test_scripts_that_start_on_an_image(self):
        for name in ("migration", "turnover"):
            with self.subTest(name):
                with open(f"{ROOT}/examples/{name}.slots", "rb") as slots, open(f"{self.folder}/{name}", "wb") as image:
                    subprocess.run([f"{ROOT}/examples/make-image", "2"], stdin=slots, stdout=image, check=True)
                self.example(["run", "--image", name], f"{name}.kbs", f"{name}.expected")


if __name__ == "__main__":
    unittest.main()
