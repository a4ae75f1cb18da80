"""Tests of the program: the rows of tests/scripts and tests/descriptors, and inputs too long for rows.

They run on the program that the variable KBSIM names, or else on bin/kbsim. `-k WORD` runs the tests whose heading holds this word.

Rows stand in files `*.rows`. `== NAME: WORDS` begins a test, whose cases the program runs with these words; `--image 2` gives
an image of two pages. `//` begins a remark. A case takes one of three forms; a blank line ends the first two.

- A script beside its answers: `set 0 0 0005 = ack` is a line and what it prints after its number; a line that prints nothing stands
  alone. `255 times: A = x; B = y` repeats rows. `# flash 0 1-511 05000010faffffef` says what slots of the image hold.
- A dialog: lines with `>` are given, the last one without an LF; those below are what is printed, and lines with `!` at the end what is
  said on standard error.
- Columns that end in `|`: what is given and what is printed; or what is given, and its fault by line and name, or number and offset.
  In columns and dialogs `\\n`, `\\r`, `\\t`, `\\xff` and `\\u{e4}` are escapes.

The status is 1 where the last printed line begins with `fault`, and else 0. Where a case does not say what is on standard error, a
sentence is wanted there beside a fault, and else nothing. A script without an image runs once more with `--explain`.
"""

import difflib
import glob
import os
import re
import subprocess
import tempfile
import unittest
from typing import NamedTuple

ROOT = os.path.dirname(os.path.dirname(os.path.abspath(__file__)))
KBSIM = [os.environ["KBSIM"]] if "KBSIM" in os.environ else [f"{ROOT}/bin/kbsim", "--quiet"]

# Whether it is the program of plain Rust, which has words and sentences that the proved one lacks.
IS_PLAIN = subprocess.run([*KBSIM, "read", "--help"], capture_output=True).returncode == 0


def make_image(pages, slots, file):
    """Writes the image of a flash of so many pages, with these lines of slots, to a file."""
    subprocess.run([f"{ROOT}/examples/make-image", str(pages)], input="\n".join(slots).encode(), stdout=file, check=True)


def full_of_format_1():
    """The slots of a full page of format 1: each of the 384 entries is 0000, and then entry (0, 0) is 0005 and 0000 in turn.
    Page 1 is not blank."""
    slots = ["0 0 01000010feffffef", "1 9 0000000000000000"]
    for slot in range(1, 512):
        place, code = (slot - 1, 0) if slot <= 384 else (0, 5 * (slot % 2))
        word = bytes([code, 0, place % 96, 0x10 | place // 96])
        slots.append(f"0 {slot} {word.hex()}{bytes(255 - byte for byte in word).hex()}")
    return slots


class Program(unittest.TestCase):
    """The program, as its tests call it."""

    def asks(self, words):
        """Skips a test of words that this program lacks: the proved one has no other forms of a descriptor, and starts on a blank
        flash."""
        if not IS_PLAIN and (words[0] == "parse" and len(words) > 1 or "--image" in words):
            self.skipTest(f"the proved program has no {' '.join(words)}")

    def prints(self, words, text, printed, status=0, said=None):
        """Compares what the program prints of a text, its status, and what it says on standard error: where that is not given,
        a sentence beside a fault, and else nothing. The proved program says of a fault just what it is, and of an empty
        descriptor nothing."""
        self.asks(words)
        given = text if isinstance(text, bytes) else text.encode()
        ran = subprocess.run([*KBSIM, *words], input=given, capture_output=True)
        told, spoken = (stream.decode(errors="backslashreplace") for stream in (ran.stdout, ran.stderr))
        if not IS_PLAIN and said and (status or words[0] == "parse"):
            said = "".join(said.splitlines(True)[:-1] + spoken.splitlines(True)[-1:]) if status else ""
        if said is None:
            said = spoken if spoken.count("\n") == status and spoken.endswith("\n" * status) else "a sentence\n" * status
        if (ran.returncode, told, spoken) == (status, printed, said):
            return
        ended = "" if ran.returncode == status else f" ends with status {ran.returncode}, not {status}"
        lines = [f"kbsim {' '.join(words)}{ended}"]
        for name, wanted, found in (("printed", printed, told), ("said", said, spoken)):
            lines += difflib.unified_diff(wanted.split("\n"), found.split("\n"), "expected", name, lineterm="", n=2)
        self.fail("\n".join(lines))


class Case(NamedTuple):
    """What is given to the program, and what it is to print."""

    place: str  # the file and the line
    slots: list[str]  # those of the image, as examples/make-image reads them
    given: bytes
    printed: str
    said: str | None = None  # on standard error, where a case tells it


class Rows(Program):
    """The files of tests/: a method for each heading."""

    def run_cases(self, words, cases):
        self.asks(words)
        for case in cases:
            with self.subTest(case.place), tempfile.NamedTemporaryFile() as image:
                started = list(words)
                if "--image" in words:
                    pages = words.index("--image") + 1
                    make_image(words[pages], case.slots, image)
                    started[pages] = image.name
                elif case.slots:
                    self.fail("slots of an image, and no --image in the heading")
                last = (case.printed.splitlines() or [""])[-1]
                self.prints(started, case.given, case.printed, 1 if last.startswith("fault ") else 0, case.said)


def unescaped(text):
    """The bytes of a text in which some are escaped."""

    def byte_of(match):
        letter, byte, character = match.groups()
        if letter:
            return {b"n": b"\n", b"r": b"\r", b"t": b"\t"}[letter]
        if byte:
            return bytes([int(byte, 16)])
        if character:
            return chr(int(character, 16)).encode()
        raise ValueError(f"{text}: a backslash that begins no escape")

    return re.sub(rb"\\(?:([nrt])|x([0-9a-f]{2})|u\{([0-9a-f]+)\}|)", byte_of, text.encode())


def case_of_row(place, words, row):
    """A case of one line: its columns end in bars."""
    match row.split("|"):
        case [text, printed, ""]:
            pass
        case [text, line, fault, ""] if words[0] == "run":
            printed = f"fault line {line}: {fault}\n"
        case [text, number, offset, ""]:
            printed = f"fault parse {number} at {offset}\n"
        case _:
            raise ValueError(f"{place}: a row of two or of three columns")
    return Case(place, [], unescaped(text), unescaped(printed).decode())


def case_of_dialog(place, lines):
    """A case whose given lines begin with `>`; what is printed follows, and what is said, by lines that begin with `!`."""
    given = [line[2:] for line in lines if line == ">" or line.startswith("> ")]
    said = [line[2:] for line in lines if line.startswith("! ")]
    printed = lines[len(given) : len(lines) - len(said)]
    if any(line.startswith((">", "! ")) for line in printed):
        raise ValueError(f"{place}: first what is given, then what is printed, and then what is said")
    told = "".join(f"{line}\n" for line in said) if said else None
    slots = [line.removeprefix("# flash ") for line in given if line.startswith("# flash ")]
    return Case(place, slots, unescaped("\n".join(given)), "".join(f"{line}\n" for line in printed), told)


def case_of_script(place, lines):
    """A case whose lines are those of a script beside what they print."""
    rows = []
    for line in lines:
        times = re.fullmatch(r"(\d+) times: (.*)", line)
        rows += times[2].split("; ") * int(times[1]) if times else [line]
    printed = ""
    for number, row in enumerate(rows, 1):
        answer = row.partition(" = ")[2]
        printed += f"{number} {answer}\n" if answer else ""
    script = "".join(row.partition(" = ")[0] + "\n" for row in rows)
    slots = [row.removeprefix("# flash ") for row in rows if row.startswith("# flash ")]
    return Case(f"{place} {rows[0]}", slots, script.encode(), printed)


def read_cases(path):
    """The headings of a file of rows, each with its cases."""
    tests, name = {}, os.path.relpath(path, ROOT)
    heading, words, block, first = None, [], [], 0

    def end_block():
        if block:
            case = case_of_dialog if block[0].startswith(">") else case_of_script
            tests[heading].append(case(f"{name}:{first}", block))
            block.clear()

    with open(path, newline="\n") as file:
        lines = file.read().split("\n")
    for number, line in enumerate(lines, 1):
        if line.startswith("//"):
            continue
        if line.startswith("== "):
            end_block()
            heading = line.removeprefix("== ")
            words = heading.partition(": ")[2].split()
            if not words or heading in tests:
                raise ValueError(f"{name}:{number}: a heading without words, or for the second time")
            tests[heading] = []
        elif line == "":
            end_block()
        elif heading is None:
            raise ValueError(f"{name}:{number}: a row before the first heading")
        elif line.endswith("|"):
            end_block()
            tests[heading].append(case_of_row(f"{name}:{number}", words, line))
        else:
            first = first if block else number
            block.append(line)
    end_block()
    if not tests or not all(tests.values()):
        raise ValueError(f"{name}: no heading, or one without a case")
    return tests


def add_tests(folder):
    """Makes a method of each heading of a folder's files."""
    paths = sorted(glob.glob(f"{ROOT}/tests/{folder}/*.rows"))
    if not paths:
        raise ValueError(f"tests/{folder}: no rows")
    for path in paths:
        for heading, cases in read_cases(path).items():
            words = heading.partition(": ")[2].split()
            stem = os.path.basename(path).removesuffix(".rows")
            name = re.sub(r"\W+", "_", f"test_{folder}_{stem}_{heading}")
            setattr(Rows, name, lambda self, words=words, cases=cases: self.run_cases(words, cases))


add_tests("scripts")
add_tests("descriptors")


class Explained(Program):
    """Each script of the rows once more with `--explain`: the same is printed, and a sentence is said of each answer."""

    def explains(self, words, case):
        given = ["run", "--explain", *words[1:]]
        ran = subprocess.run([*KBSIM, *given], input=case.given, capture_output=True)
        printed = case.printed.encode()
        self.assertEqual(ran.stdout.splitlines(), printed.splitlines(), case.place)
        self.assertEqual(ran.returncode, 1 if printed.startswith(b"fault ") else 0, case.place)
        numbers = [line.split(b" ")[0] for line in printed.splitlines() if not line.startswith(b"fault ")]
        said = [line.partition(b": ")[0] for line in ran.stderr.splitlines()]
        self.assertEqual(said[: len(numbers)], [b"line " + number for number in numbers], case.place)
        self.assertEqual(len(said) - len(numbers), ran.returncode, case.place)
        lines = case.given.decode(errors="replace").split("\n")
        for answer, sentence in zip(case.printed.splitlines(), ran.stderr.decode().splitlines()):
            number, _, answer = answer.partition(" ")
            if number != "fault":
                self.agrees(lines[int(number) - 1].split()[0], answer, sentence)

    def agrees(self, word, answer, sentence):
        """What is said of a step and of a slot agrees with the answer."""
        if word in ("work", "workfault"):
            self.assertEqual(answer == "idle", sentence.endswith("no operation is made"), sentence)
        if word == "slot":
            self.assertEqual(answer == 16 * "f", sentence.endswith(": free"), sentence)

    def test_the_rows(self):
        for path in sorted(glob.glob(f"{ROOT}/tests/scripts/*.rows")):
            for heading, cases in read_cases(path).items():
                words = heading.partition(": ")[2].split()
                for case in cases:
                    if words[0] == "run" and "--image" not in words and "--explain" not in words:
                        with self.subTest(case.place):
                            self.explains(words, case)

    def test_a_mebibyte_of_short_lines(self):
        count = 349_525
        printed = "".join(f"{number} stall 16\n" for number in range(1, count + 1))
        meaning = "WrongStage: the packet does not belong to this stage of the transfer, or there is none"
        said = "".join(f"line {number}: {meaning}\n" for number in range(1, count + 1))
        self.prints(["run", "--explain"], "in\n" * count, printed, said=said)

    def test_the_longest_command_is_explained(self):
        with tempfile.NamedTemporaryFile() as image:
            make_image(2, full_of_format_1(), image)
            said = "line 1: stored: erase of page 1, 384 copies, header of page 1, record in page 1, slot 385: layer 0, key 0 = nothing\n"
            self.prints(["run", "--explain", "--image", image.name], "set 0 0 0000\n", "1 ack\n", said=said)

    def test_the_longest_line(self):
        # All 96 keys of a report, by their names, from key 0, the letter a, on.
        keys = " ".join(str(key) for key in range(96))
        ran = subprocess.run([*KBSIM, "run", "--explain"], input=f"fetch\nscans 5 {keys}\npoll\n".encode(), capture_output=True)
        said = ran.stderr.decode().splitlines()
        self.assertTrue(said[2].startswith("line 3: the host reads Keyboard a and A; Keyboard b and B; "))
        self.assertTrue(said[2].endswith("; Keyboard RightAlt; Keyboard Right GUI"))
        # (A semicolon between each two of them, and one in the name of key 47.)
        self.assertEqual((len(said), said[2].count("; ")), (3, 96))


def around_multiples(size, count):
    """The numbers within three of the first multiples of a size."""
    return [multiple * size + near for multiple in range(1, count + 1) for near in range(-3, 4)]


def rows_of_length(length):
    """The lines of a script, each with its answer, which print so many bytes together."""
    count, printed = 0, 0
    while printed + len(f"{count + 1} ok\n") + 6 <= length:
        count += 1
        printed += len(f"{count} ok\n")
    left = length - printed
    # `restart` is longer than `ok` by five, and a code by two.
    rows = [("cut", "restart")] * (left % 2)
    rows += [("entry 0 0", "0004")] * ((left - 5 * len(rows)) // 2)
    return rows + [("scan", "ok")] * (count - len(rows))


class Long(Program):
    """Each of these inputs is as long as its kind may be, or longer by one."""

    def test_as_many_fields_as_there_can_be(self):
        # A field without usages, one of a single usage, and then ranges.
        text = "7501 9501\n8102 1901 2901 8102\n"
        printed = "input 0 0 1 1 0 0 variable -\ninput 0 1 1 1 0 0 variable 00000001\n"
        for bit in range(2, 256):
            text += f"1901 29{bit:02x} 8102\n"
            printed += f"input 0 {bit} 1 1 0 0 variable 00000001-{bit:08x}\n"
        self.prints(["parse"], text, printed)

    def test_as_many_usages_as_there_can_be(self):
        usages = [usage % 256 for usage in range(2045)]
        text = "75 01 95 01" + "".join(f" 09 {usage:02x}" for usage in usages) + " B1 00"
        self.assertEqual(len(bytes.fromhex(text)), 4096)
        listed = ",".join(f"{usage:08x}" for usage in usages)
        self.prints(["parse"], text, f"feature 0 0 1 1 0 0 array {listed}\n")

    def test_one_field_too_many(self):
        text = "7501 9501" + " B102" * 256 + " 8102 04"
        printed = "   0  75 01           Report Size (1)\n   2  95 01           Report Count (1)\n"
        for field in range(256):
            printed += f"{2 * field + 4:4}  b1 02           Feature (Data, Variable, Absolute)\n"
        printed += " 516  81 02           Input (Data, Variable, Absolute)  <-- fault 13: too many fields\n"
        self.prints(["parse", "--items"], text, printed + "fault parse 13 at 516\n", 1)

    def test_a_descriptor_that_is_too_long(self):
        self.prints(["parse"], "04" * 4096, "")
        self.prints(["parse"], "04" * 4097, "fault parse 16 at 4096\n", 1)
        # The longest descriptor, one with an item more, and those whose item at 4,095 is longer.
        ends = {
            "04": "4095  04              Usage Page (00h)\n",
            "0404C0": "4095  04              Usage Page (00h)\n"
            "4096  04              Usage Page (00h)  <-- fault 16: descriptor too long\nfault parse 16 at 4096\n",
            "0501C0": "4095  05 01           Usage Page (Generic Desktop)\n"
            "4096                  <-- fault 16: descriptor too long\nfault parse 16 at 4096\n",
            "0601": "4095  06 01           <-- fault 1: truncated item\nfault parse 1 at 4095\n",
        }
        lines = "".join(f"{offset:4}  04              Usage Page (00h)\n" for offset in range(4095))
        for end, last in ends.items():
            with self.subTest(end):
                self.prints(["parse", "--items"], "04" * 4095 + end, lines + last, 1 if "fault" in last else 0)

    def test_the_longest_text(self):
        self.prints(["parse"], "0" * 1_048_576, "fault parse 16 at 4096\n", 1)
        self.prints(["parse"], "0" * 1_048_575, "fault hex\n", 1)
        self.prints(["parse"], "0" * 1_048_577, "fault too long\n", 1)

    def test_the_longest_array(self):
        # 2,048 items of two bytes, and a comment that fills the text; one item more; and as many bytes as a text can name.
        for count, fault in [(4_096, ""), (4_098, "fault parse 16 at 4096\n")]:
            array = "0x75,1," * (count // 2) + "//"
            self.prints(["parse", "--from", "c"], array + "x" * (1_048_576 - len(array)), fault, int(fault != ""))
        self.prints(["parse", "--from", "c"], "0," * 524_288, "fault parse 16 at 4096\n", 1)
        self.prints(["parse", "--from", "c"], " " * 1_048_575 + "x", "fault c\n", 1)
        self.prints(["parse", "--from", "c"], "/*" * 524_288, "fault c\n", 1)
        self.prints(["parse", "--from", "c"], " " * 1_048_577, "fault too long\n", 1)
        self.prints(["parse", "--from", "bytes"], "\0" * 1_048_576, "fault parse 16 at 4096\n", 1)
        self.prints(["parse", "--from", "bytes"], "\0" * 1_048_577, "fault too long\n", 1)

    def test_the_longest_script(self):
        # A comment.
        self.prints(["run"], "#" * 1_048_576, "")
        self.prints(["run"], "#" * 1_048_577, "fault too long\n", 1)
        self.prints(["run"], "#" * 2_000_000, "fault too long\n", 1)

    def test_a_mebibyte_of_short_lines(self):
        # Of two letters each, after an empty line.
        count = 349_525
        script = "\n" + "in\n" * count
        self.assertEqual(len(script), 1_048_576)
        self.prints(["run"], script, "".join(f"{number} stall 16\n" for number in range(2, count + 2)))
        self.prints(["run"], script[:-3] + "im\n", f"fault line {count + 1}: unknown word\n", 1)

    def test_an_output_of_a_mebibyte(self):
        printed = "".join(f"{number} ffffffffffffffff\n" for number in range(1, 50_001))
        self.assertGreater(len(printed), 1_048_576)
        self.prints(["run"], "slot 0 0\n" * 50_000, printed)

    def test_texts_around_the_multiples_of_a_buffer(self):
        # The last line of a script has no LF, and stands at the end of the text.
        for length in around_multiples(4096, 4):
            with self.subTest(length):
                self.prints(["run"], "#" * (length - 10) + "\nentry 0 0", "2 0004\n")
                whole = length % 2 == 0
                printed = "fault hex\n" if not whole else "" if length <= 8192 else "fault parse 16 at 4096\n"
                self.prints(["parse"], "0" * length, printed, 1 if printed else 0)
        for length in (1_048_574, 1_048_575, 1_048_576):
            self.prints(["run"], "#" * (length - 10) + "\nentry 0 0", "2 0004\n")

    def test_outputs_around_the_multiples_of_a_buffer(self):
        for length in around_multiples(4096, 4):
            with self.subTest(length):
                rows = rows_of_length(length)
                printed = "".join(f"{number} {answer}\n" for number, (_, answer) in enumerate(rows, 1))
                self.assertEqual(len(printed), length)
                self.prints(["run"], "".join(f"{line}\n" for line, _ in rows), printed)

    def test_a_fetch_that_asks_for_65535_bytes_and_all_keys(self):
        served = subprocess.run([*KBSIM, "describe"], stdout=subprocess.PIPE).stdout.decode()
        report = bytes.fromhex(re.search("^report (.*)$", served, re.M)[1])
        rows = [("setup 810600220000ffff", "ack")]
        rows += [("in", f"data {report[at : at + 8].hex()}") for at in range(0, 99, 8)]
        rows += [("out", "ack"), ("scans 5" + "".join(f" {key}" for key in range(96)), "ok")]
        # The usages 04h to 5Bh in bits 8 to 95, and the modifiers E0h to E7h in bits 0 to 7.
        usages = "".join(f" {0x70000 + usage:08x}" for usage in [*range(0x04, 0x5C), *range(0xE0, 0xE8)])
        rows += [("poll", f"report 01{'ff' * 12}{'00' * 10} read{usages}"), ("poll", "nak")]
        printed = "".join(f"{number} {answer}\n" for number, (_, answer) in enumerate(rows, 1))
        self.prints(["run"], "".join(f"{line}\n" for line, _ in rows), printed)

    def test_the_most_keys_of_a_scan(self):
        # The words are counted before any number is read.
        rows = [("95", 96, "1 ok\n"), ("96", 96, "fault line 1: bad number\n")]
        rows += [(word, 97, "fault line 1: wrong words\n") for word in ("95", "x")]
        for word, count, printed in rows:
            for front in ("scan", "scans 1", "scans 10000"):
                with self.subTest(front, word=word, count=count):
                    self.prints(["run"], front + f" {word}" * count, printed, 1 if "fault" in printed else 0)
        self.prints(["run"], "scans 0" + " 95" * 96, "fault line 1: bad number\n", 1)
        self.prints(["run"], "scans 0" + " 95" * 97, "fault line 1: wrong words\n", 1)

    def test_the_longest_command_takes_387_steps(self):
        rows = [("setup 2109030300000600", "ack"), ("out 030100000000", "ack")]
        rows += [("work", "working")] * 386
        rows += [("entry 0 0", "0005"), ("work", "settled"), ("in", "data -"), ("slot 1 0", "02000020fdffffdf")]
        rows += [("slot 1 1", "05000010faffffef"), ("slot 1 384", "00005f13ffffa0ec"), ("slot 1 385", "00000010ffffffef")]
        rows += [("slot 1 386", "ffffffffffffffff"), ("entry 0 0", "0000")]
        with tempfile.NamedTemporaryFile() as image:
            make_image(2, full_of_format_1(), image)
            script = "".join(f"{line}\n" for line, _ in rows)
            printed = "".join(f"{number} {answer}\n" for number, (_, answer) in enumerate(rows, 1))
            self.prints(["run", "--image", image.name], script, printed)


if __name__ == "__main__":
    unittest.main()
