"""Compares the crate wuzhikar-hid with reference/reader/plain.py and plain_write.py over real and mutated descriptors: what they
declare, what reports of them say, and what is written. Ends with the number of differences.
"""

import argparse
import json
import os
import pathlib
import random
import re
import shutil
import subprocess
import sys

from test_kbsim import read_cases

ROOT = pathlib.Path(__file__).resolve().parent.parent
sys.path[:0] = [str(ROOT / "reference/reader"), str(ROOT / "tools")]
import plain  # noqa: E402
import plain_write  # noqa: E402
import building  # noqa: E402

KINDS = (plain.INPUT, plain.OUTPUT, plain.FEATURE)
READ = {"empty": "Empty", "unknown": "UnknownReport", "short": "Short"}
PHYSICAL = {"equal": "EqualLimits", "inverted": "InvertedLimits"}


def real():
    """The repository's descriptors: those of the rows and of the examples, and one of fields of more than 256 places, each once."""
    found = {(ROOT / "examples/media_keys.hex").read_text(): None}
    files = [*ROOT.glob("examples/hid_driver/**/*.hex"), *ROOT.glob("tests/reader/devices/*.hex"), ROOT / "rust/wuzhikar-hid/src/values/many_places.hex"]
    for file in sorted(files):
        found[file.read_text()] = None
    for name in ("real", "fields", "faults", "items", "item_faults"):
        for cases in read_cases(f"{ROOT}/tests/descriptors/{name}.rows").values():
            found.update((case.given.decode("latin-1"), None) for case in cases)
    texts = {}
    for text in found:
        try:
            texts[bytes.fromhex("".join(text.split()))] = None
        except ValueError:
            pass
    return [text for text in texts if text]


class Maker:
    """Texts that look random, the same in each run."""

    def __init__(self, seed, texts):
        self.random, self.texts = random.Random(seed), texts

    def mutated(self):
        """A descriptor with some items changed, doubled, left out or put in."""
        pieces = self.pieces(self.random.choice(self.texts))
        for _ in range(self.random.randint(1, 4)):
            at = self.random.randrange(len(pieces) + 1)
            act = self.random.randrange(5)
            if act == 0 and pieces:
                del pieces[at % len(pieces)]
            elif act == 1 and pieces:
                pieces.insert(at, self.random.choice(pieces))
            elif act == 2:
                pieces.insert(at, self.item())
            elif pieces:
                pieces[at % len(pieces)] = self.changed(pieces[at % len(pieces)])
        return b"".join(pieces)

    def loosened(self):
        """A descriptor that the strict reader mostly refuses, and the lenient one reads: with sets of alternatives, large items, or a
        late Report ID."""
        pieces = [piece for piece in self.pieces(self.random.choice(self.texts)) if piece]
        for _ in range(self.random.randint(1, 3)):
            act, at = self.random.randrange(4), self.random.randrange(len(pieces) + 1)
            if act == 0:
                others = b"".join(self.local() for _ in range(self.random.randrange(5)))
                ends = self.random.choice((b"\xa9\x00", b"\xa9\x00", b"\xa9\x00", b"\xa8", b""))
                pieces[at:at + 1] = [b"\xa9\x01", *pieces[at:at + 1], *self.pieces(others + ends)]
            elif act == 3:
                found = [place for place, piece in enumerate(pieces) if piece[0] & 0xFC == 0x84]
                pieces.insert(at, pieces.pop(found[0]) if found else b"\x85\x01")
            else:
                code, few = ((0x74, 32), (0x94, 1024))[act - 1]
                found = [place for place, piece in enumerate(pieces) if piece[0] & 0xFC == code]
                number = self.random.choice((few, few + 1, 4 * few, 0xFFFF, self.random.randrange(few, 0x4000)))
                pieces.insert(self.random.choice(found) + 1 if found else at, bytes([code + 2]) + number.to_bytes(2, "little"))
        return b"".join(pieces)

    def local(self):
        """A Local item of a set."""
        return bytes([self.random.choice((0x09, 0x09, 0x19, 0x29, 0x79, 0x89, 0x99, 0x39, 0xA9)), self.random.randrange(1, 9)])

    @staticmethod
    def pieces(text):
        """The bytes of each item."""
        starts = [offset for offset, _, _ in plain.items(text)] + [len(text)]
        return [text[first:last] for first, last in zip(starts, starts[1:])]

    def changed(self, item):
        """An item with a byte changed; mostly one of its data."""
        at = self.random.randrange(len(item)) if self.random.random() < 0.1 else len(item) - 1
        value = self.random.choice((0, 1, 2, 0x7F, 0x80, 0xFF, self.random.randrange(256)))
        return item[:at] + bytes([value]) + item[at + 1:]

    def item(self):
        """A short item that might stand anywhere."""
        code = self.random.choice((0x04, 0x14, 0x24, 0x34, 0x44, 0x54, 0x64, 0x74, 0x94, 0x08, 0xA4, 0xB4, 0x80, 0x90, 0xB0, 0xA0, 0xC0,
                                   *plain.NAMING, 0x54, 0x64))
        size = self.random.randrange(4)
        data = self.random.randbytes((0, 1, 2, 4)[size])
        if code in (0x74, 0x94):
            size, data = 1, bytes([self.random.randrange(1, 12)])
        if code in (0x80, 0x90, 0xB0):
            size, data = 1, bytes([self.random.choice((0, 1, 2, 3, 6, 0x42, 0x40, 0x46))])
        return bytes([code | size]) + data

    def report(self, descriptor):
        """A report of a descriptor, or nearly one."""
        kind, number = self.a_report(descriptor)
        length = descriptor.length(kind, number) or 1
        if self.random.random() < 0.05:
            length = max(0, length + self.random.choice((-1, 1, 3)))
        fill = self.random.choice((0, 0xFF, None, None))
        body = self.random.randbytes(length) if fill is None else bytes([fill]) * length
        return kind, number, (bytes([number]) + body[1:] if descriptor.uses_ids and body else body)

    def a_report(self, descriptor):
        """A kind and an ID."""
        known = [(item.kind, item.id) for item in descriptor.declared]
        if known and self.random.random() < 0.97:
            return self.random.choice(known)
        return self.random.choice(KINDS), self.random.randrange(4)

    def setting(self, descriptor, kind, number):
        """A control of a report, and what it is set to."""
        fields = [(at, item) for at, item in enumerate(descriptor.fields) if (item.kind, item.id) == (kind, number)]
        if not fields:
            return ("field", 0, 0), 0
        at, item = self.random.choice(fields)
        usage = item.usage(self.random.randrange(max(min(item.listed, item.count + 8), 1)))
        wanted = self.random.choice((item.least, item.greatest, 0, 1, item.greatest + 1, item.least - 1,
                                     self.random.randint(min(item.least, item.greatest), max(item.least, item.greatest)), None))
        if usage is None or self.random.random() < 0.4:
            return ("field", at, self.random.randrange(item.count + 1)), wanted
        asked = self.random.choice((0, 1, 1, 1, 2, None)) if item.array else wanted
        return ("usage", usage, self.random.choice((0, 0, 0, 1, 2))), asked


def sound(text):
    """Whether a descriptor has no fault."""
    try:
        return bool(plain.parse(text))
    except plain.Refused:
        return False


def told(descriptor):
    """What is told of a descriptor."""
    shown = [["-" if number is None else number for number in collection] for collection in descriptor.collections]
    line = "".join(f"collection {' '.join(map(str, numbers))};" for numbers in shown)
    for place, collection in enumerate(descriptor.collections):
        if collection[1] == 1:
            line += f"application {place} {reports_told(descriptor.reports(place))};"
    line += "".join(f"report {report_told(descriptor, kind, number)};" for kind, number in descriptor.reports())
    line += f"padding {places_told(place for place, item in enumerate(descriptor.declared) if item.constant)};"
    line += f"data {places_told(place for place, item in enumerate(descriptor.declared) if not item.constant)};"
    for item in descriptor.declared:
        application = descriptor.application(item)
        numbers = (item.offset, item.kind, item.flags, item.id, item.bit, item.size, item.count, item.least, item.greatest,
                   *item.physical_extents, item.unit, item.exponent, ",".join(map(str, item.around)),
                   "-" if application is None else application, names_told(item.names["string"]), names_told(item.names["designator"]),
                   item.dimensions if isinstance(item.dimensions, str) else ",".join(map(str, item.dimensions)))
        line += " ".join(map(str, numbers)) + ";"
    return line


def told_lenient(text):
    """What is told of a descriptor in the lenient mode."""
    try:
        descriptor = plain.parse_lenient(text)
    except plain.Refused as fault:
        return f"fault {fault.number} {fault.offset}"
    line = "".join(f"{number}:{offset}," for number, offset in descriptor.passed)
    for item in descriptor.fields:
        numbers = (item.id, item.bit, item.size, item.count, item.least, item.greatest)
        ranges = ", ".join(f"({first}, {last})" for first, last in item.usages)
        line += f";{item.kind} ({', '.join(map(str, numbers))}, {str(item.array).lower()}) [{ranges}]"
        line += f" {descriptor.length(item.kind, item.id)}"
    return line


def report_told(descriptor, kind, number):
    """A report with its length, its data items and its applications."""
    bits, members = descriptor.bits(kind, number), descriptor.members(kind, number)
    return f"{kind} {number} {bits} {-(-bits // 8)} {places_told(members)} {places_told(descriptor.applications(kind, number))}"


def places_told(places):
    """Places, or numbers of collections."""
    return ",".join(map(str, places))


def reports_told(reports):
    """Kinds and IDs of reports."""
    return ",".join(f"{kind}:{number}" for kind, number in reports)


def names_told(ranges):
    """Ranges of strings or designators."""
    return ",".join(f"{first}:{last}" for first, last in ranges)


def told_values(descriptor, kind, report):
    """What is told of a report."""
    values = plain.read(descriptor, kind, report)
    if isinstance(values, str):
        return READ[values]
    line = ""
    for place_of_field, place, usage, value, within in values:
        fraction = plain.physical(descriptor.fields[place_of_field], value)
        if isinstance(fraction, str):
            fraction = PHYSICAL[fraction]
        else:
            exponent = descriptor.fields[place_of_field].exponent
            fraction = f"{fraction.numerator}/{fraction.denominator} {plain.decimal(fraction, exponent, 5)}"
        line += f"{place_of_field} {place} {'-' if usage is None else usage} {value} {within} {fraction};"
    return line


def told_written(descriptor, kind, number, settings, onto):
    """What is told of a report that is written."""
    try:
        return plain_write.write(descriptor, kind, number, settings, onto).hex()
    except plain_write.NotWritten as why:
        return " ".join(map(str, why.args))


class Case:
    """Lines for the crate, and what it is to answer."""

    def __init__(self):
        self.asked, self.wanted = [], []

    def ask(self, line, wanted):
        self.asked.append(line)
        self.wanted.append(wanted)

    def add(self, maker, text, reports):
        """A descriptor, in the lenient mode too, reports of it, and writes."""
        self.ask(f"L {text.hex()}", told_lenient(text))
        try:
            descriptor = plain.parse(text)
        except plain.Refused as fault:
            self.ask(f"D {text.hex()}", f"fault {fault.number} {fault.offset}")
            return False
        self.ask(f"D {text.hex()}", told(descriptor))
        for _ in range(reports):
            kind, number, report = maker.report(descriptor)
            self.ask(f"R {kind} {report.hex()}", told_values(descriptor, kind, report))
            settings = [maker.setting(descriptor, kind, number) for _ in range(maker.random.randint(0, 4))]
            onto = report if maker.random.random() < 0.5 else None
            words = [f"{':'.join(map(str, target))}={'null' if value is None else value}" for target, value in settings]
            given = "-" if onto is None else f"{onto.hex()}."
            self.ask(" ".join(["W", kind, str(number), given, *words]), told_written(descriptor, kind, number, settings, onto))
        return True


def looked_at(folder):
    """Whether rustfmt and clippy find nothing in a crate, and each link of its docs leads somewhere."""
    for part, words in {"fmt": ["--check"], "clippy": ["--quiet", "--all-targets", "--", "-D", "warnings"]}.items():
        if shutil.which(f"cargo-{part}"):
            building.cargo(part, *words, folder=folder)
    building.cargo("doc", "--quiet", "--no-deps", folder=folder, RUSTDOCFLAGS="-D warnings")


class Shown:
    """The commands of docs/reader.md, which begin with `$`, and what they print: of the program that the variable KBSIM names, or
    else of bin/kbsim's plain Rust."""

    def __init__(self):
        words = [f"{ROOT}/bin/kbsim", "--way", "plain", "--path"]
        self.program = os.environ.get("KBSIM") or subprocess.run(words, stdout=subprocess.PIPE, text=True, check=True).stdout.strip()

    def ran(self, command):
        """What a command prints."""
        command = command.replace("bin/kbsim", self.program)
        return subprocess.run(["bash", "-c", command], cwd=ROOT, capture_output=True, text=True).stdout

    def wrong(self):
        """The commands that print something else, with what they print."""
        blocks = re.findall(r"^```console\n(.*?)^```$", (ROOT / "docs/reader.md").read_text(), re.M | re.S)
        found = []
        for part in "".join(blocks).split("$ ")[1:]:
            command, _, wanted = part.partition("\n")
            found += [(command, wanted, told)] if (told := self.ran(command)) != wanted else []
        assert blocks, "docs/reader.md shows no command"
        return found

    def wrong_values(self, texts):
        """Descriptors and reports of which the objects of JSON say something else."""
        found = []
        for text in texts:
            told = json.loads(self.ran(f"echo {text.hex()} | bin/kbsim parse --json"))
            descriptor = plain.parse(text)
            numbers = [[item.offset, item.bit, item.size, item.count, item.least, item.greatest, *item.physical_extents, item.exponent,
                        names_told(item.names["string"]), names_told(item.names["designator"])] for item in descriptor.declared]
            shown = [[field["offset"], field["bit"], field["size"], field["count"], *field["logical"], *field["physical"],
                      field["unit"]["exponent"], names_told(field["strings"]), names_told(field["designators"])]
                     for field in told["fields"] if field["size"] * field["count"]]
            found += [(text.hex(), numbers, shown)] if (told["version"], shown) != (1, numbers) else []
            # Those that take no bits are among them too.
            each = [offset for offset, code, _ in plain.items(text) if code in (0x80, 0x90, 0xB0)]
            listed = [field["offset"] for field in told["fields"]]
            found += [(text.hex(), each, listed)] if each != listed else []
        return found

    def wrong_refusals(self):
        """The words that are refused otherwise than they should be: status, standard output, and a part of standard error."""
        pad, none = "examples/hid_driver/gamepad.hex", "status 2, '' and"
        # X or Y, bracketed by Delimiters.
        set_of_two = "0501a90109300931a900257f750895018102"
        # Three Buffered Bytes with a usage, and a place of 8 bits without one.
        buffered, bytes_of = "0600ff090175089503150026ff00b202019501b102", "echo 0102ff07 |"
        asked = [
            ("bin/kbsim parse --details --json", none + " cannot be used with"), ("bin/kbsim read - -", none + " can't be both"),
            ("bin/kbsim read --colour x", none + " '--colour'"), ("bin/kbsim write x 256", none + " is no Report ID"),
            ("bin/kbsim write --onto 0 x 0", none + " is not pairs of hex digits"), (f"bin/kbsim write {pad} 0 Xx=1", none + " is no setting"),
            ("bin/kbsim read --from json x", none + " 'json'"), ("bin/kbsim parse --json a b", none + " 'b'"),
            ("echo 0 | bin/kbsim parse --json", "status 1, 'fault hex' and line 1, column 1: the text has 1 hex digits"),
            ("echo 0x5x | bin/kbsim parse --json --from c", "status 1, 'fault c' and 0x5x is no byte"),
            ("echo 05 | bin/kbsim parse --json", "status 1, 'fault parse 1 at 0' and truncated item"),
            ("bin/kbsim parse --json nothing.hex", "status 1, 'fault input' and can't be opened"),
            (f"echo 00 | bin/kbsim read --kind output {pad}", "status 1, 'fault UnknownReport at 1' and "),
            (f"{bytes_of} bin/kbsim read --kind feature <(echo {buffered})", "status 0, '0 ff000001=bytes:0102ff f1[0]=7' and "),
            (f"""{bytes_of} bin/kbsim read --json --kind feature <(echo {buffered}) | grep -o '"buffered":[^]]*]'""",
             """status 0, '"buffered":[{"bytes":[1,2,255]' and """),
            (r"echo 790375009501810239048102 | bin/kbsim parse --json | tr -d ' \n' | grep -Eo '(string|designator)s.:[][0-9,]*'",
             'status 0, \'designators":[],\nstrings":[[3,3]],\ndesignators":[[4,4]],\nstrings":[],\' and '),
            (f"echo {set_of_two} | bin/kbsim parse --lenient", "status 0, 'passed 2 at 2\ninput 0 0 8 1 0 127 variable 00010030' and "),
            (f"echo 05 | bin/kbsim read --lenient <(echo {set_of_two})", "status 0, 'passed 2 at 2\n0 00010030=5' and "),
            (f"echo {set_of_two}c0 | bin/kbsim parse --lenient", "status 1, 'passed 2 at 2\nfault parse 8 at 18' and "),
            (f"bin/kbsim write --kind input {pad} 0 00010030=40000", "status 1, 'fault write TooLarge 0' and does not fit"),
            (f"bin/kbsim write --kind input {pad} 0 00010039=9", "status 1, 'fault write OutOfRange 0' and is out of range"),
            (f"bin/kbsim write --kind input {pad} 0 00010030=1 00010030=none", "status 1, 'fault write Twice 1' and set twice"),
            (f"bin/kbsim write --kind input {pad} 0 00010030=none", "status 1, 'fault write NoNull 0' and has no null"),
            (f"bin/kbsim write --kind input {pad} 0 f9=1", "status 1, 'fault write Unknown 0' and no such usage"),
            (f"bin/kbsim write --kind input {pad} 0 'Hat Switch=unit:91'", "status 1, 'fault write NoStep 0' and just so much"),
            (f"bin/kbsim write --kind input --onto 00 {pad} 0", "status 1, 'fault write Short' and too short"),
            (f"bin/kbsim write {pad} 0", "status 1, 'fault write UnknownReport' and no such report"),
        ]
        found = []
        for command, wanted in asked:
            ran = subprocess.run(["bash", "-c", command.replace("bin/kbsim", self.program)], cwd=ROOT, capture_output=True, text=True)
            head, _, part = wanted.partition(" and ")
            told = f"status {ran.returncode}, '{ran.stdout.strip()}'"
            found += [(command, wanted, told + ran.stderr)] if told != head or part.strip() not in ran.stderr else []
        return found

    def stays_small(self):
        """Whether many reports take no more memory than few: it is limited to 64 MB."""
        limit = "ulimit -v 65536; yes 01020304 | head -n 300000 | bin/kbsim read examples/hid_driver/mouse.hex | wc -l"
        return self.ran(limit).strip() == "300000"

    def goes_on(self):
        """Whether a report is told before the next one comes."""
        words = [self.program, "read", str(ROOT / "examples/hid_driver/mouse.hex")]
        with subprocess.Popen(words, stdin=subprocess.PIPE, stdout=subprocess.PIPE, text=True) as program:
            for _ in range(3):
                program.stdin.write("00000000\n")
                program.stdin.flush()
                if not program.stdout.readline().startswith("0 "):
                    return False
            program.stdin.close()
        return True


def commands(texts):
    """Compares the commands: whether all is as it should be."""
    shown = Shown()
    wrong = shown.wrong() + shown.wrong_values(texts) + shown.wrong_refusals()
    for command, wanted, told in wrong:
        print(f"command {command}\nwanted  {wanted}\ntold    {told}")
    if not shown.goes_on() or not shown.stays_small():
        print("kbsim read tells a report only when more come, or takes more memory for more of them")
        return False
    return not wrong


def main():
    """Builds, compares, and ends with 1 where there is a difference."""
    parser = argparse.ArgumentParser(description=__doc__)
    parser.add_argument("--count", type=int, default=10_000, help="how many descriptors are mutated (10000)")
    parser.add_argument("--seed", type=int, default=1)
    parser.add_argument("--program", help="the program of tests/reader/tell, already built")
    words = parser.parse_args()
    texts, case = real(), Case()
    maker = Maker(words.seed, texts)
    taken = sum(case.add(maker, text, 20) for text in texts)
    good = sum(case.add(maker, maker.mutated(), 2) for _ in range(words.count))
    loose = [text for text in (maker.loosened() for _ in range(words.count)) if not sound(text)]
    for text in loose:
        case.ask(f"L {text.hex()}", told_lenient(text))
    read = sum(not told_lenient(text).startswith("fault") for text in loose)
    if not words.program:
        looked_at("examples/hid_driver")
    program = words.program or f"{building.programs()}/tell"
    made = subprocess.run([program], input="\n".join(case.asked) + "\n", capture_output=True, text=True)
    fine = commands([text for text in texts if sound(text)]) if words.program is None else True
    answers = made.stdout.splitlines()
    wrong = [trio for trio in zip(case.asked, case.wanted, answers) if trio[1] != trio[2]]
    for asked, wanted, answer in wrong[:5]:
        print(f"asked   {asked}\nwanted  {wanted}\nanswer  {answer}")
    missing = made.returncode != 0 or len(case.asked) != len(answers)
    if missing:
        print(f"{made.stderr[-500:]}asked   {case.asked[min(len(answers), len(case.asked) - 1)][:500]}")
    print(f"{len(texts)} descriptors of the repository, {taken} of them sound; {words.count} mutated, {good} sound; "
          f"{len(loose)} that are refused, {read} of them read in the lenient mode; {len(case.asked)} answers, {len(wrong)} differences{', and answers are missing' if missing else ''}")
    return int(bool(wrong) or missing or not fine or read < min(50, words.count // 20))


if __name__ == "__main__":
    sys.exit(main())
