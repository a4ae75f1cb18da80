"""What Linux makes of report descriptors and reports, beside what `kbsim` says of them.

tests/real_host/linux/uhid.c makes devices of real report descriptors in the guest, sends reports drawn here, and tells the keys
that are down, the absolute axes and the moves. `Linux` says from the reader's values what that has to be, by the rules of Linux
(drivers/hid/hid-core.c, hid-input.c). Each rule that makes Linux say something else than the reader is counted by its name.

In the guest `kbsim read --live` reads the same reports from a file of hidraw. What Linux parsed of each descriptor is compared by
`parsed`, and the output and feature reports that Linux sends with those of `kbsim write`.
"""

import collections
import glob
import json
import os
import random
import re
import subprocess
from itertools import zip_longest

from parsed import Parsed
from parts import ROOT

REPORTS = 100  # of each device
LIGHTS = 8  # how many times an LED of each device changes
# Absolute axes by usage: X to Wheel of the page Generic Desktop, Rudder, Throttle, Accelerator and Brake of Simulation; and
# relative ones: X to Rz, and Wheel and AC Pan in 120ths of a notch.
ABSOLUTE = {0x00010030 + number: number for number in range(9)} | {0x000200BA: 7, 0x000200BB: 6, 0x000200C4: 9, 0x000200C5: 10}
RELATIVE = {0x00010030 + number: number for number in range(6)} | {0x00010038: 11, 0x000C0238: 12}
HAT, HAT_CODES = 0x00010039, (16, 17)
HAT_AXES = [(0, 0), (0, -1), (1, -1), (1, 0), (1, 1), (0, 1), (-1, 1), (-1, 0), (-1, -1)]
ROLLOVER, MULTIPLIER, NOTCH = 0x00070001, 0x00010048, 120
LEDS = range(0x00080001, 0x00080006)  # Num Lock to Kana, which Linux counts from 0
# What `kbsim read --live` ends with when the device is gone; its file has another number each time.
FILE = re.compile("^/dev/hidraw[0-9]+: ")
GONE = ["fault input", "FILE: the reports can't be read: Input/output error (os error 5)"]
COMPARED = set(ABSOLUTE.values()) | set(HAT_CODES)


def texts():
    """The descriptors by name: those of examples and tests that are of devices."""
    paths = glob.glob(f"{ROOT}/examples/hid_driver/*.hex") + glob.glob(f"{ROOT}/tests/reader/devices/*.hex")
    found = {}
    for path in sorted([*paths, f"{ROOT}/examples/media_keys.hex"]):
        with open(path, encoding="utf-8") as file:
            found[os.path.basename(path).removesuffix(".hex")] = "".join(file.read().split())
    with open(f"{ROOT}/tests/descriptors/real.rows", encoding="utf-8") as file:
        for part in file.read().split("\n== ")[1:]:
            lines = part.splitlines()
            digits = [line[2:].replace(" ", "") for line in lines if line.startswith("> ")]
            found[lines[0].split(":")[0]] = "".join(digits)
    return found


class Reader:
    """`kbsim`, by its JSON."""

    def __init__(self, program, text):
        self.program, self.text = program, text
        self.told = json.loads(self.ask("parse", "--json", "--from", "hex", "-", given=text))

    def ask(self, *words, given):
        """What it prints."""
        return subprocess.run([self.program, *words], input=given, stdout=subprocess.PIPE, check=True, text=True).stdout

    def read(self, reports, work, *words):
        """The lines of these reports."""
        with open(f"{work}/descriptor", "w", encoding="utf-8") as file:
            file.write(self.text)
        given = "".join(f"{report}\n" for report in reports)
        return self.ask("read", *words, "--from", "hex", f"{work}/descriptor", given=given).splitlines()

    def values(self, reports, work):
        """The values of each of these reports."""
        return [json.loads(line)["values"] for line in self.read(reports, work, "--json")]

    def write(self, kind, number, settings, onto=None):
        """A report with these controls set."""
        words = ["--kind", kind, "--from", "hex", *(["--onto", onto] if onto else []), "-", str(number), *settings]
        return self.ask("write", *words, given=self.text).strip()

    def reports(self, kind):
        """The reports of a kind."""
        return [report for report in self.told["reports"] if report["kind"] == kind]

    def having(self, report, usage):
        """The items of a report that have a usage."""
        return [item for item in map(self.told["fields"].__getitem__, report["fields"]) if item["field"] is not None and Linux.has(item, usage)]

    def draw(self, drawn, report=None):
        """A report in hex, an input report where none is named: mostly values within the extents or at their ends, or any bits. The
        padding of others is 0."""
        report = report or drawn.choice(self.reports("input"))
        bits = drawn.getrandbits(report["bits"]) if report["kind"] == "input" else 0
        for place in report["fields"]:
            item = self.told["fields"][place]
            least, greatest = item["logical"]
            for at in range(item["count"] if item["field"] is not None and least <= greatest else 0):
                if drawn.random() < 0.75:
                    value = drawn.choice([drawn.randint(least, greatest), drawn.randint(least, greatest), least, greatest])
                    shift, mask = item["bit"] + item["size"] * at, (1 << item["size"]) - 1
                    bits = bits & ~(mask << shift) | (value & mask) << shift
        body = bits.to_bytes((report["bits"] + 7) // 8, "little")
        return ((bytes([report["id"]]) if self.told["uses_ids"] else b"") + body).hex()


class Linux:
    """A device as Linux has it: from values to keys, axes and moves."""

    def __init__(self, told, keys, rules):
        self.fields = {item["field"]: item for item in told["fields"] if item["field"] is not None}
        self.multipliers = [item for item in told["fields"] if item["kind"] == "feature" and self.has(item, MULTIPLIER)]
        self.types = [collection["type"] for collection in told["collections"]]
        self.rules, self.places, self.arrays = rules, {}, {}
        self.map_keys(told, collections.Counter(), keys)
        self.down, self.axes, self.moves, self.before = set(), {}, {}, {}
        for item in self.fields.values():
            for usage in ABSOLUTE | {HAT: 0}:
                if item["kind"] == "input" and "Absolute" in item["says"] and "Variable" in item["says"] and self.has(item, usage):
                    for code in HAT_CODES if usage == HAT else [ABSOLUTE[usage]]:
                        self.axes[item["application"], code] = 0

    def map_keys(self, told, seen, keys):
        """Gives each place and each usage of an array its key: of a usage that comes again Linux has told how many it takes, from
        the first one on."""
        for item in (item for item in told["fields"] if item["kind"] == "input" and item["field"] is not None):
            usages = [usage for part in item["usages"] for usage in range(part["first"], part["last"] + 1)]
            if "Variable" in item["says"]:
                usages = [usages[min(place, len(usages) - 1)] for place in range(item["count"])] if usages else []
            for place, usage in enumerate(usages):
                codes = keys.get(usage, [])
                if seen[usage] < len(codes):
                    self.places[item["field"], place] = self.arrays[item["field"], usage] = codes[seen[usage]]
                seen[usage] += 1

    @staticmethod
    def has(item, usage):
        """Whether a field has a usage."""
        return any(part["first"] <= usage <= part["last"] for part in item["usages"])

    def take(self, values):
        """Takes a report."""
        self.moves, by_field = {}, collections.defaultdict(list)
        for value in values:
            by_field[value["field"]].append(value)
        for number, its in by_field.items():
            item = self.fields[number]
            if "Array" in item["says"]:
                self.take_array(number, [(value["value"], value["usage"]) for value in its])
            else:
                for value in its:
                    self.take_value(item, value)
                self.before[number] = {value["place"]: value["value"] for value in its}

    def press(self, code, value):
        """Sets a key, by its value."""
        if value == 2:
            self.rules["a key's value of 2 is a repeat"] += 1
        elif value:
            self.down.add(code)
        else:
            self.down.discard(code)

    def take_array(self, number, now):
        """Takes the places of an array: what is not named any more is let go, and what was not named is pressed."""
        before = self.before.get(number) or [(None, None)] * len(now)
        if any(usage == ROLLOVER for _, usage in now):
            self.rules["an array with ErrorRollOver changes nothing"] += 1
            return
        for (old, was), (new, names) in zip(before, now):
            if (number, was) in self.arrays and old not in [value for value, _ in now]:
                self.press(self.arrays[number, was], 0)
            if (number, names) in self.arrays and new not in [value for value, _ in before]:
                self.press(self.arrays[number, names], 1)
        self.before[number] = now

    def take_value(self, item, value):
        """Takes a place of a variable field."""
        usage, raw = value["usage"], value["value"]
        (least, greatest), application = item["logical"], item["application"]
        if usage == HAT:
            offset = (raw - least) * 8
            place = abs(offset) // (greatest - least + 1) * (1 if offset >= 0 else -1) + 1
            if value["within"] != "range":
                self.rules["a hat outside its extents is at rest"] += 1
            for code, axis in zip(HAT_CODES, HAT_AXES[place if 0 <= place <= 8 else 0]):
                self.axes[application, code] = axis
            return
        if value["within"] == "null":
            self.rules["a null keeps the last value"] += 1
            return
        if value["within"] == "out" and least < greatest:
            self.rules["a value out of range is the extent that is next to it"] += 1
            raw = min(max(raw, least), greatest)
        if "Absolute" in item["says"] and raw == self.before.get(item["field"], {}).get(value["place"], 0):
            self.rules["an absolute value that did not change says nothing"] += 1
        elif (item["field"], value["place"]) in self.places:
            self.press(self.places[item["field"], value["place"]], raw)
        elif "Relative" in item["says"] and usage in RELATIVE:
            code = RELATIVE[usage]
            if code > 10:
                raw = int(raw * NOTCH / self.multiplier(item))
            self.moves[application, code] = self.moves.get((application, code), 0) + raw
        elif "Absolute" in item["says"] and usage in ABSOLUTE:
            self.axes[application, ABSOLUTE[usage]] = raw
        else:
            self.rules["a usage has no key and no axis"] += 1

    def multiplier(self, item):
        """By what the Resolution Multiplier of a wheel's collection divides, which Linux turns on."""
        for feature in self.multipliers:
            around = [place for place in feature["collections"] if self.types[place] == 2]
            if around and around[-1] in item["collections"]:
                self.rules["Linux turns on the Resolution Multiplier of a wheel"] += 1
                return max(feature["physical"][1], 1)
        return 1

    def said(self, line):
        """What Linux told of a report, as this tells it: keys, axes and moves by application."""
        keys, _, rest = line.partition("A")
        axes, _, moves = rest.partition("R")
        told = [collections.defaultdict(dict), collections.defaultdict(dict)]
        for into, words in zip(told, (axes.split(), moves.split())):
            for word in words:
                place, _, value = word.partition("=")
                device, _, code = place.partition(":")
                into[device][int(code)] = int(value)
        return {int(word) for word in keys.split()}, *told


def grouped(found):
    """Values by application and code, as a list of those of each application."""
    groups = collections.defaultdict(dict)
    for (application, code), value in found.items():
        groups[application][code] = value
    return sorted(sorted(group.items()) for group in groups.values())


def compared(told, codes):
    """The same of what Linux tells of its devices, of these codes alone."""
    groups = [sorted((code, value) for code, value in group.items() if code in codes) for group in told.values()]
    return sorted(group for group in groups if group)


class Device:
    """A device with what is drawn for it: what the guest is given, and what it has to say but for keys, axes and moves."""

    def __init__(self, reader, work, drawn):
        self.reader = reader
        self.sent = [reader.draw(drawn) for _ in range(REPORTS)]
        self.values, self.live = reader.values(self.sent, work), reader.read(self.sent, work)
        self.features = {report["id"]: reader.draw(drawn, report) for report in reader.reports("feature")}
        self.changes, lit, self.outputs = [], set(), []
        for report in reader.reports("output"):
            leds = [led for led in LEDS if reader.having(report, led)]
            for led in drawn.choices(leds, k=LIGHTS) if leds else []:
                lit ^= {led}
                self.changes.append(f"L {led - LEDS[0]} {int(led in lit)}\n")
                self.outputs.append(reader.write("output", report["id"], [f"{usage:08x}=1" for usage in sorted(lit)]))

    def lines(self, name):
        """Those for the guest."""
        features = [f"F {number} {feature}\n" for number, feature in self.features.items()]
        return "".join([*features, f"D {name} {self.reader.text}\n", *(f"R {report}\n" for report in self.sent), *self.changes])

    def multiplied(self):
        """The feature reports in which Linux turns on the Resolution Multipliers."""
        for report in self.reader.reports("feature"):
            items = self.reader.having(report, MULTIPLIER)
            settings = [f"f{item['field']}[{place}]={item['logical'][1]}" for item in items for place in range(item["count"])]
            if settings:
                yield self.reader.write("feature", report["id"], settings, self.features[report["id"]])

    def said(self):
        """What hidraw gives of feature reports, the output and the feature reports that Linux sends, and what kbsim says."""
        features = [feature for _, feature in sorted(self.features.items())]
        # (Hidraw takes a report without an ID behind a 0.)
        back = features if self.reader.told["uses_ids"] else [f"00{feature}" for feature in features]
        return {"G": features, "O": self.outputs, "S": [*self.multiplied(), *back], "V": [*self.live, *GONE]}


class Values:
    """All devices with their reports: what the guest is given, and what it has to say."""

    def __init__(self, program, work, seed=1):
        drawn = random.Random(seed)
        self.rules = collections.Counter()
        self.parsed = Parsed(self.rules)
        self.devices = {name: Device(Reader(program, text), work, drawn) for name, text in texts().items()}

    def lines(self):
        """The file for the guest."""
        return "".join(device.lines(name) for name, device in self.devices.items()).encode()

    def differences(self, said):
        """What Linux says otherwise, of the lines that it said."""
        found, told = [], {}
        for line in said:
            word, _, rest = line.partition(" ")
            if word == "device":
                lines = told.setdefault(rest, collections.defaultdict(list))
            lines[word].append(FILE.sub("FILE: ", rest))
        for name, device in self.devices.items():
            lines = told.get(name, collections.defaultdict(list))
            found += self.parsed.differences(name, device.reader.told, lines["P"])
            found += self.value_differences(name, device, lines)
            for kind, wanted in device.said().items():
                found += [f"{name}: Linux says {kind} {here!r}, and not {own!r}" for here, own in zip_longest(lines[kind], wanted) if here != own][:3]
        counts = {words: sum(len(getattr(device, of)) for device in self.devices.values())
                  for words, of in (("input reports", "sent"), ("output reports", "outputs"), ("feature reports", "features"))}
        print(f"linux-test: {len(self.devices)} descriptors, {self.parsed.fields} fields, " + ", ".join(f"{count} {words}" for words, count in counts.items())
              + " beside what kbsim says; rules of Linux: " + "; ".join(f"{rule} ({count})" for rule, count in sorted(self.rules.items()) if count), flush=True)
        return found

    def value_differences(self, name, device, lines):
        """What Linux says otherwise of keys, axes and moves."""
        usages = collections.defaultdict(list)
        for usage, code in (word.split("=") for word in " ".join(lines["key"]).split()):
            usages[int(usage, 16)].append(int(code))
        linux = Linux(device.reader.told, usages, self.rules)
        for report, its, line in zip_longest(device.sent, device.values, lines["K"], fillvalue=""):
            linux.take(its)
            down, axes, moves = linux.said(line)
            wanted = (linux.down, grouped(linux.axes), grouped({key: value for key, value in linux.moves.items() if value}))
            told = (down, compared(axes, COMPARED), compared(moves, set(RELATIVE.values())))
            if wanted != told:
                return [f"{name}, report {report}: Linux says {told}, the reader {wanted}"]
        return []
