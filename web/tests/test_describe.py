"""Describe: report descriptors that are pasted, their faults, their pictures, and reports that are read by them."""

import json
import re
import subprocess
import unittest

from support import EXAMPLES, PageTest, SHOTS, kbsim, quoted

MOUSE = "05 01 09 02 a1 01 09 01 a1 00 05 09 19 01 29 03 15 00 25 01 95 03 75 01 81 02 95 01 75 05 81 03 05 01 09 30 09 31 15 81 25 7f 75 08 95 02 81 06 c0 c0"
IS_MOUSE = "50 bytes, 26 items, 2 fields, 1 report. No fault."
# A text as the page reads it: its fault, or a line for each field, with its first usage.
READ = """(text) => {
    const read = new page.Descriptor(page.bytesOfText(text)), hex = (usage) => usage ? usage.toString(16).padStart(8, "0") : "-";
    return [read.fault, read.fields.map((field) => [page.KINDS[field.kind], field.id, field.bit, field.size, field.count, field.min, field.max,
        field.array ? "array" : "variable", hex(read.usage(field.number, 0))].join(" "))];
}"""


class Described(PageTest):
    """What stands on the page of a text."""

    def setUp(self):
        super().setUp()
        self.view("Describe")

    def describe(self, text, wanted):
        """Pastes a text, and waits for the sentence about it."""
        self.b.choose("#descriptor", text)
        return self.shows("#described", wanted)

    def items(self):
        """The items: name and what each says."""
        return self.b.js("[...document.querySelectorAll('#items li')].map((one) => [...one.children].slice(2).map((part) => part.textContent))")

    def test_a_mouse(self):
        self.describe(MOUSE, IS_MOUSE)
        items = self.items()
        self.assertEqual(items[1], ["Usage", "Mouse"])
        self.assertEqual(items[2], ["Collection", "Application"])
        self.assertEqual(items[6], ["Usage Minimum", "Button 1"])
        self.assertEqual(items[12], ["Input", "Data, Variable, Absolute"])
        self.assertEqual(items[19], ["Logical Minimum", "-127"])
        self.assertEqual(items[23], ["Input", "Data, Variable, Relative"])
        self.assertEqual(self.b.js("[...document.querySelectorAll('.fields li')].map((one) => one.textContent)"),
                         ["Pointer (Physical)", "bit 0: 3 × 1 bit, variable, 0 to 1: Button 1, Button 2, Button 3", "bit 8: 2 × 8 bits, variable, relative, -127 to 127: X, Y"])
        self.assertEqual(self.b.js("[...document.querySelectorAll('#reports h2')].map((one) => one.textContent)"), ["Mouse (Application)"])
        self.assertEqual(self.b.js("document.querySelectorAll('.bit').length"), 24)
        self.b.choose("#report", "05 ff 02")
        self.shows("#report-said", "5 values, 4 not 0.")
        found = self.b.js("[...document.querySelectorAll('#found li')].map((one) => one.textContent)")
        self.assertEqual(found, ["1 Button 1 00090001", "1 Button 3 00090003", "-1 X 00010030", "2 Y 00010031", "0 Button 2 00090002"])
        self.b.js("document.querySelector('.bytes').focus()")
        self.b.press("ArrowLeft", "ArrowLeft", 37)
        self.shows(".bit-said", "Byte 0, bit 1: Button 2")
        self.b.screenshot(SHOTS / "describe-mouse.png")

    def test_fields_stand_under_their_collections_with_units_and_extents(self):
        """Two fingers of a touch screen, whose X is 0 to 4095 for 0 to 12.10 cm, a force in a unit of the vendor's, and a mouse."""
        finger = "09 22 a1 02 09 42 15 00 25 01 75 01 95 01 81 02 75 07 81 03 05 01 09 30 26 ff 0f 46 ba 04 65 11 55 0e 75 10 81 02 45 00 65 00 55 00 05 0d c0 "
        force = "09 30 25 7f 75 08 65 1f 55 03 81 42 65 00 55 00 "
        self.describe(f"05 0d 09 04 a1 01 85 01 {finger}{finger}{force}c0 05 01 09 02 a1 01 85 02 09 38 15 81 25 7f 75 08 81 06 c0", re.compile(".*6 fields, 2 reports. No fault."))
        self.assertEqual(self.b.js("[...document.querySelectorAll('#reports h2')].map((one) => one.textContent)"), ["Touch Screen (Application)", "Mouse (Application)"])
        lines = self.b.js("[...document.querySelectorAll('.fields')].map((one) => [...one.children].map((line) => line.textContent))")
        items = {tuple(item) for item in self.items()}
        self.assertLessEqual({("Physical Maximum", "1210"), ("Unit", "00000011h"), ("Unit Exponent", "-2"), ("Unit Exponent", "3"), ("Unit", "0000001Fh")}, items)
        extents = "variable, 0 to 4095, which is 0 to 1210 × 10⁻² centimetre: X"
        self.assertEqual(lines, [[
            "Finger (Logical)", "bit 0: 1 × 1 bit, variable, 0 to 1: Tip Switch", f"bit 8: 1 × 16 bits, {extents}",
            "Finger (Logical)", "bit 24: 1 × 1 bit, variable, 0 to 1: Tip Switch", f"bit 32: 1 × 16 bits, {extents}",
            "Touch Screen (Application)", "bit 48: 1 × 8 bits, variable, 0 to 127 or null, in unit 0000001Fh × 10³: Tip Pressure",
        ], ["bit 0: 1 × 8 bits, variable, relative, -127 to 127: Wheel"]])

    def test_a_report_that_nobody_wrote_has_the_right_size(self):
        for text, report in ((MOUSE, "00 00 00"), (f"{MOUSE} 05", ""), ("85 07 05 01 09 30 25 7f 75 08 95 03 81 02", "07 00 00 00"), ("05 08 09 01 25 01 75 01 95 01 91 02", "")):
            self.b.choose("#descriptor", text)
            self.has("document.querySelector('#report').value", report)
        self.b.click("#own-descriptor")
        self.shows("#report-said", "169 values, 2 not 0.")
        self.b.choose("#descriptor", MOUSE)
        self.shows("#report-said", "5 values, 0 not 0.")
        self.b.choose("#report", "01 02 03")
        self.b.choose("#descriptor", f"{MOUSE} ")
        self.assertEqual(self.b.js("document.querySelector('#report').value"), "01 02 03", "what a user wrote stays")

    def test_other_ways_to_write_bytes(self):
        pairs = MOUSE.split()
        bytes_ = bytes.fromhex(MOUSE)
        array = "/* a mouse */ static const uint8_t mouse[] PROGMEM = {\n" + ", ".join(f"0x{pair.upper()}" for pair in pairs) + ", // the end\n};"
        decimal = "{ " + ", ".join(str(byte) for byte in bytes_) + " }"
        rows = [bytes_[at:at + 16] for at in range(0, len(bytes_), 16)]
        shown = ["".join(chr(byte) if 32 <= byte < 127 else "." for byte in row) for row in rows]
        xxd = "".join(f"{16 * n:08x}: {' '.join(row[at:at + 2].hex() for at in range(0, len(row), 2)):<39}  {shown[n]}\n" for n, row in enumerate(rows))
        dump = "".join(f"{16 * n:08x}  {row[:8].hex(' ')}  {row[8:].hex(' ')}  |{shown[n]}|\n" for n, row in enumerate(rows)) + f"{len(bytes_):08x}\n"
        rust = f"const MOUSE: [u8; {len(bytes_)}] = [" + ", ".join(f"0x{pair}" for pair in pairs) + ",];"
        rdesc = f"{MOUSE} \n\n  INPUT[INPUT]\n    Field(0)\n      Application(GenericDesktop.Mouse)\n"
        usbhid_dump = "001:002:000:DESCRIPTOR         1303325321.298640\n" + "".join(f" {row.hex(' ').upper()}\n" for row in rows) + "\n"
        recorder = f"D: 0\nR: {len(bytes_)} {MOUSE}\nN: a mouse\nP: usb-0\nI: 3 046d c077\nE: 000000.000000 3 01 05 fd\n"
        written = ("".join(pairs), MOUSE.replace(" ", ", "), "0x" + " 0x".join(pairs), " ".join(f"{pair}h" for pair in pairs), array, decimal, xxd, dump,
                   "# a comment\n" + MOUSE, rust, rdesc, usbhid_dump, recorder)
        for text in written:
            with self.subTest(text[:40]):
                self.describe("05", re.compile("Fault 1 at byte 0 .*"))
                self.describe(text, IS_MOUSE)
        self.describe("05", re.compile("Fault 1 at byte 0 .*"))
        self.drop("#descriptor-file", "report_descriptor", bytes_)
        self.shows("#described", IS_MOUSE)

    def test_faults_stand_at_their_items(self):
        for text, number, offset, name in (("c0", 8, 0, "EndWithoutCollection"), ("05 01 a1 01", 15, 4, "CollectionOpen"), ("05 01 26 ff", 1, 2, "Truncated"),
                                           ("85 00", 5, 0, "BadReportId"), ("05 01 " * 2049, 16, 4096, "TooLong"), ("a9 01", 2, 0, "Delimiter")):
            with self.subTest(name):
                self.describe(text, re.compile(rf"Fault {number} at byte {offset} \({offset:03X}h\): {name}: .+\."))
                marked = self.b.js("[...document.querySelectorAll('#items li.bad .offset')].map((one) => one.textContent)")
                self.assertEqual(marked, [f"{offset:03X}"] if offset < 3000 else [])
        self.assertEqual(self.b.js("document.querySelectorAll('.report').length"), 0)
        self.b.choose("#report", "00")
        self.shows("#report-said", "A report is read by a descriptor without a fault.")

    def test_what_is_no_text_of_bytes(self):
        for text, why in (("", "there is no byte in it"), ("05 zz", "line 1, column 4: z is no hex digit"), ("5 1 0", "line 1, column 5: the text has 3 hex digits, and a byte takes two"),
                          ("{ 0x05,\n300 }", "line 2, column 1: 300 is no byte; those are 0x0 to 0xff, or 0 to 255 without a 0 in front"),
                          ("05 01 \u0001", "it has characters that no form of bytes has"), ("05 01 \u00e9", r"line 1, column 7: \xc3 is no hex digit"),
                          ("R: 3 05 01\n", "line 1, column 4: 3 is not the number of the bytes, which is 2")):
            self.describe(text, f"This is no report descriptor: {why}.")

    def test_a_value_that_is_none(self):
        """A hat of 1 to 8 with Null State, four bits without a usage, and a place of 0 to 9."""
        self.describe("05 01 09 39 15 01 25 08 75 04 95 01 81 42 15 00 25 0f 81 02 09 30 25 09 75 08 81 02", re.compile(".*3 fields, 1 report. No fault."))
        self.b.choose("#report", "30 0a")
        self.shows("#report-said", "3 values, 2 not 0.")
        found = self.b.js("[...document.querySelectorAll('#found li')].map((one) => one.textContent)")
        self.assertEqual(found, ["3 f1[0] ", "10 (out of range) X 00010030", "null Hat Switch 00010039"])

    def test_reports_that_are_refused(self):
        self.b.click("#own-descriptor")
        for report, why in (("09 00", "the descriptor has no such input report"), ("01 02", "it is shorter than the descriptor says"), ("xy", "line 1, column 1: x is no hex digit")):
            self.b.choose("#report", report)
            self.shows("#report-said", f"This report is not read: {why}.")

    def test_a_report_with_more_values_than_the_core_hands_over_at_once(self):
        """Eight fields of 1,024 buttons, all of them down."""
        buttons = "19 01 2a 00 04 15 00 25 01 75 01 96 00 04 81 02"
        self.describe("05 01 09 05 a1 01 " + "".join(f"06 {page:02x} ff {buttons} " for page in range(8)) + "c0", re.compile(".*8 fields, 1 report. No fault."))
        self.b.choose("#report", "ff" * 1024)
        self.shows("#report-said", "8,192 values, 8192 not 0.")
        self.assertEqual(self.b.js("""(() => {
            const read = new page.Descriptor(page.bytesOfText(document.querySelector("#descriptor").value)), report = new Uint8Array(1024).fill(255);
            const wrong = read.read(report).filter(({ usage, value }, n) => value !== 1 || usage !== (0xff00 + (n >> 10)) * 65536 + (n & 1023) + 1).length;
            const pressed = read.pressed(report.fill(0, 0, 512)), odd = pressed.filter((usage, n) => usage !== (0xff04 + (n >> 10)) * 65536 + (n & 1023) + 1).length;
            return [wrong, pressed.length, odd];
        })()"""), [0, 4096, 0])

    def test_what_stands_behind_a_report_is_shown(self):
        self.b.click("#boot-descriptor")
        self.b.choose("#report", "02 00 04 05 00 00 00 00")
        self.shows("#report-said", re.compile(r".* values, \d+ not 0\."))
        for more, said in (("00", "1 byte behind its end is"), ("00 05", "2 bytes behind its end are")):
            self.b.choose("#report", f"02 00 04 05 00 00 00 00 {more}")
            self.shows("#report-said", re.compile(rf".* values, \d+ not 0\. {said} no part of it\."))
        self.b.click("#own-descriptor")
        self.b.choose("#report", self.b.js("document.querySelector('#report').value") + " 01")
        self.shows("#report-said", re.compile(r".* 1 byte behind its end is no part of it\."))

    def test_examples(self):
        for button, said in (("own", "99 bytes, 49 items, 5 fields, 4 reports. No fault."), ("boot", "39 bytes, 20 items, 2 fields, 1 report. No fault."), ("media", "No fault.")):
            self.b.click(f"#{button}-descriptor")
            self.shows("#described", re.compile(f".*{said}"))
        self.b.js("document.querySelector('#described').textContent = ''")
        self.b.click("#describe")
        self.shows("#described", re.compile(f".*{said}"))


class AsKbsim(PageTest):
    """The reader of the page beside `kbsim parse`: fields, faults, on the example and on texts that are changed at random."""

    def test_fields_and_faults(self):
        program = kbsim()
        media = EXAMPLES.joinpath("media_keys.hex").read_text().split()
        texts = [" ".join(media)] + [" ".join(media[:at] + [f"{(7 * at + 13 * n) % 256:02x}"] + media[at + 1:]) for at in range(len(media)) for n in range(2)]
        found = self.b.js(f"{json.dumps(texts)}.map({READ})")
        faults = set()
        for text, (fault, fields) in zip(texts, found, strict=True):
            told = subprocess.run([program, "parse"], input=text, stdout=subprocess.PIPE, stderr=subprocess.DEVNULL, text=True).stdout.splitlines()
            with self.subTest(text):
                if fault:
                    faults.add(fault["number"])
                    self.assertEqual(told[-1], f"fault parse {fault['number']} at {fault['offset']}")
                else:
                    self.assertEqual([re.match(r".* (-|[0-9a-f]{8})", line.split(",")[0].split("-000")[0])[0] for line in told], fields)
        self.assertGreater(len(faults), 4)

    def test_items(self):
        lines = [line[6:22].strip() for line in EXAMPLES.joinpath("media_keys.items.expected").read_text().splitlines()]
        found = self.b.js(f"page.itemsOf(page.bytesOfText({quoted(EXAMPLES.joinpath('media_keys.hex').read_text())})).items.map((item) => page.bytesHex(item.bytes))")
        self.assertEqual(found, [line.replace(" ", "") for line in lines])


class Names(unittest.TestCase):
    """The data file of usage names."""

    def test_it_is_whole_and_each_usage_stands_once(self):
        from support import ROOT
        pages, page = {}, None
        for line in (ROOT / "rust/wuzhikar-hid/src/usages.txt").read_text().splitlines():
            first, _, rest = line.partition(" ")
            if first == "#":
                continue
            if first == "page":
                page = pages.setdefault(int(rest.split()[0], 16), {})
                continue
            self.assertTrue(rest and rest == rest.strip(), line)
            if first != "*":
                self.assertNotIn(int(first, 16), page, line)
                self.assertTrue(not page or int(first, 16) > max(page), line)
                page[int(first, 16)] = rest
        self.assertLessEqual({0x01, 0x07, 0x08, 0x09, 0x0C}, pages.keys())
        self.assertTrue(all(usage in pages[0x07] for usage in (*range(0x04, 0xA5), *range(0xE0, 0xE8))), "each key of the keymap has a name")
