"""Tests of the package python/: installs it into a new environment without a network, and compares what it tells with
reference/reader/plain.py over real and mutated descriptors. They need cargo, rustc, and Python 3.11 with venv.

With `--inside` it runs in the environment, where the package is installed.
"""

import copy
import doctest
import io
import os
import pathlib
import pickle
import subprocess
import sys
import tempfile
import threading
import unittest

ROOT = pathlib.Path(__file__).resolve().parent.parent
sys.path[:0] = [str(ROOT / "reference/reader"), str(ROOT / "tools"), str(ROOT / "tests")]
SEED, MUTATED, REPORTS = 5, 200, 3


def installed(work):
    """Makes an environment with the package, and returns its Python."""
    from debian_crates import environment  # noqa: PLC0415

    subprocess.run([sys.executable, "-m", "venv", f"{work}/venv"], check=True)
    python = f"{work}/venv/bin/python"
    made = {**environment(work, "arrayvec"), "CARGO_TARGET_DIR": os.environ.get("CARGO_TARGET_DIR", f"{work}/target")}
    words = [python, "-m", "pip", "install", "--quiet", "--no-index", "--disable-pip-version-check", str(ROOT / "python")]
    subprocess.run(words, env=made, check=True)
    return python


class Package(unittest.TestCase):
    """What the package tells, beside the reference."""

    @classmethod
    def setUpClass(cls):
        import plain
        import plain_write
        import test_reader
        import wuzhikar_hid

        cls.hid, cls.plain, cls.plain_write, cls.given = wuzhikar_hid, plain, plain_write, test_reader
        texts = test_reader.real()
        cls.maker = test_reader.Maker(SEED, texts)
        cls.texts = texts + [cls.maker.mutated() for _ in range(MUTATED)]

    def kind(self, name):
        return self.hid.Kind[name.upper()]

    def test_details_are_those_of_the_reference(self):
        for text in self.texts:
            try:
                declared = self.plain.parse(text)
            except self.plain.Refused as fault:
                with self.assertRaises(self.hid.DescriptorError) as refused:
                    self.hid.Reader(text)
                self.assertEqual(refused.exception.offset, fault.offset, text.hex())
                continue
            with self.hid.Reader(text) as reader:
                told = [self.package_row(reader, detail) for detail in reader.details]
                self.assertEqual(told, [self.reference_row(declared, item) for item in declared.declared], text.hex())
                reports = [(self.kind(kind), number, declared.bits(kind, number)) for kind, number in declared.reports()]
                self.assertEqual([(report.kind, report.id, report.bits) for report in reader.reports], reports)
                found = [(one.offset, one.type, one.usage, one.outer) for one in reader.collections]
                self.assertEqual(found, [tuple(collection) for collection in declared.collections], text.hex())

    @staticmethod
    def package_row(reader, detail):
        usages = detail.usages if detail.field is not None else ()
        return (detail.offset, detail.kind, detail.flags, detail.id, detail.bit, detail.size, detail.count, detail.min, detail.max,
                detail.physical_min, detail.physical_max, detail.exponent, detail.exponents, usages, detail.strings,
                detail.designators, [one.number for one in reader.around(detail.item)])

    def reference_row(self, declared, item):
        exponents = None if isinstance(item.dimensions, str) else tuple(item.dimensions)
        usages = () if item.constant else tuple(item.usages)
        return (item.offset, self.kind(item.kind), item.flags, item.id, item.bit, item.size, item.count, item.least, item.greatest,
                *item.physical_extents, item.exponent, exponents, usages, tuple(item.names["string"]),
                tuple(item.names["designator"]), list(item.around))

    def sound(self):
        """Each descriptor without fault, as the package and as the reference have it; none so large that the reference takes seconds."""
        for text in self.texts:
            if self.given.sound(text) and sum(item.count for item in self.plain.parse(text).declared) < 1000:
                with self.hid.Reader(text) as reader:
                    yield reader, self.plain.parse(text)

    def test_values_are_those_of_the_reference(self):
        for reader, declared in self.sound():
            for _ in range(REPORTS):
                kind, _, report = self.maker.report(declared)
                wanted = self.plain.read(declared, kind, report)
                if isinstance(wanted, str):
                    with self.assertRaises(self.hid.HidError) as refused:
                        reader.read(report, self.kind(kind))
                    name = {"empty": "EmptyReport", "unknown": "UnknownReport", "short": "ShortReport"}[wanted]
                    self.assertEqual(refused.exception.name, name)
                    continue
                values = reader.read(report, self.kind(kind))
                told = [(one.field, one.place, one.usage, one.raw, one.within.name.lower()) for one in values]
                self.assertEqual(told, wanted)
                for value in values[:20]:
                    self.physical(reader, declared.fields[value.field], value)

    def physical(self, reader, item, value):
        wanted = self.plain.physical(item, value.raw)
        try:
            exact = reader.physical(value)
        except self.hid.HidError as refused:
            is_beyond = refused.name == "TooLarge" and (abs(item.exponent) > 400 or abs(wanted) >= 1 << 62)
            self.assertTrue(isinstance(wanted, str) or is_beyond, refused)
            return
        self.assertEqual(exact, wanted * self.plain.Fraction(10) ** item.exponent)

    def test_changes_are_what_is_pressed_more_and_less(self):
        for reader, declared in self.sound():
            for report in reader.reports:
                before, now = ([report.id] * reader.uses_ids + list(self.maker.random.randbytes(report.bytes)) for _ in range(2))
                before, now = bytes(before[: report.bytes]), bytes(now[: report.bytes])
                were, are = set(reader.pressed(before, report.kind)), set(reader.pressed(now, report.kind))
                self.assertEqual(reader.changes(before, now, report.kind), (sorted(are - were), sorted(were - are)))

    def test_writes_are_those_of_the_reference(self):
        for reader, declared in self.sound():
            kind, number, report = self.maker.report(declared)
            settings = [self.maker.setting(declared, kind, number) for _ in range(self.maker.random.randint(0, 4))]
            onto = report if report and self.maker.random.random() < 0.5 else None
            asked = [self.hid.Setting(value, **{word: which}, place=place) for (word, which, place), value in settings]
            try:
                wanted = self.plain_write.write(declared, kind, number, settings, onto)
            except self.plain_write.NotWritten:
                with self.assertRaises(self.hid.HidError):
                    reader.write(asked, self.kind(kind), number, onto or b"")
                continue
            written = reader.write(asked, self.kind(kind), number, onto or b"")
            self.assertEqual(written, wanted[: len(written)])

    def test_a_stream_is_cut_by_ids(self):
        for reader, _ in self.sound():
            reports = [report for report in reader.reports if report.kind == self.hid.Kind.INPUT]
            if not reports or (len(reports) > 1 and not reader.uses_ids):
                continue
            whole = [bytes([report.id] * reader.uses_ids + [0] * report.bytes)[: report.bytes] for report in reports] * 2
            self.assertEqual(list(reader.reports_of(io.BytesIO(b"".join(whole)))), whole)
            cut = io.BytesIO(b"".join(whole)[:-1])
            if len(whole[-1]) > 1:
                with self.assertRaisesRegex(self.hid.HidError, "ShortReport"):
                    list(reader.reports_of(cut))

    def test_a_reader_is_closed_once_and_refused_then(self):
        reader = self.hid.Reader(self.texts[0])
        threads = [threading.Thread(target=reader.close) for _ in range(8)]
        [thread.start() for thread in threads]
        [thread.join() for thread in threads]
        with self.assertRaisesRegex(self.hid.HidError, "Closed"):
            reader.read(b"\0")
        # Handles are few: those of readers that nobody holds are given back.
        for _ in range(600):
            self.hid.Reader(self.texts[0])

    def test_lenient_readers_tell_what_was_passed_over(self):
        late = bytes.fromhex("05010902a1010901a100050919012903150025019503750181029501750581018501c0c0")
        for text in [late, *(self.maker.loosened() for _ in range(MUTATED))]:
            try:
                wanted = self.plain.parse_lenient(text)
            except self.plain.Refused:
                with self.assertRaises(self.hid.DescriptorError):
                    self.hid.Reader(text, lenient=True)
                continue
            with self.hid.Reader(text, lenient=True) as reader:
                self.assertEqual([fault.offset for fault in reader.passed], [offset for _, offset in wanted.passed])

    def test_what_has_no_bytes_or_does_not_fit_is_refused(self):
        reader = self.hid.Reader(bytes.fromhex("0508a101190129031500250195037501910295059103c0"))
        for call in (self.hid.Reader, reader.pressed, lambda three: reader.write({}, onto=three)):
            with self.assertRaises(TypeError):
                call(3)
        calls = [lambda: self.hid.usage_name(1 << 32), lambda: reader.raw_of(0, (1 << 64) + 1), lambda: reader.write({}, id=256)]
        for call in (*calls, lambda: reader.write({0x80001: (1 << 64) + 1})):
            with self.assertRaises(OverflowError):
                call()

        class Wide:
            def __index__(self):
                return (1 << 32) + 0x70004

        with self.assertRaises(OverflowError):
            self.hid.usage_name(Wide())

    def test_an_error_outlives_a_process_and_a_reader_is_not_copied(self):
        for error in (self.hid.DescriptorError("ShortItem", 3), self.hid.HidError("Closed"), self.hid.HidError("Twice", " (setting 1)")):
            again = pickle.loads(pickle.dumps(error))
            self.assertEqual((type(again), str(again), vars(again)), (type(error), str(error), vars(error)))
        with self.hid.Reader(self.texts[0]) as reader:
            for make in (copy.copy, copy.deepcopy, pickle.dumps):
                self.assertRaises(TypeError, make, reader)
            self.assertTrue(reader.collections)

    def test_what_is_no_number_is_no_zero(self):
        with self.reader_of("keyboard") as keyboard:
            for value in ("", [], b"", 0.0):
                self.assertRaises(TypeError, keyboard.write, [self.hid.Setting(value, usage=0x700E0)])

    def test_a_stream_that_does_not_block_is_no_end(self):
        ends = os.pipe()
        os.set_blocking(ends[0], False)
        with self.reader_of("mouse") as mouse, open(ends[0], "rb", buffering=0) as stream, open(ends[1], "wb", buffering=0) as into:
            self.assertRaises(BlockingIOError, next, mouse.reports_of(stream))
            into.write(bytes([4, 0xFD, 2, 1, 4]))
            reports = mouse.reports_of(stream)
            self.assertEqual(next(reports), bytes([4, 0xFD, 2, 1]))
            self.assertRaises(BlockingIOError, next, reports)

    def test_a_feature_report_is_bytes_of_a_length(self):
        device = object.__new__(self.hid.Live)
        device._file, device.reader = open(os.devnull, "r+b", buffering=0), self.hid.Reader(self.texts[0])
        self.assertRaises(OverflowError, device.set_feature, bytes(1 << 14))
        for call in (device.set_feature, device.send):
            self.assertRaises(TypeError, call, 6)
        device.close()

    def test_a_device_is_closed_once_and_refused_then(self):
        device = object.__new__(self.hid.Live)
        device._file, device.reader = open(os.devnull, "r+b", buffering=0), self.hid.Reader(self.texts[0])
        device.close()
        device.close()
        with self.assertRaises(ValueError):
            device.send(b"\1")

    def test_what_is_no_device_is_refused(self):
        with self.assertRaises(OSError):
            self.hid.live("/dev/null")

    def reader_of(self, name):
        return self.hid.Reader(bytes.fromhex((ROOT / f"examples/hid_driver/{name}.hex").read_text()))

    def test_views_say_what_a_device_is(self):
        views = self.hid.views
        with self.reader_of("mouse") as mouse:
            pointer = views.pointer(mouse, bytes([4, 0xFD, 2, 1]))
            self.assertEqual((pointer.x.raw, pointer.x.is_relative, pointer.wheel, pointer.buttons), (-3, True, 1, (3,)))
        with self.assertRaisesRegex(self.hid.HidError, "Closed"):
            views.pointer(mouse, bytes(4))
        with self.reader_of("gamepad") as gamepad:
            pad = views.pad(gamepad, bytes([1, 0, 3, 0xFF, 0x7F, 0, 0x80, 0, 0, 0, 0, 255, 51]))
            self.assertEqual((pad.axes[0].centred, pad.axes[1], pad.buttons, pad.hats), (1.0, None, (1,), ((2, 8),)))
            self.assertEqual([(usage, axis.share) for usage, axis in pad.others], [(0x200C4, 1.0), (0x200C5, 0.2)])
        with self.reader_of("touch_screen") as screen:
            contacts = views.touch(screen, bytes([1]) + bytes([0xFF] * 15))
            self.assertEqual((contacts[0].x, contacts[0].id, contacts[0].touches), (None, 255, True))
        with self.reader_of("keyboard") as keyboard:
            self.assertEqual(views.keys(keyboard, bytes([2, 0, 4, 0, 0, 0, 0, 0])), ([0x70004, 0x700E1], False))
            self.assertEqual(views.pens(keyboard, bytes(8)), [])

    def test_raw_writes_pass_by_the_extents(self):
        views = self.hid.views
        with self.hid.Reader(bytes.fromhex("0600ff09011500250075089504" "9102")) as headset:
            self.assertEqual(views.put_raw(headset, bytes(4), 0, 2, 0xAB), bytes([0, 0, 0xAB, 0]))
            self.assertEqual(views.put_bytes(headset, bytes(4), 0, bytes([1, 2, 3, 4])), bytes([1, 2, 3, 4]))
            self.assertEqual(views.raw_report(headset, bytes([5])), bytes([5, 0, 0, 0]))
            self.assertEqual(views.read_all(headset, bytes([1, 2, 3, 4]), 0xFF000001, self.hid.Kind.OUTPUT), [1, 2, 3, 4])
            for given, name in (((bytes(4), 0, 2, 256), "TooLarge"), ((bytes(4), 3, 0, 1), "Absent"), ((bytes(3), 0, 0, 1), "ShortReport")):
                with self.assertRaisesRegex(self.hid.HidError, name):
                    views.put_raw(headset, *given)

    def test_any_bytes_are_answered_or_refused_by_name(self):
        views, random = self.hid.views, self.maker.random
        for reader, _ in self.sound():
            for _ in range(20):
                report, kind = random.randbytes(random.randrange(70)), self.hid.Kind(random.randrange(3))
                usage, number = random.getrandbits(32), random.getrandbits(random.randrange(1, 33))
                shown = (views.keys, views.pointer, views.pad, views.touch, views.pens)
                calls = [
                    *((view, report) for view in shown),
                    (views.read_all, report, usage, kind),
                    (views.write_all, usage, [number], kind, number % 256),
                    (views.put_raw, report, number % 300, number % 2000, number, kind),
                    (views.put_bytes, report, number % 300, report[1:], kind),
                    (views.raw_report, report, kind),
                ]
                for call, *given in calls:
                    try:
                        call(reader, *given)
                    except self.hid.HidError:
                        pass

    def test_examples_of_the_documents(self):
        self.assertEqual(doctest.testmod(self.hid).failed, 0)
        self.assertEqual(doctest.testfile(str(ROOT / "python/README.md"), module_relative=False).failed, 0)


def main():
    if "--inside" in sys.argv:
        sys.argv.remove("--inside")
        unittest.main()
    with tempfile.TemporaryDirectory() as work:
        python = installed(work)
        sys.exit(subprocess.run([python, "-B", __file__, "--inside", *sys.argv[1:]], cwd=work).returncode)


if __name__ == "__main__":
    main()
