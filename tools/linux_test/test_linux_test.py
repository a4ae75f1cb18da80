"""Tests of what bin/linux-test compares: its rules, and that a difference is told. They need no machine."""

import os
import re
import subprocess
import sys
import unittest

sys.path.insert(0, os.path.dirname(os.path.abspath(__file__)))

import lists  # noqa: E402
import parsed  # noqa: E402
import parts  # noqa: E402
import values  # noqa: E402

HERE = f"{parts.ROOT}/tests/real_host/linux"


class Values(unittest.TestCase):
    """The rules of Linux by which values become keys and axes."""

    def device(self, keys):
        """A hat, eight buttons, an array of two keys and a wheel, in application 0."""
        def item(place, says, first, last, count, logical):
            return {"field": place, "kind": "input", "says": says, "usages": [{"first": first, "last": last}], "count": count,
                    "logical": logical, "physical": logical, "application": 0, "collections": [0]}
        told = {"collections": [{"type": 1}], "fields": [
            item(0, ["Data", "Variable", "Absolute"], values.HAT, values.HAT, 1, [1, 8]),
            item(1, ["Data", "Variable", "Absolute"], 0x90001, 0x90002, 2, [0, 1]),
            item(2, ["Data", "Array", "Absolute"], 0x70000, 0x70065, 2, [0, 101]),
            item(3, ["Data", "Variable", "Relative"], 0x10038, 0x10038, 1, [-127, 127])]}
        self.rules = values.collections.Counter()
        return values.Linux(told, keys, self.rules)

    @staticmethod
    def given(field, *told):
        return [{"field": field, "place": place, "usage": usage, "value": value, "within": within}
                for place, (usage, value, within) in enumerate(told)]

    def test_a_hat_is_two_axes(self):
        device = self.device({})
        for value, axes in ((1, (0, -1)), (3, (1, 0)), (6, (-1, 1)), (0, (0, 0)), (9, (0, 0)), (15, (0, 0))):
            device.take(self.given(0, (values.HAT, value, "range" if 1 <= value <= 8 else "null")))
            self.assertEqual((device.axes[0, 16], device.axes[0, 17]), axes, value)
        self.assertEqual(self.rules["a hat outside its extents is at rest"], 3)

    def test_a_button_that_comes_again_has_no_key(self):
        device = self.device({0x90001: [272]})
        device.take(self.given(1, (0x90001, 1, "range"), (0x90002, 1, "range")))
        self.assertEqual((device.down, self.rules["a usage has no key and no axis"]), ({272}, 1))
        device.take(self.given(1, (0x90001, 0, "range"), (0x90002, 0, "range")))
        self.assertEqual(device.down, set())

    def test_two_usages_of_one_key(self):
        device = self.device({0x70031: [43], 0x70032: [43]})
        device.take(self.given(2, (0x70000, 0, "range"), (0x70031, 49, "range")))
        self.assertEqual(device.down, {43})
        device.take(self.given(2, (0x70032, 50, "range"), (0x70000, 0, "range")))
        self.assertEqual(device.down, set(), "the first is pressed before the second is let go")
        device.take(self.given(2, (values.ROLLOVER, 1, "range"), (values.ROLLOVER, 1, "range")))
        device.take(self.given(2, (0x70032, 50, "range"), (0x70031, 49, "range")))
        self.assertEqual(device.down, {43})

    def test_a_wheel_is_told_in_120ths(self):
        device = self.device({})
        device.take(self.given(3, (0x10038, -2, "range")))
        self.assertEqual(device.moves, {(0, 11): -240})

    def test_there_are_real_descriptors(self):
        self.assertGreaterEqual(len(values.texts()), 10)
        self.assertGreaterEqual(len(values.texts()) * values.REPORTS, 1000)


class Parsed(unittest.TestCase):
    """What Linux parsed of a descriptor."""

    LINES = ["  INPUT(1)[INPUT]", "    Field(0)", "      Physical(GenericDesktop.Pointer)", "      Application(GenericDesktop.Mouse)", "      Usage(2)",
             "        GenericDesktop.X", "        Button.0001", "      Logical Minimum(-1)", "      Logical Maximum(1)", "      Physical Minimum(0)",
             "      Physical Maximum(90)", "      Unit Exponent(-2)", "      Unit(English Rotation : Degrees*Seconds^-1)", "      Report Size(4)",
             "      Report Count(2)", "      Report Offset(8)", "      Flags( Variable Absolute NullState )"]

    def told(self, **other):
        """The same as the reader tells it, or otherwise."""
        item = {"kind": "input", "id": 1, "field": 0, "bit": 8, "size": 4, "count": 2, "flags": 0x42, "logical": [-1, 1], "physical": [0, 90],
                "unit": {"data": 0xF014, "exponent": -2}, "usages": [{"first": 0x10030, "last": 0x10030}, {"first": 0x90001, "last": 0x90001}],
                "collections": [0, 1], **other}
        return {"fields": [item], "collections": [{"type": 1, "usage": 0x10002}, {"type": 0, "usage": 0x10001}]}

    def differences(self, told, lines=None):
        """In what they differ."""
        self.rules = parsed.Counter()
        return parsed.Parsed(self.rules).differences("mouse", told, lines or self.LINES)

    def test_the_same_is_no_difference(self):
        self.assertEqual(self.differences(self.told()), [])

    def test_each_word_is_compared(self):
        usages = [{"first": 0x10030, "last": 0x10030}, {"first": 0x90002, "last": 0x90002}]
        for other in ({"id": 2}, {"bit": 9}, {"size": 5}, {"count": 3}, {"flags": 2}, {"logical": [0, 1]}, {"physical": [0, 91]}, {"collections": [0]},
                      {"unit": {"data": 0x14, "exponent": -2}}, {"unit": {"data": 0xF014, "exponent": 0}}, {"usages": usages}, {"usages": usages[:1]}):
            self.assertNotEqual(self.differences(self.told(**other)), [], other)

    def test_a_name_stands_for_one_usage(self):
        lines = [line.replace("Button.0001", "GenericDesktop.X") for line in self.LINES]
        self.assertEqual(len(self.differences(self.told(), lines)), 1)

    def test_rules_of_linux(self):
        lines = [line for line in self.LINES if "Physical M" not in line]
        self.assertEqual(self.differences(self.told(physical=[-1, 1]), lines), [])
        self.assertEqual(self.rules["physical extents that are not declared stay 0"], 1)
        lines = [line.replace("Variable", "Constant Variable") for line in self.LINES]
        self.assertEqual(self.differences(self.told(field=None, usages=[], flags=0x43), lines), [])
        self.assertEqual(self.rules["padding with a usage is a constant field"], 1)


class Lists(unittest.TestCase):
    """What is compared."""

    def test_what_was_said_is_cut_into_lists(self):
        said = "noise\n--- up 5.5\n--- a on 8\n> x\ny\n--- b on 8\n--- a on wire\n> x\n--- end 9.0\n--- off\n"
        found, times = lists.sections(said)
        self.assertEqual(found, {("a", "8"): ["> x", "y"], ("b", "8"): [], ("a", "wire"): ["> x"]})
        self.assertEqual(times, {"up": 5.5, "end": 9.0})

    def test_comments_are_left_out_and_the_size_is_put_in(self):
        self.assertEqual(lists.expected("# a\n\n> b SIZE\n", 16), ["> b 0010"])

    def test_a_difference_is_shown(self):
        self.assertEqual(lists.differences(["> a", "ack"], ["> a", "ack"]), [])
        self.assertEqual(lists.differences(["> a", "ack"], ["> a"])[-1], "-ack")

    def test_a_keyboard_that_counts_no_waits_is_compared_without(self):
        with open(f"{HERE}/lists/keymap", encoding="utf-8") as file:
            lines = lists.expected(file.read(), 16)
        without = [re.sub(r"^waits [0-9]+$", "waits -", line) for line in lines]
        self.assertNotEqual(lines, without)
        self.assertEqual([lists.compared("keymap", "k", 16, {("keymap", "k"): said}) for said in (lines, without)], [[], []])
        self.assertIn("keymap, serial number k:", lists.compared("keymap", "k", 16, {("keymap", "k"): without[1:]}))

    def test_each_list_is_followed_and_its_commands_are_there(self):
        every = {*lists.EVERY, *lists.ALONE, *lists.OF_FUNCTION, *lists.OF_PYTHON}
        self.assertEqual(set(os.listdir(f"{HERE}/lists")), every)
        with open(f"{HERE}/commands", encoding="utf-8") as file:
            functions = {line.split("(")[0] for line in file if "() {" in line}
        for name in every:
            with open(f"{HERE}/lists/{name}", encoding="utf-8") as file:
                lines = [line.split() for line in file if line.startswith("> ")]
            words = {words[1] for words in lines} | {words[words.index("by") + 1] for words in lines if "by" in words}
            self.assertTrue(lines and words <= functions, f"{name}: {words - functions}")

    def test_the_shell_of_the_guest_reads_its_files(self):
        for name in ("init", "commands"):
            self.assertEqual(subprocess.run(["sh", "-n", f"{HERE}/{name}"]).returncode, 0)


if __name__ == "__main__":
    unittest.main()
