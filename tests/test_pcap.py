"""Tests examples/pcap.py: its records, and, where tshark is installed, that Wireshark reads in each report what the simulator's host
reads in it.

They run on the program that the variable KBSIM names, or else on bin/kbsim.
"""

import importlib.util
import os
import random
import re
import shutil
import struct
import subprocess
import tempfile
import unittest

ROOT = os.path.dirname(os.path.dirname(os.path.abspath(__file__)))
KBSIM = os.environ.get("KBSIM", f"{ROOT}/bin/kbsim")

SPEC = importlib.util.spec_from_file_location("pcap", f"{ROOT}/examples/pcap.py")
pcap = importlib.util.module_from_spec(SPEC)
SPEC.loader.exec_module(pcap)

# What a host asks before its first report, as far as Wireshark has to know it: the device, its interface, its reports.
ENUMERATION = """
setup 8006000100001200
in
in
in
out
setup 8006000200002200
in
in
in
in
in
out
fetch
"""
BOOT = "setup 210B000000000000\nin\n"
REPORT = "setup 210B010000000000\nin\n"


def run(script):
    """What the simulator prints of a script."""
    ran = subprocess.run([KBSIM, "run"], input=script, stdout=subprocess.PIPE, stderr=subprocess.DEVNULL, text=True, check=True)
    return ran.stdout


def records(script, answers=None):
    """The records of a script's capture: time, kind, transfer, endpoint, status, setup or None, data."""
    found = []
    for time, _, record in pcap.capture_of(script, answers if answers is not None else run(script)).records:
        _, kind, transfer, endpoint, _, _, has_setup, _, _, _, status, _, count = struct.unpack("<QcBBBHccqiiII", record[:40])
        setup = record[40:48].hex() if has_setup == b"\0" else None
        assert count == len(record) - 64
        found.append((time, kind.decode(), transfer, endpoint, status, setup, record[64:].hex()))
    return found


class Records(unittest.TestCase):
    """What stands in a capture."""

    def test_a_write_with_nak(self):
        told = records("setup 2109030300000600\nout 030100000500\nin\nwork\nin\nwork\nin\n")
        self.assertEqual(told, [
            (1, "S", 2, 0, -115, "2109030300000600", "030100000500"),
            (7, "C", 2, 0, 0, None, ""),
        ])

    def test_a_read_and_a_stall(self):
        told = records("setup A101030300000600\nin\nout\nsetup 8006000600000A00\nin\n")
        self.assertEqual([row[1:] for row in told], [
            ("S", 2, 0x80, -115, "a101030300000600", ""),
            ("C", 2, 0x80, 0, None, "030000000400"),
            ("S", 2, 0x80, -115, "8006000600000a00", ""),
            ("C", 2, 0x80, -32, None, ""),
        ])

    def test_a_report_is_asked_for_from_the_first_poll_on(self):
        told = records("poll\nscans 5 0\npoll\npoll\n")
        self.assertEqual([row[:5] for row in told], [(1, "S", 1, 0x81, -115), (5002, "C", 1, 0x81, 0)])
        self.assertEqual(told[1][6], "010001" + 20 * "00")

    def test_what_ends_a_transfer_early(self):
        for line, status in [("setup 8006000100001200", -104), ("reset", -108), ("cut", -108), ("fetch", -104)]:
            told = records(f"setup 8006000100001200\nin\n{line}\n")
            self.assertEqual((told[1][1], told[1][4], told[1][6]), ("C", status, "1201000200000008"), line)

    def test_whole_transfers_in_a_line(self):
        told = records("set 1 2 40E9\nset 4 0 0004\nfetch\n")
        self.assertEqual([(row[4], row[6]) for row in told[:4]], [(-115, "03010102e940"), (0, ""), (-115, "030104000400"), (-32, "")])
        self.assertEqual(told[5][6], pcap.report_descriptor().hex())

    def test_answers_of_another_script(self):
        with self.assertRaisesRegex(SystemExit, "line 2"):
            records("poll\npoll\n", "1 nak\n")
        with self.assertRaisesRegex(SystemExit, "fault line 1"):
            records("poll x\n", "fault line 1: wrong words\n")

    def test_what_is_no_answer_is_refused_in_one_line(self):
        for script, answers in [
            ("poll\n", "1\n"), ("poll\n", "1 report zz read none\n"), ("poll\n", "1 report 0 unread\n"), ("poll\n", "1 report 01\n"),
            ("setup 8006000100001200\nin\n", "1 ack\n2 data\n"), ("setup 8006000100001200\nin\n", "1 ack\n2 ok\n"),
            ("setup 80\n", "1 ack\n"), ("setup x\n", "1 ack\n"), ("setup\n", "1 ack\n"), ("scans x\n", "1 ok\n"), ("no\n", "1 ok\n"),
            ("set 1 2\n", "1 ack\n"), ("set 1 2 99999\n", "1 ack\n"), ("\udcff\n", "1 ok\n"), ("fetch\n", "1 fetched\n"),
        ]:
            with self.subTest(script=script, answers=answers), tempfile.TemporaryDirectory() as folder:
                for name, text in (("script", script), ("answers", answers)):
                    with open(f"{folder}/{name}", "w", encoding="utf-8", errors="surrogateescape") as file:
                        file.write(text)
                words = ["python3", "-B", f"{ROOT}/examples/pcap.py", "script", "answers", "capture"]
                ran = subprocess.run(words, cwd=folder, capture_output=True, text=True)
                self.assertEqual((ran.returncode, ran.stdout, os.path.exists(f"{folder}/capture")), (1, "", False))
                self.assertRegex(ran.stderr, r"\Apcap: line [12] of the script .*\n\Z")
                ran = subprocess.run([*words[:3], "lacking", *words[4:]], cwd=folder, capture_output=True, text=True)
                self.assertRegex(ran.stderr, r"\Apcap: .*lacking.*\n\Z")


def session(seed):
    """A script of a host that enumerates the keyboard, sets keys, and polls while keys go down and up."""
    numbers, lines, held = random.Random(seed), [ENUMERATION], set()
    for _ in range(160):
        code = numbers.choice([f"{numbers.randrange(0x4, 0xa5):04X}", f"{numbers.randrange(0x4001, 0x4400):04X}", "5001", "0001"])
        lines.append(f"set {numbers.randrange(2)} {numbers.randrange(96)} {code}")
        for _ in range(numbers.randrange(1, 9)):
            held ^= {numbers.randrange(96)}
            lines.append(f"scans 5 {' '.join(map(str, sorted(held)))}")
            lines += ["poll"] * numbers.randrange(4)
    return "\n".join(lines + [BOOT, "scans 5 0 1", "poll", "scans 5", "poll", REPORT, "scans 5 2", "poll", ""])


def usages_of_wireshark(capture):
    """Of each frame with a report, the usages that Wireshark reads in it."""
    told = subprocess.run(["tshark", "-n", "-r", capture, "-V", "-Y", "usb.transfer_type == 1 && usb.data_len > 0"],
                          stdout=subprocess.PIPE, stderr=subprocess.DEVNULL, text=True, check=True).stdout
    for frame in re.split(r"^Frame \d+:", told, flags=re.MULTILINE)[1:]:
        keys = [0x70000 | int(usage, 16) for usage in re.findall(r"\(0x([0-9a-f]+)\): DOWN", frame)]
        consumer = [0xC0000 | int(usage, 16) for usage in re.findall(r"\(0x000c, 0x([0-9a-f]+)\)", frame)]
        yield sorted(usage for usage in keys + consumer if usage & 0xFFFF)


@unittest.skipUnless(shutil.which("tshark"), "tshark is not there (Debian: tshark)")
class Wireshark(unittest.TestCase):
    """Wireshark's reading of a capture beside the simulator's."""

    def compare(self, script):
        """How many reports Wireshark reads as the simulator's host does. It ignores SET_PROTOCOL, so those of boot protocol,
        which have 8 bytes, are left out."""
        answers = run(script)
        read = [line.split(" read ") for line in answers.splitlines() if " report " in line]
        with tempfile.TemporaryDirectory() as folder:
            with open(f"{folder}/run.pcap", "wb") as file:
                pcap.capture_of(script, answers).write(file)
            seen = list(usages_of_wireshark(f"{folder}/run.pcap"))
        self.assertEqual(len(seen), len(read))
        compared = 0
        for (report, usages), wireshark in zip(read, seen):
            if len(report.split()[2]) > 16:
                self.assertEqual(sorted(int(usage, 16) for usage in usages.replace("none", "").split()), wireshark, report)
                compared += 1
        return compared, len(read)

    def test_reports_are_read_as_the_simulator_reads_them(self):
        compared = [self.compare(session(seed)) for seed in range(3)]
        self.assertGreater(sum(count for count, _ in compared), 1000)
        self.assertTrue(all(0 < whole - count < 4 for count, whole in compared), compared)

    def test_the_example(self):
        with open(f"{ROOT}/examples/driver.kbs", encoding="utf-8") as file:
            compared, whole = self.compare(file.read())
        self.assertEqual(compared, whole)


if __name__ == "__main__":
    if not shutil.which("tshark"):
        print("test_pcap: skipped: the comparison with Wireshark, since tshark is not there (Debian: tshark)")
    unittest.main()
