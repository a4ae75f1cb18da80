#!/usr/bin/env python3
"""Writes a run of the simulator as a capture that Wireshark opens: control transfers and reports, with times by scans.

    bin/kbsim run < SCRIPT > ANSWERS
    examples/pcap.py SCRIPT ANSWERS FILE

The capture is one of Linux's usbmon (link type 220). A millisecond passes with each scan, a microsecond with each other line.
A control transfer is one request and one answer, as a host's driver asks: it is submitted at its SETUP packet, and completed at
its status stage or stall. One that another SETUP packet overtakes is completed by ECONNRESET, one that a reset or a cut of the
power ends by ESHUTDOWN. The host asks for a report from its first poll on, and again at the first poll after each report; what
is told to wait is not seen. The lines `set` and `fetch` are whole transfers. The device is number 1 of bus 1 throughout, since
SET_ADDRESS and SET_CONFIGURATION are no part of a script.
"""

import argparse
import os
import re
import struct
import subprocess
import sys

ROOT = os.path.dirname(os.path.dirname(os.path.abspath(__file__)))
USBMON = 220  # LINKTYPE_USB_LINUX_MMAPPED
INTERRUPT, CONTROL = 1, 2
EINPROGRESS, EPIPE, ECONNRESET, ESHUTDOWN = -115, -32, -104, -108
LONGEST_REPORT = 64

SET_FEATURE = bytes.fromhex("2109030300000600")
GET_REPORT_DESCRIPTOR = bytes.fromhex("8106002200006300")

# What may be printed of a line, by its first word.
BYTES, PACKET = "(?:[0-9a-f]{2})+", r"ack|nak|stall \d+"
ANSWERS = {
    "poll": f"nak|report {BYTES} (?:read .+|unread)", "setup": "ack", "out": PACKET, "in": f"data (?:-|{BYTES})|{PACKET}",
    "set": f"data -|{PACKET}", "fetch": rf"fetched \d+|{PACKET}", "entry": BYTES, "slot": BYTES, "leds": BYTES,
    **dict.fromkeys(("scan", "scans", "reset"), "ok"), **dict.fromkeys(("cut", "cutwork"), "restart"),
    **dict.fromkeys(("work", "workfault"), "idle|working|settled|failed"),
}


class Capture:
    """Records of usbmon, each with its time in microseconds."""

    def __init__(self):
        self.records = []
        self.serial = 0

    def next_serial(self):
        """The number of the next URB."""
        self.serial += 1
        return self.serial

    def add(self, time, serial, kind, transfer, endpoint, status, length, data=None, setup=None):
        """A submission (S) or a completion (C). Where there are no data of this direction, `data` is None."""
        absent = b"<" if endpoint & 0x80 else b">"
        head = struct.pack("<QcBBBH", serial, kind, transfer, endpoint, 1, 1)
        head += b"\0" if setup else b"-"
        head += absent if data is None else b"\0"
        head += struct.pack("<qiiII", time // 1_000_000, time % 1_000_000, status, length, len(data or b""))
        head += (setup or bytes(8)) + struct.pack("<iiII", 1 if transfer == INTERRUPT else 0, 0, 0, 0)
        self.records.append((time, len(self.records), head + (data or b"")))

    def control(self, begun, ended, setup, written, read, status):
        """A control transfer."""
        reads, length = setup[0] & 0x80, struct.unpack("<H", setup[6:])[0]
        serial = self.next_serial()
        self.add(begun, serial, b"S", CONTROL, reads, EINPROGRESS, length, None if reads else written, setup)
        self.add(ended, serial, b"C", CONTROL, reads, status, len(read if reads else written), read if reads else None)

    def report(self, begun, ended, report):
        """A report of endpoint 1."""
        serial = self.next_serial()
        self.add(begun, serial, b"S", INTERRUPT, 0x81, EINPROGRESS, LONGEST_REPORT)
        self.add(ended, serial, b"C", INTERRUPT, 0x81, 0, len(report), report)

    def write(self, file):
        """Writes the capture, in the order of its times."""
        file.write(struct.pack("<IHHiIII", 0xA1B2C3D4, 2, 4, 0, 0, 65535, USBMON))
        for time, _, record in sorted(self.records):
            file.write(struct.pack("<IIII", time // 1_000_000, time % 1_000_000, len(record), len(record)) + record)


class Run:
    """A script beside its answers, line by line."""

    def __init__(self, descriptor):
        self.capture, self.descriptor, self.time = Capture(), descriptor, 0
        self.setup, self.begun, self.written, self.read = None, 0, b"", b""
        self.asked = None  # when the host began to ask for a report

    def line(self, words, answer):
        """Takes a line with its answer."""
        word, rest = words[0], words[1:]
        self.time += 1 if not word.startswith("scan") else 1000 * (int(rest[0]) if word == "scans" else 1)
        if word == "setup":
            self.give_up(ECONNRESET)
            (self.setup,), self.begun = struct.unpack("8s", bytes.fromhex(rest[0])), self.time
        elif word in ("in", "out") and self.setup:
            self.packet(word, bytes.fromhex(rest[0]) if rest else b"", answer)
        elif word == "poll":
            self.poll(answer)
        elif word in ("reset", "cut", "cutwork"):
            self.give_up(ESHUTDOWN)
            self.asked = None
        elif word in ("set", "fetch"):
            self.give_up(ECONNRESET)
            self.whole(word, rest, answer)

    def packet(self, word, bytes_out, answer):
        """A packet of a transfer that is sent, taken, stalled or told to wait."""
        reads = self.setup[0] & 0x80 and self.setup[6:] != b"\0\0"
        if answer.startswith("stall"):
            self.complete(EPIPE)
        elif answer == "nak":
            pass
        elif word == "out" and not reads:
            self.written += bytes_out
        elif word == "in" and reads:
            self.read += bytes.fromhex(answer.split()[1].replace("-", ""))
        else:
            self.complete(0)  # the status stage

    def complete(self, status):
        """The transfer is over."""
        self.capture.control(self.begun, self.time, self.setup, self.written, self.read, status)
        self.setup, self.written, self.read = None, b"", b""

    def give_up(self, status):
        """The transfer is over, where there is one, before its end."""
        if self.setup:
            self.complete(status)

    def poll(self, answer):
        """A poll of endpoint 1."""
        self.asked = self.asked or self.time
        if answer.startswith("report"):
            self.capture.report(self.asked, self.time, bytes.fromhex(answer.split()[1]))
            self.asked = None

    def whole(self, word, rest, answer):
        """A whole transfer in one line."""
        status = EPIPE if answer.startswith("stall") else 0
        if word == "set":
            layer, key, code = int(rest[0]), int(rest[1]), int(rest[2], 16)
            data = struct.pack("<BBBBH", 3, 1, layer, key, code)
            self.capture.control(self.time, self.time, SET_FEATURE, data, b"", status if answer != "nak" else ECONNRESET)
        else:
            read = self.descriptor if answer.startswith("fetched") else b""
            self.capture.control(self.time, self.time, GET_REPORT_DESCRIPTOR, b"", read, status)


def report_descriptor():
    """The report descriptor, as `kbsim describe` prints it."""
    kbsim = os.environ.get("KBSIM")
    command = [kbsim] if kbsim else [f"{ROOT}/bin/kbsim", "--quiet"]
    told = subprocess.run([*command, "describe"], stdout=subprocess.PIPE, check=True, text=True).stdout
    return bytes.fromhex(dict(line.split(" ", 1) for line in told.splitlines())["report"])


def capture_of(script, answers):
    """The capture of a script, a text, beside what the simulator printed of it."""
    told = dict(line.partition(" ")[::2] for line in answers.splitlines())
    fault = next((line for line in answers.splitlines() if line.startswith("fault")), None)
    if fault:
        sys.exit(f"pcap: the run ended in a fault: {fault}")
    lines = [(number, line.split()) for number, line in enumerate(script.split("\n"), 1)]
    lines = [(number, words) for number, words in lines if words and not words[0].startswith("#")]
    run = Run(report_descriptor() if any(words[0] == "fetch" for _, words in lines) else b"")
    for number, words in lines:
        if str(number) not in told:
            sys.exit(f"pcap: line {number} of the script has no answer: are these the answers of this script?")
        answer = told[str(number)]
        if not re.fullmatch(ANSWERS.get(words[0], ""), answer):
            sys.exit(f"pcap: line {number} of the script is {words[0]!r:.40}, and {answer!r:.40} is no answer to it")
        try:
            run.line(words, answer)
        except (ValueError, IndexError, struct.error):
            sys.exit(f"pcap: line {number} of the script is none that runs: {' '.join(words)!r:.40}")
    run.give_up(ECONNRESET)
    return run.capture


def main():
    words = argparse.ArgumentParser(description=__doc__, formatter_class=argparse.RawDescriptionHelpFormatter)
    words.add_argument("script", metavar="SCRIPT", help="the script")
    words.add_argument("answers", metavar="ANSWERS", help="what the simulator printed of it")
    words.add_argument("file", metavar="FILE", help="the capture that is written")
    given = words.parse_args()
    texts = []
    try:
        for path in (given.script, given.answers):
            with open(path, encoding="utf-8", errors="surrogateescape") as file:
                texts.append(file.read())
        capture = capture_of(*texts)
        with open(given.file, "wb") as file:
            capture.write(file)
    except OSError as error:
        sys.exit(f"pcap: {error}")


if __name__ == "__main__":
    main()
