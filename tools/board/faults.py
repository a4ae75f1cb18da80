"""Faults that are planted in the firmware: each has to be found by the test that would find it in a maker's."""

import re
from typing import NamedTuple


class Edit(NamedTuple):
    """What stands once in a file, and what takes its place."""

    path: str
    old: str
    new: str


class Fault(NamedTuple):
    """A fault: what is wrong, its edits, the test that finds it, how it is told, and the features of its firmware."""

    name: str
    edits: list[Edit]
    test: list[str]
    found: str
    features: str = ""


FIRMWARE = "examples/chip_nrf51/src"
LOG = "rust/wuzhikar-log/src/parts/records"
ERASE = "for at in (from..to)"

# A firmware with the default codes of tests in place of the standard ones. The program of the host knows them by `layout`.
LAYOUT = [
    Edit(f"{FIRMWARE}/main.rs", "use wuzhikar::{KeyboardOf, Standard, UnstartedKeyboardOf};", "use wuzhikar::{KeyboardOf, UnstartedKeyboardOf};"),
    Edit(f"{FIRMWARE}/main.rs", "type Codes = Standard;",
         '#[path = "../../../rust/tests/src/other.rs"]\nmod other;\ntype Codes = other::Other;'),
]

FAULTS = [
    Fault("the host is told before a command is stored",
          [Edit(f"{FIRMWARE}/token.rs", "EpAnswer::Nak => Frame::of(b'N')", "EpAnswer::Nak => Frame::data(&[])")],
          ["random", "300", "1"], "LOST|WRONG"),
    Fault("the second word of a slot is never programmed",
          [Edit(f"{FIRMWARE}/nvmc.rs", "bytes.chunks_exact(4)) {\n            let word", "bytes.chunks_exact(4).take(1)) {\n            let word")],
          ["random", "300", "1"], "LOST|refused|BROKEN"),
    Fault("an erase leaves the last 1,024 bytes of a page",
          [Edit(f"{FIRMWARE}/nvmc.rs", ERASE, "for at in (from..to - UNIT)")], ["random", "500", "1"], "LOST|BROKEN"),
    Fault("an erase begins 1,024 bytes too early",
          [Edit(f"{FIRMWARE}/nvmc.rs", ERASE, "for at in (from - UNIT..to)")], ["operations", "37"], "LOST|BROKEN"),
    Fault("the flash controller is left open",
          [Edit(f"{FIRMWARE}/nvmc.rs", "write(CONFIG, before);", "let _ = before;")], ["session"], "left open: true"),
    Fault("a word is taken without its complement",
          [Edit(f"{LOG}.rs", "} else if check == !word {", "} else if word != u32::MAX {"),
           Edit(f"{LOG}/kernels.rs", "good: ones_of(words ^ checks)", "good: !ones_of(words & checks)")],
          ["words", "8", "1"], "LOST"),
    Fault("a unit of which one cell is cleared is taken for an erased one",
          [Edit(f"{FIRMWARE}/ecc.rs", "if corrected && right == [0xff; 8]", "if corrected && right == [0; 8]"),
           Edit(f"{FIRMWARE}/ecc.rs", "if self.words(at)? != ([0xff; 8], [0xff; 4])", "if self.words(at)?.0 == [0; 8]")],
          ["random", "1500", "1"], "BROKEN", "ecc"),
    Fault("a plain log is on cells that waver",
          [Edit(f"{FIRMWARE}/steady.rs", "{MarkedUnits, SteadyFlash}", "SlotFlash"),
           Edit(f"{FIRMWARE}/steady.rs", "SteadyFlash<MarkedUnits<Nvmc>>", "SlotFlash<Nvmc>"),
           Edit(f"{FIRMWARE}/steady.rs", "SteadyFlash::take_over(MarkedUnits::new(Nvmc, END - LOG, PAGES).ok()?).ok()",
                "SlotFlash::new(Nvmc, END - LOG, PAGES).ok()")],
          ["starts", "300", "1"], "LOST", "steady"),
    Fault("a steady flash does not mark that a page is written",
          [Edit("rust/wuzhikar-log/src/parts/steady_flash/writing.rs",
                "    program_mark(flash, layout.held[page].page as usize, OPEN, ZEROS)?;\n", "")],
          ["starts", "300", "1"], "LOST", "steady"),
    Fault("the firmware waits for a flash that is ready",
          [Edit(f"{FIRMWARE}/nvmc.rs", "while read(READY) & 1 == 0 {}", "while read(READY) & 1 == 1 {}")],
          ["session"], "SILENT.*it runs, and gives none"),
    Fault("nothing waits for the flash behind an operation",
          [Edit(f"{FIRMWARE}/nvmc.rs", "act();\n        Nvmc::wait();", "act();")], ["session"], "BROKEN.* [1-9][0-9]* accesses while"),
    Fault("the loop serves before its work, and not behind it",
          [Edit(f"{FIRMWARE}/buffers.rs", "device.work();\n            device.serve(&mut soft);", "device.serve(&mut soft);\n            device.work();")],
          ["session"], "LATE", "buffers"),
    Fault("a SETUP packet leaves endpoint 0 armed",
          [Edit(f"{FIRMWARE}/buffers.rs", "(self.input_0, self.output_0) = (Input::Nak, Output::Nak);\n    }\n\n    fn out", "}\n\n    fn out")],
          ["armed"], "ARMED", "buffers"),
    Fault("the firmware waits for a byte that nobody sends",
          [Edit(f"{FIRMWARE}/frames.rs", "let [length, packet @ ..] = uart.bytes::<9>();",
                "let [length, packet @ .., _] = uart.bytes::<10>();")],
          ["session"], "SILENT.*it sleeps, and nothing is on its way"),
    Fault("endpoint 0 is told to wait for ever",
          [Edit(f"{FIRMWARE}/token.rs", "let (answer, change) = device.in_packet();",
                "let (answer, change) = (EpAnswer::Nak, None);")],
          ["session"], "SILENT.*told to wait"),
    Fault("RAM is read before it is written",
          [Edit(f"{FIRMWARE}/main.rs", '"bhs 2f"', '"b 2f"'),
           Edit("rust/wuzhikar/src/parts/keyboard/keyboard.rs", "self.keys.restart();", "")],
          ["random", "100", "1"], "WRONG|a frame"),
    Fault("a reset gives the standard codes, where a maker chose others",
          [*LAYOUT, Edit("rust/wuzhikar/src/layout.rs", "codes[start..end].copy_from_slice(&L::TABLE[start..end]);",
                         "crate::parts::layers::Standard::reset(codes, start, end);")],
          ["layout", "300", "1"], "LOST|WRONG"),
]

# A slot is a word beside its complement, so it makes no difference which half is programmed first.
HARMLESS = Fault("the second word of a slot is programmed first",
                 [Edit(f"{FIRMWARE}/nvmc.rs", "(offset as usize..).step_by(4).zip(bytes.chunks_exact(4)) {\n            let word",
                       "[4, 0].map(|at| (offset as usize + at, &bytes[at..at + 4])) {\n            let word")],
                 ["random", "100", "1"], "")


def plant(root, edits):
    """Plants edits in a copy of the repository's folders; what gives the files back."""
    kept = {}
    for path, old, new in edits:
        with open(f"{root}/{path}", encoding="utf-8") as file:
            text = file.read()
        kept.setdefault(path, text)
        if text.count(old) != 1:
            raise LookupError(f"{path} has {old!r} {text.count(old)} times, not once")
        with open(f"{root}/{path}", "w", encoding="utf-8") as file:
            file.write(text.replace(old, new))

    def mend():
        for path, text in kept.items():
            with open(f"{root}/{path}", "w", encoding="utf-8") as file:
                file.write(text)

    return mend


def is_found(fault, passed, told):
    """Whether what the test told is that this fault is there, and no other."""
    return not passed and re.search(fault.found, told) is not None
