"""Checks of a program for RP2040 that its boot stage is whole, and that all that runs while the flash is off, or while the
interrupts are, lies in RAM.

in_ram.py PROGRAM: it says each fault, and the status is then 1. A call from RAM into flash goes by a word with its place, since no
branch reaches so far, and so does each constant there: no word of what the start-up copies into RAM may be a place in flash, and no
constant that is shifted there. It can't see a pointer that is made at run time, as those of the ROM's table are.
"""

import struct
import sys
import zlib

# With its three aliases past the cache.
FLASH = range(0x1000_0000, 0x1400_0000)
# What has to lie in RAM: the handler, the operations of the flash, and the boot stage that maps it again.
NAMES = ("USBCTRL_IRQ", "5flash7operate", "4chip5AGAIN")
USB_VECTOR = 16 + 5
CPSID = 0xb672


def parts(path):
    """The sections of an ELF file of 32 bits, by their names: place and bytes; and its symbols: name and place."""
    with open(path, "rb") as file:
        text = file.read()
    at, size, count, names = struct.unpack_from("<I10xHHH", text, 32)
    headers = [struct.unpack_from("<10I", text, at + size * number) for number in range(count)]
    name = lambda table, place: text[table[4] + place:text.index(b"\0", table[4] + place)].decode()
    sections = {name(headers[names], each[0]): (each[3], text[each[4]:each[4] + each[5]]) for each in headers if each[1] == 1}
    symbols = [(name(headers[table[6]], place), value & ~1)
               for table in headers if table[1] == 2
               for place, value in (struct.unpack_from("<II", text, table[4] + 16 * number) for number in range(table[5] // 16))]
    return sections, symbols


def checksum(stage):
    """The CRC32 of the ROM, by that of zlib, which takes the bits of a byte from the lowest."""
    turned = bytes(int(f"{byte:08b}"[::-1], 2) for byte in stage)
    return int(f"{zlib.crc32(turned) ^ 0xffff_ffff:032b}"[::-1], 2)


def halfwords(section):
    """The halfwords of a section, with their places."""
    start, data = section
    return [(start + 2 * number, half) for number, (half,) in enumerate(struct.iter_unpack("<H", data[:len(data) & ~1]))]


def shifted(halves):
    """The constants that `movs` and a `lsls` close behind it make, with their places."""
    for number, (place, half) in enumerate(halves):
        for _, shift in halves[number + 1:number + 4]:
            if half >> 11 == 0b00100 and shift >> 11 == 0 and shift >> 3 & 7 == half >> 8 & 7:
                yield place, (half & 0xff) << (shift >> 6 & 31) & 0xffff_ffff


def faults(sections, symbols):
    """What is wrong, as lines."""
    boot, stage = sections[".boot"]
    if (boot, len(stage)) != (FLASH.start, 256) or struct.pack("<I", checksum(stage[:252])) != stage[252:]:
        yield "the boot stage is not whole"
    start, data = sections[".data"]
    ram = range(start, start + len(data))
    words = struct.unpack(f"<{len(data) // 4}I", data)
    for number, word in enumerate(words):
        if word in FLASH:
            yield f"what lies in RAM at {start + 4 * number:x} names a place in flash, {word:x}"
    for place, value in shifted(halfwords(sections[".data"])):
        if value in FLASH:
            yield f"what lies in RAM at {place:x} makes a place in flash, {value:x}"
    for place, half in halfwords(sections[".text"]):
        if half == CPSID and ("reset", place) not in symbols:
            yield f"the interrupts are turned off in flash, at {place:x}"
    if start % 256:
        yield "the vectors do not stand at a multiple of 256"
    for name in NAMES:
        places = [place for symbol, place in symbols if name in symbol and "Thunk" not in symbol]
        if not places or any(place not in ram for place in places):
            yield f"{name} does not lie in RAM"
    if any(word & ~1 not in ram for word in words[2:48]):
        yield "a vector names no place in RAM"
    if ("USBCTRL_IRQ", words[USB_VECTOR] & ~1) not in symbols:
        yield "the vector of the USB interrupt is not its handler's"


def planted(sections, symbols):
    """The same with a fault each, and a part of what `faults` has to say of it."""
    (boot, stage), (start, data), (place, text) = sections[".boot"], sections[".data"], sections[".text"]
    with_data = lambda data, start=start: ({**sections, ".data": (start, data)}, symbols)
    yield "not whole", {**sections, ".boot": (boot, bytes([stage[0] ^ 1]) + stage[1:])}, symbols
    for flash in (FLASH.start + 0x101, FLASH.stop - 1):
        yield "names a place in flash", *with_data(data[:-4] + struct.pack("<I", flash))
    # movs r2, #imm; none or two others; lsls r3, r2, #imm.
    for others, (number, shift) in ((0, (1, 28)), (2, (0x13, 24))):
        code = struct.pack(f"<{2 + others}H", 0x2200 | number, *[0xbf00] * others, shift << 6 | 2 << 3 | 3)
        yield "makes a place in flash", *with_data(data[:-8] + code.ljust(8, b"\0"))
    yield "turned off in flash", {**sections, ".text": (place, text[:-2] + struct.pack("<H", CPSID))}, symbols
    yield "multiple of 256", *with_data(data, start + 128)
    yield "is not its handler's", *with_data(data[:4 * USB_VECTOR] + data[4 * USB_VECTOR - 4:4 * USB_VECTOR] + data[4 * USB_VECTOR + 4:])
    for name in NAMES:
        yield f"{name} does not lie", sections, [(symbol, FLASH.start if name in symbol else place) for symbol, place in symbols]


def check(path):
    """The faults of a program; and a line where a planted one is not found."""
    sections, symbols = parts(path)
    return [*faults(sections, symbols), *(f"planted fault {number} is not found, which {says}"
                                          for number, (says, *wrong) in enumerate(planted(sections, symbols))
                                          if not any(says in line for line in faults(*wrong)))]


if __name__ == "__main__":
    found = check(sys.argv[1])
    print("\n".join(found or ["what runs while the flash is off lies in RAM"]))
    sys.exit(1 if found else 0)
