"""An input report, bit by bit: the one that examples/driver.kbs prints where keys 0 and 88 are down."""

from slots import answers_of
from svg import Picture

LINE = 66  # of the script
MODIFIERS, KEYS, CELL, LEFT, TOP = 8, 161, 18, 90, 78
NAMES = {0xE0: "left Control", 0x04: "a"}


def usage_of(bit):
    """The usage of a bit after the Report ID (None: padding)."""
    if bit < MODIFIERS:
        return 0xE0 + bit
    return 0x04 + bit - MODIFIERS if bit < MODIFIERS + KEYS else None


def drawn():
    """The picture."""
    _, digits, _, *read = answers_of("driver")[LINE].split(" ")
    data, found = bytes.fromhex(digits), []
    picture = Picture("An input report of ID 1 bit by bit, where the left Control key and the letter a are down.", 820, 350)
    picture.text(20, 34, "Input report 1: 23 bytes, a bit for each key", bold=True)
    picture.text(20, 56, "byte 0 is the Report ID, 01h; each column below is a byte, its lowest bit on top", size=12, fill="pale")
    for place, byte in enumerate(data[1:]):
        x = LEFT + place * (CELL + 8)
        picture.text(x + CELL // 2, TOP + 10, str(place + 1), size=11, fill="pale", side="middle")
        for bit in range(8):
            usage, on = usage_of(place * 8 + bit), byte >> bit & 1
            y = TOP + 18 + bit * CELL
            fill = "good" if on else "box" if usage else "ground"
            picture.box(x, y, CELL - 2, CELL - 2, fill=fill, radius=2, dashed=usage is None)
            if on:
                found.append((usage, x + CELL // 2 - 1))
    for bit in range(8):
        picture.text(LEFT - 12, TOP + 31 + bit * CELL, f"bit {bit}", size=11, fill="pale", side="end")
    bottom = TOP + 18 + 8 * CELL
    for row, (usage, x) in enumerate(found):
        y = bottom + 30 + 26 * (len(found) - row - 1)
        picture.arrow([(x, y - 2), (x, bottom + 2)], line="good")
        picture.text(x + 8, y, f"usage {usage:02X}h of page 07h: {NAMES[usage]}", size=13)
    picture.text(LEFT + 330, bottom + 30, "byte 1: modifiers E0h to E7h", size=12, fill="pale")
    picture.text(LEFT + 330, bottom + 50, "bytes 2 to 22: usages 04h to A4h, and 7 bits of padding", size=12, fill="pale")
    picture.text(20, 336, f"The host's reader, which goes by the report descriptor alone, reads: {', '.join(sorted(read))}", size=13)
    return picture
