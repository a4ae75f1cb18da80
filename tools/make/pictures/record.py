"""A record, bit by bit, and the page in which it stands: slots 0 and 1 of examples/stored_key.kbs."""

from slots import answers_of, draw_bits, meaning
from svg import Picture

CELL = 16
# Slots of the page that the run ends with: the number, and the line of the script that shows it (None: blank).
PAGE = [("slot 0", 3), ("slot 1", 4), ("slot 2", None), ("...", None), ("slot 511", None)]


def draw_page(picture, x, y, answers):
    """The page as a column of slots, and the slot's word that is shown bit by bit."""
    picture.text(x, y - 14, "A page: 512 slots of 8 bytes", bold=True)
    for row, (name, line) in enumerate(PAGE):
        top = y + row * 46
        picture.text(x, top + 22, name, size=12, fill="pale")
        picture.box(x + 66, top, 230, 36, line="ink" if line == 4 else "line", thick=2 if line == 4 else 1, dashed=line is None)
        if line:
            digits = answers[line]
            picture.text(x + 78, top + 15, " ".join(digits[at:at + 2] for at in range(0, 16, 2)), size=12, code=True)
            picture.text(x + 78, top + 30, meaning(digits), size=12, fill="good")
        else:
            picture.text(x + 78, top + 23, "free: eight FFh", size=12, fill="pale")


def drawn():
    """The picture."""
    answers = answers_of("stored_key")
    picture = Picture("A page of flash with a header and a record, and the bits of the record: a word and its complement.", 820, 330)
    draw_page(picture, 20, 50, answers)
    digits, x, y = answers[4], 380, 82
    word = int.from_bytes(bytes.fromhex(digits)[:4], "little")
    picture.text(x, 36, "A record: a word, and its complement", bold=True)
    picture.arrow([(316, 114), (x - 14, 114)])
    draw_bits(picture, x, y, digits, CELL)
    for place in range(8):
        picture.text(x + place * CELL + CELL // 2, y - 6, digits[2 * place:2 * place + 2], size=10, fill="pale", side="middle", code=True)
    picture.text(x, y + 8 * CELL + 20, "the word", size=12, fill="ink")
    picture.text(x + 4 * CELL, y + 8 * CELL + 20, "complement", size=12, fill="ink")
    facts = [
        ("bits 28 to 31", f"operation {word >> 28}: set a key"),
        ("bits 24 to 27", f"layer {word >> 24 & 15}"),
        ("bits 16 to 23", f"key {word >> 16 & 255}"),
        ("bits 0 to 15", f"code {word & 0xFFFF:04X}h: the letter b"),
    ]
    for row, (bits, what) in enumerate(facts):
        picture.text(x + 8 * CELL + 24, y + 18 + row * 28, bits, size=12, fill="pale")
        picture.text(x + 8 * CELL + 124, y + 18 + row * 28, what, size=13)
    picture.text(x, 272, "Each bit is clear in one half and set in the other.", size=13)
    picture.text(x, 291, "A write that was cut short leaves a bit set in both:", size=13)
    picture.text(x, 310, "the slot is told as torn, and passed over.", size=13)
    return picture
