"""Slots of flash as runs print them, and how a picture shows them."""

import os

ROOT = os.path.dirname(os.path.dirname(os.path.dirname(os.path.dirname(os.path.abspath(__file__)))))
FREE = "ff" * 8
LETTERS = {code: chr(ord("a") + code - 4) for code in range(4, 30)}  # usages of HUT page 07h


def answers_of(example):
    """What a run of an example prints, by the numbers of its script's lines."""
    with open(f"{ROOT}/examples/{example}.expected", encoding="utf-8") as file:
        return {int(line.split(" ", 1)[0]): line.split(" ", 1)[1].strip() for line in file}


def is_whole(digits):
    """Whether a slot is a word beside its complement."""
    data = bytes.fromhex(digits)
    return all(low ^ high == 255 for low, high in zip(data[:4], data[4:]))


def meaning(digits):
    """What a slot says (docs/formats.md, "Flash, slots and pages" and "Commands as words")."""
    if digits == FREE:
        return "free"
    if not is_whole(digits):
        return "torn: passed over"
    word = int.from_bytes(bytes.fromhex(digits)[:4], "little")
    if word >> 28 == 2:
        return f"header, sequence number {word & 0xFFFFFFF}"
    return f"key {word >> 16 & 0xFF} is {LETTERS[word & 0xFFFF]}"


def draw_bits(picture, x, y, digits, cell):
    """A slot's 64 bits, a byte a column, the highest bit on top: a cleared bit is dark, and red where the slot is torn."""
    ink = "ink" if is_whole(digits) or digits == FREE else "torn"
    for place, byte in enumerate(bytes.fromhex(digits)):
        for bit in range(8):
            fill = "box" if byte >> (7 - bit) & 1 else ink
            picture.box(x + place * cell, y + bit * cell, cell - 1, cell - 1, fill=fill, radius=0, thick=0.5)
