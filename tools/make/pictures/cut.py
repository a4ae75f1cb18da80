"""The slots of flash in examples/cut.kbs, bit by bit, as the lines of examples/cut.expected show them."""

from slots import FREE, LETTERS, answers_of, draw_bits, meaning
from svg import Picture

# The lines of the script that show slots 1 to 3 (None: a slot that no line looks at, which is blank), the line that shows the
# entry, what happened, and what the computer knows.
MOMENTS = [
    ("Key 0 is set to b", (3, 4, None), 5, "the computer was told: b is stored"),
    ("The write of c is cut", (10, 11, None), 12, "the computer was told nothing of c"),
    ("The computer sets c again", (10, 15, 16), 17, "the computer was told: c is stored"),
]
CELL, GAP, LEFT, TOP, WIDTH = 9, 14, 70, 78, 250


def drawn():
    """The picture."""
    answers = answers_of("cut")
    said = "Three moments of a keyboard's flash. A write that the power cut tears is passed over, and what was stored before it stays."
    picture = Picture(said, LEFT + 3 * WIDTH, TOP + 3 * (8 * CELL + GAP) + 70)
    for row in range(3):
        picture.text(12, TOP + row * (8 * CELL + GAP) + 40, f"slot {row + 1}", size=13, fill="pale")
    for column, (title, lines, entry, told) in enumerate(MOMENTS):
        x = LEFT + column * WIDTH
        picture.text(x, 30, f"{column + 1}. {title}", size=15, bold=True)
        picture.text(x, 52, f"the keyboard types {LETTERS[int(answers[entry], 16)]}", size=13, fill="pale")
        for row, line in enumerate(lines):
            digits = answers[line] if line else FREE
            y = TOP + row * (8 * CELL + GAP)
            draw_bits(picture, x, y, digits, CELL)
            what = meaning(digits)
            picture.text(x + 8 * CELL + 10, y + 40, what, size=13,
                         fill="torn" if what.startswith("torn") else "text")
        picture.text(x, TOP + 3 * (8 * CELL + GAP) + 18, told, size=13)
    note = "Each square is a bit: dark is cleared. The values are those that examples/cut.kbs prints."
    picture.text(LEFT, picture.height - 18, note, size=12, fill="pale")
    return picture
