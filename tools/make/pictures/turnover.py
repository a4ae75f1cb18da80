"""A turnover step by step, as examples/turnover.kbs runs it: a cut inside the header, and the attempt after it."""

from slots import FREE, answers_of, meaning
from svg import Picture

# What a moment shows: its title, slots 0 to 3 of page 1 (the line of the script that shows one, or what stands there before
# and after the lines that look), and what holds.
COPIES = (12, 13)
MOMENTS = [
    ("The target is blank", (None, None, None, None), "page 0 holds the keymap"),
    ("Entries are copied", (None, *COPIES, None), "page 0 holds the keymap"),
    ("The header is cut", (16, *COPIES, None), "page 0 holds the keymap"),
    ("Erased, copied anew", (None, 24, 25, None), "page 0 holds the keymap"),
    ("The header", (23, 24, 25, None), "page 1 holds the keymap"),
    ("The new record", (23, 24, 25, 26), "page 1 holds it, key 2 too"),
]
WIDTH, ROW, LEFT, TOP = 248, 34, 72, 66


def drawn():
    """The picture."""
    answers = answers_of("turnover")
    said = "The active page is full: the entries that differ from the default are copied to the next page, then its header is written."
    picture = Picture(said, 820, 2 * (TOP + 4 * ROW + 34) + 30)
    for number, (title, slots, holds) in enumerate(MOMENTS):
        x, y = LEFT + number % 3 * WIDTH, number // 3 * (TOP + 4 * ROW + 34)
        picture.text(x, y + 36, f"{number + 1}. {title}", size=15, bold=True)
        for row, line in enumerate(slots):
            digits = answers[line] if line else FREE
            top, what = y + TOP - 12 + row * ROW, meaning(digits)
            fill = {"free": "pale", "torn": "torn"}.get(what.split(":")[0].split(" ")[0], "good" if "header" in what else "text")
            picture.box(x, top, WIDTH - 18, ROW - 6, dashed=digits == FREE, line="torn" if fill == "torn" else "line")
            picture.text(x + 10, top + 19, what.replace("sequence number", "number"), size=12, fill=fill)
            if number % 3 == 0:
                picture.text(10, top + 19, f"slot {row}", size=12, fill="pale")
        picture.text(x, y + TOP + 4 * ROW + 4, holds, size=12, fill="pale")
    note = "Page 1 of the flash, as examples/turnover.kbs prints it. Until its header is whole, page 0 is the active page."
    picture.text(LEFT, picture.height - 16, note, size=12, fill="pale")
    return picture
