"""The life of a command, from SETUP to stored, and what a cut of the power leaves at each step: the lines of a `set` in a script."""

from svg import Picture

# What the computer and the keyboard do, the word of scripts for it, and what a restart shows after a cut there.
STEPS = [
    ("SETUP: SET_REPORT of feature report 3", "setup 2109030300000600", "the old code"),
    ("OUT: layer, key and code are checked, and accepted", "out 030100000600", "the old code"),
    ("where there is no room: a compaction, a flash operation a step", "work", "the old code"),
    ("the record is written into the tail slot", "work", "the old code or the new"),
    ("the keymap in RAM is changed: settled", "(it answers: settled)", "the new code"),
    ("IN: the empty packet tells the computer", "in", "the new code"),
]
HEIGHT, TOP = 50, 74


def drawn():
    """The picture."""
    said = "The life of a command, from SETUP to stored, with what a restart shows where the power is cut at that step."
    picture = Picture(said, 820, TOP + len(STEPS) * HEIGHT + 40)
    picture.text(20, 40, "What happens", bold=True)
    picture.text(450, 40, "In a script", bold=True)
    picture.text(650, 40, "After a cut there", bold=True)
    for row, (what, line, left) in enumerate(STEPS):
        y = TOP + row * HEIGHT
        fill = {"the old code": "pale", "the new code": "good"}.get(left, "torn")
        picture.box(20, y - 12, 410, 34, line="ink" if row in (3, 5) else "line")
        picture.text(32, y + 10, what, size=13)
        picture.text(450, y + 10, line, size=12, fill="pale", code=True)
        picture.text(650, y + 10, left, size=13, fill=fill)
        if row:
            picture.arrow([(50, y - HEIGHT + 22), (50, y - 13)])
    note = "Only inside the write of the record can a cut leave either. What the computer was told is stored, is stored."
    picture.text(20, picture.height - 18, note, size=13)
    return picture
