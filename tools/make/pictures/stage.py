"""The stage of a control transfer, as the definition in crates/control_ep/specs/Stage looks back over the calls."""

from svg import Picture

# The questions that the definition asks of the calls since the last SETUP, in its order, and the stage that it answers.
QUESTIONS = [
    ("No SETUP since the start or the last reset?", "Rest", "no transfer is under way"),
    ("The last SETUP was refused, or a packet since it was stalled?", "Stalled", "and so is each further packet"),
    ("A read of bytes: was there an empty OUT packet?", "Rest", "else Sending: a packet for each IN"),
    ("A report: was no OUT packet acknowledged yet?", "Taking", "the report is expected"),
    ("Its command works: no Settle and no Fail since?", "Waiting", "IN is answered NAK"),
    ("Its command failed?", "Stalled", "FlashFault"),
    ("Was an IN token answered by the empty packet?", "Rest", "the computer was told"),
    ("None of these", "Status", "the empty packet is due"),
]
HEIGHT, TOP = 44, 66


def drawn():
    """The picture."""
    said = "The stage of a control transfer is what the calls since the last SETUP say, question by question."
    picture = Picture(said, 820, TOP + len(QUESTIONS) * HEIGHT + 34)
    picture.text(20, 36, "Look back over the calls, newest first, to the last SETUP. The first yes is the stage.", bold=True)
    for row, (asked, stage, means) in enumerate(QUESTIONS):
        y, last = TOP + row * HEIGHT, row == len(QUESTIONS) - 1
        picture.box(20, y - 8, 430, 30, dashed=last)
        picture.text(32, y + 12, asked, size=13)
        picture.arrow([(450, y + 7), (480, y + 7)])
        picture.box(482, y - 8, 86, 30, line="ink", thick=1.5)
        picture.text(525, y + 12, stage, size=13, fill="ink", bold=True, side="middle")
        picture.text(580, y + 12, means, size=12, fill="pale")
        if not last:
            picture.arrow([(40, y + 22), (40, y + HEIGHT - 9)])
    note = "Neither a machine nor a memory: each answer follows from what was sent and answered (USB 2.0, sections 8.5.3 and 9.3)."
    picture.text(20, picture.height - 14, note, size=12, fill="pale")
    return picture
