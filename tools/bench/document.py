"""What the documents show of bench/results.tsv: the table of bench/README.md, and a sentence for makers of keyboards.

Each stands between two comments, and `bin/bench --tables` writes it anew.
"""

CHIPS = ["thumbv7em", "thumbv6m"]
MARKS = {"table": ("<!-- bench: table -->\n", "<!-- end -->\n"), "sentence": ("<!-- bench: sentence -->", "<!-- end -->")}

# Which documents show what.
SHOWN = {"bench/README.md": "table", "docs/firmware.md": "sentence"}

# The rows of the table, each of which the two chips have.
ROWS = [
    "start, blank flash",
    "start, 8 full pages",
    "scan without an edge, the worst of 10,000",
    "5 scans that press or release one key, and the poll, the worst key",
    "poll, nothing due",
    "GET_REPORT of ID 1 and its first packet, six keys",
    "GET_DESCRIPTOR of the report descriptor, whole",
    "command with room, whole",
    "compaction of 384 copies, the next page blank",
    "work in a compaction, the longest call",
    "stack of start, restart and work, bytes",
    "stack of any other call, bytes",
    "RAM of the keyboard, bytes",
    "text of the smallest firmware, bytes",
    "text of the smallest firmware over c/firmware, bytes",
]

# The row of code and constants.
TEXT = "text of the smallest firmware, bytes"

# Cycles of a millisecond.
MILLISECOND = 48_000


def line(words):
    return f"| {' | '.join(words)} |\n"


def table(rows):
    """A table of what a maker asks, of ours beside the peer on both chips."""
    by_key = {row.key: row for row in rows}
    text = line(["Instructions, or bytes", "Cortex-M4", "in C", "Cortex-M0+", "in C"]) + line(["---"] * 5)
    for name in ROWS:
        found = [by_key[target, name] for target in CHIPS]
        text += line([name, *("-" if count is None else f"{count:,}" for row in found for count in (row.ours, row.peer))])
    return f"\n{text}\n"


def sentence(rows):
    """What a maker of keyboards asks of a Cortex-M4."""
    ours = {row.what: row.ours for row in rows if row.target == "thumbv7em"}
    starts = [ours[name] for name in ("start, blank flash", "start, 2 pages, 385 records", "start, 8 full pages")]
    scan = ours["scan without an edge, the worst of 10,000"]
    text, small = (next(row.ours for row in rows if row.key == (target, TEXT)) for target in CHIPS)
    stack = max(ours[name] for name in ("stack of start, restart and work, bytes", "stack of any other call, bytes"))
    return (f'On a Cortex-M4, at opt-level "s", the keyboard takes {ours["RAM of the keyboard, bytes"]:,} bytes of RAM and {stack:,} of '
            f"stack. A scan takes {scan:,} instructions if no debounced key changes; a millisecond at 48 MHz has {MILLISECOND:,} cycles. "
            f"A start takes {min(starts):,} on a blank flash, {max(starts):,} on a full one. The smallest firmware, without drivers, has {text:,} "
            f"bytes of code and constants, and {small:,} on a Cortex-M0+.")


def rewritten(text, shown, rows):
    """A document with what it shows of these rows."""
    begin, end = MARKS[shown]
    before, rest = text.split(begin)
    made = table(rows) if shown == "table" else sentence(rows)
    return before + begin + made + end + rest.split(end, 1)[1]
