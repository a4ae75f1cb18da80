"""Rows of numbers, ours beside the peer's, and the file bench/results.tsv that keeps them with their bounds."""

import re
from typing import NamedTuple

COLUMNS = ["target", "what", "ours", "peer", "ratio", "bound", "missed because"]
ABOUT = """\
# The keyboard beside the same keyboard by hand in C: instructions, and bytes where a row says so. `bin/bench --write` writes the
# numbers and keeps bounds and reasons, which are written by hand. A bound is of the ratio, or of ours where it has a unit.
"""

# Numbers may differ by so much from those of the file before it is said, and a listed miss may grow by so much.
NEAR = 0.01


class Row(NamedTuple):
    """A number of ours (none where it was not measured yet), the peer's (none where the bound is of ours alone), the bound, and why it
    is missed, where it is."""

    target: str
    what: str
    ours: float | None
    peer: float | None
    bound: str = "-"
    reason: str = ""

    @property
    def key(self):
        return self.target, self.what

    @property
    def ratio(self):
        """Ours over the peer's."""
        return self.ours / self.peer if self.ours is not None and self.peer else None

    def missed(self):
        """Whether the bound is missed."""
        limit = re.fullmatch(r"([\d.]+)( \w+)?", self.bound)
        if not limit or self.ours is None:
            return False
        value = self.ours if limit[2] else self.ratio
        return value is None or value > float(limit[1])

    def value(self):
        """What the bound is of."""
        return self.ours if " " in self.bound else self.ratio

    def words(self):
        """The row as the file has it."""
        numbers = ["-" if number is None else str(number) for number in (self.ours, self.peer)]
        ratio = "-" if self.ratio is None else f"{self.ratio:.2f}"
        return [self.target, self.what, *numbers, ratio, self.bound, self.reason]


def read(path):
    """The rows of a file by their keys."""
    rows = {}
    with open(path, encoding="utf-8") as file:
        lines = [line.rstrip("\n") for line in file if not line.startswith("#")]
    for line in lines[1:]:
        target, what, ours, peer, _, bound, reason = line.split("\t")
        row = Row(target, what, *(None if number == "-" else int(number) for number in (ours, peer)), bound, reason)
        rows[row.key] = row
    return rows


def versions_of(path):
    """The compilers and tools that a file names."""
    with open(path, encoding="utf-8") as file:
        return [line[4:].rstrip("\n") for line in file if line.startswith("#   ")]


def write(path, rows, versions):
    """Writes rows, and the compilers and tools that they were measured with."""
    with open(path, "w", encoding="utf-8") as file:
        file.write(ABOUT + "".join(f"#   {line}\n" for line in versions))
        for words in [COLUMNS, *(row.words() for row in rows)]:
            file.write("\t".join(words) + "\n")


def with_bounds(rows, known):
    """The rows with the bounds and reasons of the file. A reason goes where the bound is no longer missed."""
    bounded = []
    for row in rows:
        old = known.get(row.key)
        row = row._replace(bound=old.bound) if old else row
        bounded.append(row._replace(reason=old.reason) if old and row.missed() else row)
    return bounded


def merged(known, rows, targets):
    """The rows of the file, with those of some targets replaced by new ones, in the place where the first of them stood."""
    new = {target: [row for row in rows if row.target == target] for target in targets}
    order = list(dict.fromkeys([*(row.target for row in known.values()), *targets]))
    return [row for target in order for row in new.get(target, [row for row in known.values() if row.target == target])]


def is_near(one, other):
    """Whether two numbers differ by at most a hundredth."""
    if one is None or other is None:
        return one is other
    return abs(one - other) <= NEAR * max(abs(one), abs(other))


def is_listed(row, old):
    """Whether the file lists this miss: with a reason, and not a smaller one."""
    return bool(old and old.reason) and row.value() <= old.value() * (1 + NEAR)


def remarks(rows, known, targets):
    """What a run differs in from the file, in words, and the misses that the file does not list."""
    said, faults = [], []
    for row in rows:
        old, name = known.get(row.key), f"{row.target}, {row.what}"
        if old is None:
            said.append(f"{name}: not in the file")
        else:
            for whose, one, other in (("ours", row.ours, old.ours), ("the peer's", row.peer, old.peer)):
                if not is_near(one, other):
                    said.append(f"{name}: {whose} is {one}, and {other} in the file")
            if old.reason and not row.missed():
                said.append(f"{name}: the bound {row.bound} is kept, and the file lists it as missed")
        if row.missed() and not is_listed(row, old):
            faults.append(f"{name}: {row.value():.4g} misses the bound {row.bound}, which the file does not list")
    measured = {row.key for row in rows}
    said += [f"{key[0]}, {key[1]}: in the file, and not measured" for key in known if key[0] in targets and key not in measured]
    return said, faults


def table(rows):
    """The rows as lines for people."""
    width = max((len(row.what) for row in rows), default=0)
    lines = [f"{'':10} {'':{width}} {'ours':>9} {'in C':>9} {'ratio':>7}  bound"]
    for row in rows:
        _, _, ours, peer, ratio, bound, _ = row.words()
        lines.append(f"{row.target:10} {row.what:{width}} {ours:>9} {peer:>9} {ratio:>7}  {bound}{' missed' if row.missed() else ''}")
    return lines
