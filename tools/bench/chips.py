"""The rows of a target: each call of bench/calls.c, and for chips the stack, the keyboard's RAM and the smallest firmware."""

import subprocess

import counting
from builds import Builds
from results import Row

# Calls that may be repeated within a scan's time; what starts the device or works on the flash has a bound of its own.
LONG = ("start", "restart", "work", "command with room", "compaction")

# The smallest firmware over c/firmware, which has a lock, a pace and a layout at run time too.
IN_C = "text of the smallest firmware over c/firmware, bytes"

# Of these the worst one counts, of the others the mean; where each key is tried the worst is shown beside it.
WORST = {"scan without an edge": "the worst of 10,000", "work in a compaction": "the longest call"}
EACH_KEY = " one key, and the poll"


def instructions(name, mean, worst):
    """The rows of a name: what they are called, and the number."""
    if name in WORST:
        return [(f"{name}, {WORST[name]}", worst)]
    if name.endswith(EACH_KEY):
        return [(f"{name}, mean of 96 keys", mean), (f"{name}, the worst key", worst)]
    return [(name, mean)]


def stacks(program, qemu):
    """The greatest stack of the long calls, and of all others, in bytes."""
    told = subprocess.run([qemu, program], check=True, capture_output=True, text=True).stdout
    used = {name: int(most) for name, most in (line.split("\t") for line in told.splitlines())}
    long = {name for name in used if name.startswith(LONG)}
    return {"stack of start, restart and work, bytes": max(used[name] for name in long),
            "stack of any other call, bytes": max(used[name] for name in used if name not in long)}


class Keyboards:
    """Both keyboards of a target, linked with the bench."""

    def __init__(self, room, target):
        self.target, self.builds = target, Builds(room, target)
        self.parts, self.marks = self.builds.bench()
        self.keyboards = {"ours": self.builds.ours(), "peer": self.builds.peer()}
        self.programs = {whose: self.linked(whose, "trace") for whose in self.keyboards}

    def linked(self, whose, marks):
        """The bench over a keyboard, with marks of a kind."""
        return self.builds.link(f"{marks}-{whose}", [*self.parts, self.marks[marks], *self.keyboards[whose]])

    def traced(self, whose):
        """The samples of a keyboard."""
        return counting.traced(self.target.qemu, f"{self.target.prefix}nm", self.programs[whose])

    def numbers(self, whose):
        """Numbers by what they are of."""
        found = {}
        for name, (mean, worst) in counting.rows_of(self.traced(whose)).items():
            found.update(instructions(name, mean, worst))
        if self.target.prefix:
            found.update(self.sizes(whose))
        return {what: round(number) for what, number in found.items()}

    def sizes(self, whose):
        """Bytes: stack, RAM, text."""
        symbol = {"ours": "KEYBOARD", "peer": "kb"}[whose]
        return {**stacks(self.linked(whose, "paint"), self.target.qemu),
                "RAM of the keyboard, bytes": self.builds.size_of(self.programs[whose], symbol),
                "text of the smallest firmware, bytes": self.builds.text(self.builds.firmware(whose, self.keyboards[whose]))}

    def rows(self):
        """All rows."""
        ours, peer = self.numbers("ours"), self.numbers("peer")
        rows = [Row(self.target.name, what, ours[what], peer[what]) for what in ours]
        if self.target.prefix:
            rows.append(Row(self.target.name, IN_C, self.builds.text(self.builds.firmware_in_c()), None))
        return rows

    def hot(self, name):
        """Lines of where our instructions of a name go, or of all, by function."""
        groups, lines = self.traced("ours"), []
        for each in groups if name == "all" else [name]:
            found = counting.functions_of(groups, each, f"{self.target.prefix}nm", self.programs["ours"])
            lines += [each, *(f"{count:10.1f}  {function}" for function, count in found if count >= 0.5)]
        return lines
