"""Counts the instructions of the samples of bench/calls.c, which a program makes under a user-mode QEMU.

QEMU's trace shows each block of instructions that runs by its address, and each block's instructions when it is translated. The
trace comes through a pipe, and the names go to a file: a program that had to wait for both of them would hang.
"""

import bisect
import collections
import os
import re
import subprocess
import tempfile
from typing import NamedTuple

INSTRUCTION = re.compile(rb"0x([0-9a-f]+):")

# Of an instruction that is longer than a line the rest comes on another line, which has no name of an operation.
REST = re.compile(rb"0x[0-9a-f]+:(\s+[0-9a-f]{2})+\s*$")


class Sample(NamedTuple):
    """A named group of samples: the calls that each holds, and the instructions of each by the address of their block."""

    calls: int
    blocks: list[dict[int, int]]

    def counts(self):
        """The instructions of each sample."""
        return [sum(blocks.values()) for blocks in self.blocks]


def symbols(nm, program):
    """The addresses of a program's functions, rising, with their names."""
    told = subprocess.run([nm, "-C", program], check=True, capture_output=True, text=True).stdout
    found = []
    for line in told.splitlines():
        address, _, rest = line.partition(" ")
        kind, _, name = rest.partition(" ")
        if kind in ("t", "T", "w", "W") and not name.startswith("$"):
            found.append((int(address, 16) & ~1, name))
    return sorted(found)


def as_in_trace(address):
    """An address as the trace of a machine of 32 or of 64 bits writes it."""
    return b"%08x" % address, b"%016x" % address


def samples_of(trace, begin, end):
    """The instructions of each sample by their blocks: those between the mark that begins it and the one that ends it."""
    begin, end = as_in_trace(begin), as_in_trace(end)
    sizes, found, ran, block = collections.Counter(), [], None, None
    for line in trace:
        if line.startswith(b"Trace"):
            address = line.split(b"/", 2)[1]
            if address in begin:
                ran = collections.Counter()
            elif ran is not None and address in end:
                found.append({int(address, 16): times for address, times in ran.items()})
                ran = None
            elif ran is not None:
                ran[address] += 1
        elif line.startswith(b"IN:"):
            block = None
        elif line.startswith(b"0x") and not REST.match(line):
            if block is None:
                block = int(INSTRUCTION.match(line)[1], 16)
                sizes[block] = 0
            sizes[block] += 1
    return [{address: times * sizes[address] for address, times in sample.items()} for sample in found]


def traced(qemu, nm, program):
    """The samples of a program by their names."""
    marks = {name: address for address, name in symbols(nm, program)}
    reader, writer = os.pipe()
    with tempfile.TemporaryFile() as told:
        words = [qemu, "-d", "in_asm,exec,nochain", "-D", f"/dev/fd/{writer}", program]
        child = subprocess.Popen(words, stdout=told, pass_fds=(writer,))
        os.close(writer)
        with os.fdopen(reader, "rb", 1 << 20) as trace:
            found = samples_of(trace, marks["mark_begin"], marks["mark_end"])
        if child.wait():
            raise RuntimeError(f"{' '.join(words)} ended with {child.returncode}")
        told.seek(0)
        names = [line.split("\t") for line in told.read().decode().splitlines()]
    groups, at = {}, 0
    for name, calls, count in names:
        groups[name] = Sample(int(calls), found[at : at + int(count)])
        at += int(count)
    if at != len(found):
        raise RuntimeError(f"{program}: {len(found)} samples, and names for {at}")
    return groups


def rows_of(groups):
    """The numbers of each name, a call: the mean of its samples, and the greatest. What the marks cost is left out."""
    (empty,) = groups["nothing"].counts()
    rows = {}
    for name, sample in groups.items():
        counts = [(count - empty) / sample.calls for count in sample.counts()]
        rows[name] = (sum(counts) / len(counts), max(counts))
    del rows["nothing"]
    return rows


def functions_of(groups, name, nm, program):
    """The functions in which a name's instructions are, the most first, each with its instructions a call."""
    known = symbols(nm, program)
    addresses = [address for address, _ in known]
    spent = collections.Counter()
    sample = groups[name]
    for blocks in sample.blocks:
        for address, count in blocks.items():
            spent[known[bisect.bisect_right(addresses, address) - 1][1]] += count
    calls = sample.calls * len(sample.blocks)
    return [(function, count / calls) for function, count in spent.most_common()]
