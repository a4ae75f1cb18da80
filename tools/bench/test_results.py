"""Tests of tools/bench: how a trace is counted, and how numbers are compared with the file that keeps them. They build nothing."""

import os
import subprocess
import sys
import unittest

import counting
import results
from results import Row

# Reads bench.py where no program may be started.
ALONE = "import sys; sys.addaudithook(lambda event, _: event == 'subprocess.Popen' and sys.exit('a program is started')); import bench"

# Two blocks between the marks, one of them twice; an instruction of ten bytes takes two lines.
TRACE = b"""\
----------------
IN: mark_begin
0x00010800:  4770       bx       lr

Trace 0: 0x7f00 [00800480/00010800/00000000/00000200] mark_begin
----------------
IN: work
0x00010900:  48 b8 88 77 66 55 44 33  movabsq  $0x1122334455667788, %rax
0x00010908:  22 11
0x0001090a:  c3                       retq

Trace 0: 0x7f01 [00800480/00010900/00000000/00000200] work
Trace 0: 0x7f01 [00800480/00010900/00000000/00000200] work
----------------
IN: more
0x00010a00:  c3                       retq

Trace 0: 0x7f02 [00800480/00010a00/00000000/00000200] more
Trace 0: 0x7f03 [00800480/00010804/00000000/00000200] mark_end
Trace 0: 0x7f02 [00800480/00010a00/00000000/00000200] more
Trace 0: 0x7f00 [00800480/00010800/00000000/00000200] mark_begin
Trace 0: 0x7f03 [00800480/00010804/00000000/00000200] mark_end
"""
END_BLOCK = b"IN: mark_end\n0x00010804:  4770       bx       lr\n\n"


class Counting(unittest.TestCase):
    """Samples of a trace."""

    def test_samples(self):
        found = counting.samples_of((END_BLOCK + TRACE).splitlines(keepends=True), 0x10800, 0x10804)
        self.assertEqual([dict(blocks) for blocks in found], [{0x10900: 4, 0x10a00: 1}, {}])

    def test_rows(self):
        groups = {"nothing": counting.Sample(1, [{0: 2}]), "poll": counting.Sample(10, [{0: 102}, {0: 100, 1: 22}])}
        self.assertEqual(counting.rows_of(groups), {"poll": (11, 12)})


class Results(unittest.TestCase):
    """Rows, their bounds, and the file."""

    def remarks(self, row, old):
        return results.remarks([row], {old.key: old}, [row.target])

    def test_missed(self):
        for ours, peer, bound, missed in [(170, 100, "1.7", False), (1701, 1000, "1.7", True), (400, 100, "400 bytes", False),
                                          (401, 1000, "400 bytes", True), (1301, None, "1300 instructions", True),
                                          (9, 1, "-", False), (9, None, "1.0", True)]:
            self.assertEqual(Row("chip", "scan", ours, peer, bound).missed(), missed, (ours, peer, bound))

    def test_a_miss_that_is_not_listed(self):
        row = Row("chip", "scan", 200, 100, "1.7")
        said, faults = self.remarks(row, row)
        self.assertEqual((said, len(faults)), ([], 1))
        self.assertIn("2 misses the bound 1.7", faults[0])

    def test_a_miss_that_is_listed(self):
        row = Row("chip", "scan", 200, 100, "1.7", "two copies")
        self.assertEqual(self.remarks(row, row), ([], []))

    def test_a_listed_miss_that_grew(self):
        old = Row("chip", "scan", 200, 100, "1.7", "two copies")
        said, faults = self.remarks(old._replace(ours=203), old)
        self.assertEqual((len(said), len(faults)), (1, 1))
        self.assertEqual(self.remarks(old._replace(ours=202), old)[1], [])

    def test_a_bound_that_is_edited(self):
        row = Row("chip", "scan", 165, 100, "1.7")
        self.assertEqual(self.remarks(row, row)[1], [])
        edited = row._replace(bound="1.6")
        bounded = results.with_bounds([row._replace(bound="-")], {edited.key: edited})
        self.assertEqual(len(self.remarks(bounded[0], edited)[1]), 1)


class Sections(unittest.TestCase):
    """What bench.py reads before it measures."""

    def test_no_program_is_started(self):
        folder = os.path.dirname(os.path.abspath(__file__))
        ran = subprocess.run([sys.executable, "-B", "-c", ALONE], cwd=folder, capture_output=True, text=True)
        self.assertEqual((ran.returncode, ran.stderr), (0, ""))


if __name__ == "__main__":
    unittest.main()
