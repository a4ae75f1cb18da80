"""Tests of what bin/board-test runs where there is little time."""

import contextlib
import importlib.util
import io
import os
import sys
import types
import unittest

HERE = os.path.dirname(os.path.abspath(__file__))
sys.path.insert(0, HERE)

import rig  # noqa: E402
import tasks  # noqa: E402
from faults import FAULTS  # noqa: E402

found = importlib.util.spec_from_file_location("board_test", f"{HERE}/__main__.py")
board_test = importlib.util.module_from_spec(found)
found.loader.exec_module(board_test)


def never():
    """A task that is not over in time."""
    raise rig.NoTime


class Kept(unittest.TestCase):
    """What bench/chip.tsv keeps of the firmwares."""

    def test_each_firmware_has_its_size(self):
        with open(tasks.CALLS, encoding="utf-8") as file:
            rows = [line.rstrip("\n").split("\t") for line in file if not line.startswith("#")]
        self.assertEqual({name for name, what, _ in rows[1:] if what == tasks.SIZE}, set(rig.FIRMWARES | rig.IN_C))


class Least(unittest.TestCase):
    """What always runs."""

    def short(self, lists):
        """Whether a run without time passes, and what it says."""
        told = io.StringIO()
        with contextlib.redirect_stdout(told):
            passed = board_test.short(types.SimpleNamespace(), lists, 0)
        return passed, told.getvalue()

    def test_it_runs_without_time_and_the_rest_is_skipped_by_name(self):
        ran = []
        lists = [[tasks.Task("one", 5, lambda: ran.append("one"), True), tasks.Task("two", 5, lambda: ran.append("two"))],
                 [tasks.Task("three", 0, never)]]
        passed, told = self.short(lists)
        self.assertEqual((passed, ran), (True, ["one"]))
        self.assertEqual(sorted(told.splitlines()), [f"board-test: skipped: {name} (not reached in 0 minutes)" for name in ("three", "two")])

    def test_without_it_the_run_fails(self):
        passed, told = self.short([[tasks.Task("one", 5, never, True)]])
        self.assertFalse(passed)
        self.assertRegex(told, "FAILED: one: not over in .* minutes")

    def test_it_is_a_session_cuts_of_each_kind_and_a_fault(self):
        bench = types.SimpleNamespace(firmwares=rig.FIRMWARES | rig.IN_C)
        least = [task.name for task in tasks.cut_tasks(bench, 1) + tasks.fault_tasks(bench) if task.least]
        kinds = [name.partition(": ")[2].split()[0] for name in least[1:-1]]
        self.assertEqual(kinds, ["instructions", "operations", "words", "random"])
        self.assertEqual((least[0], least[-1]), (f"{next(iter(rig.FIRMWARES))}: a session", f"planted: {FAULTS[0].name}"))


if __name__ == "__main__":
    unittest.main()
