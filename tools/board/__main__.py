"""Runs examples/chip_nrf51, the keyboard as the whole firmware of a Cortex-M0, in QEMU, and cuts its power at any instruction.

A plugin of QEMU (switch.c) is the power switch: it counts instructions, tears the operation of the flash that a cut falls into,
and fills the RAM with noise at each start. A program (src) is the host: after each cut it compares all 384 entries of the keymap
with what it was told. Both main loops of the firmware are tried, and the one asked at the token on a flash with error correction
and on one whose torn cells waver: a session that is told, cuts at instructions of a session with one command, cuts in operations of
a compaction with its erase and in the words of a record, and random sessions, also with other default codes; where cells waver,
cuts in the starts behind a torn command. A chip that owes an answer is silent by its own time, which stands still while the host
has no processor for QEMU. Calls are compared with bench/chip.tsv. A stock Linux, a BIOS and UEFI type on both loops (hosts.py).
Faults are planted, and each has to be found (faults.py).

Without a word a stride is taken over instructions and operations, and all takes a minute or two on four processors. The least always
runs, whatever time it takes: a session, cuts of each kind and a planted fault, of the first firmware. What is not reached in the five
minutes behind it is skipped by name. --long takes all instructions and operations, tells how far it is, keeps what is done in its
folder, and goes on from there when it is called again.

It needs rustc, cargo, the crate arrayvec, rustc's core for thumbv6m-none-eabi or its sources, ld.lld, gcc, and qemu-system-arm 7.2;
for the hosts what bin/linux-test needs. What is missing is said by name, and the status is then 0. Nothing is installed.
"""

import argparse
import concurrent.futures
import os
import sys
import tempfile
import time

sys.dont_write_bytecode = True

import rig
import tasks
import whole
from room import Failed, Room, building
from target_steps import SOURCES, variables

MINUTES = 5  # that a run without --long has, once the least has run
LEAST = 60  # minutes, in which the least has to run on any machine
PARTS = ("calls", "cuts", "hosts", "faults")


def short(bench, lists, minutes):
    """Runs what always runs of these lists of tasks, and then the rest in so many minutes; whether nothing failed."""
    return all(run_lists(bench, [[task for task in tasks if task.least == least] for tasks in lists], limit)
               for least, limit in [(True, LEAST), (False, minutes)])


def run_lists(bench, lists, minutes):
    """Runs lists of tasks at the same time, as many as there are processors, for so many minutes; whether nothing failed."""
    bench.clock = rig.Time(minutes)
    with concurrent.futures.ThreadPoolExecutor(min(len(lists), len(os.sched_getaffinity(0)))) as threads:
        return all([*threads.map(lambda some: tasks.run(bench, some), lists)])


def asked(bench, given):
    """The tasks of the parts that are asked for."""
    lists = {
        "hosts": tasks.host_tasks(bench),
        "faults": tasks.fault_tasks(bench),
        "calls": [tasks.Task("calls", 30, lambda: tasks.measure(bench, given.write))],
        "cuts": tasks.cut_tasks(bench, given.seed),
    }
    return [some for part, some in lists.items() if given.only in (None, part)]


def play(folder, given):
    """Builds and runs all in a folder; whether nothing failed."""
    room, begun = Room(folder), time.monotonic()
    try:
        more = variables(room, rig.TARGET)
        if more is None:
            rig.say(f"skipped: {rig.TARGET}, which this rustc has no core for ({SOURCES})")
            return True
        bench = rig.Bench(room, more)
        rig.say(f"built in {time.monotonic() - begun:.0f} s")
        if not given.long:
            return short(bench, asked(bench, given), given.minutes)
        bench.clock = rig.Time(given.minutes)
        return whole.Whole(bench, given).run(given.jobs)
    except (Failed, building.Wrong) as why:
        rig.say(f"FAILED: {why}")
        return False


def arguments():
    """What is asked for."""
    words = argparse.ArgumentParser(prog="board-test", description=__doc__, formatter_class=argparse.RawDescriptionHelpFormatter)
    words.add_argument("--long", metavar="CUTS", type=int, help="all instructions, all operations, and so many random cuts; it goes on where it was ended")
    words.add_argument("--minutes", metavar="N", type=float, help=f"what is not reached in this time is skipped by name ({MINUTES}; with --long no end)")
    words.add_argument("--jobs", metavar="N", type=int, default=max(1, len(os.sched_getaffinity(0)) // 2),
                       help="so many chips at once, for --long (half of the processors)")
    words.add_argument("--folder", metavar="DIR", help="builds in this folder, which stays, so that a further run is faster; --long takes out/board")
    words.add_argument("--only", choices=PARTS, help="this part alone")
    words.add_argument("--write", action="store_true", help="keeps what calls take in bench/chip.tsv")
    words.add_argument("--seed", type=int, default=1, help="the seed of the random sessions (1)")
    given = words.parse_args()
    if given.long and not given.folder:
        given.folder = f"{rig.ROOT}/out/board"
    if given.minutes is None and not given.long:
        given.minutes = MINUTES
    return given


def main():
    given = arguments()
    lacks = rig.missing()
    if lacks:
        rig.say(f"skipped: {lacks}")
        return 0
    begun = time.monotonic()
    if given.folder:
        os.makedirs(given.folder, exist_ok=True)
        passed = play(os.path.abspath(given.folder), given)
    else:
        with tempfile.TemporaryDirectory() as folder:
            passed = play(folder, given)
    rig.say(f"{time.monotonic() - begun:.0f} s altogether")
    return 0 if passed else 1


if __name__ == "__main__":
    sys.exit(main())
