"""What bin/board-test does in some minutes: sessions, calls, planted faults, cuts by a stride, hosts."""

from typing import Callable, NamedTuple

from faults import FAULTS, HARMLESS, is_found, plant
from hosts import MISSING, Hosts
from processes import Over
from rig import FIRMWARES, LOOPS, OTHER, ROOT, WAVERING, WITH_BUFFERS, NoTime, say
from room import Failed

CALLS = f"{ROOT}/bench/chip.tsv"
HEAD = [
    "# What calls of examples/chip_nrf51 take on a Cortex-M0: the most instructions between two looks at the line, which is the longest",
    "# call of what is done; of a start all up to the first look; the deepest stack, and the size of the firmware. `bin/board-test --only",
    "# calls --write` writes it.",
]
SIZE = "code and constants, in bytes"


class Task(NamedTuple):
    """What is done: its name, the seconds that a busy machine takes for it, what does it, which tells, and whether it always runs."""

    name: str
    seconds: int
    act: Callable[[], None]
    least: bool = False


def allowed(what, kept):
    """How much a call may take where so much is kept. What is between two looks depends a little on how the bytes come; the stack does
    not, and the deepest one may grow by a twentieth."""
    return 1.05 * kept if "stack" in what else 1.1 * kept + 250


def measure(bench, write):
    """Compares what calls of each firmware take with what is kept, where the same rustc built it; or keeps it."""
    version = bench.room.run([bench.more.get("RUSTC", "rustc"), "--version"]).decode().strip()
    rows = [f"{name}\t{row}" for name, features in bench.firmwares.items() for row in bench.told(name, features, "measure").splitlines()]
    rows += [f"{name}\t{SIZE}\t{bench.size(features)}" for name, features in bench.firmwares.items()]
    if write:
        with open(CALLS, "w", encoding="utf-8") as file:
            file.write("\n".join([*HEAD, f"# {version}", "firmware\twhat\tcount", *rows, ""]))
    with open(CALLS, encoding="utf-8") as file:
        kept = file.read().splitlines()
    if f"# {version}" not in kept:
        say(f"skipped: what calls take is not compared ({version} is another rustc than that of bench/chip.tsv)")
        return
    counts = dict(row.rsplit("\t", 1) for row in kept if not row.startswith("#"))
    more = [f"{row}, and {counts.get(what)} is kept" for row in rows for what, count in [row.rsplit("\t", 1)]
            if int(count) > allowed(what, int(counts.get(what, 0)))]
    if more:
        raise Failed("\n    ".join(["calls take more than is allowed by bench/chip.tsv (bin/board-test --only calls --write):", *more]))
    say(f"{len(rows)} counts of instructions and bytes are those of bench/chip.tsv, or little more")


def planted(bench, fault):
    """Plants a fault, and runs its test: whether it passed, and what it told."""
    path = bench.room.path(f"fault_{[*FAULTS, HARMLESS].index(fault)}.elf")
    with bench.building:
        mend = plant(bench.room.folder, fault.edits)
        try:
            bench.build(fault.features, path)
        finally:
            mend()
    return bench.session(path) if fault.test == ["session"] else bench.run(path, *fault.test)


def find(bench, fault):
    """Sees that a planted fault is found, or that what is none passes."""
    passed, told = planted(bench, fault)
    if fault is HARMLESS:
        if not passed:
            raise Failed(f"planted, no fault, and found: {fault.name}: {told}")
        return
    if not is_found(fault, passed, told):
        raise Failed(f"planted, and not found: {fault.name}: {' '.join(fault.test)} tells {told}")
    say(f"planted and found: {fault.name}")


def session(bench, name, features):
    """The session of a firmware that is told."""
    passed, told = bench.session(bench.firmware(features))
    if not passed:
        raise Failed(f"{name}: {told}")
    say(f"{name}: {told}")


def cuts(features, seed):
    """The words of the tests that cut a firmware by a stride, and the seconds of each."""
    # With error correction an operation of the log is six of the flash, and a start takes five times as long. Where cells waver
    # pages are moved besides.
    strides = {"ecc": ["7993", "307"], "steady": ["15991", "307"]}.get(features, ["1597", "53"])
    return [["instructions", strides[0]], ["operations", strides[1]], ["words", "8", "1"], ["random", "300", str(seed)]]


class Typing:
    """A stock Linux, a BIOS and UEFI type on both loops."""

    def __init__(self, bench):
        self.bench, self.hosts = bench, None

    def act(self, name, features):
        try:
            self.hosts = self.hosts or Hosts(self.bench.room.path("hosts"), self.bench.clock.end())
        except MISSING as lacks:
            say(f"skipped: {name}: hosts that type on it ({lacks})")
            return
        board = self.bench.board(self.bench.firmware(features))
        try:
            differing = self.hosts.type_on(board, lambda text: say(f"{name}: {text}"))
        except Over as error:
            raise NoTime from error
        if differing:
            raise Failed("\n    ".join([f"{name}: a host finds otherwise than it should:", *differing]))


def host_tasks(bench):
    """The tasks that let hosts type, one after the other, since each waits most of the time."""
    typing = Typing(bench)
    return [Task(f"{name}: hosts that type on it", 90, lambda name=name, features=features: typing.act(name, features))
            for name, features in LOOPS.items()]


def cut_tasks(bench, seed):
    """The tasks that cut the power, for each firmware in turn."""
    told = lambda name, features, words: lambda: say(f"{name}: {bench.told(name, features, *words)}")  # noqa: E731
    first = next(iter(FIRMWARES))
    tasks = [Task(f"{name}: a session", 5, lambda name=name, features=features: session(bench, name, features), name == first)
             for name, features in bench.firmwares.items()]
    tasks += [Task(f"{first}: starved", 25, told(first, FIRMWARES[first], ["starved"]))]
    tasks += [Task(f"{name}: armed", 5, told(name, features, ["armed"])) for name, features in bench.firmwares.items() if name in WITH_BUFFERS]
    tasks += [Task(f"{name}: random cuts", 25, told(name, features, ["layout", "300", str(seed)])) for name, features in OTHER.items()]
    tasks += [Task(f"{name}: cut starts", 25, told(name, features, ["starts", "300", str(seed)])) for name, features in WAVERING.items()]
    rows = [(name, features, cuts(features, seed)) for name, features in bench.firmwares.items()]
    tasks += [Task(f"{name}: {' '.join(words[at])}", 25, told(name, features, words[at]), name == first)
              for at in range(4) for name, features, words in rows]
    return tasks


def fault_tasks(bench):
    """The tasks that plant a fault each. The first fault is always planted."""
    return [Task(f"planted: {fault.name}", 25, lambda fault=fault: find(bench, fault), fault is FAULTS[0]) for fault in [*FAULTS, HARMLESS]]


def run(bench, tasks):
    """Runs tasks one after the other up to the first that fails, which is told at once: whether none did. What isn't reached in the
    time that is left is skipped by name, where it doesn't always run: a task may take as long as the longest before it."""
    longest = 0
    try:
        for task in tasks:
            begun = bench.clock.spent()
            try:
                if not task.least and not bench.clock.allows(max(task.seconds, longest)):
                    raise NoTime
                task.act()
            except NoTime as error:
                if task.least:
                    raise Failed(f"{task.name}: not over in {bench.clock.minutes:g} minutes, and nothing is said without it") from error
                say(f"skipped: {task.name} (not reached in {bench.clock.minutes:g} minutes)")
            longest = max(longest, bench.clock.spent() - begun)
    except Failed as why:
        say(f"FAILED: {why}")
        return False
    return True
