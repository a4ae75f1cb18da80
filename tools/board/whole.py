"""bin/board-test --long: all instructions, all operations, many tears and random cuts, in pieces of a minute or less. A piece that is
done is kept in a file of the folder, so that a later run goes on behind it."""

import concurrent.futures
import re
import signal
import time
from typing import NamedTuple

from rig import OTHER, NoTime, say
from room import Failed

MOST = 150_000  # so many instructions of a session are cut; of a longer one by a stride
PIECE = 500  # cuts
TOLD = r"^(\d+) cuts at .*: behind the confirmation (\d+), command found done (\d+), lost 0$"
RANDOM = r"^(\d+) random cuts in .*: acknowledged assignments lost 0$"


class Piece(NamedTuple):
    """Some cuts of a firmware: its name and features, the kind, the words of the rig, how many there are about."""

    name: str
    features: str
    words: list
    cuts: int


def random(name, features, kind, cuts, seed):
    """The pieces of so many random cuts."""
    return [Piece(name, features, [kind, PIECE, seed + at], PIECE) for at in range(-(-cuts // PIECE))]


def pieces(name, features, lengths, cuts, seed):
    """The pieces of a firmware, whose sessions have so many instructions and operations."""
    ticks, operations = lengths
    stride, step = -(-ticks // MOST), PIECE // 5
    words = [(["operations", at, min(at + step, operations + 1)], 5 * step) for at in range(1, operations + 1, step)]
    words += [(["words", 50, seed + 50 * at], (18 if features == "ecc" else 6) * 50) for at in range(20)]
    # It ends a little later where the bytes come otherwise.
    words += [(["instructions", stride, at, at + PIECE * stride], PIECE) for at in range(1, ticks + 4 * stride, PIECE * stride)]
    return [Piece(name, features, *one) for one in words] + random(name, features, "random", cuts, seed)


class Whole:
    """A run: its pieces, and those that are done."""

    def __init__(self, bench, given):
        self.bench, self.path = bench, bench.room.path("long.tsv")
        bench.detached = True  # a signal ends this program alone, so that the pieces under way come to their counts
        self.sums = {name: bench.sum(features) for name, features in (bench.firmwares | OTHER).items()}
        lengths = {name: [int(word) for word in bench.told(name, features, "lengths").split()] for name, features in bench.firmwares.items()}
        rows = [pieces(name, features, lengths[name], given.long, given.seed) for name, features in bench.firmwares.items()]
        rows += [random(name, features, "layout", given.long, given.seed) for name, features in OTHER.items()]
        # Of each kind first, so that a run that is ended has met all of them.
        kinds = ["operations", "words", "random", "layout", "instructions"]
        self.pieces = sorted((piece for row in rows for piece in row), key=lambda piece: kinds.index(piece.words[0]))
        self.done = self.kept()
        self.begun = time.monotonic()
        self.cut = 0

    def key(self, piece):
        """What a piece is called in the file."""
        return f"{self.sums[piece.name]}\t{piece.name}\t{' '.join(map(str, piece.words))}"

    def kept(self):
        """The counts of the pieces that were done with these firmwares."""
        try:
            with open(self.path, encoding="utf-8") as file:
                rows = [line.rstrip("\n").rsplit("\t", 1) for line in file if line.endswith("\n")]
        except FileNotFoundError:
            return {}
        keys = {self.key(piece) for piece in self.pieces}
        return {key: [int(word) for word in counts.split()] for key, counts in rows if key in keys}

    def act(self, piece):
        """Runs a piece; its counts. None: there is no time left."""
        if not self.bench.clock.allows(30):
            return None
        try:
            told = self.bench.told(piece.name, piece.features, *piece.words)
        except NoTime:
            return None
        found = re.search(TOLD, told, re.M) or re.search(RANDOM, told, re.M)
        if not found:
            raise Failed(f"{piece.name}, {' '.join(map(str, piece.words))} tells {told}")
        slow = [line.strip() for line in told.splitlines() if "a host that was slow" in line]
        for line in slow:
            say(f"{piece.name}: {line}")
        return [int(word) for word in found.groups()]

    def progress(self, piece, counts):
        """Keeps a piece, and says how far all is."""
        key = self.key(piece)
        with open(self.path, "a", encoding="utf-8") as file:
            file.write(f"{key}\t{' '.join(map(str, counts))}\n")
        self.done[key] = counts
        self.cut += counts[0]
        whole, done = sum(one.cuts for one in self.pieces), sum(one.cuts for one in self.pieces if self.key(one) in self.done)
        rate = self.cut / (time.monotonic() - self.begun)
        left = f"{(whole - done) / rate / 60:.0f} min left" if rate else "no cut yet"
        say(f"{piece.name}, {' '.join(map(str, piece.words))}: {counts[0]} cuts, lost 0; "
            f"{done} of about {whole}, {100 * done // whole} %, {rate:.0f} a second, {left}")

    def take(self, thread, piece):
        """Keeps what a piece came to, where it was reached; whether it did not fail."""
        try:
            counts = thread.result()
        except Failed as why:
            say(f"FAILED: {why}")
            return False
        if counts:
            self.progress(piece, counts)
        return True

    def run(self, jobs):
        """Runs what is left, so many pieces at once, up to the first that fails or a signal. Whether none did."""
        signal.signal(signal.SIGTERM, signal.default_int_handler)
        left = [piece for piece in self.pieces if self.key(piece) not in self.done]
        say(f"{len(self.pieces)} pieces, {len(self.pieces) - len(left)} of them done before ({self.path})")
        threads = concurrent.futures.ThreadPoolExecutor(jobs)
        started = {threads.submit(self.act, piece): piece for piece in left}
        try:
            passed = all(self.take(thread, started[thread]) for thread in concurrent.futures.as_completed(started))
        except KeyboardInterrupt:
            say("ended by a signal, once the pieces under way are done")
            passed = True
        threads.shutdown(cancel_futures=True)
        ended = [thread for thread in started if thread.done() and not thread.cancelled() and self.key(started[thread]) not in self.done]
        passed &= all([self.take(thread, started[thread]) for thread in ended if passed])
        return self.summary() and passed

    def summary(self):
        """Says what all pieces came to, and what is left. Whether each session was met on both sides of its record."""
        met = True
        for name in self.sums:
            for kind in ("layout",) if name in OTHER else ("instructions", "operations", "words", "random"):
                of_kind = [piece for piece in self.pieces if piece.name == name and piece.words[0] == kind]
                counts = [self.done[self.key(piece)] for piece in of_kind if self.key(piece) in self.done]
                cuts = sum(one[0] for one in counts)
                more = ""
                if kind not in ("random", "layout"):
                    told, done = (sum(one[at] for one in counts) for at in (1, 2))
                    more = f", behind the confirmation {told}, command found done {done}"
                    met &= len(counts) < len(of_kind) or 0 < done < cuts
                say(f"{name}, {kind}: {cuts} cuts{more}, lost 0; {len(counts)} of {len(of_kind)} pieces")
        if len(self.done) < len(self.pieces):
            say("the same command goes on from here")
        if not met:
            say("FAILED: a session was not met on both sides of its record")
        return met
