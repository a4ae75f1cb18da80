"""Runs tests in several processes at once, each with a browser of its own."""

import multiprocessing
import time
import unittest
from multiprocessing.connection import wait
from typing import NamedTuple

import support


class Outcome(NamedTuple):
    """What came of a test: its name, its seconds, what failed and why it was skipped, as text, what it pressed and noted."""

    name: str
    seconds: float
    failed: list[str]
    skipped: list[str]
    pressed: set[str]
    notes: list[str]


def verdict_of(test):
    """Runs a test."""
    result, begun = unittest.TestResult(), time.monotonic()
    test.run(result)
    failed = [f"{one}\n{text}" for one, text in result.errors + result.failures]
    failed += [f"{one}: it passed, and was expected to fail" for one in result.unexpectedSuccesses]
    notes = support.NOTES[:]
    support.NOTES.clear()
    return Outcome(test.id(), time.monotonic() - begun, failed, [why for _, why in result.skipped], set(support.PRESSED), notes)


def work(tests, pipe):
    """Runs the tests whose numbers come out of a pipe, each with what was pressed before it, until None comes."""
    try:
        for number, pressed in iter(pipe.recv, None):
            support.PRESSED.update(pressed)
            pipe.send(verdict_of(tests[number]))
    finally:
        support.end()


class Workers:
    """Processes that run tests."""

    def __init__(self, tests, jobs):
        self.tests, self.pressed, self.at_work, self.pipes = tests, set(), {}, []
        fork = multiprocessing.get_context("fork")
        self.processes = []
        for _ in range(jobs):
            ours, theirs = fork.Pipe()
            self.processes.append(fork.Process(target=work, args=(tests, theirs)))
            self.processes[-1].start()
            theirs.close()
            self.pipes.append(ours)

    def outcomes(self, numbers):
        """Runs the tests of these numbers, each as soon as a process is free: what came of each, as it comes."""
        numbers, free = list(numbers), [pipe for pipe in self.pipes if not pipe.closed]
        while numbers or self.at_work:
            while numbers and free:
                pipe, number = free.pop(), numbers.pop(0)
                pipe.send((number, self.pressed))
                self.at_work[pipe] = number
            if not self.at_work:
                raise RuntimeError("each process that runs tests ended")
            for pipe in wait(list(self.at_work)):
                number = self.at_work.pop(pipe)
                try:
                    outcome = pipe.recv()
                    free.append(pipe)
                except EOFError:
                    pipe.close()
                    outcome = Outcome(self.tests[number].id(), 0, [f"{self.tests[number]}\nthe process that ran it ended"], [], set(), [])
                self.pressed |= outcome.pressed
                yield outcome

    def end(self):
        """Ends the processes, and with each its browser."""
        for pipe in self.pipes:
            if not pipe.closed:
                try:
                    pipe.send(None)
                except OSError:
                    pass
        for process in self.processes:
            process.join(20)
            if process.is_alive():
                process.terminate()
