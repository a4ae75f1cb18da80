"""Programs whose output is read as it comes, and waited for by what it says."""

import contextlib
import os
import select
import subprocess
import time

# How long a program may say nothing. A machine under load takes ten times as long as a calm one, and says something all the time.
PATIENCE = 600.0
# How long it may take in all.
LONGEST = 1800.0


# When all have to be done, by time.monotonic(); without a number never.
end_of_all = None


class Over(Exception):
    """All had to be done by now."""


class Silent(Exception):
    """A program ended, or said nothing for too long, before it said what it should. `said` is what it did say."""

    def __init__(self, why, said):
        super().__init__(why)
        self.said = said


class Program:
    """A running program, what it has said, and what is to be said to it."""

    def __init__(self, command, fds=(), patience=PATIENCE, longest=LONGEST):
        self.name, self.patience, self.longest, self.said = os.path.basename(command[0]), patience, longest, b""
        self.process = subprocess.Popen(command, stdin=subprocess.PIPE, stdout=subprocess.PIPE, stderr=subprocess.STDOUT, pass_fds=fds)
        os.set_blocking(self.process.stdout.fileno(), False)

    def say(self, text):
        """Writes to its standard input."""
        self.process.stdin.write(text.encode())
        self.process.stdin.flush()

    def until(self, *texts, hear=lambda: None):
        """Reads until it has said one of these texts; which. `hear` is called whenever it has said more."""
        wanted, last = " or ".join(map(repr, texts)), time.monotonic()
        longest = last + self.longest
        while True:
            for text in texts:
                if text.encode() in self.said:
                    return text
            if end_of_all is not None and time.monotonic() > end_of_all:
                raise Over
            if time.monotonic() > min(last + self.patience, longest):
                raise Silent(f"{self.name} did not say {wanted}, and nothing for {time.monotonic() - last:.0f} seconds", self.text())
            if select.select([self.process.stdout], [], [], 1.0)[0]:
                read = self.process.stdout.read()
                if read == b"":
                    raise Silent(f"{self.name} ended, and did not say {wanted}", self.text())
                self.said, last = self.said + (read or b""), time.monotonic()
                hear()

    def text(self):
        """What it has said, as text."""
        return self.said.decode(errors="replace").replace("\r", "")

    def end(self):
        """Ends it."""
        self.process.kill()
        self.process.wait()
        self.process.stdin.close()
        self.process.stdout.close()


@contextlib.contextmanager
def running(command, fds=(), patience=PATIENCE, longest=LONGEST):
    """Runs a program, and ends it after the block."""
    program = Program(command, fds, patience, longest)
    try:
        yield program
    finally:
        program.end()
