"""Compares two programs `kbsim` over scripts, report descriptors and command lines that are made from numbers.

Standard output, the exit status and what stands on standard error are compared, but for the text of a help and why a command line
is refused, which each program has from its own clap. Where one of the programs is Rattle's, it has no options of `parse`, no
images, and beside a fault another sentence. The first that differs is shown with the command that repeats it, and the status is 1. Each kind is counted
by what comes of it. The runs that are explained are those of scripts with `--explain`, and standard output and status are compared
with those of the same run without it.
"""

import argparse
import collections
import concurrent.futures
import os
import shlex
import subprocess
import sys
import tempfile

sys.dont_write_bytecode = True

from command_lines import command_line
from scripts import Script, Whole, script
from texts import text


def script_run(number):
    """The words and the input of a script's run: every second script is of all lines, the others as drivers send them."""
    pages, lines = script(number, Whole if number % 2 else Script)
    return ["run", "--pages", str(pages)], lines.encode()


def text_run(number):
    """The words and the input for a report descriptor: its fields, or of every third one its items."""
    return ["parse", "--items"] if number % 3 == 2 else ["parse"], text(number).encode()


def words_run(number):
    """The words of a command line, with an empty input."""
    return command_line(number), b""


def explained_run(number):
    """The words and the input of a script's run whose answers are explained."""
    words, given = script_run(number)
    return [*words, "--explain"], given


KINDS = {"scripts": script_run, "explained": explained_run, "texts": text_run, "words": words_run}


def run(program, words, given):
    """What a program answers, in a folder of its own: its status, what it prints, and what it says."""
    with tempfile.TemporaryDirectory() as folder:
        ran = subprocess.run([program, *words], input=given, capture_output=True, cwd=folder, timeout=300)
    return ran.returncode, ran.stdout, ran.stderr


def are_plain(programs):
    """Whether each of these programs is of plain Rust, which has all words and the sentences on faults."""
    return all(subprocess.run([program, "read", "--help"], capture_output=True).returncode == 0 for program in programs)


def is_of_plain(words):
    """Whether plain Rust alone has these words."""
    of_plain = {"parse": ("--items", "--from"), "run": ("--image", "--save")}.get("".join(words[:1]), ())
    return any(word.startswith(option) for word in words for option in of_plain)


def without_sentence(answer):
    """An answer without what plain Rust alone says: of an empty descriptor, and last on standard error, beside a fault."""
    status, printed, said = *answer[:2], answer[2].replace(b"the descriptor is empty\n", b"")
    lines = said.splitlines(keepends=True)
    is_fault = status == 1 and (printed.splitlines() or [b""])[-1].startswith(b"fault")
    return (status, printed, b"".join(lines[:-1])) if is_fault and lines and not lines[-1].startswith(b"error: ") else (status, printed, said)


def without_texts_of_clap(answer):
    """An answer without the text of a help or of a refused command line."""
    status, printed, said = answer
    return status, b"help" if b"\nUsage: " in printed else printed, b"refused" if status == 2 else said


def outcome(kind, words, answer):
    """What a run is counted as."""
    status, printed, said = answer
    last = (printed.decode(errors="replace").splitlines() or [""])[-1]
    if kind == "words":
        return f"status {status}"
    if last.startswith("fault"):
        return last.rsplit(" at ", 1)[0] if kind == "texts" else "fault " + last.rsplit(": ", 1)[-1].removeprefix("fault ")
    return "done"


def difference(kind, number, words, one, other):
    """Why two answers are not the same, in words."""
    told = f"{kind} {number}: kbsim {shlex.join(words)}\n"
    for name, first, second in zip(("status", "standard output", "standard error"), one, other):
        if first == second:
            continue
        if isinstance(first, int):
            return f"{told}{name}: {first}, and {second}"
        lines = zip(first.split(b"\n") + [b"nothing"], second.split(b"\n") + [b"nothing"])
        at, (line, changed) = next((at, pair) for at, pair in enumerate(lines, 1) if pair[0] != pair[1])
        return f"{told}{name}, line {at}: {line.decode(errors='replace')}\nand:  {changed.decode(errors='replace')}"
    return ""


def compare(kind, number, programs, plain):
    """What is to be counted of a run, and why the two programs differ, if they do; `plain` where both are of plain Rust."""
    words, given = KINDS[kind](number)
    if not plain and is_of_plain(words):
        if kind == "words":
            return "of plain Rust alone", ""
        words = ["parse"]
    one, other = (run(program, words, given) for program in programs)
    if kind == "words":
        one, other = without_texts_of_clap(one), without_texts_of_clap(other)
    if not plain:
        one, other = without_sentence(one), without_sentence(other)
    why = difference(kind, number, words, one, other)
    if kind == "explained" and not why:
        unexplained = run(programs[0], [word for word in words if word != "--explain"], given)
        why = difference(kind, number, words, one[:2], unexplained[:2])
    return outcome(kind, words, one), why


def show(kind, number):
    """Prints the words and the input of a run."""
    words, given = KINDS[kind](number)
    print(shlex.join(words))
    sys.stdout.buffer.write(given)


def main():
    words = argparse.ArgumentParser(prog="compare_programs.py", description=__doc__, formatter_class=argparse.RawDescriptionHelpFormatter)
    words.add_argument("programs", nargs="*", metavar="PROGRAM", help="the two programs")
    for kind in KINDS:
        words.add_argument(f"--{kind}", metavar="COUNT", type=int, default=0, help=f"how many {kind} are compared")
    words.add_argument("--show", nargs=2, metavar=("KIND", "NUMBER"), help="prints one run's words and input, and compares nothing")
    given = words.parse_args()
    if given.show:
        show(given.show[0], int(given.show[1]))
        return 0
    if len(given.programs) != 2:
        words.error("two programs are to be named")
    programs = [os.path.abspath(program) for program in given.programs]
    plain = are_plain(programs)
    with concurrent.futures.ThreadPoolExecutor(os.cpu_count()) as pool:
        for kind in KINDS:
            count, found = getattr(given, kind), collections.Counter()
            for counted, why in pool.map(lambda number: compare(kind, number, programs, plain), range(count)):
                if why:
                    print(f"{why}\nits input: {os.path.relpath(__file__)} --show {why.split(':')[0]}")
                    pool.shutdown(cancel_futures=True)
                    return 1
                found[counted] += 1
            if count:
                print(f"{count} {kind}, none differs: " + ", ".join(f"{n} {what}" for what, n in sorted(found.items())))
    return 0


if __name__ == "__main__":
    sys.exit(main())
