"""Tests of how bin/kbsim chooses a program, on copies of the repository's scripts with programs that only say what they are."""

import os
import re
import shutil
import signal
import subprocess
import sys
import tempfile
import time
import unittest

ROOT = os.path.dirname(os.path.dirname(os.path.abspath(__file__)))
sys.path.insert(0, f"{ROOT}/tools")
import debian_crates  # noqa: E402

SAYS = "#!/usr/bin/env bash\necho {} \"$@\"\n"
ENDS = (signal.SIGTERM, signal.SIGINT, signal.SIGHUP)


def hear_each():
    """Takes the signals that end a program as they come: a shell can't trap one that its caller ignores."""
    for number in ENDS:
        signal.signal(number, signal.SIG_DFL)


def options_of_all():
    """Of each command the options that its completion in bash has, which is made of the words of plain Rust."""
    with open(f"{ROOT}/completions/kbsim.bash", encoding="utf-8") as file:
        found = re.findall(r"^        kbsim__(?:subcmd__)?([a-z]+)\)\n\s*opts=\"([^\"]*)\"", file.read(), re.M)
    return {command: re.findall(r"--[a-z]+", options) for command, options in found if command != "help"}


class EntryScript(unittest.TestCase):
    """A small repository, and a folder of programs that is the PATH."""

    def setUp(self):
        folder = tempfile.TemporaryDirectory()
        self.addCleanup(folder.cleanup)
        self.top = f"{folder.name}/top"
        self.path = f"{folder.name}/path"
        for name in ("bin", "tools", "crates/low/src", "crates/kbsim_cli/src", "rust/kbsim/src"):
            os.makedirs(f"{self.top}/{name}")
        os.mkdir(self.path)
        shutil.copy(f"{ROOT}/bin/kbsim", f"{self.top}/bin/kbsim")
        shutil.copy(f"{ROOT}/tools/sources.sh", f"{self.top}/tools/sources.sh")
        self.write("crates.txt", "low:\nkbsim_cli: low\n")
        self.write("crates/low/src/lib.rt", "1\n")
        self.write("crates/kbsim_cli/src/main.rt", "1\n")
        self.write("rust/Cargo.toml", "")
        self.record()
        for tool in "bash cat chmod cp cut find git grep head mkdir mkfifo mktemp mv readlink rm sed sha256sum sleep sort tac tar xargs yes ln awk env".split():
            os.symlink(shutil.which(tool), f"{self.path}/{tool}")

    def write(self, name, text, mode=0o644):
        path = name if name.startswith("/") else f"{self.top}/{name}"
        with open(path, "w", encoding="utf-8") as file:
            file.write(text)
        os.chmod(path, mode)

    def record(self):
        """Says that plain Rust was made from the sources as they stand."""
        sums = subprocess.run(["sha256sum", "crates/low/src/lib.rt"], cwd=self.top, stdout=subprocess.PIPE, text=True, check=True)
        self.write("rust/kbsim/SOURCES", sums.stdout)

    def add_cargo(self, version="1.85.0", build="true"):
        """A rustc that tells this version, and a cargo that builds a program which says that it is plain. As cargo does, it puts
        the program into a folder of the target where one is named, by a word or by the environment."""
        self.write(f"{self.path}/rustc", f"#!/usr/bin/env bash\nprintf '%s\\n' 'rustc {version} (x)' 'host: this-host'\n", 0o755)
        cargo = """#!/usr/bin/env bash
words=$* target=${CARGO_BUILD_TARGET:-}
while [ $# -gt 0 ]; do
    case $1 in
    --target) target=$2 && shift ;;
    --target-dir) into=$2 && shift ;;
    --bin) program=$2 && shift ;;
    esac
    shift
done
into+=/${target:+$target/}release
mkdir -p "$into"
BUILD
printf '%s\\n' '#!/usr/bin/env bash' 'echo plain "$@"' >"$into/$program"
chmod +x "$into/$program"
"""
        self.write(f"{self.path}/cargo", cargo.replace("BUILD", build), 0o755)

    def add_rt(self, first="true"):
        """A toolchain whose unproved run has its program in a folder of its own while it goes on."""
        rt = f"""#!/usr/bin/env bash
cat >/dev/null
{first}
mkdir -p "$TMPDIR/run-3"
printf '%s\\n' '#!/usr/bin/env bash' 'echo unproved "$@"' >"$TMPDIR/run-3/part"
chmod +x "$TMPDIR/run-3/part"
mv "$TMPDIR/run-3/part" "$TMPDIR/run-3/program"
sleep 0.5
"""
        self.write(f"{self.path}/rt", rt, 0o755)

    def prove(self):
        """Keeps a program as bin/prove does."""
        self.write("program", SAYS.format("proved"), 0o755)
        script = 'root=$1; . tools/sources.sh; keep program "proved-$(sum_of_proved "$root")"'
        subprocess.run(["bash", "-c", script, "-", self.top], cwd=self.top, check=True)

    def call(self, *words, **variables):
        ran = subprocess.run([f"{self.top}/bin/kbsim", *words], env={"PATH": self.path, **variables}, capture_output=True, text=True)
        return ran.returncode, ran.stdout, ran.stderr

    def begin(self):
        """A run in a process group of its own, which has begun to build."""
        how = {"env": {"PATH": self.path}, "stdout": subprocess.PIPE, "stderr": subprocess.PIPE, "start_new_session": True}
        ran = subprocess.Popen([f"{self.top}/bin/kbsim", "run"], preexec_fn=hear_each, **how)
        self.assertIn(b"builds kbsim", ran.stderr.readline())
        time.sleep(1)
        return ran

    def kept(self):
        """What is kept: of each name what stands before the checksum."""
        return sorted(name.split("-")[0] for name in os.listdir(f"{self.top}/out/kbsim"))

    def test_nothing_is_there(self):
        status, printed, said = self.call("run")
        self.assertEqual((status, printed), (1, ""))
        self.assertTrue(said.startswith("kbsim: nothing here can build it: install cargo"), said)
        self.assertEqual(len(said.splitlines()), 1)

    def test_the_proved_program_is_taken_and_says_nothing(self):
        self.prove()
        self.add_cargo()
        self.assertEqual(self.call("run", "a b"), (0, "proved run a b\n", ""))

    def test_each_option_of_plain_rust_alone_is_taken_there(self):
        self.prove()
        self.add_cargo()
        with open(f"{ROOT}/crates/command_line/src/lib.rt", encoding="utf-8") as file:
            of_proved = set(re.findall(r'\.long\("([a-z]+)"\)', file.read())) | {"help"}
        of_all = options_of_all()
        self.assertIn("--lenient", of_all["parse"])
        self.call("--way", "plain", "run")
        for command, options in of_all.items():
            for option in options:
                is_proved = command not in ("read", "write") and option[2:] in of_proved
                for words in ([command, "a", option], [command, f"{option}=x", "a"]):
                    with self.subTest(words):
                        self.assertEqual(self.call(*words), (0, f"{'proved' if is_proved else 'plain'} {' '.join(words)}\n", ""))
        for words in (["read", "a"], ["write"], ["help", "read"]):
            self.assertEqual(self.call(*words), (0, f"plain {' '.join(words)}\n", ""))
        # What neither has is refused by the proved program, and a file may have any name.
        for words in (["run", "--other"], ["parse", "--", "--json"], ["help", "parse"], ["--json"], []):
            self.assertEqual(self.call(*words), (0, f"proved {' '.join(words)}\n" if words else "proved\n", ""))

    def test_a_word_of_plain_rust_alone_is_refused_by_name(self):
        self.prove()
        for words, name in ((["read", "a"], "read"), (["help", "write"], "write"), (["parse", "a", "--json"], "parse --json")):
            status, printed, said = self.call(*words)
            self.assertEqual((status, printed, len(said.splitlines())), (1, "", 1))
            self.assertTrue(said.startswith(f"kbsim: {name} is of plain Rust alone, and nothing here can build it: install cargo"), said)
            self.assertNotIn("Rattle", said)

    def test_a_changed_source_is_seen_and_its_end_too(self):
        self.prove()
        self.write("crates/low/src/lib.rt", "2\n")
        os.utime(f"{self.top}/crates/low/src/lib.rt", (1, 1))
        self.assertEqual(self.call("run")[0], 1)
        self.write("crates/low/src/lib.rt", "1\n")
        self.assertEqual(self.call("run"), (0, "proved run\n", ""))

    def test_plain_rust_is_built_once(self):
        self.add_cargo()
        status, printed, said = self.call("run")
        self.assertEqual((status, printed), (0, "plain run\n"))
        self.assertIn("builds kbsim from plain Rust by cargo", said)
        self.add_cargo(build="exit 1")
        status, printed, said = self.call("run")
        self.assertEqual((status, printed, len(said.splitlines())), (0, "plain run\n", 1))
        self.assertIn("bin/prove proves", said)
        self.assertEqual(self.call("--quiet", "run"), (0, "plain run\n", ""))
        self.assertEqual(self.kept(), ["plain"])

    def test_a_clock_that_is_behind_runs_no_old_program(self):
        self.prove()
        self.call("run")
        later = time.time() + 3600
        for name in os.listdir(f"{self.top}/out/kbsim"):
            os.utime(f"{self.top}/out/kbsim/{name}", (later, later))
        self.write("crates/low/src/lib.rt", "2\n")
        self.assertEqual(self.call("run")[0], 1)

    def test_the_newest_few_are_kept(self):
        self.add_cargo()
        self.prove()
        for number in range(5):
            self.write("rust/new.rs", f"{number}\n")
            self.assertEqual(self.call("--way", "plain", "run")[:2], (0, "plain run\n"))
        self.assertEqual(self.kept(), ["plain"] * 3 + ["proved"])
        later = time.time() + 3600
        for name in os.listdir(f"{self.top}/out/kbsim"):
            os.utime(f"{self.top}/out/kbsim/{name}", (later, later))
        self.write("rust/new.rs", "5\n")
        self.assertEqual(self.call("--way", "plain", "run")[:2], (0, "plain run\n"), "a clock that is behind drops what was just built")
        self.add_cargo(build="exit 1")
        self.assertEqual(self.call("--quiet", "--way", "plain", "run"), (0, "plain run\n", ""))
        self.write("rust/new.rs", "0\n")
        self.assertEqual(self.call("--quiet", "--way", "plain", "run")[0], 1, "an old program is kept")

    def test_a_source_that_is_saved_while_it_is_built(self):
        self.add_cargo(build='[ ! -e src/late.rs ] || : >"$into/late"; cp -r "$into" "$TOP/built"; : >"$TOP/rust/src/later.rs"')
        os.mkdir(f"{self.top}/rust/src")
        # (The compiler is asked after the sources were read, and before they are copied.)
        with open(f"{self.path}/rustc", "a", encoding="utf-8") as file:
            file.write(f": >>{self.top}/rust/src/late.rs\n")
        self.assertEqual(self.call("run", TOP=self.top)[:2], (0, "plain run\n"))
        self.assertIn("late", os.listdir(f"{self.top}/built"))
        self.add_cargo(build="exit 1")
        os.remove(f"{self.top}/rust/src/later.rs")
        self.assertEqual(self.call("--quiet", "run"), (0, "plain run\n", ""), "it is kept under the sources that were copied")
        os.remove(f"{self.top}/rust/src/late.rs")
        self.assertIn("cargo could not build it", self.call("run")[2], "and under no others")

    def test_other_users_can_read_what_is_kept(self):
        self.add_cargo()
        before = os.umask(0o077)
        try:
            self.call("run")
            self.write("rust/new.rs", "")
            self.add_cargo(build="exit 1")
            self.call("run")
        finally:
            os.umask(before)
        self.assertEqual(self.kept(), ["cargo.log", "plain"])
        for name in ("out", "out/kbsim", *(f"out/kbsim/{name}" for name in os.listdir(f"{self.top}/out/kbsim"))):
            self.assertEqual(os.stat(f"{self.top}/{name}").st_mode & 0o055, 0o055, name)

    def test_a_standard_error_that_cannot_be_written(self):
        ways = ("2>/dev/full", "2>&-", "2> >(:)")
        for way in ways:
            with self.subTest(way):
                shutil.rmtree(f"{self.top}/out", ignore_errors=True)
                self.add_cargo(build="sleep 0.2")
                words = ["bash", "-c", f'sleep 0.1; "$0" run {way}', f"{self.top}/bin/kbsim"]
                for _ in range(2):
                    ran = subprocess.run(words, env={"PATH": self.path}, stdout=subprocess.PIPE, text=True)
                    self.assertEqual((ran.returncode, ran.stdout), (0, "plain run\n"))

    def test_a_file_that_git_ignores_is_no_source(self):
        self.add_cargo()
        self.assertEqual(self.call("run")[:2], (0, "plain run\n"))
        self.add_cargo(build="exit 1")
        subprocess.run(["git", "init", "-q", self.top], check=True)
        self.write(".gitignore", "rust/Cargo.lock\n")
        self.write("rust/Cargo.lock", "")
        self.assertEqual(self.call("--quiet", "run"), (0, "plain run\n", ""))
        self.write("rust/new.rs", "")
        self.assertIn("builds kbsim", self.call("run")[2])

    def test_a_target_of_the_users_own(self):
        self.add_cargo()
        self.assertEqual(self.call("run", CARGO_BUILD_TARGET="other")[:2], (0, "plain run\n"))

    def test_a_build_without_a_program_is_none(self):
        self.add_cargo(build="exit 0")
        status, printed, said = self.call("run")
        self.assertEqual((status, printed), (1, ""))
        self.assertIn("cargo could not build it", said)

    def test_the_lock_is_for_the_public_registry_alone(self):
        self.write("rust/Cargo.lock", "")
        self.add_cargo(build=f'echo "$(test ! -e Cargo.lock || echo locked) $words" >>"{self.top}/told"; exit 1')
        self.call("run")
        with open(f"{self.top}/told", encoding="utf-8") as file:
            ways = [("locked" in line, "tools/debian.toml" in line) for line in file]
        self.assertEqual(ways, [(False, True), (True, False)] if debian_crates.installed("arrayvec") else [(True, False)])

    def test_plain_rust_of_other_sources_is_not_taken(self):
        self.add_cargo()
        self.write("crates/low/src/lib.rt", "2\n")
        self.assertIn("nothing here can build it", self.call("run")[2])

    def test_each_crate_of_plain_rust_is_compared_with_its_sources(self):
        self.add_cargo()
        os.makedirs(f"{self.top}/rust/other")
        self.write("rust/other/SOURCES", f"{64 * '0'}  crates/kbsim_cli/src/main.rt\n")
        self.assertIn("nothing here can build it", self.call("run")[2])

    def test_a_compiler_that_is_too_old_is_not_taken(self):
        self.add_cargo("1.84.1")
        self.assertIn("nothing here can build it", self.call("run")[2])

    def test_a_build_that_fails_is_told_and_tried_once(self):
        fails = f"echo x >>{self.top}/tried; echo 'error: no such crate' >&2; exit 1"
        self.add_cargo(build=fails)

        def tries():
            status, printed, said = self.call("run")
            self.assertEqual((status, printed), (1, ""))
            with open(f"{self.top}/tried", encoding="utf-8") as file:
                return len(file.readlines()), said

        once, said = tries()
        self.assertIn("cargo could not build it (error: no such crate)", said)
        lacking = "nothing here can build it: install what cargo lacks (error: no such crate; out/kbsim/cargo.log"
        self.assertIn(lacking, said)
        self.assertEqual(self.kept(), ["cargo.log"])
        again, said = tries()
        self.assertEqual((again, len(said.splitlines())), (once, 1))
        self.assertIn(lacking, said)
        self.write("rust/new.rs", "")
        self.assertEqual(tries()[0], 2 * once, "other sources")
        self.add_cargo("1.86.0", build=fails)
        self.assertEqual(tries()[0], 3 * once, "another compiler")
        os.remove(f"{self.top}/out/kbsim/cargo.log")
        self.assertEqual(tries()[0], 4 * once, "the log is gone")
        self.add_cargo("1.86.0")
        self.write("rust/new.rs", "1")
        self.assertEqual(self.call("run")[:2], (0, "plain run\n"))

    def test_crates_that_cargo_cannot_get_are_named_by_debians_packages(self):
        self.add_cargo(build="echo 'error: failed to get `arrayvec` as a dependency of package `low v0.1.0 (/top)`' >&2; exit 1")
        packages = "install the crates that cargo could not get (Debian: apt-get install librust-arrayvec-dev librust-hex-dev"
        self.assertIn(packages, self.call("run")[2])
        # Also where the toolchain is there, which goes on; then no word of it is said again.
        self.add_rt()
        status, printed, said = self.call("run")
        self.assertEqual((status, printed), (0, "unproved run\n"))
        self.assertIn(packages, said)
        self.assertEqual(self.call("--quiet", "run"), (0, "unproved run\n", ""))

    def test_an_unproved_program_is_kept_under_what_was_copied(self):
        self.add_rt(f"echo 2 >{self.top}/crates/low/src/lib.rt")
        self.assertEqual(self.call("run")[:2], (0, "unproved run\n"))
        self.add_rt("exit 1")
        status, _, said = self.call("run")
        self.assertEqual((status, said.splitlines()[-1]), (1, "kbsim: the toolchain could not compile it (out/kbsim/try.log says why)"))
        self.write("crates/low/src/lib.rt", "1\n")
        self.assertEqual(self.call("--quiet", "run"), (0, "unproved run\n", ""))

    def test_ways_and_paths(self):
        self.add_cargo()
        self.assertEqual(self.call("--way", "proved", "run")[0], 1)
        self.assertEqual(self.call("--way", "other")[0], 2)
        self.prove()
        self.assertEqual(self.call("--way", "plain", "run")[1], "plain run\n")
        self.assertTrue(self.call("--path")[1].startswith(f"{self.top}/out/kbsim/proved-"))

    def test_a_folder_that_cannot_be_written(self):
        self.add_cargo()
        # (A file takes its place, since root may write into any folder.)
        self.write("out", "")
        status, printed, said = self.call("run")
        self.assertEqual((status, printed), (1, ""))
        self.assertIn("can't be written", said)
        self.assertEqual(len(said.splitlines()), 1)

    def test_two_builds_at_once(self):
        self.add_cargo(build="sleep 0.3")
        words, how = [f"{self.top}/bin/kbsim", "run"], {"env": {"PATH": self.path}, "stdout": subprocess.PIPE, "stderr": subprocess.PIPE}
        both = [subprocess.Popen(words, **how) for _ in range(2)]
        self.assertEqual([ran.communicate()[0] for ran in both], [b"plain run\n"] * 2)
        self.assertEqual(self.kept(), ["plain"])

    def test_an_interrupted_build_leaves_nothing(self):
        self.add_cargo(build='sleep 60 & wait; touch "$into/late"')
        for number in ENDS:
            ran, begun = self.begin(), time.monotonic()
            ran.send_signal(number)
            ran.communicate()
            self.assertNotEqual(ran.returncode, 0)
            self.assertLess(time.monotonic() - begun, 10, "the build goes on")
            self.assertEqual(self.kept(), [])

    def test_a_killed_run_leaves_nothing(self):
        self.add_cargo(build=f"echo $$ >{self.top}/builds; sleep 60 & wait")
        ran = self.begin()
        ran.kill()
        ran.wait()
        with open(f"{self.top}/builds", encoding="utf-8") as file:
            group = int(file.read())
        for _ in range(100):
            left = subprocess.run(["pgrep", "-g", str(group)], stdout=subprocess.PIPE, text=True).stdout.split()
            if not left and not self.kept():
                break
            time.sleep(0.1)
        ran.communicate()
        self.assertEqual((left, self.kept()), ([], []))


if __name__ == "__main__":
    unittest.main()
