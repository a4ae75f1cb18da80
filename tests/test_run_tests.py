"""Tests of bin/test itself: what it says of steps that ran in part, that steps run beside one another, and what it begins with; and
of tools/install_packages.py."""

import os
import shutil
import subprocess
import sys
import tempfile
import unittest
import unittest.mock

ROOT = os.path.dirname(os.path.dirname(os.path.abspath(__file__)))
sys.path.insert(0, f"{ROOT}/tools")
import install_packages  # noqa: E402
import run_tests  # noqa: E402


def ran(code):
    """What is printed of a run of bin/test whose steps this code sets."""
    head = f"import sys\nsys.path.insert(0, {ROOT + '/tools'!r})\nimport run_tests\nfrom run_tests import Step\n"
    tail = "\nwhole = run_tests.Run(set(chosen))\nwhole.whole()\nwhole.summary()\n"
    return subprocess.run([sys.executable, "-B", "-c", head + code + tail], stdout=subprocess.PIPE, text=True, check=True).stdout


class Skipped(unittest.TestCase):
    """What a step skipped is told in the summary."""

    def summary(self, *said):
        """The summary of a run of one step that prints these lines."""
        step = f'run_tests.QUICK = [Step("a step", ["printf", "%s\\\\n", *{list(said)!r}])]\nchosen = ["a step"]'
        return ran(step).partition("== summary")[2].splitlines()[1:]

    def test_parts(self):
        for line in ("skipped: a chip", "board-test: skipped: a chip", "  power-losses: skipped: a chip"):
            self.assertEqual(self.summary("begins", line, "ends"), ["   skipped a part of: a step: a chip"])

    def test_no_part(self):
        self.assertEqual(self.summary("nothing was skipped: all ran", "skipped:", "OK"), [])

    def test_of_unittest(self):
        told = self.summary("....", "OK (skipped=3)")
        self.assertEqual(len(told), 1)
        self.assertIn("a step: 3 of its tests", told[0])

    def test_each_tool_says_it_so(self):
        """No tool says that it skips something in a way that the summary does not see."""
        words = ["git", "grep", "-nE", r"skipped(, since|\. )", "--", "bin", "tools", "tests/*-test", "*/run", "*.py", "*.sh"]
        told = subprocess.run(words, cwd=ROOT, stdout=subprocess.PIPE, text=True).stdout.splitlines()
        self.assertEqual([line for line in told if "test_run_tests.py" not in line], [])


class Lanes(unittest.TestCase):
    """Lists of steps run beside one another."""

    # Each of two steps waits for the other one's word.
    STEPS = """
def waits(folder, mine, others):
    words = 'printf "%s begins\\\\n" "$2"; touch "$1/$2"; for _ in $(seq 100); do [ -e "$1/$3" ] && echo "$2 ends" && exit; sleep 0.1; done; exit 1'
    return Step(mine, ["bash", "-c", words, "-", folder, mine, others])
run_tests.QUICK, run_tests.TIMED, run_tests.Run.program = [], [], lambda *_: ""
run_tests.LANES = [[], [waits(FOLDER, "one", "other")], [waits(FOLDER, "other", "one"), Step("fails", ["false"])]]
chosen = ["one", "other", "fails"]
"""

    def test_beside_one_another(self):
        with tempfile.TemporaryDirectory() as folder:
            told = ran(f"FOLDER = {folder!r}\n{self.STEPS}")
        for name in ("one", "other"):
            self.assertRegex(told, rf"(?m)^== {name}\n{name} begins\n{name} ends\n   {name}: ok, [0-9.]+ s, of processors [0-9.]+ s$")
        self.assertIn("   FAILED: fails (bin/test --only 'fails')", told)
        self.assertIn("== summary: 3 steps", told)

    def test_what_raises_is_a_failure_of_its_step_alone(self):
        steps = """
def raises():
    raise OSError("no memory")
run_tests.QUICK, run_tests.TIMED, run_tests.Run.program = [], [], lambda *_: ""
run_tests.LANES = [[Step("raises", ["true"], raises), Step("behind it", ["true"])], [Step("beside it", ["true"])]]
chosen = ["raises", "behind it", "beside it"]
"""
        told = ran(steps)
        self.assertIn("   FAILED: raises (bin/test --only 'raises')", told)
        self.assertIn("== summary: 2 steps", told)

    def test_the_copy_that_others_build_in_is_made_behind_the_gate(self):
        steps = """
import os
run_tests.QUICK, run_tests.TIMED, run_tests.Run.program = [], [], lambda *_: ""
run_tests.building.tree = lambda: os.makedirs(FOLDER + "/copy")
run_tests.LANES = [[Step("removes it", ["rm", "-rf", FOLDER + "/copy"])], [Step("wants it", ["test", "-d", FOLDER + "/copy"])]]
chosen = ["removes it", "wants it"]
"""
        with tempfile.TemporaryDirectory() as folder:
            self.assertNotIn("FAILED", ran(f"FOLDER = {folder!r}\n{steps}"))

    def test_each_step_has_one_place(self):
        names = [step.name for step in run_tests.STEPS]
        self.assertEqual(sorted(set(names)), sorted(names))
        self.assertEqual(run_tests.LANES[0][0].name, "gate")


class Source(unittest.TestCase):
    """Where cargo takes Debian's crates."""

    def test_one_place_sets_it(self):
        words = ["git", "grep", "-lE", r"replace-with|source\.debian", "--", ":!tests/test_run_tests.py"]
        told = subprocess.run(words, cwd=ROOT, stdout=subprocess.PIPE, text=True, check=True).stdout.split()
        # (A page shows it to users, and for 32 bits the folder is one with std's crates too.)
        self.assertEqual(told, ["docs/USING.md", "tools/debian.toml", "tools/export_rust/target_steps.py"])

    def test_workspaces_are_few(self):
        """Each package is of one of the workspaces, or is to be copied and stands alone."""
        words = ["git", "ls-files", "--", "*Cargo.toml"]
        told = subprocess.run(words, cwd=ROOT, stdout=subprocess.PIPE, text=True, check=True).stdout.split()
        spaces = [path for path in told if "[workspace]" in read(path).splitlines()]
        self.assertEqual([path for path in spaces if not path.startswith("examples/")], ["Cargo.toml", "rust/Cargo.toml", "web/core/Cargo.toml"])


def read(path):
    """A file of the repository."""
    with open(f"{ROOT}/{path}", encoding="utf-8") as file:
        return file.read()


class Locked(unittest.TestCase):
    """The step that builds with Cargo.lock."""

    STEP = next(step for step in run_tests.STEPS if step.name == "what Cargo.lock names")

    def lacks(self, cargo):
        """What the step says is lacking when this script is the cargo on the PATH."""
        with tempfile.TemporaryDirectory() as folder:
            for name in ("cargo", "rustc"):
                with open(f"{folder}/{name}", "w", encoding="utf-8") as file:
                    file.write(f"#!/bin/sh\n{cargo}\n")
                os.chmod(f"{folder}/{name}", 0o755)
            with unittest.mock.patch.dict(os.environ, PATH=f"{folder}:{os.environ['PATH']}"):
                return self.STEP.lacks()

    def test_it_is_skipped_by_name_where_no_registry_answers(self):
        self.assertEqual(self.lacks("exit 101"), "cargo reaches no public registry")
        self.assertEqual(self.lacks("exit 0"), "")

    def test_it_builds_with_the_lock_alone(self):
        """No configuration stands between cargo and the public registry, and the lock may not change."""
        with open(self.STEP.command[-1], encoding="utf-8") as file:
            self.assertIn('"build", "--locked"', file.read())
        folder = f"{ROOT}/out/locked/rust"
        self.assertFalse(any(os.path.exists(f"{above}/.cargo") for above in (folder, f"{ROOT}/out/locked", f"{ROOT}/out", ROOT)))


class Packages(unittest.TestCase):
    """What is missing, and what installs it."""

    def call(self, programs, *words):
        """Status and output of tools/install_packages.py where the PATH has these programs alone."""
        with tempfile.TemporaryDirectory() as folder:
            for name, text in programs.items():
                with open(f"{folder}/{name}", "w", encoding="utf-8") as file:
                    file.write(text)
                os.chmod(f"{folder}/{name}", 0o755)
            call = [sys.executable, "-B", f"{ROOT}/tools/install_packages.py", *words]
            made = subprocess.run(call, env={"PATH": folder}, stdout=subprocess.PIPE, stderr=subprocess.PIPE, text=True)
        return made.returncode, made.stdout, made.stderr

    def test_it_ends_with_0(self):
        told = "#!/bin/sh\nexit {}\n"
        for programs in ({}, {"apt-get": told.format(100), "dpkg-query": told.format(1)}, {"rustc": "no program", "apt-get": "none either"}):
            for words in ([], ["--list"]):
                with self.subTest(f"{programs} {words}"):
                    status, printed, said = self.call(programs, *words)
                    self.assertEqual((status, said), (0, ""))
                    self.assertIn("valgrind" if words else "packages: ", printed)

    def test_it_ends_with_0_where_nobody_reads(self):
        command = f"{sys.executable} -B {ROOT}/tools/install_packages.py --list"
        made = subprocess.run(["bash", "-c", f'{command} >/dev/full; echo "$?"'], stdout=subprocess.PIPE, stderr=subprocess.PIPE, text=True)
        self.assertEqual(made.stdout, "0\n")

    @unittest.skipUnless(shutil.which("apt-get"), "no apt-get is there")
    def test_the_first_line_installs_what_is_missing(self):
        kept, install_packages.WANTED = install_packages.WANTED, [("a-package", "no-such-program")]
        self.addCleanup(setattr, install_packages, "WANTED", kept)
        self.assertRegex(run_tests.missing(), r"^-- .*: sudo apt-get install --no-install-recommends a-package( .*)?$")
        install_packages.WANTED, install_packages.missing_of_compiler = [], list
        self.assertEqual(run_tests.missing(), "")


if __name__ == "__main__":
    unittest.main()
