"""Tests of c/reader, the reader from C. They need cargo, rustc and gcc, and valgrind where it is there.

What its calls tell of details, values and writes is compared with reference/reader/plain.py. The programs in C are built with AddressSanitizer and UBSan, and once more without for valgrind, which sees what the library
does too. Fields are compared with those that the program prints that the variable KBSIM names, or else bin/kbsim.
"""

import os
import random
import re
import shutil
import subprocess
import sys
import tempfile
import unittest

from test_kbsim import KBSIM, ROOT, read_cases

sys.path.insert(0, f"{ROOT}/tools")
import building  # noqa: E402

EXAMPLE = f"{ROOT}/c/reader"
WARNINGS = ["-std=c11", "-D_DEFAULT_SOURCE", "-Wall", "-Wextra", "-Wpedantic", "-Werror", "-g", "-O1", "-pthread"]
SANITIZERS = ["-fsanitize=address,undefined", "-fno-sanitize-recover=all"]
# Requests for memory go through the test.
WRAPPED = ["-Wl," + ",".join(f"--wrap={name}" for name in ("malloc", "calloc", "realloc", "posix_memalign"))]
VALGRIND = ["valgrind", "-q", "--error-exitcode=9", "--leak-check=full", "--show-leak-kinds=all", "--errors-for-leak-kinds=all"]
ROUNDS, SEEDS = 100_000, 3
SEED = 1


def texts_of_rows():
    """The texts of tests/descriptors that are hex, each once, as bytes."""
    with open(f"{ROOT}/examples/media_keys.hex") as file:
        found = {bytes.fromhex(file.read()): None}
    for name in ("fields", "faults", "items", "item_faults"):
        for cases in read_cases(f"{ROOT}/tests/descriptors/{name}.rows").values():
            for case in cases:
                try:
                    found[bytes.fromhex("".join(case.given.decode("ascii").split()))] = None
                except ValueError:
                    pass
    return list(found)


def changed(text, chance):
    """A text with some bytes changed, left out or put in."""
    bytes_of = bytearray(text)
    for _ in range(chance.randrange(1, 4)):
        place = chance.randrange(len(bytes_of) + 1)
        bytes_of[place : place + chance.randrange(2)] = chance.randbytes(chance.randrange(3))
    return bytes(bytes_of)


def driver_prints(name):
    """What a driver of examples/hid_driver is to print."""
    with open(f"{ROOT}/examples/hid_driver/expected/{name}", encoding="utf-8") as file:
        return file.read()


class HidReader(unittest.TestCase):
    """The library, its demo, and its tests in C."""

    @classmethod
    def setUpClass(cls):
        folder = tempfile.TemporaryDirectory()
        cls.addClassCleanup(folder.cleanup)
        cls.work = folder.name
        cls.environment = building.environment()
        cls.example = f"{building.tree()}/c/reader"
        cls.cargo("build", "-q", "--release")
        cls.release = f"{building.TARGET}/release"
        cls.texts = texts_of_rows()
        cls.files = []
        for number, text in enumerate(sorted(cls.texts, key=len)[-24:]):
            cls.files.append(f"{cls.work}/text{number}")
            with open(cls.files[-1], "wb") as file:
                file.write(text)

    @classmethod
    def cargo(cls, *words):
        """Runs cargo, whose words are shown where it fails."""
        ran = subprocess.run(
            ["cargo", *words], cwd=cls.example, env=cls.environment, stdout=subprocess.PIPE, stderr=subprocess.STDOUT, text=True
        )
        if ran.returncode != 0:
            raise AssertionError(f"cargo {' '.join(words)}\n{ran.stdout}")

    @classmethod
    def built(cls, source, *options, library="libhid_reader.a"):
        """The path of a program in C, built with these options."""
        program = f"{cls.work}/program"
        source = f"{cls.example}/{source}"
        subprocess.run(["gcc", *WARNINGS, *options, source, f"{cls.release}/{library}", "-o", program], check=True)
        return program

    def says(self, said, *command, **given):
        """Runs a program, which has to end well, without a word of a sanitizer, and to print this."""
        ran = subprocess.run(command, stdout=subprocess.PIPE, stderr=subprocess.PIPE, text=True, **given)
        self.assertEqual((ran.returncode, ran.stdout), (0, said), f"{command}\n{ran.stderr}")
        self.assertNotRegex(ran.stderr, "ERROR|runtime error")

    def both(self, source, said, words=(), fewer=(), options=()):
        """A program of tests/ with the sanitizers, and then, on fewer rounds, under valgrind."""
        self.says(said, self.built(source, *SANITIZERS, *options), *words)
        with self.subTest("valgrind"):
            if not shutil.which("valgrind"):
                self.skipTest("valgrind is not there (Debian: valgrind)")
            self.says(said, *VALGRIND, self.built(source, *options), *fewer)

    def test_the_parts_in_rust(self):
        self.cargo("test", "-q")
        for part, words in {"clippy": ["-q", "--all-targets", "--", "-D", "warnings"], "fmt": ["--check"]}.items():
            with self.subTest(part):
                if not shutil.which(f"cargo-{part}"):
                    self.skipTest(f"cargo {part} is not there")
                self.cargo(part, *words)

    def test_the_demo(self):
        with open(f"{EXAMPLE}/expected") as file:
            expected = file.read()
        self.both("demo.c", expected)
        shared = self.built("demo.c", *SANITIZERS, library="libhid_reader.so")
        self.says(expected, shared, env={**os.environ, "LD_LIBRARY_PATH": self.release})

    def test_each_refusal_touches_nothing(self):
        self.both("tests/refusals.c", "each refusal by its own status, and nothing was touched\n")

    def test_each_request_for_memory_is_refused_in_turn(self):
        said = "each request refused in turn: 5 of a text, 5 in pieces, 3 of readings\n"
        self.both("tests/memory.c", said, options=WRAPPED)

    def test_the_calls_of_a_reader(self):
        said = "each refusal of a reader's calls; requests refused in turn: 18 of a reader, 1 of bytes, 5 of a report, 4 of changes\n"
        self.both("tests/kept.c", said, options=WRAPPED)

    def test_attributes_and_values_are_those_of_the_reference_reader(self):
        program = self.built("tests/tell.c", *SANITIZERS)
        ran = subprocess.run(
            ["python3", "-B", f"{ROOT}/tests/test_reader.py", "--count", "1500", "--program", program], stdout=subprocess.PIPE, text=True
        )
        self.assertEqual(ran.returncode, 0, ran.stdout)
        self.assertRegex(ran.stdout, r" [0-9]{4} answers, 0 differences\n$")

    def test_the_drivers(self):
        # The last program prints its own names of refusals.
        drivers = {
            "mouse": ("mouse", "mouse.hex"),
            "gamepad": ("gamepad", "gamepad.hex", "others/gamepad.hex"),
            "touch_screen": ("touch_screen", "touch_screen.hex", "others/touch_screen.hex"),
            "num_lock": ("num_lock_c", "keyboard.hex", "../media_keys.hex"),
        }
        for name, (wanted, *given) in drivers.items():
            with self.subTest(name):
                program = self.built(f"../../examples/hid_driver/c/{name}.c", *SANITIZERS, f"-I{EXAMPLE}")
                self.says(driver_prints(wanted), program, *(f"{ROOT}/examples/hid_driver/{file}" for file in given))

    def test_views_and_raw_writes(self):
        self.both("tests/views.c", "views, raw writes and all controls of a usage: each as the report says it\n")

    def test_threads(self):
        self.both("tests/threads.c", "8 threads: each reading is right, or its handle was closed\n", ["20000"], ["200"])

    def test_calls_at_random(self):
        said = "calls at random: each answered as it has to be\n"
        self.both("tests/fuzz.c", said, [str(ROUNDS), "0", *self.files], ["4000", "1", *self.files])
        program = self.built("tests/fuzz.c", *SANITIZERS)
        for seed in range(1, SEEDS):
            self.says(said, program, str(ROUNDS), str(seed), *self.files)

    def test_a_reader_at_random(self):
        self.says("what is read, compared and written: each as it has to be\n", self.built("tests/fuzz_reader.c", *SANITIZERS), "5", "1", *self.files)

    def test_fields_are_those_of_kbsim(self):
        program = self.built("tests/lines.c", *SANITIZERS)
        chance = random.Random(SEED)
        texts = [*self.texts, bytes(4096), bytes(4097), *(changed(chance.choice(self.texts), chance) for _ in range(200))]
        faults = 0
        for text in texts:
            wanted = subprocess.run([*KBSIM, "parse"], input=text.hex().encode(), stdout=subprocess.PIPE, stderr=subprocess.DEVNULL)
            faults += wanted.returncode
            pieces = [str(piece) for piece in (0, 1, chance.randrange(2, 80))]
            told = subprocess.run([program, *pieces], input=text, stdout=subprocess.PIPE)
            three = (wanted.returncode, wanted.stdout * len(pieces))
            self.assertEqual((told.returncode, told.stdout), three, f"{text.hex()} in pieces of {pieces}")
        self.assertTrue(50 < faults < len(texts) - 50, f"{faults} of {len(texts)} texts are refused")

    def test_the_names_that_are_seen_are_those_of_the_header(self):
        with open(f"{EXAMPLE}/hid_reader.h") as file:
            declared = set(re.findall(r"^[a-z][\w ]*?[ *](hidr_\w+)\(", file.read(), re.M))
        listed = subprocess.run(
            ["nm", "-D", "--defined-only", f"{self.release}/libhid_reader.so"], stdout=subprocess.PIPE, check=True, text=True
        ).stdout
        self.assertEqual({line.split()[-1] for line in listed.splitlines()}, declared)
        self.assertEqual(len(declared), 54)

    def installed(self, *needed, **more):
        """Where the library is installed, below a stage, or the test is skipped since one of these tools is not there."""
        lacks = [tool for tool in ("make", *needed) if not shutil.which(tool)]
        if lacks:
            self.skipTest(f"not there: {', '.join(lacks)} (Debian: make, pkg-config, binutils, cmake)")
        stage = tempfile.mkdtemp(dir=self.work)
        told = subprocess.run(
            ["make", "-C", self.example, "install", "PREFIX=/opt/hid", f"DESTDIR={stage}"],
            env={**self.environment, **more}, stdout=subprocess.PIPE, stderr=subprocess.STDOUT, text=True,
        )
        self.assertEqual(told.returncode, 0, told.stdout)
        self.addCleanup(self.cargo, "build", "-q", "--release")  # (the shared library of the other tests has no SONAME)
        return stage

    def is_the_mouse(self, program, stage, shared):
        """Runs the driver of a mouse, which is to need the shared library, or not."""
        environment = {**os.environ, "LD_LIBRARY_PATH": f"{stage}/opt/hid/lib"}
        self.says(driver_prints("mouse"), program, f"{ROOT}/examples/hid_driver/mouse.hex", env=environment)
        needed = subprocess.run(["readelf", "-d", program], check=True, stdout=subprocess.PIPE, text=True).stdout
        self.assertEqual("[libhid_reader.so.0]" in needed, shared)

    def test_what_is_installed(self):
        stage = self.installed("pkg-config", "readelf")
        libraries = f"{stage}/opt/hid/lib"
        asked = {"PKG_CONFIG_PATH": f"{libraries}/pkgconfig", "PKG_CONFIG_SYSROOT_DIR": stage}

        def config(*words):
            ran = subprocess.run(["pkg-config", *words, "hid_reader"], env={**os.environ, **asked}, check=True, stdout=subprocess.PIPE, text=True)
            return ran.stdout.split()

        flags = config("--cflags", "--libs")
        self.assertEqual(flags, [f"-I{stage}/opt/hid/include", f"-L{libraries}", "-lhid_reader"])
        with open(f"{ROOT}/VERSION") as file:
            self.assertEqual(config("--modversion"), file.read().split())
        # Of the repository nothing is taken but the driver.
        source, program = f"{ROOT}/examples/hid_driver/c/mouse.c", f"{self.work}/installed"
        static = [flags[0], f"{libraries}/libhid_reader.a"], ["-static", *config("--static", "--cflags", "--libs")]
        for library in (flags, *static):
            subprocess.run(["gcc", *WARNINGS, source, *library, "-o", program], check=True)
            self.is_the_mouse(program, stage, shared=library == flags)

    def test_what_is_installed_for_a_target(self):
        # The other folder of cargo is empty: nothing is taken from there.
        target = re.search("^host: (.*)$", subprocess.run(["rustc", "-vV"], stdout=subprocess.PIPE, text=True).stdout, re.M)[1]
        stage = self.installed("cmake", "readelf", CARGO_BUILD_TARGET=target, CARGO_TARGET_DIR=f"{self.work}/of_target")
        project = f"{self.work}/project"
        os.mkdir(project)
        shutil.copytree(f"{ROOT}/examples/hid_driver/c", f"{project}/c")
        with open(f"{project}/CMakeLists.txt", "w") as file:
            file.write(
                "cmake_minimum_required(VERSION 3.13)\nproject(drivers C)\nfind_package(hid_reader 0.2 REQUIRED)\n"
                "add_executable(shared c/mouse.c)\ntarget_link_libraries(shared hid_reader::hid_reader)\n"
                "add_executable(static c/mouse.c)\ntarget_link_libraries(static hid_reader::static)\n"
            )
        build = ["cmake", "-S", project, "-B", f"{project}/build", f"-DCMAKE_PREFIX_PATH={stage}/opt/hid"]
        for words in (build, ["cmake", "--build", f"{project}/build"]):
            ran = subprocess.run(words, stdout=subprocess.PIPE, stderr=subprocess.STDOUT, text=True)
            self.assertEqual(ran.returncode, 0, ran.stdout)
        for name in ("shared", "static"):
            self.is_the_mouse(f"{project}/build/{name}", stage, shared=name == "shared")
        with open(f"{project}/CMakeLists.txt") as file:
            asked = file.read()
        for version in ("0.1", "0.3", "1.0"):
            with open(f"{project}/CMakeLists.txt", "w") as file:
                file.write(asked.replace("hid_reader 0.2", f"hid_reader {version}"))
            self.assertNotEqual(subprocess.run(build, stdout=subprocess.DEVNULL, stderr=subprocess.DEVNULL).returncode, 0, version)

    def test_the_headers_in_c_and_cpp(self):
        with open(f"{EXAMPLE}/hid_usages.h") as file:
            constants = dict(re.findall(r"^#define (HIDU_\w+) UINT32_C\((0x\w+)\)", file.read(), re.M))
        source = f"{self.work}/headers.c"
        with open(source, "w") as file:
            file.write('#include "hid_usages.h"\n#include "hid_reader.h"\n')
            file.writelines(f"typedef char is_{name}[{name} == {number} ? 1 : -1];\n" for name, number in constants.items())
        for compiler, language in {"gcc": "c11", "g++": "c++11"}.items():
            with self.subTest(compiler):
                if not shutil.which(compiler):
                    self.skipTest(f"{compiler} is not there (Debian: {compiler})")
                words = [f"-std={language}", "-Wall", "-Wextra", "-Wpedantic", "-Werror", "-fsyntax-only", f"-I{EXAMPLE}"]
                subprocess.run([compiler, *words, "-x", language.rstrip("1"), source], check=True)
        # They are those of Rust, which the crate's tests compare with the names.
        wanted, module = {}, ""
        with open(f"{ROOT}/rust/wuzhikar-hid/src/usages.rs") as file:
            for is_module, name, number in re.findall(r"^ *pub (?:const|(mod)) (\w+)(?:: u32 = (\w+);| {)$", file.read(), re.M):
                module = name.upper() if is_module else module
                if not is_module:
                    wanted[f"HIDU_{module}_{name}"] = number.replace("_", "")
        self.assertEqual(constants, wanted)
        self.assertGreater(len(constants), 1_800)


if __name__ == "__main__":
    unittest.main()
