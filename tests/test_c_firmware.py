"""Tests of c/firmware, the keyboard and the log from C. They need cargo, rustc and gcc, and what a part lacks is skipped by name.

The programs of c/firmware/tests are built with AddressSanitizer and UBSan, and run with the library that a firmware takes.
"""

import os
import re
import shutil
import subprocess
import sys
import tempfile
import unittest

ROOT = os.path.dirname(os.path.dirname(os.path.abspath(__file__)))
sys.path[:0] = [f"{ROOT}/tools", f"{ROOT}/tools/export_rust"]
import building  # noqa: E402
from room import Room, debian_sources  # noqa: E402

WARNINGS = ["-std=c11", "-Wall", "-Wextra", "-Wpedantic", "-Werror", "-g", "-O1"]
SANITIZERS = ["-fsanitize=address,undefined", "-fno-sanitize-recover=all"]
BOOTSTRAP = {"RUSTC_BOOTSTRAP": "1"}
CALLS, SEEDS = 10_000, 3
# Without the plugin of LLVM, which reads bitcode of another version in place of the symbols.
NM = ["nm", "--plugin", "/dev/null"]
# Targets of build.sh, one without atomics.
CHIPS = ("thumbv6m-none-eabi", "riscv32imc-unknown-none-elf")
# What a compiler asks for that has no C library (bcmp on Linux alone), and what the firmware defines.
ASKED = {"memcpy", "memmove", "memset", "memcmp", "bcmp", "wz_panic"}


class Firmware(unittest.TestCase):
    """The library, its header, and its tests in C."""

    @classmethod
    def setUpClass(cls):
        folder = tempfile.TemporaryDirectory()
        cls.addClassCleanup(folder.cleanup)
        cls.work = folder.name
        cls.environment = building.environment()
        cls.folder = f"{building.tree()}/c/firmware"
        cls.ran(["cargo", "build", "-q", "--release"])
        cls.library = f"{building.TARGET}/release/libwuzhikar.a"

    @classmethod
    def ran(cls, words, status=0, **more):
        """What a command prints, which has to end so."""
        environment_of = {**cls.environment, **more}
        ran = subprocess.run(words, cwd=cls.folder, env=environment_of, stdout=subprocess.PIPE, stderr=subprocess.STDOUT, text=True)
        if ran.returncode != status:
            raise AssertionError(f"{' '.join(words)} ended with {ran.returncode}\n{ran.stdout}")
        return ran.stdout

    def needs(self, *tools):
        lacks = [tool for tool in tools if not shutil.which(tool)]
        if lacks:
            self.skipTest(f"not there: {', '.join(lacks)}")

    def says(self, said, name, *words, library=None):
        """Builds a program of tests/ with the sanitizers, and runs it."""
        program = f"{self.work}/{name}"
        built = ["-I.", "-Itests/restated", f"tests/{name}.c", library or self.library, "-o", program]
        self.ran(["gcc", *WARNINGS, *SANITIZERS, *built])
        self.assertEqual(self.ran([program, *words]), f"{said}\n")

    def test_the_keyboard(self):
        self.says("a keyboard types, is remapped and locked, and keeps its keys through torn writes", "keyboard")

    def test_the_device(self):
        self.says("a device enumerates, types, is remapped and locked, wakes its host, and keeps its keys", "device")

    def test_the_log(self):
        self.says("a log keeps its words through cuts, and refuses by name", "log")

    def test_the_settings(self):
        self.says("settings outlive cuts, on units written once too, and refuse by name", "settings")

    def test_stacks_that_are_played(self):
        self.says("a class driver for TinyUSB confirms what is stored", "tinyusb")
        self.says("a keyboard_task types, and stores what the interrupt brought", "qmk")

    def test_calls_at_random(self):
        """The library has the checks of AddressSanitizer itself there, where rustc can make them."""
        library, flag = self.library, "-Zsanitizer=address"
        if subprocess.run(["rustc", flag, "--print", "cfg"], env=self.environment | BOOTSTRAP, capture_output=True).returncode == 0:
            host = re.search("^host: (.*)$", self.ran(["rustc", "-vV"]), re.M)[1]
            target = f"{building.FOLDER}/sanitized"
            self.ran(["cargo", "build", "-q", "--release", "--target", host], **BOOTSTRAP, CARGO_TARGET_DIR=target, RUSTFLAGS=flag)
            library = f"{target}/{host}/release/libwuzhikar.a"
            self.assertIn("__asan_report", self.ran(["nm", library]))
        for number in range(1, SEEDS + 1):
            self.says("calls at random: each answered as it has to be", "fuzz", str(CALLS), str(number), library=library)

    def test_the_parts_in_rust(self):
        for part, words in {"clippy": ["-q", "--", "-D", "warnings"], "fmt": ["--check"]}.items():
            with self.subTest(part):
                if not shutil.which(f"cargo-{part}"):
                    self.skipTest(f"cargo {part} is not there")
                self.ran(["cargo", part, *words])
        for name in os.listdir(f"{ROOT}/c/firmware/src"):
            with open(f"{ROOT}/c/firmware/src/{name}") as file:
                blocks = re.findall(r"unsafe \{|unsafe fn|unsafe impl|unsafe extern", file.read())
            self.assertEqual(bool(blocks), name == "edge.rs", f"{name}: unsafe stands in edge.rs, and there alone")

    def declared(self):
        """The calls that the header declares."""
        with open(f"{self.folder}/wuzhikar.h") as file:
            return set(re.findall(r"^[a-z][\w ]*?[ *](wz_\w+)\(", file.read(), re.M))

    def has_its_symbols(self, library):
        """Those that are seen are those of the header; none of std, an allocator or libc is asked for."""
        self.needs("nm")
        told = self.ran([*NM, "-A", "-g", library])
        lines = [line.split() for line in told.splitlines() if ".o:" in line]
        own = [(words[-2], words[-1]) for words in lines if ":wuzhikar-" in words[0]]  # (the others are compiler_builtins)
        defined = {name for kind, name in own if kind not in "Uw"}
        self.assertEqual({name for name in defined if name.startswith("wz_")}, self.declared() - {"wz_panic"})
        everywhere = {words[-1] for words in lines if words[-2] not in "Uw"}
        self.assertEqual({name for kind, name in own if kind in "Uw"} - everywhere - ASKED, set())
        self.assertNotRegex(self.ran([*NM, "-C", library]), r"\b(std|alloc)::|__rust_alloc|__rdl_|malloc|\bfree$")

    def test_the_symbols(self):
        self.has_its_symbols(self.library)

    def test_the_library_of_a_chip(self):
        """build.sh makes it, of the core that other steps take too, and it asks for no more than this machine's."""
        for target in CHIPS:
            with self.subTest(target):
                made, core = f"{self.work}/{target}", {"RUSTFLAGS": ""}
                if debian_sources():
                    core["WUZHIKAR_SYSROOT"] = Room().sysroot(target)
                ran = subprocess.run(["./build.sh", target, made], cwd=self.folder, env={**self.environment, **core}, stdout=subprocess.PIPE,
                                     stderr=subprocess.STDOUT, text=True)
                if ran.returncode == 1 and "rustc has no library" in ran.stdout:  # (it names Debian's packages)
                    self.skipTest(ran.stdout)
                self.assertEqual((ran.returncode, ran.stdout.splitlines()[-1:]), (0, [f"{made}/libwuzhikar.a"]), ran.stdout)
                self.has_its_symbols(f"{made}/libwuzhikar.a")
                self.assertEqual(sorted(os.listdir(made)), ["libwuzhikar.a", "wuzhikar.h"])
        told = subprocess.run([f"{self.folder}/build.sh"], stdout=subprocess.PIPE, stderr=subprocess.STDOUT, text=True)
        self.assertEqual(told.returncode, 2)
        self.assertIn(CHIPS[0], told.stdout)

    def test_the_header(self):
        """C++ and C take it without a warning, and its version is the project's."""
        with open(f"{ROOT}/VERSION") as file:
            major, minor, patch = map(int, file.read().split("."))
        with open(f"{self.work}/header.c", "w") as file:
            file.write(f'#include "wuzhikar.h"\ntypedef char is_right[WZ_VERSION == {10000 * major + 100 * minor + patch} ? 1 : -1];\n')
            for name in ("keyboard", "device", "log", "settings", "paired"):
                file.write(f"typedef char is_so_large_{name}[sizeof(wz_{name}) == WZ_{name.upper()}_BYTES ? 1 : -1];\n")
        for compiler, language in {"gcc": "c99", "g++": "c++11", "clang": "c11", "clang++": "c++20"}.items():
            with self.subTest(compiler):
                self.needs(compiler)
                words = [f"-std={language}", "-Wall", "-Wextra", "-Wpedantic", "-Werror", "-fsyntax-only", f"-I{self.folder}"]
                self.ran([compiler, *words, "-x", "c++" if "++" in compiler else "c", f"{self.work}/header.c"])

    def test_the_statuses(self):
        """Numbers and names of the header are those of the library."""
        with open(f"{self.folder}/wuzhikar.h") as file:
            told = re.findall(r"^    WZ_(\w+) = (-\d+)\b", file.read(), re.M)
        with open(f"{self.folder}/src/status.rs") as file:
            made = re.findall(r'^    (\w+) = (-\d+), c"(\w+)";$', file.read(), re.M)
        self.assertEqual([(name.title().replace("_", ""), number) for name, number in told], [(name, number) for name, number, _ in made])
        self.assertTrue(made and all(name == text for name, _, text in made))

    def test_what_is_installed(self):
        self.needs("make", "pkg-config", "cmake")
        host = re.search("^host: (.*)$", self.ran(["rustc", "-vV"]), re.M)[1]
        stage, source = f"{self.work}/stage", f"{self.work}/project"
        # The other folder of cargo is empty: nothing is taken from there.
        more = {"CARGO_BUILD_TARGET": host, "CARGO_TARGET_DIR": f"{self.work}/of_target"}
        self.ran(["make", "install", "PREFIX=/opt/wz", f"DESTDIR={stage}"], **more)
        asked = {"PKG_CONFIG_PATH": f"{stage}/opt/wz/lib/pkgconfig", "PKG_CONFIG_SYSROOT_DIR": stage}
        shutil.copytree(f"{self.folder}/tests", source)
        with open(f"{ROOT}/VERSION") as file:
            self.assertEqual(self.ran(["pkg-config", "--modversion", "wuzhikar"], **asked), file.read())
        for static in ([], ["-static"]):
            flags = self.ran(["pkg-config", *(["--static"] if static else []), "--cflags", "--libs", "wuzhikar"], **asked).split()
            self.ran(["gcc", *WARNINGS, *static, f"{source}/log.c", *flags, "-o", f"{source}/of_pkg_config"])
            self.assertRegex(self.ran([f"{source}/of_pkg_config"]), "^a log keeps")
        for version, status in {"0.1": 1, "0.3": 1, "0.2": 0}.items():
            with open(f"{source}/CMakeLists.txt", "w") as file:
                file.write(
                    f"cmake_minimum_required(VERSION 3.13)\nproject(firmware C)\nfind_package(wuzhikar {version} REQUIRED)\n"
                    "add_executable(of_cmake log.c)\ntarget_link_libraries(of_cmake wuzhikar::wuzhikar)\n"
                )
            self.ran(["cmake", "-S", source, "-B", f"{source}/build{version}", f"-DCMAKE_PREFIX_PATH={stage}/opt/wz"], status)
        self.ran(["cmake", "--build", f"{source}/build0.2"])
        self.assertRegex(self.ran([f"{source}/build0.2/of_cmake"]), "^a log keeps")


if __name__ == "__main__":
    unittest.main()
