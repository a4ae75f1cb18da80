"""The exporter's own tests: what it leaves out, what it changes, what it refuses. They need no rustc."""

import dataclasses
import os
import re
import subprocess
import sys
import tempfile
import unittest

sys.dont_write_bytecode = True

import rules
import scripts
from acceptance import TestTranslator
from check import differing
from command_lines import command_line
from export_rust import HERE, UNPROVED, Export
from items import Translator
from lexing import Refused
from same_tokens import all_files, differences
from texts import text


def rust(text, crate="layers", of=rules.KEYBOARD, contracts=False):
    """The Rust for a file of a crate that stands on `records`."""
    return Translator(crate, "", "f.rt", {"records"}, of, False, contracts).translate(text)


def run(*words):
    """The exporter, run on a folder."""
    return subprocess.run([sys.executable, "-B", os.path.join(HERE, "export_rust.py"), *words], capture_output=True, text=True)


# What the comparison of tokens passes over: who may call something, and docs. A name, a source, its export.
SHOWN = [
    ("a caller's condition", "impl S { pub fn f(a: u8) -> u8\n    requires { a < 2 }\n{\n    a\n} }\n", "impl S { pub(crate) fn f(a: u8) -> u8 {\n    a\n} }\n"),
    ("a function's condition, which `parts` alone shows", "pub fn f(a: u8) -> u8\n    requires { a < 2 }\n{\n    a\n}\n", "pub fn f(a: u8) -> u8 {\n    a\n}\n"),
    ("code in docs, which is Rattle's", "/// ```\n/// f(alloc)\n/// ```\nfn f() {}\n", "/// ```text\n/// f(alloc)\n/// ```\nfn f() {}\n"),
    ("blank lines in a string", "const S: &str = \"{\n\n\n}\";\n", "const S: &str = \"{\n\n\n}\";\n"),
]

# Forms of the tests of crates/acceptance.
TESTS = [
    ("a test with a runtime", "#[test]\nfn a(rt: HostRuntime) -> Result<(), Fail> {\n    assert_eq!(&rt; f(), 1);\n    Ok(())\n}\n",
     "#[test]\nfn a() -> Result<(), Fail> { let rt = crate::rattle::HostRuntime;\n    assert_eq!( f(), 1);\n    Ok(())\n}\n"),
    ("what ends a test", "fn a(rt: &impl Abort) { f().expect(rt, \"one\"); assert!(rt; g(), \"two\"); }\n",
     "fn a(rt: &impl Abort) { f().expect( \"one\"); assert!( g(), \"two\"); }\n"),
    ("a text", "fn a(alloc: Global) { format!(in alloc; \"{x} \") }\n",
     "fn a(alloc: Global) { crate::rattle::format(alloc, format_args!( \"{x} \")) }\n"),
]

REFUSED = [
    "fn f() { let a = b.clone()?; }",
    "fn f() -> u8 { v.push(1)?; 1 }",
    "fn f() -> u8 { self.v.push(1)?; 1 }",
    "impl Drop for S { fn drop(self) { } }",
    "impl<F: Flash + Drop> Drop for S<F> { fn drop(self) { } }",
    "#[test] fn f() {}",
    "fn f(v: Vec<u8>) -> u8 { 1 }",
    "use std::process::Abort;",
    "use std::collections::HashMap;",
    "use records::theorems;",
    "use records::theorems::*;",
    "fn f() -> u8 { assert!(rt; a); 1 }",
    "fn f() -> u8 { panic!(\"a\") }",
    "fn f() -> u8 { unreachable!(\"a\") }",
    "fn f() -> u8 { prove!(a); 1 }",
    "fn f() -> u8 { let g = |x: u8| -> u8 requires { x < 2 } { x }; g(1) }",
    "fn f() -> u8 { ghost let a = { 1 }; 1 }",
    "fn f() -> u8 requires a b { c } { 1 }",
    "fn f() -> u8 { for x in 250u8.. { return x; } 1 }",
    "const N: usize = size_of::<S>();",
    "const N: usize = std::mem::size_of::<S>();",
    "fn f() -> u8 { unsafe { 1 } }",
    "static mut A: u8 = 1;",
    "fn f(x: ℕ) -> u8 { 1 }",
    "#[derive(Error)] enum E { A }",
    "#[inline_always] fn f() {}",
    "#![allow(unused)]",
    "extern \"C\" fn f() {}",
    "macro_rules! m { () => {} }",
    "mod records;",
    "fn f() {",
    "fn f() { (] }",
    "}",
    "fn f()",
    "const A: &str = \"",
]


class Forms(unittest.TestCase):
    def test_what_tokens_do_not_show(self):
        for name, source, export in SHOWN:
            with self.subTest(name):
                self.assertEqual(rust(source), export)

    def test_tests_have_a_runtime(self):
        for name, source, export in TESTS:
            with self.subTest(name):
                made = TestTranslator("acceptance", "tests", "f.rt", set(), rules.SIMULATOR, True, False).translate(source)
                self.assertEqual(made, export)

    def test_what_is_not_known_is_refused_with_its_line(self):
        for source in REFUSED:
            with self.subTest(source):
                with self.assertRaises(Refused) as fault:
                    rust("\n\n" + source)
                self.assertRegex(str(fault.exception), r"^f\.rt:3: ")

    def test_a_condition_that_stays_is_said_first(self):
        source = "impl<D: Defaults> KeyboardOf<D> {\n    /// Works.\n    pub fn work(&mut self) -> u8\n        requires { a }\n    { 1 }\n}\n"
        made = [line.strip() for line in rust(source, crate="keyboard").split("\n")]
        self.assertEqual(made[1:4], [f"/// {rules.KEYBOARD.owed['keyboard', 'KeyboardOf::work']}", "///", "/// Works."])

    def test_a_call_with_a_type_that_has_no_name_is_for_the_crate(self):
        source = "impl<D: Defaults> KeyboardOf<D> { pub fn start_in(room: Room) -> u8\n    ensures { a }\n{ 1 } }\n"
        self.assertEqual(rust(source, crate="keyboard"), "impl<D: Defaults> KeyboardOf<D> { pub(crate) fn start_in(room: Room) -> u8 { 1 } }\n")
        self.assertEqual(rust(source, crate="layers"), "impl<D: Defaults> KeyboardOf<D> { pub fn start_in(room: Room) -> u8 { 1 } }\n")

    def test_a_function_that_the_rules_name_is_inlined(self):
        source = "impl Item { /// Tag.\nfn tag() -> u8 { 1 } }\nfn tag() -> u8 { 2 }\n"
        made = rust(source, crate="descriptor_parse", of=rules.READER)
        self.assertEqual(made, "impl Item { /// Tag.\n    #[inline(always)]\n    fn tag() -> u8 { 1 } }\nfn tag() -> u8 { 2 }\n")
        with self.assertRaises(Refused):
            rust("impl Item { #[inline(never)] fn tag() -> u8 { 1 } }\n", crate="descriptor_parse", of=rules.READER)

    def test_memory_that_waits_for_a_keyboard_is_zeros(self):
        of = dataclasses.replace(rules.KEYBOARD, unstarted={("keymap_store", name): None for name in "SRT"} | {("keymap_store", "E"): "E::A(0)"})
        for source, zeros in [
                ("pub struct S {\n    pub a: u8,\n    b: [[bool; 2]; N],\n    ghost g: { a },\n}\n", "impl S { S { a: 0, b: [[false; 2]; N] } }"),
                ("struct S { c: [Option<T>; 3], d: Option<E>, e: T<8> }\n",
                 "impl S { S { c: [const { None }; 3], d: Some(E::UNSTARTED), e: T::UNSTARTED } }"),
                ("struct R<const N: usize> { a: [u16; N], }\n", "impl<const N: usize> R<N> { R { a: [0; N] } }"),
                ("struct R<D: Defaults> { s: S<D>, d: PhantomData<D> }\n", "impl<D: Defaults> R<D> { R { s: S::UNSTARTED, d: PhantomData } }"),
                ("struct S { log: Log }\n", "impl S { S { log: <Log as wuzhikar_log::calls::Unstarted>::UNSTARTED } }"),
                ("struct S { a: ArrayVec<u8, N>, b: u8 }\n", "impl S { S { a: ArrayVec::new_const(), b: 0 } }"),
                ("pub enum E { A(u8), B }\n", "impl E { E::A(0) }"),
                ("struct U { a: u8 }\n", "")]:
            made = Translator("keymap_store", "", "f.rt", {"page_turnover"}, of).translate(source)
            found = re.search(r"(impl.*) \{\n.*\n    pub\(crate\) const UNSTARTED: Self = (.*);\n\}", made)
            self.assertEqual(f"{found[1]} {{ {found[2]} }}" if found else "", zeros)
        with self.assertRaises(Refused):
            Translator("keymap_store", "", "f.rt", {"page_turnover"}, of).translate("struct S { a: U }\n")

    def test_contracts_are_docs_on_request(self):
        source = "/// Doc.\nfn f() -> u8\n    ensures one {\n        result ≡ 1 }\n{ 1 }\n"
        self.assertIn("/// ensures one { result ≡ 1 }\n", rust(source, contracts=True))
        self.assertNotIn("ensures", rust(source))



class Tokens(unittest.TestCase):
    def test_each_changed_operator_and_number_is_reported(self):
        files, theorems = all_files()
        changed = {"<": "<=", "==": "!=", "+": "-", "0": "1", "1": "2", "true": "false", "return": "break"}
        tried = 0
        for name, crate, module, words, plain in files:
            zeros = {at + n for at, word in enumerate(plain) if word == "UNSTARTED" for n in range(-30, 60)}
            for at, word in enumerate(plain):
                if crate == "page_turnover" and word in changed and at not in zeros:
                    made = plain[:at] + [changed[word]] + plain[at + 1:]
                    told = list(differences(name, crate, module, words, made, theorems))
                    self.assertEqual(len(told), 1, " ".join(plain[at - 5:at + 5]))
                    tried += 1
        self.assertGreater(tried, 60)


class Whole(unittest.TestCase):
    def test_a_fault_anywhere_writes_nothing(self):
        with tempfile.TemporaryDirectory() as folder:
            root = os.path.join(folder, "root")
            os.makedirs(os.path.join(root, "crates/layers/src"))
            with open(os.path.join(root, "crates.txt"), "w", encoding="utf-8") as file:
                file.write("# Crates.\nlayers: nothing\n")
            with open(os.path.join(root, "crates/layers/src/lib.rt"), "w", encoding="utf-8") as file:
                file.write("const A: u8 = 1;\nmod missing;\n\nfn f() { unsafe { } }\n")
            export = Export(root, rules.Rules(name="made", crates=("layers",)))
            export.make()
            self.assertIn("crates/layers/src/lib.rt:4: `unsafe` is not exported", export.faults)
            self.assertIn("crates.txt: layers stands on nothing, which is not exported", export.faults)
            self.assertTrue(any("missing.rt" in fault for fault in export.faults))

    def test_docs_that_the_rules_name_stand_there_once(self):
        with tempfile.TemporaryDirectory() as root:
            os.makedirs(os.path.join(root, "crates/layers/src"))
            with open(os.path.join(root, "crates.txt"), "w", encoding="utf-8") as file:
                file.write("layers:\n")
            with open(os.path.join(root, "crates/layers/src/lib.rt"), "w", encoding="utf-8") as file:
                file.write("//! `world` calls it.\n\nconst A: u8 = 1;\n")
            for old, faults in (("`world` calls it", 0), ("`host` calls it", 1), ("`", 1)):
                export = Export(root, rules.Rules(name="made", crates=("layers",), docs={("layers", ""): [(old, "`kbsim` calls it")]}))
                export.make()
                self.assertEqual(len(export.faults), faults, export.faults)
                if not faults:
                    self.assertIn("//! `kbsim` calls it.", export.files["src/parts/layers.rs"])

    def test_a_folder_with_other_files_is_refused(self):
        with tempfile.TemporaryDirectory() as folder:
            with open(os.path.join(folder, "mine"), "w", encoding="utf-8") as file:
                file.write("text")
            ended = run(folder)
            self.assertEqual(ended.returncode, 1)
            self.assertIn("nothing was written", ended.stderr)
            self.assertEqual(os.listdir(folder), ["mine"])

    def test_one_crate_comes_with_those_below_and_says_that_it_is_unproved(self):
        with tempfile.TemporaryDirectory() as folder:
            ended = run("--crate", "wuzhikar", os.path.join(folder, "a"))
            self.assertEqual((ended.returncode, ended.stderr), (0, UNPROVED + "\n"))
            made = sorted(os.listdir(os.path.join(folder, "a")))
            self.assertEqual(made, ["BY_HAND", "Cargo.toml", "README.md", "rustfmt.toml", "wuzhikar", "wuzhikar-log"])

    def test_what_differs_is_reported_by_its_name(self):
        with tempfile.TemporaryDirectory() as folder:
            for name, content in {"BY_HAND": "BY_HAND\ngone\n", "made": "new\n", "stray": "", "target/x": "", "old": "a\nb\n"}.items():
                os.makedirs(os.path.dirname(os.path.join(folder, name)), exist_ok=True)
                with open(os.path.join(folder, name), "w", encoding="utf-8") as file:
                    file.write(content)
            told = list(differing(folder, {"made": "new\n", "old": "a\nc\n", "lost": ""}))
            self.assertEqual([line.split(":")[0] for line in told], ["rust/gone", "rust/stray", "rust/lost", "rust/old"])
            self.assertIn("rust/old:2:", told[3])

    def test_a_script_is_the_same_each_time(self):
        for made in (scripts.script, lambda number: scripts.script(number, scripts.Whole), text, command_line):
            self.assertEqual(made(7), made(7))
            self.assertNotEqual(made(7), made(8))



class Comparison(unittest.TestCase):
    """Two programs that are not the same are told apart by each kind of input, and by all that they answer."""

    def compared(self, other, kind):
        """The status of a comparison of `cat` with another program, and what it tells."""
        with tempfile.TemporaryDirectory() as folder:
            for name, command in (("one", "cat"), ("other", other)):
                with open(f"{folder}/{name}", "w", encoding="utf-8") as file:
                    file.write(f"#!/bin/sh\n{command}\n")
                os.chmod(f"{folder}/{name}", 0o755)
            words = [sys.executable, "-B", f"{HERE}/compare_programs.py", f"{folder}/one", f"{folder}/other", f"--{kind}=2"]
            ran = subprocess.run(words, stdout=subprocess.PIPE, text=True)
        return ran.returncode, ran.stdout

    def test_differences(self):
        changes = {"cat; exit 3": "status: 0, and 3", "cat; echo more": "standard output, line ", "cat; echo more >&2": "standard error, line 1"}
        for kind in ("scripts", "explained", "texts", "words"):
            self.assertEqual(self.compared("cat", kind)[0], 0)
            for other, why in changes.items():
                with self.subTest(f"{kind}: {other}"):
                    status, told = self.compared(other, kind)
                    self.assertEqual(status, 1)
                    self.assertIn(f"{kind} 0: ", told)
                    self.assertIn(why, told)


if __name__ == "__main__":
    unittest.main()
