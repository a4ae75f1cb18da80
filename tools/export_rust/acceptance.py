"""The tests of crates/acceptance as plain Rust: a module of a copy of kbsim, made where they are run and never committed."""

import rules
from changes import replaced
from export_rust import Export, read_crates
from items import Translator
from lexing import after, before, find, group_end, text_at
from rewriting import MEMORY, Rewriter
from room import HERE, ROOT, Failed, building

# Calls of the tests that the export makes private to a crate: the file, and how the call begins.
CALLS = [("wuzhikar/src/parts/keymap_store/store.rs", "fn work<")]

# What Rattle gives without a path; acceptance.rs replaces it.
WORDS = {"AllocGlobal", "HostRuntime", "String"}

MACROS = {"assert", "assert_eq", "panic"}


class TestRewriter(Rewriter):
    """Code that takes a runtime, and ends where it is not answered as wanted."""

    def word(self, tokens, at):
        if tokens[at].text in WORDS and text_at(tokens, before(tokens, at)) not in (".", "::"):
            return f"crate::rattle::{tokens[at].text}", at + 1
        return super().word(tokens, at)

    def std(self, token, module):
        return "crate::rattle" if module in ("process", "test") else super().std(token, module)

    def method(self, tokens, at):
        if tokens[at].text == "expect":
            return "expect(", find(tokens, ",", after(tokens, at) + 1) + 1
        if tokens[at].text == "collect":
            self.traits.add(MEMORY)
            return "collect_in", at + 1
        return super().method(tokens, at)

    def macro(self, tokens, at, opening):
        semicolon, end = find(tokens, ";", opening + 1), group_end(tokens, opening)
        if tokens[at].text in MACROS:
            return f"{tokens[at].text}!(", semicolon + 1
        if tokens[at].text == "format":
            alloc = self.code(tokens[opening + 1:semicolon]).removeprefix("in ")
            return f"crate::rattle::format({alloc}, format_args!({self.code(tokens[semicolon + 1:end - 1])}))", end
        return super().macro(tokens, at, opening)


class TestTranslator(Translator):
    """A file of tests."""

    def __init__(self, crate, module, file, neighbours, holder, hosted, contracts):
        super().__init__(crate, module, file, neighbours, holder, hosted, contracts)
        self.rewriter = TestRewriter(crate, file, neighbours, holder, hosted)

    def attribute(self, tokens, at, lead):
        if text_at(tokens, at + 2) != "test":
            return super().attribute(tokens, at, lead)
        lead.words.append(["test"])
        lead.attributes.append("#[test]")
        return group_end(tokens, at + 1)

    def function(self, lead, tokens):
        if ["test"] not in lead.words:
            return super().function(lead, tokens)
        opening, body = find(tokens, "("), find(tokens, "{") + 1
        head = tokens[:opening + 1] + tokens[group_end(tokens, opening) - 1:body]
        return self.rewriter.code(head) + " let rt = crate::rattle::HostRuntime;" + self.rewriter.code(tokens[body:])


class Acceptance(Export):
    """The tests, as files of kbsim."""

    translator = TestTranslator

    def make(self):
        neighbours = {name for name in read_crates(self.root)["acceptance"] if self.of.holder(name)}
        self.guarded(lambda: self.module("acceptance", "tests", neighbours, True))
        if self.faults:
            raise Failed("\n".join(self.faults))


def folder():
    """A copy of rust/ whose kbsim has the tests, and their module with their number."""
    rust = f"{building.tree()}/rust"
    made = Acceptance(ROOT, rules.SIMULATOR)
    made.make()
    texts = {f"kbsim/{name}": text for name, text in made.files.items()}
    texts["kbsim/src/rattle/acceptance.rs"] = read(f"{HERE}/acceptance.rs")
    for name, more in (("parts", "pub mod acceptance {\n    pub mod tests;\n}"),
                       ("rattle", "mod acceptance;\n#[cfg(test)]\npub use self::acceptance::*;")):
        texts[f"kbsim/src/{name}.rs"] = f"{read(f'{rust}/kbsim/src/{name}.rs')}\n#[cfg(test)]\n{more}\n"
    for name, call in CALLS:
        texts[name] = replaced(read(f"{rust}/{name}"), f"pub(crate) {call}", f"pub {call}", name)
    building.changed("acceptance/examples/hid_driver", "examples/hid_driver", {})  # (the tests of wuzhikar-hid take its descriptors)
    copy = building.changed("acceptance/rust", "rust", {name: text.encode() for name, text in texts.items()})
    return copy, ("parts::acceptance", "".join(made.files.values()).count("#[test]\n"))


def read(path):
    with open(path, encoding="utf-8") as file:
        return file.read()
