"""Compares plain Rust with its source token by token: `same_tokens.py`. It needs python3 alone, and shares no code with the exporter.

Both texts are brought into one form by the rules below, each of which says why it changes nothing that runs. What is left has to be
equal. So a token that the exporter loses, adds or changes is told with its file, whatever the exporter thought of it.
"""

import argparse
import itertools
import os
import re
import sys

ROOT = os.path.dirname(os.path.dirname(os.path.dirname(os.path.abspath(__file__))))
HOLDERS = ("wuzhikar-log", "wuzhikar", "wuzhikar-reader", "wuzhikar-hid", "kbsim")
WORD = re.compile(r"\s+|//[^\n]*|/\*.*?\*/|b?\"(?:\\.|[^\"\\])*\"|b?'(?:\\.[^']*|[^'\\])'|'[A-Za-z_]\w*|0x\w+|\d[\d_]*(?:\.\d+)?\w*"
                  r"|[A-Za-z_]\w*|::|->|=>|\.\.=|\.\.|<<=|>>=|<<|&&|\|\||[-+*/%&|^=!<>]=|\S", re.S)
PAIRS = {"(": ")", "[": "]", "{": "}"}

# Calls that may fail in the source, and the calls by hand that replace them.
CALLS = {"push_in": "push", "insert_in": "insert", "extend_in": "extend_from_slice", "reserve_in": "reserve", "try_clone": "clone"}
# Modules of the source that are no part of the product: they are tests' and a witness.
LEFT_OUT = {"ecc_flash": {"witness"}, "page_turnover": {"operation"}, "world": {"examples", "readings", "sessions"}}
# Derives that the source has and Rust does by itself or has written out, and those that may be added: no code of the source calls them.
DONE, ADDED = {"Drop", "Error"}, {"Clone", "Copy", "Debug", "Default", "PartialEq", "Eq"}


def tokens(text):
    """The tokens of a text, without blanks and comments."""
    found = (match.group() for match in WORD.finditer(text))
    return [token for token in found if not token[0].isspace() and not token.startswith(("//", "/*"))]


def end_of(words, at):
    """Past the group that opens at `at`."""
    depth = 0
    for n in range(at, len(words)):
        depth += (words[n] in PAIRS) - (words[n] in PAIRS.values())
        if depth == 0:
            return n + 1
    raise ValueError("a group without an end")


def past(words, at, text):
    """Past the next such token from `at` on that stands in no group."""
    while words[at] != text:
        at = end_of(words, at) if words[at] in PAIRS else at + 1
    return at + 1


def without(words, length_at):
    """The words without what `length_at` finds: it gives the end of what begins at a place, or None."""
    made, at = [], 0
    while at < len(words):
        end = length_at(words, at)
        if end is None:
            made.append(words[at])
            at += 1
        else:
            at = end
    return made


def replaced(words, pairs):
    """The words with each of these runs of tokens put in place of another, the first that fits."""
    runs = [(old.split(), new.split()) for old, new in pairs]
    made, at = [], 0
    while at < len(words):
        old, new = next(((old, new) for old, new in runs if words[at:at + len(old)] == old), ([words[at]], [words[at]]))
        made += new
        at += len(old)
    return made


def clause_or_ghost(words, at):
    """What the prover alone reads: ghost items, clauses, and how a proof is sought."""
    if words[at] == "ghost":
        brace = next(n for n in range(at, len(words)) if words[n] in (";", "{"))
        return past(words, at, ";") if words[at + 1] == "use" or words[brace] == ";" else ghost_end(words, brace)
    if words[at] in ("ensures", "requires") and words[at + 1] != "=":
        return end_of(words, words.index("{", at))
    if words[at] == "#" and words[at + 1] in ("[", "!") and {"tactic", "cycle"} & set(words[at + 2:at + 4]):
        return end_of(words, words.index("[", at))
    return None


def ghost_end(words, brace):
    """Past a ghost field or member, and the mark behind it."""
    end = end_of(words, brace)
    return end + 1 if words[end:end + 1] in ([";"], [","]) else end


def theorem(words, at):
    """A function without parameters, result and body, of which the clauses said all."""
    return at + 6 if words[at] == "fn" and words[at + 2:at + 6] == ["(", ")", "{", "}"] else None


def visibility(words, at):
    """Who may call something does not change what it does."""
    if words[at] != "pub":
        return None
    return at + 4 if words[at + 1] == "(" and words[at + 2] in ("crate", "super") else at + 1


def prover_impl(words, at):
    """An impl of the prover's trait, which has ghosts alone."""
    if words[at] != "impl":
        return None
    brace = words.index("{", at)
    return brace + 2 if "Model" in words[at:brace] and words[brace + 1] == "}" else None


def drop_bound(words, at):
    """What Rust drops by itself wants no bound."""
    if words[at:at + 2] in (["+", "Drop"], [":", "Drop"]):
        return at + 2
    return None


def shared_rules(words):
    """What is left out of both texts."""
    words = without(words, visibility)
    return without(words, lambda words, at: at + 7 if words[at:at + 7] == "# [ inline ( always ) ]".split() else None)


class Source:
    """The form of a source's text. `theorems` are the names of all theorems."""

    def __init__(self, crate, module, words, theorems, errors):
        self.crate, self.module, self.theorems, self.errors = crate, module, theorems, errors
        words = without(words, clause_or_ghost)
        words = without(words, drop_bound)
        words = without(shared_rules(words), theorem)
        words = without(words, prover_impl)
        words = without(words, self.used)
        words = self.without_texts(words)
        words = without(words, self.called)
        words = replaced(words, [("impl Clone for", "impl"), ("vec ! [ in", "of ( in"), ("Formatter < W >", "Formatter < '_ >")])
        words = without(words, writer)
        self.words = derived(arguments(paths(words)))

    def used(self, words, at):
        """The use of the prover's trait, of theorems and of what is left out; and the modules of these."""
        if words[at] == "use":
            end = past(words, at, ";")
            names = words[at + 1:end]
            return end if "Model" in names or "thiserror" in names or "theorems" in names or names[0] in LEFT_OUT.get(self.crate, ()) else None
        if words[at] == "mod" and words[at + 2] == ";" and (words[at + 1] == "theorems" or words[at + 1] in LEFT_OUT.get(self.crate, ())):
            return at + 3
        return None

    def without_texts(self, words):
        """Takes the texts of errors out, for the impls that show them."""
        made, at = [], 0
        while at < len(words):
            if words[at:at + 3] == ["#", "[", "error"]:
                end = end_of(words, at + 1)
                is_variant = words[end] not in ("#", "struct")
                self.errors.append((f"Self :: {words[end]}" if is_variant else "Self", words[at + 4:end - 2]))
                at = end
            else:
                made.append(words[at])
                at += 1
        return made

    def called(self, words, at):
        """The call of a theorem, which does nothing."""
        return at + 4 if words[at] in self.theorems and words[at + 1:at + 4] == ["(", ")", ";"] and words[at - 1] in ("{", "}", ";") else None


def writer(words, at):
    """A formatter over any writer is Rust's own."""
    return at + 7 if words[at:at + 7] == "< W : fmt :: Write >".split() and "Formatter" in words[at:at + 24] else None


def arguments(words):
    """`vec![in alloc; value; count]` as the call that replaces it."""
    made, at = [], 0
    while at < len(words):
        if words[at:at + 3] == ["of", "(", "in"]:
            close = next(n for n in range(at, len(words)) if words[n] == "]")
            made += ["vec", "::", "of", "("] + ["," if word == ";" else word for word in words[at + 3:close]] + [")"]
            at = close + 1
        else:
            made.append(words[at])
            at += 1
    return made


def paths(words):
    """`str::` alone names the module of that name."""
    made = []
    for at, word in enumerate(words):
        if word == "str" and words[at + 1:at + 2] == ["::"] and words[at - 1] != "::":
            made += ["std", "::"]
        made.append(word)
    return made


def derived(words):
    """The derives of each type, as one list in order, without those that are done by themselves or were added."""
    made, at = [], 0
    while at < len(words):
        if words[at:at + 3] != ["#", "[", "derive"]:
            made.append(words[at])
            at += 1
            continue
        at = end_of(words, at + 1)
    return made


def derives(words):
    """The derived traits of each type."""
    found, waiting = {}, set()
    for at, word in enumerate(words):
        if words[at:at + 3] == ["#", "[", "derive"]:
            waiting |= set(words[at + 4:end_of(words, at + 1) - 2]) - {","}
        elif word in ("struct", "enum"):
            found[words[at + 1]] = found.get(words[at + 1], set()) | waiting
            waiting = set()
        elif word in ("fn", "impl", "trait"):
            waiting = set()
    return found


class Exported:
    """The form of an exported text."""

    def __init__(self, crate, module, words, errors, fallible):
        self.crate, self.errors, self.fallible = crate, errors, fallible
        words = shared_rules(words)
        words = without(words, self.added)
        words = replaced(words, [(f"crate :: parts :: {crate} ::", "crate ::"), ("crate :: parts ::", ""), ("wuzhikar_log :: parts ::", ""),
                                 ("wuzhikar :: parts ::", ""), ("wuzhikar_reader :: parts ::", ""), ("wuzhikar_hid :: parts ::", ""),
                                 ("crate :: rattle :: vec :: of", "vec :: of"), ("crate :: rattle :: vec ::", "Vec ::"),
                                 ("crate :: rattle :: Vec", "Vec"),
                                 ("crate :: rattle :: circular_buffer", "circular_buffer"), ("crate :: rattle :: hex", "hex"),
                                 ("crate :: rattle :: smallvec", "smallvec"),
                                 ("crate :: rattle :: alloc", "std :: alloc"), ("crate :: rattle :: simd", "std :: simd"), ("core ::", "std ::")])
        words = [CALLS.get(word, word) if before in (".", "fn") else word for before, word in itertools.pairwise(["", *words])]
        self.words = derived(words)

    def added(self, words, at):
        """What the exporter adds: conditions, uses of traits by hand, zeros, and what derives of the source write."""
        for added in ('# [ cfg ( feature = "sim" ) ]', "# [ allow ( unused_imports ) ] use crate :: rattle :: memory :: * ;"):
            if words[at:at + len(added.split())] == added.split():
                return at + len(added.split())
        if words[at:at + 8] == "# [ allow ( unused_imports ) ] use".split() and words[at + 9:at + 12] == ["::", "calls", "::"]:
            return past(words, at, ";")
        if words[at] != "impl":
            return None
        brace = words.index("{", at)
        end = end_of(words, brace)
        return end if self.is_zeros(words[brace + 1:end - 1]) or self.is_error(words[at:end]) or self.is_copy(words[at:end]) else None

    @staticmethod
    def is_zeros(inside):
        """An impl of the one constant that waits where a keyboard will start."""
        return inside[:2] == ["const", "UNSTARTED"] and past(inside, 0, ";") == len(inside)

    def is_error(self, words):
        """What `derive(Error)` writes: the texts are those of the source, each of its variant, in order."""
        head = words[:words.index("{")]
        if "Error" in head and "core" in head:
            return words[-2:] == ["{", "}"]
        if "Display" not in head or "core" not in head or not self.errors:
            return False
        arms = words[words.index("match") + 3:-3]
        at = 0
        while at < len(arms):
            of = " ".join(arms[at:at + 3] if arms[at + 1] == "::" else arms[at:at + 1])
            at = past(arms, at, "write")
            end = end_of(arms, at + 1)
            shown = [re.sub(r"\{_(\d+)", r"{\1", word) for word in arms[at + 4:end - 1]]
            if not self.errors or (of, shown) != self.errors.pop(0):
                return False
            at = end + (arms[end:end + 1] == [","])
        return True

    def is_copy(self, words):
        """A copy that may be refused, where the source derives one: each field comes from the field of its name."""
        brace = words.index("{")
        if words[brace + 1:brace + 3] != ["fn", "try_clone"] or words[words.index("impl") + 1] not in self.fallible:
            return False
        told = " ".join(words[words.index("match") + 3:-4])
        for name, fields in re.findall(r"=> (Self(?: :: \w+)?) [{(] (.*?) [})](?= ,|$)", told):
            for field in fields.split(" ? ,"):
                if not re.fullmatch(r"\s*(?:(\w+) : (?=\1 ))?(\w+) \. try_clone \( \)(?: \?)?\s*", field):
                    return False
        return True


def of_source(crate):
    """The files of a crate's source, by module: their tokens."""
    folder = f"{ROOT}/crates/{crate}/src"
    for here, _, files in os.walk(folder):
        for file in files:
            module = os.path.relpath(os.path.join(here, file), folder)[:-3]
            yield ("" if module == "lib" else module), read(os.path.join(here, file))


def laws_of(all_words):
    """The names of all theorems."""
    names = set()
    for words in all_words:
        bare = without(words, clause_or_ghost)
        names |= {bare[at + 1] for at in range(len(bare)) if theorem(bare, at)}
    return names


def differences(name, crate, module, words, plain, theorems):
    """How an export is not what its source says, as lines."""
    errors = []
    source = Source(crate, module, words, theorems, errors).words
    of_type, there = derives(words), derives(plain)
    for item in sorted(set(of_type) & set(there)):
        lost, more = of_type[item] - DONE - there[item], there[item] - of_type[item] - ADDED
        if lost - ({"Clone"} if "try_clone" in plain else set()) or more:
            yield f"{name}: {item} derives {sorted(there[item])}, and in the source {sorted(of_type[item])}"
    fallible = {item for item, names in of_type.items() if "Clone" in names}
    exported = Exported(crate, module, plain, errors, fallible).words
    for at, (old, new) in enumerate(itertools.zip_longest(source, exported, fillvalue="(end)")):
        if old != new:
            here = " ".join(source[max(at - 6, 0):at])
            yield f"{name}: after `{here}` the source has `{' '.join(source[at:at + 8])}`, the export `{' '.join(exported[at:at + 8])}`"
            return


def exported_files(crate_of):
    """Each file of a source with the tokens of its export, which are none where it has none: name, crate, module, both token lists."""
    for crate, holder in crate_of.items():
        for module, words in sorted(of_source(crate)):
            if module.split("/")[0] not in LEFT_OUT.get(crate, ()):
                name = f"rust/{holder}/src/parts/{crate}/{module}.rs" if module else f"rust/{holder}/src/parts/{crate}.rs"
                yield name, crate, module, words, read(f"{ROOT}/{name}")


def read(path):
    """The tokens of a file, none where it is not there."""
    if not os.path.exists(path):
        return []
    with open(path, encoding="utf-8") as file:
        return tokens(file.read())


def all_files():
    """The files of all crates, and the names of all theorems."""
    crate_of = {file[:-3]: holder for holder in HOLDERS for file in os.listdir(f"{ROOT}/rust/{holder}/src/parts") if file.endswith(".rs")}
    files = list(exported_files(crate_of))
    return files, laws_of(words for _, _, _, words, _ in files)


def main():
    argparse.ArgumentParser(prog="same_tokens.py", description=__doc__).parse_args()
    files, theorems = all_files()
    faults = [fault for name, crate, module, words, plain in files for fault in differences(name, crate, module, words, plain, theorems)]
    for fault in faults:
        print(f"rust: {fault}", file=sys.stderr)
    print(f"same_tokens: {len(files)} files, {sum(len(plain) for *_, plain in files)} tokens, {len(faults)} differences")
    return 1 if faults else 0


if __name__ == "__main__":
    sys.exit(main())
